#!/usr/bin/env python3
"""Refuses each allocation of the built program in turn, on a few jobs.

Each run must end by itself, with status 1 (no memory) or as the whole run did; what it wrote to standard output must be the first bytes of
the whole log; each mesh whose line was written whole must be stored as in the whole run, but that of a last line, which may be missing;
and no other file may be there. Of a replay, which writes a line at its end alone, the first meshes must be stored; the other commands
store no file. The allocations tried are evenly spread. It needs a C compiler, `cc`, and glibc.
"""

import os
import subprocess
import sys
import tempfile

from calling import ROOT, TOPO, add_number, reader_of, words_of

PROGRAM = os.path.join(ROOT, "crates/topo/out/topo")
TETRAHEDRON = "v 0 0 0\nv 4 0 0\nv 0 4 0\nv 0 0 4\nf 1 3 2\nf 1 2 4\nf 2 3 4\nf 1 4 3\n"
FLAT = "v 0 0 0\nv 24 0 0\nv 12 20 0\nv 12 6 4\nv 12 6 -4\nf 1 2 4\nf 2 3 4\nf 3 1 4\nf 2 1 5\nf 3 2 5\nf 1 3 5\n"
TWO = (
    "v 0 0 0\nv 0 12 0\nv 0 0 12\nv -12 0 0\nv 8 2 2\nv 12 2 2\nv 12 6 2\nv 14 2 6\n"
    "f 1 2 3\nf 2 1 4\nf 3 2 4\nf 1 3 4\nf 6 7 8\nf 7 6 5\nf 8 7 5\nf 6 8 5\n"
)
CROSSED = (
    "v 0 0 0\nv 4 0 0\nv 0 4 0\nv 0 0 4\nv 1 1 1\nv 5 1 1\nv 1 5 1\nv 1 1 5\n"
    "f 1 3 2\nf 1 2 4\nf 2 3 4\nf 1 4 3\nf 5 7 6\nf 5 6 8\nf 6 7 8\nf 5 8 7\n"
)
PARTED = (
    "v 0 0 0\nv 0 0 8\nv 100 -40 4\nv 100 40 4\nv 120 0 7\nv -100 -40 4\nv -100 40 4\nv -120 0 7\n"
    "f 1 2 3\nf 1 3 4\nf 1 4 2\nf 5 3 2\nf 5 4 3\nf 5 2 4\nf 2 1 6\nf 1 7 6\nf 1 2 7\nf 8 2 6\nf 8 6 7\nf 8 7 2\n"
)
BOXES = (
    "v 10 0 0\nv 10 10 10\nv 10 10 0\nv 10 0 10\nv 0 0 0\nv 0 10 0\nv 0 10 10\nv 0 0 10\n"
    "v 14 -5 -5\nv 14 15 15\nv 14 15 -5\nv 14 -5 15\nv 34 -5 -5\nv 34 15 -5\nv 34 15 15\nv 34 -5 15\n"
    "f 1 3 2\nf 1 2 4\nf 5 8 7\nf 5 7 6\nf 1 4 8\nf 1 8 5\nf 3 6 7\nf 3 7 2\nf 1 5 6\nf 1 6 3\nf 4 2 7\nf 4 7 8\n"
    "f 9 12 10\nf 9 10 11\nf 13 14 15\nf 13 15 16\nf 9 13 16\nf 9 16 12\nf 11 10 15\nf 11 15 14\nf 9 11 14\nf 9 14 13\nf 12 16 15\nf 12 15 10\n"
)
BAR = ("v 12 -6 5\nv 12 60 4\nv 12 60 6\nv 13 60 5\n", "f 17 19 18\nf 17 18 20\nf 18 19 20\nf 17 20 19\n")
LARGE = TETRAHEDRON.replace("4\nf", "100\nf", 1).replace("v 4 0 0\nv 0 4 0", "v 100 0 0\nv 0 100 0", 1)
PARTED_LOG = "topo log 2\nmesh 0 8 12\npass collapse 10\ncollapse 1 2 0 0 4\npass pinch\npinch 1 13 0 4 9 -13 0 4\nmesh 1 8 8\nend\n"
PARTED_PROOF = "topo proof 1\nend\n"
MOVED_LOG = "topo log 2\nmesh 0 4 4\nstep 1\n" + "".join(f"move {v} 1 2 3\n" for v in (1, 2, 3, 4)) + "moved whole\nmesh 1 4 4\nend\n"
MOVED_PROOF = "topo proof 1\nmotion 8 along\nend\n"
CUBE = (
    "v 1 1 -1\nv 1 -1 -1\nv 1 1 1\nv 1 -1 1\nv -1 1 -1\nv -1 -1 -1\nv -1 1 1\nv -1 -1 1\n"
    "f 1 5 7 3\nf 4 3 7 8\nf 8 7 5 6\nf 6 2 4 8\nf 2 1 3 4\nf 6 5 1 2\n"
)
INTO_A_FACE = "shift 5 -8 0 0\nstep\n"
GROUPS = "set passes 0\nset zones 0\ngroup\ngroup\n" + INTO_A_FACE + "close\nshift all 1 0 0\nstep\nclose\nsave\n"
WITH_A_BAR = BOXES.replace("f 1 3 2\n", BAR[0] + "f 1 3 2\n", 1) + BAR[1]
JOBS = [
    ("a step that is whole", TETRAHEDRON, "shift all 1 2 3\nstep\nsave\n"),
    ("a step by an impulse", TWO, INTO_A_FACE + "save\n"),
    ("a step by zones", TWO, "set passes 0\n" + INTO_A_FACE + "save\n"),
    ("a step that is halved", TWO, "set passes 0\nset zones 0\n" + INTO_A_FACE + "save\n"),
    ("groups, one kept and one not", TWO, GROUPS),
    ("a solid vertex", TWO, "solid 1\n" + INTO_A_FACE + "save\n"),
    ("drives by a field, and passes that find nothing", CUBE, "drive swirl\nstep\n" * 10 + "split 3000\ncollapse 100\nflip\nsave\n", "track --decimals 3"),
    ("splits", TETRAHEDRON, "split 3\nsave\n"),
    ("a flip", FLAT, "flip\nsave\n"),
    ("steps, splits and flips", TWO, "shift all 1 0 0\nstep\nsplit 10\nflip\nshift 5 -3 1 0\nstep\nsave\nsplit 6\nsave\n"),
    ("a collapse and a pinch", PARTED, "collapse 10\npinch\nsave\n"),
    ("a zip", BOXES, "zip 4\nsave\n"),
    ("a zip that is refused in each turn", WITH_A_BAR, "zip 4\nsave\n"),
    ("a mesh that meets itself", CROSSED, ""),
    ("a bad step text", TETRAHEDRON, "shift all 1 2 3\nstep\nshift al\n"),
    ("a pass by the sizing", LARGE, "fit\nsave\n"),
    ("a log that is measured", PARTED, PARTED_LOG, "measure"),
    ("a log with a line that does not fit", PARTED, PARTED_LOG.replace("0 0 4\n", "0 0 5\n", 1), "measure"),
    ("a log that is proved", PARTED, PARTED_LOG, "prove"),
    ("a log that is replayed", PARTED, PARTED_LOG, "replay"),
    ("a proof that is verified", TETRAHEDRON, MOVED_LOG, "verify", MOVED_PROOF),
    ("a proof that lacks a motion", PARTED, PARTED_LOG, "verify", PARTED_PROOF),
    ("a mesh that is converted", TETRAHEDRON, "", "convert"),
    ("a generated job", "", "", "try"),
    ("a mesh that meets itself, looked at", CROSSED, "", "check"),
    ("a mesh without a face, looked at", TETRAHEDRON.replace("f 1 4 3\n", ""), "", "check"),
]
# the words of each command
WORDS = {
    "track": ["mesh.obj", "steps.txt", "t"],
    "measure": ["mesh.obj", "steps.txt"],
    "prove": ["mesh.obj", "steps.txt"],
    "replay": ["mesh.obj", "steps.txt", "t"],
    "verify": ["mesh.obj", "steps.txt", "proof.txt"],
    "convert": ["mesh.obj", "t.ply"],
    "check": ["mesh.obj"],
    "try": ["2", "7"],
}
INPUTS = ("mesh.obj", "steps.txt", "proof.txt")


def run(folder, shim, texts, command, fail_at=0):
    """The status, the bytes written, the files stored and the count of allocations. A log that is read stands in the place of steps."""
    for name in os.listdir(folder):
        os.remove(os.path.join(folder, name))
    for name, text in zip(INPUTS, texts):
        with open(os.path.join(folder, name), "w") as out:
            out.write(text)
    count = os.path.join(folder, "count")
    env = {"LD_PRELOAD": shim, "FAIL_AT": str(fail_at), "COUNT_TO": count, "PATH": "/usr/bin:/bin"}
    command, *options = command.split()
    ran = subprocess.run([PROGRAM, command, *WORDS[command], *options], cwd=folder, stdout=subprocess.PIPE, stderr=subprocess.PIPE, env=env, timeout=60)
    files = {}
    for name in os.listdir(folder):
        if name not in (*INPUTS, "count"):
            with open(os.path.join(folder, name), "rb") as it:
                files[name] = it.read()
    with open(count) as it:
        return ran.returncode, ran.stdout, files, int(it.read())


def named_in(log):
    """The files of the meshes whose lines stand whole in a log, and whether the last line is such a line."""
    lines = log.split(b"\n")[:-1]
    named = [b"t-%06d.obj" % int(line.split()[1]) for line in lines if line.startswith(b"mesh ")]
    return [name.decode() for name in named], log.endswith(b"\n") and bool(lines) and lines[-1].startswith(b"mesh ")


def is_as_promised(command, whole, ended):
    status, log, files, _ = whole
    now_status, now_log, now_files, _ = ended
    if (now_status, now_log, now_files) == (status, log, files):
        return True
    if command == "replay":
        return now_status == 1 and now_log == b"" and now_files == {name: files[name] for name in sorted(files)[: len(now_files)]}
    if command == "convert":
        return now_status == 1 and now_log == b"" and now_files == {}
    if command.split()[0] != "track":
        return now_status == 1 and log.startswith(now_log) and now_files == {}
    named, is_open = named_in(now_log)
    due = set(named[:-1]) if is_open else set(named)
    stored = all(files.get(name) == text for name, text in now_files.items())
    return now_status == 1 and log.startswith(now_log) and stored and due <= set(now_files) <= set(named)


def main():
    global PROGRAM
    reader = reader_of(__doc__)
    add_number(reader, "most", 2000, "so many allocations of a job at most")
    words = words_of(reader)
    # what is preloaded has to reach the program itself, and not the script that builds it
    PROGRAM, most = PROGRAM if words.program == TOPO else words.program, words.most
    failed = 0
    with tempfile.TemporaryDirectory() as room:
        shim, folder = os.path.join(room, "failing_alloc.so"), os.path.join(room, "job")
        subprocess.run(["cc", "-O1", "-shared", "-fPIC", "-o", shim, os.path.join(ROOT, "checks/failing_alloc.c")], check=True)
        os.mkdir(folder)
        for what, mesh, steps, *others in JOBS:
            command, *proof = others or ["track"]
            texts = (mesh, steps, *proof)
            whole = run(folder, shim, texts, command)
            total = whole[3]
            tried = sorted({1 + at * total // min(total, most) for at in range(min(total, most))})
            bad, stopped = [], 0
            for at in tried:
                ended = run(folder, shim, texts, command, at)
                stopped += ended[0] == 1
                if not is_as_promised(command, whole, ended):
                    bad.append((at, ended[0]))
            failed += len(bad)
            print(f"{what} (status {whole[0]}): {total} allocations, {len(tried)} refused, {stopped} ended for want of memory, {len(bad)} not as promised {bad[:5] or ''}".rstrip())
    print(f"{'all as promised' if not failed else f'{failed} not as promised'}")
    sys.exit(1 if failed else 0)


if __name__ == "__main__":
    main()
