#!/usr/bin/env python3
"""Compares the logs of random callers of the library with what the program makes of them.

`checks/random_callers.c` is compiled with the library; of each random mesh, as random_jobs.py makes them, it is a caller that displaces,
steps, edits by passes and by ids, opens groups, keeps them and rolls them back, and compares what it is told with its log. Where no
tracker is made of a mesh the next takes its place. Each log has to be measured to its end, replayed to the meshes that the caller read
from its tracker, proved, and verified by the program and by examples/verify.py, each of as many motions as its lines tell. Then one edit's
line of the log is spoilt, in its last number, and has to be refused by each of `measure`, `prove` and examples/verify.py. The last lines
say what the callers did; at a difference the files are kept and the exit status is 1.
"""

import collections
import os
import random
import re
import shutil
import subprocess
import sys
import tempfile

from calling import ROOT, add_library, add_number, reader_of, words_of
from random_jobs import counted, mesh_of

sys.path.insert(0, os.path.join(ROOT, "examples"))
sys.dont_write_bytecode = True
import verify  # noqa: E402

CALLER = os.path.join(ROOT, "checks", "random_callers.c")
MOTIONS = re.compile(r"(?m)^(?:moved|split|flip|collapse|pinch) ")
PLACED = re.compile(r"(?:split|collapse|pinch) .*")
KINDS = {2: "split", 3: "flip", 4: "collapse", 5: "zip", 6: "pinch"}
REASONS = {1: "noedge", 2: "crowded", 3: "edge", 4: "shared", 5: "full", 6: "doubled", 7: "onefan", 8: "hit", 9: "solid"}


def compiled(library, folder):
    caller = os.path.join(folder, "random_callers")
    words = ["cc", "-std=c99", "-Wall", "-Wextra", "-pedantic", "-Werror", "-O2", "-I", library, CALLER, os.path.join(library, "libtopo.a"), "-lm", "-o", caller]
    subprocess.run(words, check=True)
    return caller


def mesh_text(seed):
    points, faces, _ = mesh_of(random.Random(f"caller {seed}"))
    return "".join("v %d %d %d\n" % tuple(p) for p in points) + "".join("f %d %d %d\n" % tuple(f) for f in faces)


def text_of(*path):
    with open(os.path.join(*path)) as it:
        return it.read()


def put(text, *path):
    with open(os.path.join(*path), "w") as it:
        it.write(text)


def told(words, folder):
    ran = subprocess.run(words, cwd=folder, stdout=subprocess.PIPE, stderr=subprocess.PIPE, timeout=300)
    return ran.returncode, ran.stdout.decode(), ran.stderr.decode()


def checked(mesh, log, proof):
    """What examples/verify.py says."""
    try:
        return f"verified {verify.verify(mesh.encode(), log.encode(), proof.encode())}\n"
    except verify.Refused as why:
        return f"refused {why}\n"


def fault_of_meshes(program, log, folder):
    """What is wrong with the meshes that the program makes of the log, beside those that the caller read from its tracker."""
    os.mkdir(os.path.join(folder, "replayed"))
    count = len(re.findall(r"(?m)^mesh ", log))
    if told([program, "replay", "m.obj", "log.txt", "replayed/own"], folder)[:2] != (0, f"replayed {count}\n"):
        return "replay"
    own = {name for name in os.listdir(folder) if name.startswith("own-")}
    made = set(os.listdir(os.path.join(folder, "replayed")))
    if len(own) != count or own != made:
        return "how many meshes there are"
    lost = [name for name in own if text_of(folder, name) != text_of(folder, "replayed", name)]
    return f"the meshes {lost}" if lost else None


def spoilt(log, seed):
    """The log with the last number of one edit's line raised by one, and the number of this line; None where there is no such line."""
    lines = log.split("\n")
    places = [at for at, line in enumerate(lines) if PLACED.fullmatch(line)]
    if not places:
        return None
    at = random.Random(f"spoilt {seed}").choice(places)
    head, _, last = lines[at].rpartition(" ")
    lines[at] = f"{head} {int(last) + 1}"
    return "\n".join(lines), at + 1


def fault_of_spoilt(program, mesh, log, proof, line, folder):
    """Which of those who should refuse a spoilt log at a line does not."""
    put(log, folder, "spoilt.txt")
    for command in ("measure", "prove"):
        status, said, _ = told([program, command, "m.obj", "spoilt.txt"], folder)
        if status != 13 or not said.endswith(f"refused replay {line}\n"):
            return f"{command} of a log that is spoilt at line {line}"
    return None if checked(mesh, log, proof).startswith(f"refused line {line}") else f"examples/verify.py of a log that is spoilt at line {line}"


def fault_of(caller, program, seed, folder):
    """What is wrong with a caller, if anything is, and its log; no log, where no tracker was made."""
    mesh = mesh_text(seed)
    put(mesh, folder, "m.obj")
    status, log, messages = told([caller, "m.obj", str(seed), "."], folder)
    put(log, folder, "log.txt")
    if status == 3:
        return None, None
    if status or messages:
        return f"the caller ends with {status}: {messages}", log
    status, said, _ = told([program, "measure", "m.obj", "log.txt"], folder)
    if status or not said.endswith("\nend\n"):
        return "measure", log
    status, proof, _ = told([program, "prove", "m.obj", "log.txt"], folder)
    put(proof, folder, "proof.txt")
    if status:
        return "prove", log
    verified = f"verified {len(MOTIONS.findall(log))}\n"
    if told([program, "verify", "m.obj", "log.txt", "proof.txt"], folder)[:2] != (0, verified):
        return "verify", log
    if checked(mesh, log, proof) != verified:
        return "examples/verify.py", log
    bad = spoilt(log, seed)
    return fault_of_meshes(program, log, folder) or (bad and fault_of_spoilt(program, mesh, bad[0], proof, bad[1], folder)), log


def main():
    reader = reader_of(__doc__)
    add_number(reader, "count", 100, "so many callers")
    add_number(reader, "seed", 1, "the first is that of this number")
    add_library(reader)
    words = words_of(reader)
    program, seed, ran, bad, caught = words.program, words.seed, 0, 0, 0
    lines, tally = collections.Counter(), collections.Counter()
    with tempfile.TemporaryDirectory() as apart:
        caller = compiled(os.path.abspath(words.library), apart)
        while ran < words.count:
            folder = tempfile.mkdtemp(prefix=f"caller-{seed}-")
            fault, log = fault_of(caller, program, seed, folder)
            if log is not None:
                ran += 1
                lines.update(line.split(" ")[0] for line in log.split("\n"))
                caught += spoilt(log, seed) is not None
            if fault:
                bad += 1
                print(f"caller {seed}: {fault}; the files are kept in {folder}")
            else:
                if log is not None:
                    tally.update({word: int(n) for word, n in map(str.split, text_of(folder, "tally.txt").splitlines())})
                shutil.rmtree(folder)
            seed += 1
    print("lines of the logs:", counted(lines.elements()))
    print("edits by ids that were done:", ", ".join(f"{name} {tally[f'done{kind}']}" for kind, name in KINDS.items()))
    print("and refused:", ", ".join(f"{name} {tally[f'against{why}']}" for why, name in REASONS.items()))
    print(f"groups taken back by choice: {tally['undone']}")
    print(f"{ran - bad} callers of {ran} as they should be, {caught} with a spoilt log beside; {seed - words.seed - ran} meshes made no tracker")
    return 1 if bad else 0


if __name__ == "__main__":
    sys.exit(main())
