#!/usr/bin/env python3
"""Builds the library for C, runs its examples and cases, and compares with the program's logs.

The header and the examples have to compile as C99 and as C++17 with no warning, by each compiler of gcc's and clang's that is there. The
logs of `example.cpp` and `example.py` have to be the program's, byte for byte, and so have those of random jobs that
`checks/library_steps.c` does through the library; it compares what calls report as numbers with the lines too. `checks/library_cases.c`
compares codes, reasons and places of worked cases, also under valgrind where that is there; the files of that name in C++ and Python do so
with the classes. The droplets of `examples/library` have to write their frames, the log of its policy has to be measured, and those of its
chapters measured, proved, verified and replayed.
`checks/random_callers.py` is run. `checks/starving.c` refuses each allocation in turn, where the C library is glibc. Without `cc` and
`c++` nothing is compiled, and that is said.
"""

import concurrent.futures
import itertools
import os
import shutil
import subprocess
import sys
import tempfile

from calling import ROOT, add_number, reader_of, words_of

LIBRARY = os.path.join(ROOT, "library")
STRICT = ["-Wall", "-Wextra", "-pedantic", "-Werror", "-O2", "-I", LIBRARY]
C99, CPP17 = ["-std=c99", *STRICT], ["-std=c++17", *STRICT]
VALGRIND = ["valgrind", "-q", "--leak-check=full", "--error-exitcode=9"]
MESH = "v 0 0 0\nv 40 0 0\nv 0 40 0\nv 0 0 40\nf 1 3 2\nf 1 2 4\nf 2 3 4\nf 1 4 3\n"
STEPS = "shift all 1 2 3\nstep\nsplit 45\nsolid 4\ngroup\nshift 1 -3 -3 0\nstep\nclose\n"
DIRECTIVES = {"shift", "set", "solid", "split", "collapse", "flip", "zip", "pinch", "fit", "step", "group", "close"}
TOLD = (
    "three faces: code 2, why 16, from 1 to 3\n",
    "a solid vertex: code 2, why 5, vertex 4\n",
)


def box(x, y, z, side, first):
    corners = [(x + side * (k & 1), y + side * (k >> 1 & 1), z + side * (k >> 2 & 1)) for k in range(8)]
    sides = [(0, 2, 3, 1), (4, 5, 7, 6), (0, 1, 5, 4), (2, 6, 7, 3), (0, 4, 6, 2), (1, 3, 7, 5)]
    return corners, [(first + q[0], first + q[i], first + q[i + 1]) for q in sides for i in (1, 2)]


def obj_of(points, faces):
    return "".join("v %d %d %d\n" % p for p in points) + "".join("f %d %d %d\n" % f for f in faces)


def boxes():
    """The mesh and the steps of `example.py`."""
    low, high = box(0, 0, 0, 1000, 1), box(100, 1300, 90, 800, 9)
    mesh = obj_of(low[0] + high[0], low[1] + high[1])
    fall = "".join(f"shift {v} 0 -100 0\n" for v in range(9, 17)) + "step\n"
    return mesh, 6 * fall + "split 600\n"


def random_job(seed):
    """A random job of `random_jobs.py`, on whole coordinates and with the library's directives alone."""
    from random_jobs import job_of

    mesh, steps, words = job_of(seed)
    own = [line for line in steps.splitlines() if line.split() and line.split()[0] in DIRECTIVES]
    fits = words[0] == "track" and len(words) == 4 and all(line.split()[0] in "vf" and len(line.split()) == 4 for line in mesh.splitlines())
    return (mesh, "".join(line + "\n" for line in own)) if fits else None


def compared(driver, program, seed):
    """Whether the library's log of a random job is the program's, and tells the numbers of its lines. None where there is nothing to compare: the
    program refuses the job's text or doesn't end in time, or the job goes by a sizing that is not the same everywhere (status 3)."""
    job = random_job(seed)
    if job is None:
        return None
    with tempfile.TemporaryDirectory() as folder:
        try:
            wanted = log_of(program, *job, folder)
            status, told, messages = ran([driver, os.path.join(folder, "mesh.obj"), os.path.join(folder, "steps.txt")])
        except subprocess.TimeoutExpired:
            return None
    if status == 3 or wanted.startswith((b"topo log 2\nrefused steps", b"topo log 2\nrefused mesh")):
        return None
    return status == 0 and told == wanted and not messages


def random_jobs(driver, program, count):
    """How many random jobs were compared, and the seeds of those at which something differs."""
    done, bad, seeds = 0, [], iter(range(1, 8 * count))
    with concurrent.futures.ThreadPoolExecutor(os.cpu_count()) as pool:
        while done < count and (some := list(itertools.islice(seeds, 40))):
            for seed, same in zip(some, pool.map(lambda seed: compared(driver, program, seed), some)):
                if same is not None and done < count:
                    done += 1
                    bad += [] if same else [seed]
    return done, bad


def log_of(program, mesh, steps, folder):
    """The program's log of a job, which stores its first mesh alone."""
    for name, text in (("mesh.obj", mesh), ("steps.txt", steps)):
        with open(os.path.join(folder, name), "w") as out:
            out.write(text)
    words = [program, "track", "mesh.obj", "steps.txt", "t"]
    return subprocess.run(words, cwd=folder, stdout=subprocess.PIPE, stderr=subprocess.DEVNULL, timeout=20).stdout


def compiled(words, source, folder):
    """A compiled source, linked with the archive, or None where it has a warning."""
    made = os.path.join(folder, os.path.basename(source).replace(".", "_") + "_" + words[0])
    ran = subprocess.run([*words, source, os.path.join(LIBRARY, "out/libtopo.a"), "-lm", "-o", made])
    return made if ran.returncode == 0 else None


def ran(words):
    """The status, the output and the messages of a command; the status -1 where it was not compiled."""
    if words[0] is None:
        return -1, b"", ""
    ended = subprocess.run(words, stdout=subprocess.PIPE, stderr=subprocess.PIPE, timeout=120)
    return ended.returncode, ended.stdout, ended.stderr.decode()


def header_alone(words, ending, folder):
    """Whether the header compiles by itself."""
    source = os.path.join(folder, "alone" + ending)
    with open(source, "w") as out:
        out.write('#include "topo.h"\n#include "topo.h"\nint main(void) { return (int)sizeof(struct topo) == 16 ? 0 : 1; }\n')
    return compiled(words, source, folder)


def by_each(names, flags):
    """The commands of the compilers that are there, each once."""
    found = {os.path.realpath(path): name for name in names if (path := shutil.which(name))}
    return [[name, *flags] for name in found.values()]


def in_c(words, folder):
    """What is looked at of the library by one compiler of C."""
    status, told, _ = ran([compiled(words, os.path.join(LIBRARY, "example.c"), folder)])
    yield f"the header compiles as C99 by {words[0]}, and a handle has 16 bytes", ran([header_alone(words, ".c", folder)])[0] == 0
    yield f"example.c by {words[0]} tells a whole step", status == 0 and told.endswith(b"move 4 1 2 3\nmoved whole\n")
    cases = compiled(words, os.path.join(ROOT, "checks/library_cases.c"), folder)
    status, told, _ = ran([cases])
    yield f"the worked cases by {words[0]}: {told.decode().strip()}", status == 0
    if shutil.which("valgrind") and cases:
        status, _, messages = ran([*VALGRIND, cases])
        yield f"the same under valgrind: {messages}", status == 0


def in_cpp(words, program, folder):
    """The same by one compiler of C++."""
    yield f"the header compiles as C++17 by {words[0]}, and a handle has 16 bytes", ran([header_alone(words, ".cpp", folder)])[0] == 0
    status, told, messages = ran([compiled(words, os.path.join(LIBRARY, "example.cpp"), folder)])
    yield f"example.cpp by {words[0]} writes the program's log", status == 0 and told == log_of(program, MESH, STEPS, folder)
    yield "example.cpp tells what is refused", all(line in messages for line in TOLD)
    status, told, _ = ran([compiled(words, os.path.join(ROOT, "checks/library_cases.cpp"), folder)])
    yield f"the worked cases of the class by {words[0]}: {told.decode().strip()}", status == 0
    yield f"droplet.cpp by {words[0]}", framed([compiled(words, os.path.join(ROOT, "examples/library/droplet.cpp"), folder)], folder)


def by_policy(words, program, folder):
    """The example of a policy, whose log has to be measured."""
    status, told, messages = ran([compiled(words, os.path.join(ROOT, "examples/library/policy.c"), folder)])
    for name, text in (("box.obj", obj_of(*box(0, 0, 0, 400, 1)).encode()), ("log.txt", told)):
        with open(os.path.join(folder, name), "wb") as out:
            out.write(text)
    measured = subprocess.run([program, "measure", "box.obj", "log.txt"], cwd=folder, stdout=subprocess.PIPE, timeout=60)
    yield f"policy.c: {messages}", status == 0 and messages.startswith("18 edges were split, and ") and measured.returncode == 0
    kept = told.count(b"close kept\n")
    yield f"policy.c keeps splits and takes others back: {kept}", 0 < kept < 18 and kept + told.count(b"close undone\n") == 18


def by_chapters(words, program, folder):
    """The example of a run in chapters: each log has to be taken beside its mesh, and its replay has to store the mesh at its end."""
    run = os.path.join(folder, "chapters")
    os.mkdir(run)
    status, _, messages = ran([compiled(words, os.path.join(ROOT, "examples/library/chapters.cpp"), folder), run])
    yield f"chapters.cpp: {messages}", status == 0 and messages.count(": mesh 1 has ") == 3
    heads = [open(os.path.join(run, f"log{k}.txt")).readline() for k in range(3)]
    yield f"the logs of later chapters tell ids: {heads}", heads == ["topo log 2\n", "topo log 3\n", "topo log 3\n"]
    for k in range(3):
        taken = []
        for command, names in (("measure", []), ("prove", []), ("verify", ["proof"]), ("replay", ["again"])):
            ended = subprocess.run([program, command, f"start{k}.obj", f"log{k}.txt", *names, "--large"], cwd=run, stdout=subprocess.PIPE, timeout=60)
            taken.append(ended.returncode)
            if command == "prove":
                with open(os.path.join(run, "proof"), "wb") as out:
                    out.write(ended.stdout)
        meshes = [open(os.path.join(run, name), "rb").read() for name in (f"end{k}.obj", "again-000001.obj")]
        yield f"chapter {k} is measured, proved, verified and replayed: {taken}", taken == [0] * 4
        yield f"the replay of chapter {k} stores its last mesh", meshes[0] == meshes[1]


def framed(words, folder):
    """Whether a droplet writes its frames."""
    last = os.path.join(folder, "frame_003.obj")
    status = ran([*words, folder, "3"])[0]
    good = status == 0 and os.path.getsize(last) > 1000
    if os.path.exists(last):
        os.remove(last)
    return good


def by_python(program, folder):
    """The same by Python."""
    status, told, messages = ran([sys.executable, os.path.join(LIBRARY, "example.py")])
    yield "example.py writes the program's log", status == 0 and told == log_of(program, *boxes(), folder)
    yield "example.py tells what is refused", "refused: 2 1 99999 0 0\n" in messages and "meets: 2 17 " in messages
    status, told, messages = ran([sys.executable, os.path.join(ROOT, "checks/library_cases.py")])
    print(f"topo.py: {told.decode().strip()}")
    yield f"the worked cases of topo.py: {told.decode().strip()} {messages}", status == 0
    yield "droplet.py", framed([sys.executable, os.path.join(ROOT, "examples/library/droplet.py")], folder)


def by_drivers(words, program, jobs, folder):
    """The random jobs, and each allocation refused in turn."""
    done, bad = random_jobs(compiled(words, os.path.join(ROOT, "checks/library_steps.c"), folder), program, jobs)
    print(f"{done} random jobs")
    yield f"of {jobs} random jobs {done} are done, and the logs of these are others: {bad}", done == jobs and not bad
    callers = [sys.executable, os.path.join(ROOT, "checks/random_callers.py"), program, "--count", str(jobs // 5)]
    told = subprocess.run(callers, stdout=subprocess.PIPE, stderr=subprocess.STDOUT)
    print(told.stdout.decode().strip())
    yield f"random callers: {told.stdout.decode().strip()}", told.returncode == 0
    if "CS_GNU_LIBC_VERSION" in os.confstr_names and "glibc" in (os.confstr("CS_GNU_LIBC_VERSION") or ""):
        status, told, messages = ran([compiled(words, os.path.join(ROOT, "checks/starving.c"), folder)])
        print(told.decode().strip())
        yield f"each allocation refused in turn: {told.decode().strip()}", status == 0


def main():
    reader = reader_of(__doc__)
    reader.add_argument("--archive", metavar="ARCHIVE", help="the archive of the proved crate, in the place of a proof and build anew")
    add_number(reader, "jobs", 100, "so many random jobs, and a fifth as many random callers")
    words = words_of(reader)
    archive, program, jobs = words.archive, words.program, words.jobs
    sys.dont_write_bytecode = True
    c, cpp = by_each(("cc", "gcc", "clang"), C99), by_each(("c++", "g++", "clang++"), CPP17)
    if not (c and cpp and shutil.which("ar")):
        print("no compiler of C, of C++ or no ar: nothing is compiled")
        return 0
    subprocess.run([os.path.join(LIBRARY, "build"), *([os.path.abspath(archive)] if archive else [])], check=True)
    with tempfile.TemporaryDirectory() as folder:
        checks = [check for words in c for check in in_c(words, folder)]
        checks += [check for words in cpp for check in in_cpp(words, program, folder)]
        checks += [*by_python(program, folder), *by_policy(c[0], program, folder), *by_chapters(cpp[0], program, folder), *by_drivers(c[0], program, jobs, folder)]
    failed = sum(not good for _, good in checks)
    for what, good in checks:
        if not good:
            print(f"not so: {what}")
    print(f"{len(checks) - failed} passed, {failed} failed")
    return min(failed, 1)


if __name__ == "__main__":
    sys.exit(main())
