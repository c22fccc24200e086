#!/usr/bin/env python3
"""Measures steps through the library, with its log, with events and with no lines, against steps by files.

Cubes go there and back, 20,736 faces. Prints the processor time of a step and the most memory of each, and how the library with its log
stands to files; the logs have to be the same. What making the tracker costs is taken off, by a job of no step.
"""

import os
import subprocess
import sys
import tempfile

from job import ROOT, cubes, put_mesh, put_steps, reader_of, there_and_back, words_of

def cost(words, folder, log):
    """The processor seconds and the most memory, in MB, of a command whose output goes to a file."""
    with open(os.path.join(folder, log), "wb") as out:
        child = subprocess.Popen(words, cwd=folder, stdout=out, stderr=subprocess.DEVNULL)
        _, status, used = os.wait4(child.pid, 0)
    if status:
        sys.exit(f"{words[0]} ends with {status}")
    return used.ru_utime + used.ru_stime, used.ru_maxrss / 1000


def main():
    reader = reader_of(__doc__)
    reader.add_argument("--steps", type=int, default=64, metavar="N", help="so many steps (64)")
    reader.add_argument("--library", default=os.path.join(ROOT, "library", "out"), metavar="FOLDER", help="where libtopo.a is; library/build makes it in library/out")
    words = words_of(reader)
    count, row = words.steps, 3 if words.small else 12
    with tempfile.TemporaryDirectory() as folder:
        points, faces = cubes(row)
        put_mesh(folder, points, faces)
        driver = os.path.join(folder, "library_cubes")
        call = ["cc", "-std=c99", "-O2", "-I", os.path.join(ROOT, "library"), os.path.join(ROOT, "bench/library_cubes.c")]
        subprocess.run([*call, os.path.join(os.path.abspath(words.library), "libtopo.a"), "-o", driver], check=True)
        found = {}
        for steps in (0, count):
            put_steps(folder, there_and_back(len(points), steps))
            for way, what in (("library", "log"), ("events", "events"), ("no lines", "none")):
                found[way, steps] = min(cost([driver, str(row), str(steps), what], folder, f"{way}.log") for _ in range(words.best_of))
            found["files", steps] = min(cost([words.program, "track", "mesh.obj", "steps.txt", "t"], folder, "files.log") for _ in range(words.best_of))
        with open(os.path.join(folder, "library.log"), "rb") as one, open(os.path.join(folder, "files.log"), "rb") as other:
            same = one.read() == other.read()
    each = {}
    for way in ("library", "events", "no lines", "files"):
        each[way] = (found[way, count][0] - found[way, 0][0]) / count
        print(f"{way}: {1000 * each[way]:.1f} ms a step; {found[way, count][0]:.2f} s and {found[way, count][1]:.0f} MB for {count} steps; {found[way, 0][0]:.2f} s for none")
    print(f"a step {each['library'] / each['files']:.2f}, memory {found['library', count][1] / found['files', count][1]:.2f}; the logs are {'the same' if same else 'NOT the same'}")
    return 0 if same else 1


if __name__ == "__main__":
    sys.exit(main())
