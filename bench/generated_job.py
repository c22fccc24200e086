#!/usr/bin/env python3
"""Measures the largest generated job: `topo try 12 7`, and the same by `topo track`, from texts that are written here.

Prints the processor seconds of both beside their aim, 5 s, and compares the summary with the log: its counts, and the mesh that is
stored last. Ends with status 1 where they differ.
"""

import os
import sys
import tempfile

from job import Run, cubes, measured, put_mesh, reader_of, words_of

ROW = 12
AIM = 5


def steps_of(key, row):
    """The directives: three steps in which each cube moves by a displacement of its own, then a split and a save."""
    for step in (1, 2, 3):
        for v in range(8 * row**3):
            by = [1 + (key + 31 * step + 7 * (v // 8 + 1) + 13 * axis) % 9 for axis in range(3)]
            yield "shift %d %d %d %d\n" % (v + 1, *by)
        yield "step\n"
    yield "split 50\nsave\n"


def main():
    reader = reader_of(__doc__, best_of=False)
    reader.add_argument("--key", type=int, default=7, metavar="KEY", help="the key of the job (7)")
    words = words_of(reader)
    key, row = words.key, 3 if words.small else ROW
    with tempfile.TemporaryDirectory() as folder:
        _, trying, _ = measured(words.program, folder, ["try", str(row), str(key)], into="try")
        with open(os.path.join(folder, "try"), encoding="ascii") as out:
            tried = out.read()
        put_mesh(folder, *cubes(row))
        run = Run(words.program, folder, steps_of(key, row))
        lines = [line.decode() for line in run.lines]
        with open(os.path.join(folder, "t-000001.obj"), encoding="utf-8") as mesh:
            stored = mesh.read().split("\n")
    count = lambda begin: sum(line.startswith(begin) for line in lines)
    vertices, faces = (sum(line.startswith(it) for line in stored) for it in ("v ", "f "))
    told = f"try {row} {key}\ncubes {row**3}\nsteps {count('step ')} whole {lines.count('moved whole')}\nsplits {count('split ')}\n"
    told += f"mesh {vertices} {faces}\ncorner {stored[0].removeprefix('v ')}\nlines {len(lines)}\n"
    print(tried, end="")
    print(f"try: {trying:.2f} s, track: {run.seconds:.2f} s of processor time; the aim is {AIM} s each")
    if run.status != 0 or tried != told:
        print(f"the log of track tells otherwise: status {run.status}\n{told}", end="")
        sys.exit(1)


if __name__ == "__main__":
    main()
