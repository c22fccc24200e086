#!/usr/bin/env python3
"""Measures what each command that reads a log costs beside the run that wrote it.

Makes its own jobs, tracks each, measures, proves and replays its log and verifies the proof, and prints a table: the job with the lines of
its log and of its proof, the least processor seconds of `track`, `measure`, `prove`, `verify` and `replay`, of the last four also how many
times `track` that is, and the most memory of each in MiB. The first log has more than a million lines.
"""

import math
import os
import tempfile

from job import TETRAHEDRON, TRACK, cubes, measured, put_mesh, put_steps, reader_of, rough, squared_lengths, there_and_back, torus, words_of


def timed(words, command, folder):
    """The least seconds and the most memory of a command, whose output is kept under its name; None where its status is not 0."""
    runs = [measured(words.program, folder, command, into=command[0]) for _ in range(words.best_of)]
    return (None, None) if any(run[0] for run in runs) else (min(run[1] for run in runs), max(run[2] for run in runs))


def lines_of(name):
    with open(name, "rb") as text:
        return text.read().count(b"\n")


def row(words, what, mesh, steps):
    with tempfile.TemporaryDirectory() as folder:
        put_mesh(folder, *mesh)
        put_steps(folder, steps)
        tracked, memory = timed(words, TRACK, folder)
        others = [timed(words, command, folder) for command in (["measure", "mesh.obj", "track"], ["prove", "mesh.obj", "track"],
                                                                ["verify", "mesh.obj", "track", "prove"], ["replay", "mesh.obj", "track", "r"])]
        lines = [lines_of(os.path.join(folder, name)) for name in ("track", "prove")]
    cells = ["not done" if least is None or tracked is None else f"{least:.2f} ({least / tracked:.2f})" for least, _ in others]
    most = ", ".join("-" if it is None else f"{it:.0f}" for it in (memory, *(it for _, it in others)))
    first = "not done" if tracked is None else f"{tracked:.2f}"
    print(f"| {what} ({lines[0]:,} lines, {lines[1]:,} of its proof) | {first} | {' | '.join(cells)} | {most} |", flush=True)


def main():
    words = words_of(reader_of(__doc__))
    small = words.small
    print("| job | track, s | measure, s (times) | prove, s (times) | verify, s (times) | replay, s (times) | MiB |\n|---|---|---|---|---|---|---|", flush=True)
    count = 2_000 if small else 200_000
    row(words, f"{count:,} steps of a tetrahedron", TETRAHEDRON, ["shift all 1 2 3\nstep\n", "shift all -1 -2 -3\nstep\n"] * (count // 2))
    n, count = (4, 4) if small else (12, 64)
    mesh = cubes(n)
    row(words, f"{count} steps of {len(mesh[1]):,} faces of cubes", mesh, [*there_and_back(len(mesh[0]), count), "save\n"])
    mesh = torus(*words.sized(256, 256))
    row(words, f"{len(mesh[1]):,} faces at rest", mesh, [])
    mesh = rough(*words.sized(280, 143))
    lengths, faces = squared_lengths(*mesh), f"{len(mesh[1]):,} faces"
    many = min(len(mesh[1]) // 3, (131_072 - len(mesh[1])) // 2 - 10)
    row(words, f"a pass of {many:,} splits of {faces}", mesh, [f"split {math.isqrt(lengths[-many])}\n", "save\n"])
    row(words, f"a pass of flips of {faces}", mesh, ["flip\n", "save\n"])
    row(words, f"a pass of collapses of {faces}", mesh, [f"collapse {math.isqrt(lengths[len(mesh[1]) // 8])}\n", "save\n"])


if __name__ == "__main__":
    main()
