#!/usr/bin/env python3
"""Measures surfaces of millions of faces, which `--large` takes, beside smaller ones of the same shape.

Makes spheres and rings of growing size. Of each: it is read, tested and saved; moved by a step of its own for each vertex; its longest edges
are split; and the logs of these are measured, proved, verified and replayed. Prints seconds, memory, memory a face, and how many times the
figure of the smallest of that shape each is.
"""

import math
import os
import random
import tempfile

from job import ball, measured, put_mesh, put_steps, reader_of, squared_lengths, torus, words_of


def stirred(points, by):
    """A step of its own for each vertex."""
    dice = random.Random(5)
    return ["shift %d %d %d %d\n" % (v + 1, *(dice.randint(-by, by) for _ in range(3))) for v in range(len(points))] + ["step\n"]


def jobs(points, faces):
    """What is done: its name, the steps, and whether the commands that read the log are measured too."""
    lengths = squared_lengths(points, faces)
    yield "read, tested at rest, saved", [], False
    yield "and a step of each vertex", stirred(points, math.isqrt(lengths[0]) // 8), True
    yield f"and {len(faces) // 10:,} splits or so", [f"split {math.isqrt(lengths[-(len(faces) // 10)])}\n", "save\n"], True


def figures(words, mesh):
    """The name of each command of each job, with its seconds and its memory."""
    with tempfile.TemporaryDirectory() as folder:
        put_mesh(folder, *mesh)
        for name, steps, read in jobs(*mesh):
            put_steps(folder, steps)
            calls = [(name, ["track", "--large", "mesh.obj", "steps.txt", "t"])]
            if read:
                calls += [("its log measured", ["measure", "--large", "mesh.obj", "track"]), ("proved", ["prove", "--large", "mesh.obj", "track"]),
                          ("verified", ["verify", "--large", "mesh.obj", "track", "prove"]), ("replayed", ["replay", "--large", "mesh.obj", "track", "r"])]
            for what, call in calls:
                status, seconds, memory = measured(words.program, folder, call, into=call[0])
                yield what, status, seconds, memory
            for file in os.listdir(folder):
                if file.startswith(("t-", "r-")):
                    os.remove(os.path.join(folder, file))


def main():
    words = words_of(reader_of(__doc__, kinds=("spheres", "rings"), best_of=False))
    kinds = words.of or ["spheres", "rings"]
    shapes = []
    if "spheres" in kinds:
        shapes.append(("sphere", [ball(n) for n in ((3, 4) if words.small else (6, 8))]))
    if "rings" in kinds:
        shapes.append(("ring", [torus(n, n) for n in ((25, 50) if words.small else (256, 724, 1_024))]))
    print("| job | faces | seconds | times | MiB | bytes a face |\n|---|---|---|---|---|---|", flush=True)
    for shape, meshes in shapes:
        first = {}
        for mesh in meshes:
            faces = len(mesh[1])
            for place, (what, status, seconds, memory) in enumerate(figures(words, mesh)):
                least = first.setdefault(place, seconds)
                cell = f"{seconds:.2f}" if status == 0 else f"status {status}"
                print(f"| {shape}: {what} | {faces:,} | {cell} | {seconds / max(least, 0.001):.1f} | {memory:.0f} | {memory * 2 ** 20 / faces:.0f} |", flush=True)


if __name__ == "__main__":
    main()
