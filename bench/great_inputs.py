#!/usr/bin/env python3
"""Measures the greatest and the most crooked inputs.

These are sizes that differ much, needles, vertices of high degree, boxes that overlap, bodies that go fast, many bodies, all at one point,
64 MiB of a line; and those at the limits also on a stack of 64 KiB. Prints a table: the input, the exit status, the processor seconds, the
most memory in MiB, and how the last step was taken.
"""

import math
import os
import tempfile

from job import TETRAHEDRON, TRACK, cubes, measured, put, put_mesh, reader_of, small_ones, torus, words_of

RADIUS = 60_000_000


def circle(n, z):
    return [(round(RADIUS * math.cos(2 * math.pi * i / n)), round(RADIUS * math.sin(2 * math.pi * i / n)), z) for i in range(n)]


def drum(n, rise=0, aside=0):
    """A cylinder whose two caps are fans of N faces. Their middle vertices stand so far above the rims, and so far aside."""
    height = 20_000_000
    points = circle(n, 0) + circle(n, height) + [(aside, 0, -rise), (aside, 0, height + rise)]
    faces = []
    for i in range(n):
        j = (i + 1) % n
        faces += [(j + 1, i + 1, 2 * n + 1), (n + i + 1, n + j + 1, 2 * n + 2), (i + 1, j + 1, n + j + 1), (i + 1, n + j + 1, n + i + 1)]
    return points, faces


def double_cone(n):
    """Two fans of N faces over one rim."""
    faces = []
    for i in range(n):
        j = (i + 1) % n
        faces += [(i + 1, j + 1, n + 1), (j + 1, i + 1, n + 2)]
    return circle(n, 0) + [(0, 0, RADIUS), (0, 0, -RADIUS)], faces


def two_cones(n):
    """Two cones of N faces each that touch at their tips, which are one vertex."""
    points = circle(n, 30_000_000) + circle(n, -30_000_000) + [(0, 0, 30_000_000), (0, 0, -30_000_000), (0, 0, 0)]
    faces = []
    for i in range(n):
        j = (i + 1) % n
        faces += [(i + 1, j + 1, 2 * n + 1), (j + 1, i + 1, 2 * n + 3), (n + j + 1, n + i + 1, 2 * n + 2), (n + i + 1, n + j + 1, 2 * n + 3)]
    return points, faces


def diagonal_needles(rows):
    """ROWS * ROWS thin tetrahedra beside one another, along the diagonal of the grid: their boxes overlap, and they do not."""
    points, faces = [], []
    for i in range(rows):
        for j in range(rows):
            x, y, base = 1_000 * i, 1_000 * j, len(points)
            points += [(x, y, 0), (x + 500, y, 0), (x, y + 500, 0), (x + 50_000_000, y + 50_000_000, 50_000_000)]
            faces += [tuple(base + v for v in f) for f in TETRAHEDRON[1]]
    return points, faces


def plates(n):
    """N triangles beside one another, each with both of its sides."""
    points, faces = [], []
    for i in range(n):
        base, x, y = len(points), 10 * (i % 256), 10 * (i // 256)
        points += [(x, y, 0), (x + 4, y, 0), (x, y + 4, 0)]
        faces += [(base + 1, base + 2, base + 3), (base + 1, base + 3, base + 2)]
    return points, faces


def gathered(n):
    """The cubes, and steps in which each goes to where the middle one is."""
    points, faces = cubes(n)
    middle = 100 * (n // 2)
    steps = ["shift %d %d %d %d\n" % ((v,) + tuple(middle - x for x in points[(v - 1) // 8 * 8])) for v in range(1, len(points) + 1)]
    return points, faces, steps + ["step\n"]


def filled(line):
    """64 MiB of a line."""
    line += "\n"
    return line * ((64 << 20) // len(line))


def of_sizes():
    yield "64,000 faces of small bodies", small_ones(16_000), "", TRACK
    mesh = small_ones(16_000)
    put(mesh, (-60_000_000,) * 3, 320_000_000)
    yield "the same in one huge body", mesh, "", TRACK
    mesh = small_ones(8_192, 3, 5)
    for i in range(8_192):
        put(mesh, (1_000_000 + i % 128 * 20_000, i // 128 * 20_000, 0), 15_000)
    yield "65,536 faces, half tiny and half large", mesh, "", TRACK
    mesh = ([], [])
    for i in range(4_096):
        put(mesh, (0, i % 64 * 1_000, i // 64 * 1_000), (50_000_000, 500, 500))
    yield "16,384 faces of parallel needles", mesh, "", TRACK
    ring = torus(256, 256)
    for by in (0, 1_000_000, 16_000_000, 100_000_000):
        yield f"131,072 faces of a ring, moved as a whole by {by:,}", ring, f"shift all {by} 0 0\nstep\n", TRACK
    drop = small_ones(16_000)
    half = "".join("shift %d 0 0 %d\n" % (v, 3_000_000) for v in range(1, len(drop[0]) // 2 + 1))
    yield "64,000 faces of small bodies, half of which fly off", drop, half + "step\n", TRACK


def of_degree():
    for n in (4_000, 16_000):
        yield f"a cylinder whose caps are fans of {n:,} faces, at rest", drum(n), "", TRACK
    for n in (4_000, 16_000, 30_000):
        yield f"a double cone of {2 * n:,} faces, at rest", double_cone(n), "", TRACK
    for n in (1_000, 2_000):
        yield f"degree {n:,}: a pass that splits the {2 * n:,} spokes", drum(n, 20_000_000), "split 30000000\n", TRACK
        yield f"degree {n:,}: a pass of flips", drum(n, 20_000_000), "flip\n", TRACK
        yield f"degree {n:,}: two collapses", drum(n, 30_000, RADIUS - 40_000), "collapse 60000\n", TRACK
        yield f"degree {2 * n:,}: a pinch", two_cones(n), "pinch\n", TRACK


def of_bodies():
    yield "16,384 diagonal needles, at rest", diagonal_needles(128), "", TRACK
    yield "16,384 diagonal needles, moved as a whole", diagonal_needles(128), "shift all 1 2 3\nstep\n", TRACK
    for n in (4, 7):
        points, faces, steps = gathered(n)
        yield f"{n ** 3} bodies gathered on one place", (points, faces), "".join(steps), TRACK
        yield f"the same {n ** 3} by zones alone", (points, faces), "set passes 0\n" + "".join(steps), TRACK
    lone = [(7 * (i % 256), 7 * (i // 256), 0) for i in range(65_536)]
    yield "65,536 bodies, each a vertex, moved as a whole", (lone, []), "shift all 1 2 3\nstep\nsave\n", TRACK
    yield "21,845 bodies, each a triangle with both of its sides, moved as a whole", plates(21_845), "shift all 1 2 3\nstep\nsave\n", TRACK
    yield "65,536 vertices at one point, moved as a whole", ([(0, 0, 0)] * 65_536, []), "shift all 1 2 3\nstep\nsave\n", TRACK
    flat = ([(0, 0, 0)] * 65_536, torus(256, 256)[1])
    yield "131,072 faces, all at one point", flat, "", TRACK
    yield "131,072 faces, all at one point: check", flat, "", ["check", "mesh.obj"]


def of_limits():
    ring = torus(256, 256)
    for step in ("split 0", "collapse 400000", "flip", "zip 400000", "pinch", "fit"):
        yield f"131,072 faces, 65,536 vertices: {step}", ring, step + "\n", TRACK
    turned = "shift all 1 2 3\nstep\nsave\n"
    yield "the same: a step", ring, turned, TRACK
    for words in (["measure", "mesh.obj", "log"], ["prove", "mesh.obj", "log"], ["verify", "mesh.obj", "log", "proof"], ["replay", "mesh.obj", "log", "r"]):
        yield f"the same: {words[0]}", ring, turned, words
    yield "the same: check", ring, "", ["check", "mesh.obj"]
    for to in ("t.off", "t.ply"):
        yield f"the same: convert to {to}", ring, "", ["convert", "mesh.obj", to]


def of_lines():
    for line in ("# nothing", "", "step", "shift 1 0 0 0", "shift all 0 0 0", "shift 1 1 0 0\nshift 1 -1 0 0", "drive swirl", "solid 1", "set depth 6", "group\nclose", "split 5", "collapse 0",
                 "flip", "zip 1", "pinch", "fit"):
        yield "64 MiB of steps: " + repr(line), TETRAHEDRON, filled(line), TRACK
    for line in ("# nothing", "v 0 0 0", "f 1 2 3", "vn 0 0 1"):
        yield "64 MiB of a mesh: " + repr(line), filled(line), "", TRACK
    head = "topo log 2\nmesh 0 4 4\n"
    for line in ("pass flip", "no flip 1 2 edge", "group\nclose kept", "mesh 1 4 4"):
        yield "64 MiB of a log, measured: " + repr(line), TETRAHEDRON, head + filled(line)[: -len(head)], ["measure", "mesh.obj", "steps.txt"]


def inputs():
    yield from of_sizes()
    yield from of_degree()
    yield from of_bodies()
    yield from of_limits()
    yield from of_lines()


def row(program, limit, what, mesh, steps, words, stack=0):
    with tempfile.TemporaryDirectory() as folder:
        if isinstance(mesh, str):
            with open(os.path.join(folder, "mesh.obj"), "w") as out:
                out.write(mesh)
        else:
            put_mesh(folder, *mesh)
        with open(os.path.join(folder, "steps.txt"), "w") as out:
            out.write(steps)
        # a log, and a proof, are made first
        if "log" in words:
            measured(program, folder, TRACK, limit)
        if "proof" in words:
            measured(program, folder, ["prove", "mesh.obj", "log"], limit, into="proof")
        status, seconds, memory = measured(program, folder, words, limit, stack, into="out")
        with open(os.path.join(folder, "out"), "rb") as log:
            taken = [line for line in log.read(1 << 27).split(b"\n") if line.startswith(b"moved ")]
    told = f"not ended in {limit} s" if status == 124 else f"{seconds:.2f}"
    print(f"| {what} | {status} | {told} | {memory:.0f} | {taken[-1].decode() if taken else '-'} |", flush=True)


def main():
    reader = reader_of(__doc__, best_of=False, small=False)
    reader.add_argument("--seconds", type=int, default=100, metavar="N", help="what does not end by then is reported so (100)")
    reader.add_argument("--only", default="", metavar="WORD", help="only inputs whose name has it")
    asked = words_of(reader)
    program, limit, word = asked.program, asked.seconds, asked.only
    print("| input | status | s | MiB | taken |\n|---|---|---|---|---|", flush=True)
    for what, mesh, steps, words in inputs():
        if word in what:
            row(program, limit, what, mesh, steps, words)
    # on a stack of 64 KiB
    for what, mesh, steps, words in of_limits():
        what = "on a stack of 64 KiB: " + what
        if word in what:
            row(program, limit, what, mesh, steps, words, 64)


if __name__ == "__main__":
    main()
