#!/usr/bin/env python3
"""The same as `random_jobs.py` of many steps on meshes of more than 512 faces.

Steps that come one after another on a mesh of that size are where the program keeps a list of near pairs from step to step. The jobs are
cubes in rows, a ring, or both; 4 to 10 steps in which bodies or vertices are displaced by up to a third of an edge, all alike, or a few
alone; between some of them a pass, a group or a save. A job that one of the two does not end in time is not compared. The reference takes
minutes for some: beside it jobs of at most 800 faces are made, ten and of 600 s if not said otherwise, and else 50 and 120 s. The last
lines count jobs alike, failing pairs, and how steps were taken; at a difference the job is kept and the exit status is 1.
"""

import math
import random
import sys

from calling import REFERENCE, words_of
from random_jobs import CUBE, compare, counted, words_of_comparison


def rows_of_cubes(dice, mesh):
    """Puts cubes in rows, and answers how long their edges are."""
    count, gap, size = dice.choice((4, 5)), dice.choice((1, 2, 5, 20)), dice.choice((3, 10, 25))
    apart = 4 * size + gap
    for x in range(count):
        for y in range(count):
            for z in range(count):
                put(mesh, [(x * apart + p[0] * size, y * apart + p[1] * size, z * apart + p[2] * size) for p in CUBE[0]], CUBE[1])
    return 4 * size


def ring(dice, mesh, away):
    """Puts a ring, and answers how long its edges are."""
    radius, around, across = dice.choice((400, 4000)), dice.choice((24, 40)), dice.choice((12, 16))
    points, faces = [], []
    for i in range(around):
        for j in range(across):
            turn, tilt = 2 * math.pi * i / around, 2 * math.pi * j / across
            out = radius + radius // 4 * math.cos(tilt)
            points.append((round(out * math.cos(turn)) + away, round(out * math.sin(turn)), round(radius // 4 * math.sin(tilt))))
    at = lambda i, j: i % around * across + j % across
    for i in range(around):
        for j in range(across):
            faces += [(at(i, j), at(i + 1, j), at(i + 1, j + 1)), (at(i, j), at(i + 1, j + 1), at(i, j + 1))]
    put(mesh, points, faces)
    return radius // 8


def put(mesh, points, faces):
    base = len(mesh[0])
    mesh[0].extend(points)
    mesh[1].extend(tuple(base + c for c in face) for face in faces)


def shifts(dice, count, most, common):
    """The lines of what one step asks."""
    kind = dice.random()
    if kind < 0.1:
        return ["shift all %d %d %d" % tuple(common)]
    if kind < 0.15:
        return ["shift %d %d %d %d" % (v, *(dice.randint(-most, most) for _ in range(3))) for v in dice.sample(range(1, count + 1), dice.randint(1, 10))]
    by_body, lines, by = dice.random() < 0.5, [], None
    for v in range(1, count + 1):
        if not by_body or (v - 1) % 8 == 0:
            by = [dice.randint(-most, most) + c for c in common]
        if by_body or dice.random() < 0.9:
            lines.append("shift %d %d %d %d" % (v, *by))
    return lines


def job_of(seed):
    """The mesh, the steps and the words of a job."""
    dice = random.Random(seed)
    mesh, kind = ([], []), dice.choice(("cubes", "cubes", "ring", "ring", "both"))
    edges = []
    if kind != "ring":
        edges.append(rows_of_cubes(dice, mesh))
    if kind != "cubes":
        edges.append(ring(dice, mesh, 0 if kind == "ring" else 100_000))
    edge = edges[0]
    lines = [line for line in ("set depth %d" % dice.randint(0, 8), "set passes %d" % dice.choice((0, 1, 3)), "set zones 0") if dice.random() < 0.3]
    most = max(1, int(edge * dice.choice((0.01, 0.03, 0.1, 0.3))))
    common = [dice.randint(-3 * most, 3 * most) for _ in range(3)]
    opened = 0
    for _ in range(dice.randint(4, 10)):
        what = dice.random()
        if what < 0.06 and opened < 3:
            lines.append("group")
            opened += 1
        elif what < 0.12 and opened:
            lines.append("close")
            opened -= 1
        elif what < 0.2:
            lines.append(dice.choice(("split %d" % (2 * edge), "collapse %d" % (edge // 6), "flip", "pinch", "zip 1", "save")))
        lines += shifts(dice, len(mesh[0]), most, common) + ["step"]
    lines += ["close"] * opened + ["save"]
    text = "".join("v %d %d %d\n" % p for p in mesh[0]) + "".join("f %d %d %d\n" % tuple(c + 1 for c in f) for f in mesh[1])
    return text, "\n".join(lines) + "\n", ["track", "m.obj", "s.txt", "p"]


def main():
    words = words_of(words_of_comparison(__doc__, None, None))
    is_reference = words.other == REFERENCE
    words.count, words.seconds = words.count or (10 if is_reference else 50), words.seconds or (600 if is_reference else 120)
    lines, status = compare(job_of, words, faces=800)
    print("failing pairs:", sum(line[0] == "hit" for line in lines))
    print("steps taken:", counted(line[1] for line in lines if line[0] == "moved"))
    return status


if __name__ == "__main__":
    sys.exit(main())
