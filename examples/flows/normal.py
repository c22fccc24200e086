#!/usr/bin/env python3
"""Balls grow along their normals, meet, and become one body. normal.cpp in Python.

    examples/flows/normal.py FOLDER [h=0.05] [radius=0.2] [gap=0.1] [balls=2] [steps=10] [smooth=0.3] [merge=1.25] [log=1] [frames=N]
"""

import math
import sys

import flow
import shapes
from flow import norm, plus


def unit(a):
    size = 1 / norm(a) if norm(a) > 0 else 0.0
    return size * a[0], size * a[1], size * a[2]


def normals(run):
    """Of each vertex, by the angles of its faces there."""
    n, points = [(0.0, 0.0, 0.0)] * len(run.points), run.points
    for face in run.mesh.faces:
        u = unit(flow.area_vector(*(points[v] for v in face)))
        for i in range(3):
            n[face[i]] = plus(n[face[i]], u, flow.improve.angle(points[face[i]], points[face[i - 2]], points[face[i - 1]]))
    return [unit(u) for u in n]


def exact(r, far):
    """The volume of the union of two balls: the lens of both is counted once."""
    lens = math.pi * (4 * r + far) * (2 * r - far) * (2 * r - far) / 12 if 2 * r > far else 0
    return 8 * math.pi / 3 * r * r * r - lens


def main():
    folder, given = words = flow.words_of(sys.argv[1:])
    given.setdefault("merge", 1.25)
    given.setdefault("smooth", 0.3)
    h, radius, gap, balls, steps = (given.get(*word) for word in (("h", 0.05), ("radius", 0.2), ("gap", 0.1), ("balls", 2), ("steps", 10)))
    apart, points, faces, middles = 2 * radius + gap, [], [], []
    for i in range(int(balls)):  # a row of two, or the corners of a cube; not quite, so that no two are mirrored in the grid
        middles.append(((i & 1) * apart + 0.0013 * i, (i >> 1 & 1) * apart + 0.0017 * i, (i >> 2 & 1) * apart + 0.0009 * i))
        more, others = shapes.ball(middles[-1], radius, h)
        faces += [tuple(v + len(points) for v in face) for face in others]
        points += more
    ways = flow.improve.moving_along_normals(h), flow.merge.merging_along_normals(h)
    run, r, joined = flow.Run(words, points, faces, h, *ways), radius, -1
    run.write("first.obj")
    for s in range(1, int(steps) + 1):
        to, r = [plus(p, n, h / 2) for p, n in zip(run.points, normals(run))], r + h / 2
        run.exact = exact(r, norm(flow.minus(middles[-1], middles[0]))) if balls == 2 else 0
        run.advance(to, s * h / 2)
        joined = -1 if run.components > 1 else s if joined < 0 else joined
        if 2 * s == steps:
            run.write("middle.obj")
    thirds = [plus(plus(run.points[a], run.points[b]), run.points[c]) for a, b, c in run.mesh.faces]
    depths = (max(r - norm(plus(m, p, -1 / 3)) for m in middles) for p in thirds)
    inside = sum(depth > h for depth in depths)
    run.end()
    since = "not one component at the end" if joined < 0 else f"one component from step {joined} on"
    print(f"{since}; faces deeper than h inside the union {inside}")


if __name__ == "__main__":
    main()
