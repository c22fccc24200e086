#!/usr/bin/env python3
"""Worked cases of `library/merge.py`: bodies that stand near become one, and non-manifold edges go.

    checks/merge_cases.py [--library FOLDER]

What the surface is afterwards is counted here: bodies, the Euler number,
non-manifold edges, and faces that are left between the bodies. Where numpy is there, all is done once without it and once with it.
Prints how many cases hold, or which do not.
"""

import collections
import itertools
import math
import os
import sys

ROOT = os.path.dirname(os.path.dirname(os.path.abspath(__file__)))
sys.path[:0] = [os.path.join(ROOT, "library"), os.path.join(ROOT, "checks")]
sys.dont_write_bytecode = True
import improve  # noqa: E402
import merge  # noqa: E402
import topo  # noqa: E402
from calling import library_of  # noqa: E402
from improve_cases import H, ball, edges_of, read, six_volume, six_volume_of  # noqa: E402

LIBRARY = None
held, failed = 0, []


def holds(what, so):
    global held
    held += bool(so)
    failed.extend([] if so else [what])


def bodies(shapes):
    """One list of points and one of faces, of several shapes, each moved by a shift."""
    points, faces = [], []
    for (its, corners), by in shapes:
        faces += [tuple(v + len(points) for v in face) for face in corners]
        points += [tuple(x + y for x, y in zip(p, by)) for p in its]
    return topo.Tracker(points, faces, library=LIBRARY)


def slab(wide, high):
    """A box of squares of the side H, each cut in two; in the middle of its bottom is 0 0 0."""
    size, rows, faces = (wide, wide, high), {}, []
    for axis, side in itertools.product(range(3), (0, 1)):
        n, m = (size[k] for k in range(3) if k != axis)
        for i, j in itertools.product(range(n), range(m)):
            square = [list(q) for q in ((i, j), (i + 1, j), (i + 1, j + 1), (i, j + 1))]
            for q in square:
                q.insert(axis, side * size[axis])
            square = square if (side > 0) == (axis != 1) else square[::-1]
            a, b, c, d = (rows.setdefault(tuple(q), len(rows) + 1) for q in square)
            faces += [(a, b, c), (a, c, d)]
    return [(x * H - wide * H // 2, y * H - wide * H // 2, z * H) for x, y, z in rows], faces


OPEN = (700, 630), (0, 0), (-700, 630)  # the normals of its sides have a cosine of 0.1
LIPS = (200, 1100), (700, 900), (0, 0), (-700, 900), (-200, 1100)


def groove(sides):
    """A bar along x with a groove along its top, by its sides in the plane across, from rim to rim. At its ends there are no lips."""
    top, faces = max(z for _, z in sides), []
    ring = [(-1700, -2000), (0, -2000), (1700, -2000), (1700, top), *sides, (-1700, top)]
    size, last = len(ring), 5 * len(ring)
    points = [(H * k, y if k in (1, 2, 3, 4) or abs(y) != 200 else 9 * y // 2, z) for k in range(6) for y, z in ring]
    for i, j in ((i, i % size + 1) for i in range(1, size + 1)):
        for k in range(0, last, size):
            faces += [(k + i, k + j, k + size + j), (k + i, k + size + j, k + size + i)]
        faces += [(last + size + 1, j, i), (last + size + 2, last + i, last + j)]
    return points + [(0, 0, -H), (5 * H, 0, -H)], faces


def figures(surface):
    """How many bodies, the Euler number, and how many non-manifold edges."""
    points, faces = mesh = read(surface)
    edges, up = edges_of(mesh), {v: v for v in points}

    def root(v):
        while up[v] != v:
            v = up[v]
        return v

    for a, b in edges:
        up[root(a)] = root(b)
    faces_at = collections.Counter(tuple(sorted(pair)) for face in faces.values() for pair in itertools.combinations(face, 2))
    crowded = sum(count > 2 for count in faces_at.values())
    return len({root(v) for v in points}), len(points) - len(edges) + len(faces), crowded


def merged(surface, calls=1, **words):
    told = merge.Merged()
    for _ in range(calls):
        more = merge.merge(surface, merge.Merging(H, **words))
        told = merge.Merged(*(a + b for a, b in zip(vars(told).values(), vars(more).values())))
    return told


def two_balls():
    shape, radius = ball(4), H * 4 / 1.17
    far = 2 * radius + 0.4 * H
    for by in ((round(far), 31, 17), (0, 43, round(far)), tuple(round(far / math.sqrt(3)) for _ in range(3))):
        with bodies([(shape, (0, 0, 0)), (shape, by)]) as surface:
            faces = len(surface.faces())
            told = merged(surface)
            became = figures(surface)
            holds(f"two balls, {by}: {became}, {told}", became == (1, 2, 0) and told.seeds == 1 and told.folds_closed > 0)
            holds(f"two balls, {by}: faces go", len(surface.faces()) < faces)
            last = read(surface)
            holds(f"two balls, {by}: then nothing is left to merge", merged(surface).seeds == 0 and read(surface) == last)
    with bodies([(shape, (0, 0, 0)), (shape, (round(far), 31, 17))]) as surface:
        last = read(surface)
        holds("two balls of which no edges face each other so much", merged(surface, facing=-1.01) == merge.Merged() and read(surface) == last)
        holds("two balls farther apart than the reach", merged(surface, merge_proximity=0.3) == merge.Merged() and read(surface) == last)
    with bodies([(shape, (0, 0, 0))]) as surface:
        holds("a ball alone", merged(surface) == merge.Merged())


def eight_balls():
    """At the corners of a cube: twelve contacts join eight bodies, so the surface has the Euler number 2 * 8 - 2 * 12."""
    shape, far = ball(3), round(2 * H * 3 / 1.17 + 0.3 * H)
    places = [tuple(far * (k >> axis & 1) + (13 + 4 * axis) * k for axis in range(3)) for k in range(8)]
    with bodies([(shape, by) for by in places]) as surface:
        told = merged(surface)
        holds(f"eight balls: {figures(surface)}, {told}", figures(surface) == (1, -8, 0) and told.seeds == 12)


def slabs():
    """Two flat slabs one above the other, with passes and smoothing between the calls, as in a simulation that rests: one body, in which
    closed pockets may be left; no handle, and no non-manifold edge."""
    for gap, by in ((0.2, 0.3), (0.5, 0.0), (1.0, 0.7)):
        shift = round(by * H), round(0.6 * by * H), round((2 + gap) * H)
        with bodies([(slab(6, 2), (0, 0, 0)), (slab(6, 2), shift)]) as surface:
            improver = improve.Improver(surface, improve.Improving(H))
            for _ in range(4):
                improver.improve()
                merged(surface)
                holds(f"slabs, gap {gap}, shift {by}: no non-manifold edge after a call", figures(surface)[2] == 0)
                mesh = improve.Mesh(surface)
                to = list(mesh.points)
                improve.slide(to, mesh.faces, 0.3)
                surface.shift(mesh.ids, [improve.minus(q, p) for q, p in zip(to, mesh.points)])
                surface.step()
            count, euler, crowded = figures(surface)
            outer = [volume for volume in volumes(surface) if volume > 0]
            share = sum(outer) / (6 * H ** 3 * (2 * 72 + 36 * gap))
            holds(f"slabs, gap {gap}, shift {by}: {(count, euler, crowded)}, {len(outer)} outer, the volume {share} of that with the gap",
                  len(outer) == 1 and euler == 2 * count and crowded == 0 and abs(share - 1) < 0.05)


def grooves():
    with bodies([(groove(LIPS), (0, 0, 0))]) as surface:
        told = merged(surface)
        holds(f"a groove below lips, which would turn over, is filled: {told}", told.filled > 3 and figures(surface) == (1, 2, 0))
    with bodies([(groove(OPEN), (0, 0, 0))]) as surface:
        last = read(surface)
        holds("a groove whose sides hardly face each other", merged(surface) == merge.Merged() and read(surface) == last)
        told = merge.merge(surface, merge.merging_along_normals(H))
        holds(f"along normals it is closed: {told}", told.folds_closed > 3 and told.seeds == 0 and figures(surface) == (1, 2, 0))
        holds("and filled", six_volume(read(surface)) > six_volume(last))


def volumes(surface):
    """Six times the volume of each component."""
    points, faces = read(surface)
    found, left = [], dict(faces)
    while left:
        rim, volume = [left.popitem()[1]], 0
        while rim:
            face = rim.pop()
            volume += six_volume_of(*(points[v] for v in face))
            beside = [f for f, its in left.items() if set(its) & set(face)]
            rim += [left.pop(f) for f in beside]
        found.append(volume)
    return found


def mended():
    """What a pass of zips leaves: its non-manifold edges go."""
    shape, far = ball(4), 2 * H * 4 / 1.17 + 0.1 * H
    with bodies([(shape, (0, 0, 0)), (shape, (round(far), 31, 17))]) as surface:
        surface.zip(H)
        surface.pinch()
        before = figures(surface)
        with topo.Tracker(surface.leave(), library=LIBRARY) as other:
            left = merge.mend(other, merge.Merging(H, mend_rounds=0)).crowded_left
            holds(f"behind zips: what is left is counted: {left}", left == before[2] == figures(other)[2])
        told, after = merge.mend(surface, merge.Merging(H)), figures(surface)
        holds(f"behind zips: {before}, then {after}, {told}", before[2] > 0 and after[2] == 0 == told.crowded_left and told.mended > 0)
        with bodies([(shape, (0, 0, 0))]) as other:
            holds("a ball has none", merge.mend(other, merge.Merging(H)) == merge.Merged())


def main():
    global LIBRARY
    LIBRARY = os.path.join(library_of(__doc__), "libtopo.so")
    found = improve.numpy
    for numpy in (None, found) if found else (None,):
        improve.numpy = topo.numpy = merge.numpy = numpy
        for case in (two_balls, eight_balls, slabs, grooves, mended):
            case()
    print("".join(f"no: {what}\n" for what in failed) + f"{held} hold, {len(failed)} do not; {'with and ' if found else ''}without numpy")
    sys.exit(bool(failed))


if __name__ == "__main__":
    main()
