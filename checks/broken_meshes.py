#!/usr/bin/env python3
"""Breaks meshes, and compares what `check` reports with a plain look at all faces and pairs.

The meshes are bodies that stand near or in one another, as random_jobs.py makes them, and rings that are linked; of three in four some
faces are dropped, doubled, turned round, or get a corner of another face, of no vertex, or one of their own twice. The plain look goes by
the definitions, face by face and pair by pair, in whole numbers, and is not that of `reference/topo.py`, whose `check` has to report the
same. The last line counts those alike, and those with a fault of each kind; at a difference the mesh is kept, and the exit status is 1.
"""

import collections
import os
import random
import subprocess
import sys
import tempfile

from calling import REFERENCE, add_number, reader_of, words_of
from random_jobs import keep_files, mesh_of, ring

LINES_MAX = 1_000_000


def minus(p, q):
    return p[0] - q[0], p[1] - q[1], p[2] - q[2]


def cross(p, q):
    return p[1] * q[2] - p[2] * q[1], p[2] * q[0] - p[0] * q[2], p[0] * q[1] - p[1] * q[0]


def dot(p, q):
    return p[0] * q[0] + p[1] * q[1] + p[2] * q[2]


def is_on(p, r, s):
    """Whether a point is on the segment from r to s, which may be one point."""
    d, w = minus(s, r), minus(p, r)
    return cross(w, d) == (0, 0, 0) and (w == (0, 0, 0) if d == (0, 0, 0) else 0 <= dot(w, d) <= dot(d, d))


def segments_meet(p, q, r, s):
    d, e, w = minus(q, p), minus(s, r), minus(r, p)
    turn = cross(d, e)
    size = dot(turn, turn)
    if size:
        return dot(w, turn) == 0 and 0 <= dot(cross(w, e), turn) <= size and 0 <= dot(cross(w, d), turn) <= size
    # side by side, or one of them is one point
    return is_on(p, r, s) or is_on(q, r, s) or is_on(r, p, q) or is_on(s, p, q)


def meet(a, b, c, d, e):
    """Whether the segment a b and the triangle c d e, with its border, have a common point."""
    normal = cross(minus(d, c), minus(e, c))
    sides = (c, d), (d, e), (e, c)
    if normal == (0, 0, 0):
        return any(segments_meet(a, b, *side) for side in sides)
    above, below = dot(normal, minus(a, c)), dot(normal, minus(b, c))
    if above * below > 0:
        return False
    if above == below == 0:
        return is_in(a, 1, normal, sides) or any(segments_meet(a, b, *side) for side in sides)
    # the point of the plane, times a whole number
    scale = above - below
    point = tuple(y * above - x * below for x, y in zip(a, b))
    if scale < 0:
        scale, point = -scale, tuple(-x for x in point)
    return is_in(point, scale, normal, sides)


def is_in(point, scale, normal, sides):
    """Whether a point of the plane of a triangle, given times a number above zero, is in it."""
    return all(dot(cross(minus(s, r), minus(point, tuple(scale * x for x in r))), normal) >= 0 for r, s in sides)


def turned(f):
    return {(f[0], f[1], f[2]), (f[1], f[2], f[0]), (f[2], f[0], f[1])}


def shape_faults(count, faces):
    """All that is wrong with the shape, in order, each by its definition."""
    numbered = list(enumerate(faces, 1))
    for k, f in numbered:
        for at, v in enumerate(f, 1):
            if not 1 <= v <= count:
                yield f"shape corner {k} {at}"
    for k, f in numbered:
        if len(set(f)) < 3:
            yield f"shape repeated {k}"
    for k, f in numbered:
        later = [n for n, g in numbered if n > k and tuple(g) in turned(f)]
        if later:
            yield f"shape doubled {k} {later[0]}"
    runs = collections.Counter(side for f in faces for side in ((f[0], f[1]), (f[1], f[2]), (f[2], f[0])))
    for a in range(1, count + 1):
        for b in range(a + 1, count + 1):
            if runs[a, b] != runs[b, a]:
                yield f"shape unbalanced {a} {b}"


def meetings(points, faces):
    """All pairs that meet, in order."""
    at = lambda v: points[v - 1]
    edges = sorted({(min(a, b), max(a, b)) for f in faces for a, b in ((f[0], f[1]), (f[1], f[2]), (f[2], f[0]))})
    for a, b in edges:
        for k, f in enumerate(faces, 1):
            if a not in f and b not in f and meet(at(a), at(b), *(at(v) for v in f)):
                yield f"meets {a} {b} {k}"


def looked_at(points, faces):
    """What `check` has to write of such a mesh, and its status."""
    lines, status = list(shape_faults(len(points), faces)), 7
    if not lines:
        lines, status = list(meetings(points, faces)), 8
    lines = lines[:LINES_MAX]
    last = f"checked {len(points)} {len(faces)} faults {len(lines)}"
    return "\n".join([*lines, last]) + "\n", status if lines else 0


def linked_rings():
    """Two rings of which each goes through the other."""
    points, faces = ring(6)
    other = [(x + 16, z, y) for x, y, z in points]
    n = len(points)
    return [*points, *other], [tuple(v + 1 for v in f) for f in faces] + [tuple(v + 1 + n for v in reversed(f)) for f in faces]


def broken(dice, count, faces):
    """The same faces with some that are broken."""
    faces = [list(f) for f in faces]
    for _ in range(dice.choice([1, 1, 2, 3, 6])):
        f = dice.choice(faces)
        kind = dice.randrange(7)
        if kind == 0 and len(faces) > 1:
            faces.remove(f)
        elif kind == 1:
            faces.insert(dice.randrange(len(faces) + 1), dice.choice([f, [*f[1:], f[0]], [f[0], f[2], f[1]]])[:])
        elif kind == 2:
            f.reverse()
        elif kind == 3:
            f[dice.randrange(3)] = count + dice.randint(1, 3)
        elif kind == 4:
            f[dice.randrange(3)] = f[dice.randrange(3)]
        elif kind == 5:
            f[dice.randrange(3)] = dice.randint(1, count)
        else:
            dice.shuffle(faces)
    return faces


def mesh_from(seed):
    dice = random.Random(f"broken {seed}")
    points, faces = linked_rings() if dice.random() < 0.05 else mesh_of(dice)[:2]
    if dice.random() < 0.75:
        faces = broken(dice, len(points), faces)
    return [tuple(p) for p in points], [tuple(f) for f in faces]


def main():
    reader = reader_of(__doc__)
    add_number(reader, "count", 200, "so many meshes")
    add_number(reader, "seed", 1, "the first is that of this number")
    words = words_of(reader)
    program, count, seed = words.program, words.count, words.seed
    alike = 0
    kinds = collections.Counter()
    for number in range(seed, seed + count):
        points, faces = mesh_from(number)
        text = "".join(f"v {x} {y} {z}\n" for x, y, z in points) + "".join(f"f {a} {b} {c}\n" for a, b, c in faces)
        with tempfile.TemporaryDirectory() as folder:
            with open(os.path.join(folder, "m.obj"), "w", encoding="ascii") as it:
                it.write(text)
            told = [subprocess.run([its, "check", "m.obj"], cwd=folder, stdout=subprocess.PIPE, stderr=subprocess.DEVNULL, timeout=60) for its in (program, REFERENCE)]
        wanted = looked_at(points, faces)
        kinds.update({line.rsplit(" ", line.count(" ") - line.startswith("shape"))[0] for line in wanted[0].splitlines()[:-1]} or {"none"})
        if all((ran.stdout.decode(), ran.returncode) == wanted for ran in told):
            alike += 1
        else:
            kept = keep_files(f"broken-{number}-", ["check", "m.obj"], {"m.obj": text.encode(), "wanted": wanted[0].encode()})
            print(f"mesh {number}: {told[0].returncode} came, {told[1].returncode} of the reference, and {wanted[1]} is right; it is kept in {kept}")
    print("meshes with such lines:", ", ".join(f"{kind} {n}" for kind, n in sorted(kinds.items())))
    print(f"{alike} of {count} alike")
    return 0 if alike == count else 1


if __name__ == "__main__":
    sys.exit(main())
