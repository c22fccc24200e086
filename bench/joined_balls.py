#!/usr/bin/env python3
"""Joins pairs of balls at random by `zip`, and tries both ways of `docs/CONNECT.md` to a manifold again.

Each ball is an octahedron whose sides are cut in six, put on a sphere: 288 faces, edges of some 260. The one has radius 1,000, the other
700 to 1,200; the gap is 40 to 200, in a direction at random. One line is written for each pair: what `zip 300`, `collapse 130` and `pinch`
leave; the smallest zip that makes a tunnel, what that leaves, and what three rounds of passes leave after it; and how many jobs the second
way takes, and what it leaves. The last line counts.
"""

import collections
import math
import os
import random
import subprocess
import tempfile

from job import reader_of, words_of

PARTS = 6


def ball(radius, centre):
    """The points and faces of a ball, in whole numbers."""
    points, ids, faces = [], {}, []

    def vertex(corner):
        if corner not in ids:
            length = math.sqrt(sum(x * x for x in corner))
            points.append(tuple(round(c + radius * x / length) for c, x in zip(centre, corner)))
            ids[corner] = len(points)
        return ids[corner]

    for sx in (1, -1):
        for sy in (1, -1):
            for sz in (1, -1):
                at = lambda i, j: vertex((sx * (PARTS - i - j), sy * i, sz * j))
                turned = sx * sy * sz < 0
                for i in range(PARTS):
                    for j in range(PARTS - i):
                        three = [(at(i, j), at(i + 1, j), at(i, j + 1))]
                        if i + j < PARTS - 1:
                            three.append((at(i + 1, j), at(i + 1, j + 1), at(i, j + 1)))
                        faces += [face[::-1] if turned else face for face in three]
    return points, faces


def pair(seed):
    """The text of a mesh of two balls."""
    dice = random.Random(seed)
    one, other, gap = 1000, dice.randint(700, 1200), dice.randint(40, 200)
    way = [dice.gauss(0, 1) for _ in range(3)]
    length = math.sqrt(sum(x * x for x in way))
    far = [x / length * (one + other + gap) for x in way]
    (points, faces), (more, others) = ball(one, (0, 0, 0)), ball(other, far)
    faces += [tuple(v + len(points) for v in face) for face in others]
    return "".join(f"v {x} {y} {z}\n" for x, y, z in points + more) + "".join(f"f {a} {b} {c}\n" for a, b, c in faces)


def mesh_of(text):
    rows = [line.split() for line in text.splitlines()]
    return [tuple(map(int, row[1:])) for row in rows if row[0] == "v"], [tuple(map(int, row[1:])) for row in rows if row[0] == "f"]


def faults(text):
    """The edges with more than two faces, and the faces with an opposite."""
    _, faces = mesh_of(text)
    edges, corners = collections.Counter(), collections.Counter(frozenset(face) for face in faces)
    for a, b, c in faces:
        edges.update(frozenset(side) for side in ((a, b), (b, c), (c, a)))
    return [edge for edge, count in edges.items() if count > 2], [face for face in faces if corners[frozenset(face)] > 1]


def bodies(text):
    """How many pieces a surface is in, and its Euler number."""
    points, faces = mesh_of(text)
    root = list(range(len(points) + 1))

    def top(v):
        while root[v] != v:
            root[v] = v = root[root[v]]
        return v

    for face in faces:
        for v in face[1:]:
            root[top(v)] = top(face[0])
    used = {v for face in faces for v in face}
    edges = {frozenset(side) for a, b, c in faces for side in ((a, b), (b, c), (c, a))}
    return len({top(v) for v in used}), len(used) - len(edges) + len(faces)


def job(program, mesh, steps):
    """The log of a job, and its last mesh."""
    with tempfile.TemporaryDirectory() as folder:
        for name, text in (("m.obj", mesh), ("s.txt", steps)):
            with open(os.path.join(folder, name), "w") as out:
                out.write(text)
        log = subprocess.run([program, "track", "m.obj", "s.txt", "t"], cwd=folder, stdout=subprocess.PIPE, stderr=subprocess.DEVNULL, check=True, timeout=600).stdout.decode()
        with open(os.path.join(folder, "t-000001.obj")) as it:
            return log, it.read()


def tunnels(log):
    return sum(line.startswith("zip ") for line in log.splitlines())


def smallest(program, mesh):
    """The mesh after the zip by the smallest length that makes a tunnel, how many it makes, and that length."""
    low, high = 0, 300
    while high - low > 1:
        middle = (low + high) // 2
        low, high = (low, middle) if tunnels(job(program, mesh, f"zip {middle}\nsave\n")[0]) else (middle, high)
    log, text = job(program, mesh, f"zip {high}\nsave\n")
    return text, tunnels(log), high


def longest(text):
    """One unit more than the longest of the edges with more than two faces and the sides of the faces with an opposite."""
    points, _ = mesh_of(text)
    crowded, opposite = faults(text)
    sides = [tuple(edge) for edge in crowded] + [side for a, b, c in opposite for side in ((a, b), (b, c), (c, a))]
    return math.isqrt(max(sum((p - q) ** 2 for p, q in zip(points[a - 1], points[b - 1])) for a, b in sides)) + 2


def dissolved(program, text):
    """The second way: the mesh at its end, and how many jobs it took; at most twenty."""
    jobs = 0
    while any(faults(text)) and jobs < 20:
        _, text = job(program, text, f"collapse {longest(text)}\npinch\nsave\n")
        jobs += 1
    return text, jobs


def told(text):
    crowded, opposite = faults(text)
    pieces, euler = bodies(text)
    return f"crowded {len(crowded)}, opposite {len(opposite)}, faces {len(mesh_of(text)[1])}, bodies {pieces}, Euler {euler}"


def main():
    reader = reader_of(__doc__, best_of=False, small=False)
    reader.add_argument("--pairs", metavar="N", type=int, default=10, help="how many pairs (10)")
    words = words_of(reader)
    program, good = words.program, [0, 0, 0]
    for seed in range(words.pairs):
        mesh = pair(seed)
        _, left = job(program, mesh, "zip 300\ncollapse 130\npinch\nsave\n")
        _, wide = job(program, mesh, "zip 300\nsave\n")
        first, count, length = smallest(program, mesh)
        _, rounds = job(program, first, 3 * "split 400\nflip\ncollapse 100\npinch\n" + "save\n")
        second, jobs = dissolved(program, wide)
        parts = [f"zip 300: {told(left)}", f"zip {length}: tunnels {count}, {told(first)}", f"three rounds on: {told(rounds)}", f"the second way, jobs {jobs}: {told(second)}"]
        print(f"pair {seed}: " + "; ".join(parts), flush=True)
        good = [n + (not any(faults(text)) and bodies(text) == (1, 2)) for n, text in zip(good, (first, rounds, second))]
    print(f"one manifold of Euler number 2: the smallest zip {good[0]} of {words.pairs}, three rounds on {good[1]}, the second way {good[2]}")


if __name__ == "__main__":
    main()
