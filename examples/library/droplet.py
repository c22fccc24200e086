#!/usr/bin/env python3
"""A ball of liquid falls into a pool, and a colour for each vertex is carried along by what the tracker tells: droplet.cpp in Python.

    examples/library/droplet.py [FOLDER [FRAMES]]
"""

import os
import sys

HERE = os.path.dirname(os.path.abspath(__file__))
sys.path.insert(0, os.path.join(HERE, "../../library"))
import topo  # noqa: E402

SIDES = [(0, 2, 3, 1), (4, 5, 7, 6), (0, 1, 5, 4), (2, 6, 7, 3), (0, 4, 6, 2), (1, 3, 7, 5)]
POOL, BALL = (0.1, 0.3, 0.9), (0.9, 0.2, 0.1)


def box(low, side, first):
    corners = [tuple(l + s * (k >> i & 1) for i, (l, s) in enumerate(zip(low, side))) for k in range(8)]
    return corners, [(first + q[0], first + q[i], first + q[i + 1]) for q in SIDES for i in (1, 2)]


def ball(middle, radius, first, levels=3):
    """An octahedron, whose faces are halved in both directions, and whose vertices are drawn out onto the ball."""
    points = [(1, 0, 0), (-1, 0, 0), (0, 1, 0), (0, -1, 0), (0, 0, 1), (0, 0, -1)]
    faces = [(0, 2, 4), (2, 1, 4), (1, 3, 4), (3, 0, 4), (2, 0, 5), (1, 2, 5), (3, 1, 5), (0, 3, 5)]
    for _ in range(levels):
        halves = {}
        for a, b in ((f[i], f[i - 1]) for f in faces for i in range(3)):
            if (min(a, b), max(a, b)) not in halves:
                halves[min(a, b), max(a, b)] = len(points)
                p = [x + y for x, y in zip(points[a], points[b])]
                points.append(tuple(c / sum(x * x for x in p) ** 0.5 for c in p))
        at = lambda a, b: halves[min(a, b), max(a, b)]
        faces = [t for a, b, c in faces for t in ((a, at(a, b), at(c, a)), (b, at(b, c), at(a, b)), (c, at(c, a), at(b, c)), (at(a, b), at(b, c), at(c, a)))]
    return [tuple(m + radius * c for m, c in zip(middle, p)) for p in points], [tuple(first + v for v in f) for f in faces]


def velocity(p):
    """Downward, and slower toward the pool, whose surface is at height 0 and rests."""
    near = min(max(p[1] / 0.3, 0), 1)
    return 0, -1.5 * near * near * (3 - 2 * near), 0


def mean(a, b):
    return tuple((x + y) / 2 for x, y in zip(a, b))


def write(name, surface, colours):
    vertices = surface.vertices()
    numbers = {v: k for k, v in enumerate(vertices, 1)}
    with open(name, "w") as out:
        for v, p in vertices.items():
            out.write("v %.6f %.6f %.6f %.3f %.3f %.3f\n" % (*p, *colours[v]))
        for corners in surface.faces().values():
            out.write("f %d %d %d\n" % tuple(numbers[v] for v in corners))


def main(folder=".", frames=30):
    low, low_faces = box((-1, -0.6, -1), (2, 0.6, 2), 1)
    high, high_faces = ball((0.03, 0.5, 0.02), 0.35, 9)
    with topo.Tracker(low + high, low_faces + high_faces, unit=1e-5) as surface:
        colours = {v: BALL if p[1] > 0 else POOL for v, p in surface.vertices().items()}
        for frame in range(int(frames) + 1):
            surface.toward({v: tuple(c + 0.02 * u for c, u in zip(p, velocity(p))) for v, p in surface.vertices().items()})
            way = surface.step()
            surface.fit(0.045, 0.22)
            zipped, pinched = surface.zip(0.045), surface.pinch()
            for kind, a, b, c, *_ in surface.events():
                if kind == "split":
                    colours[c] = mean(colours[a], colours[b])
                elif kind == "collapsed":
                    colours[a] = mean(colours[a], colours[b])
                elif kind == "pinched":
                    colours[b] = colours[a]
            surface.forget()
            write(os.path.join(folder, f"frame_{frame:03}.obj"), surface, colours)
            print(f"frame {frame}: {way}, zipped {zipped}, pinched {pinched}")


if __name__ == "__main__":
    main(*sys.argv[1:])
