"""Surfaces to begin with, as points and rows of the corners of faces."""

import math

from flow import minus, norm, plus

# the corners of an icosahedron, and the rows of the corners of its faces
GOLD = (1 + math.sqrt(5)) / 2
CORNERS = [(-1, GOLD, 0), (1, GOLD, 0), (-1, -GOLD, 0), (1, -GOLD, 0), (0, -1, GOLD), (0, 1, GOLD),
           (0, -1, -GOLD), (0, 1, -GOLD), (GOLD, 0, -1), (GOLD, 0, 1), (-GOLD, 0, -1), (-GOLD, 0, 1)]
SIDES = ("0 11 5,0 5 1,0 1 7,0 7 10,0 10 11,1 5 9,5 11 4,11 10 2,10 7 6,7 1 8,"
         "3 9 4,3 4 2,3 2 6,3 6 8,3 8 9,4 9 5,2 4 11,6 2 10,8 6 7,9 8 1")


def ball(middle, radius, h):
    """An icosahedron drawn onto the ball, each edge cut so often that the mean edge is about h; faces have rows of points."""
    n, points, faces, seen = max(1, round(1.17 * radius / h)), [], [], {}

    def at(i, j):
        u = plus(plus(a, b, i), c, j)
        size = 1 / norm(u)
        u = size * u[0], size * u[1], size * u[2]
        key = tuple(round(x * 1e7) for x in u)  # neighbours share the points of an edge
        if key not in seen:
            seen[key] = len(points)
            points.append(plus(middle, u, radius))
        return seen[key]

    for side in SIDES.split(","):
        a, b, c = (CORNERS[int(word)] for word in side.split())
        b, c = (tuple((1 / n) * x for x in minus(q, a)) for q in (b, c))
        for i in range(n):
            for j in range(n - i):
                faces.append((at(i, j), at(i + 1, j), at(i, j + 1)))
                if i + j + 1 < n:
                    faces.append((at(i + 1, j), at(i + 1, j + 1), at(i, j + 1)))
    return points, faces
