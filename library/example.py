#!/usr/bin/env python3
"""The library from Python, by `topo.py`: one box falls onto another, step by step.

    library/example.py [LIBRARY]

LIBRARY is out/libtopo.so beside this file, if it is left out. What the tracker tells goes to standard output as a log file, and what it
comes to, to standard error.
"""

import os
import sys

sys.path.insert(0, os.path.dirname(os.path.abspath(__file__)))
from topo import TopoError, Tracker  # noqa: E402


def box(x, y, z, side, first):
    """The corners and the faces of a box; `first` is the number of its first corner."""
    corners = [(x + side * (k & 1), y + side * (k >> 1 & 1), z + side * (k >> 2 & 1)) for k in range(8)]
    sides = [(0, 2, 3, 1), (4, 5, 7, 6), (0, 1, 5, 4), (2, 6, 7, 3), (0, 4, 6, 2), (1, 3, 7, 5)]
    return corners, [(first + q[0], first + q[i], first + q[i + 1]) for q in sides for i in (1, 2)]


def main():
    library = sys.argv[1] if len(sys.argv) > 1 else None
    low, low_faces = box(0, 0, 0, 1000, 1)
    high, high_faces = box(100, 1300, 90, 800, 9)
    points, faces = low + high, low_faces + high_faces
    with Tracker(points, faces, unit=1, library=library) as tracker:
        tracker.begin_log()
        for k in range(6):
            tracker.shift({v: (0, -100, 0) for v in range(9, 17)})
            way, times, hits = tracker.step()
            text = tracker.log()
            lowest = min(y for v, (x, y, z) in tracker.vertices().items() if v > 8)
            print(f"step {k + 1}: {hits} hits, moved {way} {times}; lowest corner above at y {lowest}", file=sys.stderr)
            print(text, end="")
        done, refused = tracker.split(600)
        print(f"{done} splits, {refused} refused", file=sys.stderr)
        tracker.end_log()
        print(tracker.log(), end="")
        print(f"{len(tracker.vertices())} vertices, {len(tracker.faces())} faces", file=sys.stderr)
        try:
            tracker.shift({99999: (1, 0, 0)})
        except TopoError as why:
            print("refused:", *why.args[1:], file=sys.stderr)
    try:
        Tracker(low + [(x, y + 500, z) for x, y, z in low], low_faces + [tuple(8 + v for v in f) for f in low_faces], library=library)
    except TopoError as why:
        print("meets:", *why.args[1:], file=sys.stderr)


if __name__ == "__main__":
    main()
