#!/usr/bin/env python3
"""Whether `library/improve.py` and `merge.py` decide as the headers do: the logs have to be the same.

    checks/twins.py [--library FOLDER]

`checks/twins.cpp` does each job through the headers, and this
script through the modules, with numpy too where that is there. It needs `c++`. Prints how many logs are the same, or which are not.
"""

import os
import subprocess
import sys
import tempfile

ROOT = os.path.dirname(os.path.dirname(os.path.abspath(__file__)))
sys.path[:0] = [os.path.join(ROOT, "library"), os.path.join(ROOT, "checks")]
sys.dont_write_bytecode = True
import improve  # noqa: E402
import merge  # noqa: E402
import topo  # noqa: E402
from calling import library_of  # noqa: E402
from improve_cases import H, ball  # noqa: E402
from merge_cases import LIPS, OPEN, groove, slab  # noqa: E402


def pair(shape, by):
    points, faces = shape
    return points + [tuple(x + y for x, y in zip(p, by)) for p in points], faces + [tuple(v + len(points) for v in face) for face in faces]


def jobs():
    """A name, a mode, how many rounds, and the points and faces."""
    far = round(2 * H * 4 / 1.17)
    for seed in range(3):
        yield f"ball {seed}", "flow", 6, ball(3, 0.25, seed)
    points, faces = ball(4, 0.02, 3)
    yield "a flat ball", "flow", 3, ([(x, y, round(0.06 * z)) for x, y, z in points], faces)
    yield "two balls", "merge", 2, pair(ball(4), (far + 400, 31, 17))
    yield "two bumpy balls", "merge", 2, pair(ball(4, 0.1, 5), (31, far + 500, 17))
    yield "two bumpy balls", "improve and merge", 2, pair(ball(4, 0.1, 5), (31, far + 500, 17))
    yield "slabs", "merge", 2, pair(slab(6, 2), (300, 180, 2500))
    yield "a groove", "merge along normals", 2, groove(OPEN)
    yield "a groove below lips", "merge", 2, groove(LIPS)
    yield "zipped balls", "mend", 1, pair(ball(4), (far + 100, 31, 17))


def log_of(library, mode, rounds, points, faces):
    with topo.Tracker(points, faces, library=library) as surface:
        improver = improve.Improver(surface, improve.Improving(H))
        for _ in range(rounds):
            if mode == "flow":
                mesh = improve.Mesh(surface)
                to = [(x + 0.0937 * y, y - 0.0411 * z, z + 0.0193 * x) for x, y, z in mesh.points]
                improve.slide(to, mesh.faces, 0.2)
                surface.shift(mesh.ids, [improve.minus(q, p) for q, p in zip(to, mesh.points)])
                surface.step()
                improver.improve()
            elif mode == "merge":
                merge.merge(surface, merge.Merging(H))
            elif mode == "improve and merge":  # of the rows that are left, with numpy, or of those that are read
                improver.improve()
                merge.merge(surface, merge.Merging(H), improver.mesh_left() if improve.numpy else None)
            elif mode == "merge along normals":
                merge.merge(surface, merge.merging_along_normals(H))
            else:
                surface.zip(H)
                surface.pinch()
                merge.mend(surface, merge.Merging(H))
        return surface.log()


def main():
    library = library_of(__doc__)
    found, same, other = improve.numpy, [], []
    with tempfile.TemporaryDirectory() as folder:
        driver = os.path.join(folder, "twins")
        parts = os.path.join(ROOT, "checks/twins.cpp"), os.path.join(library, "libtopo.a")
        subprocess.run(["c++", "-std=c++17", "-O1", "-I", os.path.join(ROOT, "library"), *parts, "-o", driver], check=True)
        for name, mode, rounds, (points, faces) in jobs():
            mesh = "".join("v %d %d %d\n" % p for p in points) + "".join("f %d %d %d\n" % f for f in faces)
            wanted = subprocess.run([driver, mode, str(rounds)], input=mesh.encode(), stdout=subprocess.PIPE, check=True).stdout.decode()
            for numpy in (None, found) if found else (None,):
                improve.numpy = topo.numpy = merge.numpy = numpy
                got = log_of(os.path.join(library, "libtopo.so"), mode, rounds, points, faces)
                (same if got == wanted and len(got) > 300 else other).append(f"{mode} of {name}{' with numpy' if numpy else ''}")
    print("".join(f"another log: {name}\n" for name in other) + f"{len(same)} logs are the same, {len(other)} are not")
    sys.exit(bool(other))


if __name__ == "__main__":
    main()
