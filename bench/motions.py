#!/usr/bin/env python3
"""Times steps of large meshes.

whole: a globe that moves as a whole (10 steps); with 16 steps its log has more than a million lines.
cubes: cubes in rows that each go their own way, there and back (64 steps, 12 cubes a row); looks whether they came back.
smooth: rings and balls in a wave that goes through the mesh and returns, by a twentieth of an edge at most in a step (16 steps), beside one
such step; near vertices move alike and far ones do not.
thrown: cubes (6 a row) thrown toward the middle of all (4 steps), so that many pairs fail: as the settings are at first, without impact
zones, and without impulses and zones.
"""

import math
import os
import tempfile

from job import Run, cubes, globe, put_mesh, reader_of, there_and_back, torus, words_of

COUNTS = {"whole": 10, "cubes": 64, "smooth": 16, "thrown": 4}


def report(what, faces, count, run, more=""):
    ways = ", ".join(f"{way.decode()} {run.lines.count(b'moved ' + way)}" for way in sorted({line[6:] for line in run.lines if line.startswith(b"moved ")}))
    print(f"| {what} | {len(faces):,} | {count} | {run.status} | {run.seconds:.2f} | {run.seconds / count:.3f} | {run.memory:.0f} | {len(run.lines):,} | "
          f"{ways}{more} |", flush=True)


def whole(words, count):
    points, faces = globe(*words.sized(217, 302))
    with tempfile.TemporaryDirectory() as folder:
        put_mesh(folder, points, faces)
        run = Run(words.program, folder, ["shift all 1000 -2000 3000\nstep\n"] * count + ["save\n"], words.best_of)
    report("a globe, as a whole", faces, count, run)


def cubes_apart(words, count):
    n = words.side or words.sized(12)[0]
    points, faces = cubes(n)
    with tempfile.TemporaryDirectory() as folder:
        put_mesh(folder, points, faces)
        run = Run(words.program, folder, [*there_and_back(len(points), count), "save\n"], words.best_of)
        first, last = (open(os.path.join(folder, "t-00000%d.obj" % k), "rb").read() for k in (0, 1))
    report(f"{n ** 3:,} cubes, there and back", faces, count, run, f"; {'back' if first == last else 'NOT back'} where they were")


def edge_of(points, faces):
    """The median of the edges' lengths, of some of the faces."""
    some = faces[:: max(1, len(faces) // 999)]
    return sorted(math.dist(points[a - 1], points[b - 1]) for f in some for a, b in ((f[0], f[1]), (f[1], f[2])))[len(some)]


def flow(points, count, most):
    """The lines of COUNT steps, in each of which a vertex moves by at most MOST along each axis, and vertices that are near by about the same."""
    size = max(abs(c) for p in points for c in p)
    places = [list(p) for p in points]
    for k in range(count):
        for v, p in enumerate(places, 1):
            by = [round(most * math.sin(2 * p[(axis + 1) % 3] / size + k / 3 + axis)) for axis in range(3)]
            for axis in range(3):
                p[axis] += by[axis]
            yield "shift %d %d %d %d\n" % (v, *by)
        yield "step\n"


def smooth(words, count):
    for name, make, sides in (("a ring", torus, (180, 120)), ("a ring", torus, (256, 256)), ("a ball", globe, (146, 148)), ("a ball", globe, (254, 257))):
        points, faces = make(*words.sized(*sides))
        lines = list(flow(points, count, edge_of(points, faces) / 20))
        with tempfile.TemporaryDirectory() as folder:
            put_mesh(folder, points, faces)
            one = Run(words.program, folder, lines[: len(points) + 1], words.best_of)
            run = Run(words.program, folder, lines, words.best_of)
        report(f"{name}, smooth", faces, count, run, f"; one step {one.seconds:.2f} s, a step more {(run.seconds - one.seconds) / max(1, count - 1):.3f} s")


def thrown(words, count):
    n = words.side or (3 if words.small else 6)
    points, faces = cubes(n)
    middle, lines = 50 * n - 30, []
    for k in range(count):
        for v in range(len(points)):
            part = 2 + (7 * (v // 8) + 3 * k) % 5
            lines.append("shift %d %d %d %d\n" % ((v + 1,) + tuple((middle - x) // part for x in points[v // 8 * 8])))
        lines.append("step\n")
    for name, settings in (("as at first", []), ("without zones", ["set zones 0\n"]), ("without impulses and zones", ["set passes 0\n", "set zones 0\n"])):
        with tempfile.TemporaryDirectory() as folder:
            put_mesh(folder, points, faces)
            run = Run(words.program, folder, settings + lines, words.best_of)
        report(f"{n ** 3} cubes thrown, {name}", faces, count, run, f"; {run.counted(b'hit') // count} failing pairs a step")


KINDS = {"whole": whole, "cubes": cubes_apart, "smooth": smooth, "thrown": thrown}


def main():
    reader = reader_of(__doc__, KINDS)
    reader.add_argument("--steps", type=int, metavar="N", help="so many steps, in the place of what is said above")
    reader.add_argument("--side", type=int, metavar="N", help="so many cubes in a row")
    words = words_of(reader)
    print("| motion | faces | steps | status | s | s a step | MiB | lines | taken |\n|---|---|---|---|---|---|---|---|---|", flush=True)
    for kind in words.of or KINDS:
        KINDS[kind](words, words.steps or COUNTS[kind])


if __name__ == "__main__":
    main()
