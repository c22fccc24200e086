#!/usr/bin/env python3
"""Measures a built program against what it is to cost, and beside a second program where one is given.

Makes its own meshes and prints a table: the job, the least processor seconds of the whole process, those of the other program (a dash where it
can't do the job, or takes more than 30 s), their ratio, and the aim. Rates are those of a pass beside a pass over the same mesh that finds
nothing to do.
"""

import math
import os
import random
import tempfile

from job import Run, cubes, put, put_mesh, reader_of, rough, small_ones, squared_lengths, there_and_back, torus, turned, words_of

BOX = 268_435_456
FACES_MAX = 131_072


class Programs:
    """The program, and the other one where there is one, on one mesh and then another."""

    def __init__(self, words):
        self.program, self.best_of, self.sized, self.small = words.program, words.best_of, words.sized, words.small
        self.other = words.other and os.path.abspath(words.other)

    def run(self, mesh, steps):
        """The runs of both."""
        with tempfile.TemporaryDirectory() as folder:
            put_mesh(folder, *mesh)
            steps = list(steps)
            mine = Run(self.program, folder, steps, self.best_of)
            theirs = Run(self.other, folder, steps, self.best_of, 30) if self.other else None
        if theirs and (theirs.status != mine.status or len(theirs.lines) != len(mine.lines)):
            theirs = None
        return mine, theirs


def row(what, mine, theirs, aim):
    """Prints a row of two figures."""
    beside = "-" if theirs is None else f"{theirs:.3g}"
    ratio = "-" if not theirs else f"{mine / theirs:.2f}"
    print(f"| {what} | {mine:.3g} | {beside} | {ratio} | {aim} |", flush=True)


def seconds(run):
    return None if run is None else run.seconds


def thrown_cubes(n, apart, by):
    """N * N * N cubes of side 40, each with a shift of its own by this length."""
    dice = random.Random(7)
    points, faces = cubes(n)
    points = [tuple(x // 100 * apart + x % 100 for x in p) for p in points]
    steps = []
    for cube in range(n ** 3):
        way = [dice.gauss(0, 1) for _ in range(3)]
        size = math.sqrt(sum(x * x for x in way))
        for v in range(8 * cube + 1, 8 * cube + 9):
            steps.append("shift %d %d %d %d\n" % ((v,) + tuple(round(x * by / size) for x in way)))
    return (points, faces), steps + ["step\n"]


def sheets(side, step, gap, count):
    """COUNT sheets of SIDE * SIDE squares, each with two sides and no thickness, one over the other."""
    points, faces = [], []
    for k in range(count):
        base = len(points) + 1
        points += [(i * step, j * step, k * gap) for i in range(side + 1) for j in range(side + 1)]
        at = lambda i, j: base + i * (side + 1) + j
        for i in range(side):
            for j in range(side):
                a, c, d, e = at(i, j), at(i + 1, j), at(i + 1, j + 1), at(i, j + 1)
                faces += [(a, c, d), (a, d, e), (a, d, c), (a, e, d)]
    return points, faces


def steps_and_rest(programs):
    """Steps and tests at rest, small and large."""
    n, count = (4, 4) if programs.small else (12, 64)
    mesh = cubes(n)
    mine, theirs = programs.run(mesh, [*there_and_back(len(mesh[0]), count), "save\n"])
    row(f"{count} steps of {len(mesh[1]):,} faces of cubes", mine.seconds, seconds(theirs), "-")
    found = {}
    for sides in ((128, 79), (256, 256)):
        ring, steps = turned(*programs.sized(*sides))
        for what, these in (("at rest", []), ("turned by an edge length", steps)):
            mine, theirs = programs.run(ring, these)
            found[what, sides[0]] = mine.seconds
            row(f"{len(ring[1]):,} faces, {what}", mine.seconds, seconds(theirs), "-")
    for what in ("at rest", "turned by an edge length"):
        row(f"{what}, 6.48 times the faces: how many times the seconds", found[what, 256] / found[what, 128], None, "at most 7")


def whole_motions(programs):
    sheet = sheets(*programs.sized(181), 1_000, 0, 1)
    still, _ = programs.run(sheet, [])
    row(f"a sheet of {len(sheet[1]):,} faces at rest", still.seconds, None, "-")
    for by in (1_000, 16_000, 1_000_000):
        mine, theirs = programs.run(sheet, ["shift all %d 0 0\n" % by, "step\n"])
        row(f"the same moved as a whole by {by:,}", mine.seconds, seconds(theirs), f"twice as at rest: {2 * still.seconds:.2f}")


def thrown(programs):
    n = 4 if programs.small else 12
    one, _ = programs.run(*thrown_cubes(n, 3_000, 40))
    row(f"{n ** 3:,} cubes, each thrown its own way by an edge length", one.seconds, None, "-")
    mine, theirs = programs.run(*thrown_cubes(n, 3_000, 4_000))
    row(f"by a hundred edge lengths ({mine.counted(b'hit')} failing pairs)", mine.seconds, seconds(theirs), f"10 times that: {10 * one.seconds:.2f}")


def halved(programs):
    mesh = sheets(*programs.sized(50), 1_000, 1, 2)
    half = len(mesh[0]) // 2
    down = ["set passes 0\n", "set zones 0\n"] + ["shift %d 0 0 -60000000\n" % v for v in range(half + 1, 2 * half + 1)]
    first, _ = programs.run(mesh, down + ["set halvings 0\n", "step\n"])
    row(f"two sheets of {len(mesh[1]) // 2:,} faces, one through the other: {first.counted(b'hit')} failing pairs", first.seconds, None, "-")
    mine, _ = programs.run(mesh, down + ["set halvings 27\n", "step\n"])
    row(f"the same, {next((x.decode() for x in mine.lines if x.startswith(b'moved')), 'not ended')}".strip(), mine.seconds, None, f"twice that: {2 * first.seconds:.2f}")


def passes(programs):
    for sides in ((140, 72), (280, 143), (245, 240)):
        mesh = rough(*programs.sized(*sides))
        lengths = squared_lengths(*mesh)
        many = min(len(mesh[1]) // 4, (FACES_MAX - len(mesh[1])) // 2 - 10)
        idle, idle_there = programs.run(mesh, ["split 268435456\n"])
        for word, step, aim in (("split", f"split {math.isqrt(lengths[-many])}", 100_000), ("collapse", f"collapse {math.isqrt(lengths[many // 4])}", 30_000), ("flip", "flip", 80_000)):
            mine, theirs = programs.run(mesh, [step + "\n"])
            tried = mine.counted(word.encode()) + mine.counted(b"no " + word.encode())
            rate = tried / max(mine.seconds - idle.seconds, 0.001)
            beside = None if theirs is None else tried / max(theirs.seconds - idle_there.seconds, 0.001)
            row(f"{word}s a second, {len(mesh[1]):,} faces ({mine.counted(word.encode())} done, {mine.counted(b'no ' + word.encode())} refused)", rate, beside, f"{aim:,}")
            if word == "split":
                row(f"MiB at most, of which {idle.memory:.0f} without a split", mine.memory, theirs and theirs.memory, f"3 times: {3 * idle.memory:.0f}")


def refined(programs):
    """A coarse mesh refined by passes of splits, and a fine one made coarse by passes of collapses."""
    coarse = torus(24, 12, radius=4_000_000, tube=1_500_000)
    longest = math.isqrt(max(squared_lengths(*coarse)))
    splits = [f"split {int(longest / 1.5 ** k)}\n" for k in range(1, 12)]
    fine = rough(*programs.sized(280, 143))
    lengths = squared_lengths(*fine)
    middle = math.isqrt(lengths[len(lengths) // 2])
    collapses = [f"collapse {int(middle * 1.3 ** k)}\n" for k in range(9)]
    for word, mesh, steps in (("split", coarse, splits), ("collapse", fine, collapses)):
        mine, theirs = programs.run(mesh, steps)
        done, refused = mine.counted(word.encode()), mine.counted(b"no " + word.encode())
        rate = (done + refused) / mine.seconds
        beside = None if theirs is None else (done + refused) / theirs.seconds
        row(f"{word}s a second in {len(steps)} passes, from {len(mesh[1]):,} faces ({done} done, {refused} refused)", rate, beside, "-")


def sizes(programs):
    """Faces whose sizes differ much, beside as many of one size."""
    part = 100 if programs.small else 1
    mesh = small_ones(16_000 // part)
    plain, _ = programs.run(mesh, [])
    row(f"{len(mesh[1]):,} faces of small bodies at rest", plain.seconds, None, "-")
    aim = f"3 times that: {3 * plain.seconds:.2f}"
    put(mesh, (-60_000_000,) * 3, 320_000_000)
    named = [("the same in one huge body", mesh)]
    mesh = small_ones(8_192 // part, 3, 5)
    for i in range(8_192 // part):
        put(mesh, (1_000_000 + i % 128 * 20_000, i // 128 * 20_000, 0), 15_000)
    named.append((f"{len(mesh[1]):,} faces, half tiny and half large", mesh))
    mesh = ([], [])
    for i in range(16_384 // part):
        put(mesh, (-60_000_000, i % 128 * 1_000, i // 128 * 1_000), (120_000_000, 400, 400))
    named.append((f"{len(mesh[1]):,} faces of parallel needles", mesh))
    mesh = ([], [])
    for level in range(20):
        size, apart = 2 ** (level + 1), 2 * BOX // 30
        for i in range(819 // part):
            put(mesh, (-BOX + i % 29 * apart, -BOX + i // 29 * apart, -BOX + 10 + 3 * size), min(size, apart - 2))
    named.append((f"{len(mesh[1]):,} faces of twenty sizes", mesh))
    for what, mesh in named:
        mine, theirs = programs.run(mesh, [])
        row(what, mine.seconds, seconds(theirs), aim)


def main():
    reader = reader_of(__doc__)
    reader.add_argument("--other", metavar="OTHER", help="a second program with the same command line")
    programs = Programs(words_of(reader))
    print("| job | seconds | other program | ratio | aim |\n|---|---|---|---|---|", flush=True)
    for part in (steps_and_rest, whole_motions, thrown, halved, passes, refined, sizes):
        part(programs)


if __name__ == "__main__":
    main()
