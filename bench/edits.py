#!/usr/bin/env python3
"""Times passes of edits as the mesh grows: how many a second, less a pass over the same mesh that finds nothing to do.

splits, collapses: some of the longest, or of the shortest, edges of a globe; the shortest stand round a pole, and each ends others.
rough: splits, collapses and flips on a rough ring.
zips: two plates that face each other, of which the upper one hangs down in one place, so that few edges are near enough; once with a
distance at which none is, and once with one at which some are.
"""

import math
import tempfile

from job import Run, globe, put_mesh, reader_of, rough, squared_lengths, words_of

SIDE, GAP, DENT = 100, 40, 10


def globes(words):
    for sides in ((84, 119), (169, 237)):
        points, faces = globe(*words.sized(*sides), radius=1_000_000)
        yield points, faces, squared_lengths(points, faces)


def splits(words):
    for points, faces, lengths in globes(words):
        yield points, faces, "split 268435456", f"split {math.isqrt(lengths[-1 - words.count])}"


def collapses(words):
    for points, faces, lengths in globes(words):
        yield points, faces, "collapse 0", f"collapse {math.isqrt(lengths[words.count])}"


def on_rough(words):
    for sides in ((140, 72), (280, 143)):
        points, faces = rough(*words.sized(*sides))
        lengths = squared_lengths(points, faces)
        many = len(faces) // 10
        for busy in (f"split {math.isqrt(lengths[-many])}", f"collapse {math.isqrt(lengths[many])}", "flip"):
            yield points, faces, "split 268435456", busy


def plate(n, low, high, dent):
    """A closed box of N * N squares above and below, whose middle lies DENT lower."""
    points, faces = [], []
    for z in (low, high):
        for j in range(n + 1):
            for i in range(n + 1):
                inside = abs(i - n // 2) <= 1 and abs(j - n // 2) <= 1
                points.append((SIDE * i, SIDE * j, z - (dent if inside else 0)))
    at = lambda k, i, j: 1 + k * (n + 1) ** 2 + j * (n + 1) + i
    quads = []
    for j in range(n):
        for i in range(n):
            quads.append((at(0, i, j), at(0, i, j + 1), at(0, i + 1, j + 1), at(0, i + 1, j)))
            quads.append((at(1, i, j), at(1, i + 1, j), at(1, i + 1, j + 1), at(1, i, j + 1)))
    for i in range(n):
        quads.append((at(0, i, 0), at(0, i + 1, 0), at(1, i + 1, 0), at(1, i, 0)))
        quads.append((at(0, i + 1, n), at(0, i, n), at(1, i, n), at(1, i + 1, n)))
        quads.append((at(0, 0, i + 1), at(0, 0, i), at(1, 0, i), at(1, 0, i + 1)))
        quads.append((at(0, n, i), at(0, n, i + 1), at(1, n, i + 1), at(1, n, i)))
    for a, b, c, d in quads:
        faces += [(a, b, c), (a, c, d)]
    return points, faces


def zips(words):
    for n in words.sized(50, 100):
        points, faces = plate(n, -200, 0, 0)
        above, more = plate(n, GAP, GAP + 200, DENT)
        base = len(points)
        points, faces = points + above, faces + [tuple(base + v for v in f) for f in more]
        for within in (29, 31):
            yield points, faces, "collapse 0", f"zip {within}"


KINDS = {"splits": splits, "collapses": collapses, "rough": on_rough, "zips": zips}


def row(words, points, faces, idle, busy):
    with tempfile.TemporaryDirectory() as folder:
        put_mesh(folder, points, faces)
        beside = Run(words.program, folder, [idle + "\n"], words.best_of)
        whole = Run(words.program, folder, [busy + "\n"], words.best_of)
    word = busy.split()[0].encode()
    done, refused = whole.counted(word), whole.counted(b"no " + word)
    seconds = max(whole.seconds - beside.seconds, 0.001)
    print(f"| {len(faces):,} | {busy} | {whole.status} | {done:,} | {refused:,} | {seconds:.2f} | {(done + refused) / seconds:,.0f} | {beside.seconds:.2f} | "
          f"{whole.memory:.0f} |", flush=True)


def main():
    reader = reader_of(__doc__, KINDS)
    reader.add_argument("--count", type=int, default=40, help="about so many edges of splits and collapses (40)")
    words = words_of(reader)
    print("| faces | pass | status | done | refused | s | a second | s beside them | MiB |\n|---|---|---|---|---|---|---|---|---|", flush=True)
    for kind in words.of or KINDS:
        for job in KINDS[kind](words):
            row(words, *job)


if __name__ == "__main__":
    main()
