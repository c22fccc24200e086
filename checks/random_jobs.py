#!/usr/bin/env python3
"""Runs random jobs with the program and with another, and compares status, log and files.

What two programs that were written apart answer alike is hardly a slip of either. Beside the reference only jobs of at most 60 faces and
few passes are made. Each job is a few bodies that stand near one another and a text of steps, some with a fault. A job that one of the two
does not end in time is not compared. The last lines count those alike, and the lines of their logs; at a difference the job is kept and
the exit status is 1.
"""

import collections
import itertools
import os
import random
import subprocess
import sys
import tempfile

from calling import REFERENCE, add_number, add_other, reader_of, words_of

# the greatest number of faces, and of passes that may do much, of a job that the reference, which looks at all pairs, is asked for
SMALL_FACES, SMALL_PASSES = 60, 2

TETRAHEDRON = [(0, 0, 0), (4, 0, 0), (0, 4, 0), (0, 0, 4)], [(0, 2, 1), (0, 1, 3), (1, 2, 3), (0, 3, 2)]
CUBE = (
    [(0, 0, 0), (4, 0, 0), (4, 4, 0), (0, 4, 0), (0, 0, 4), (4, 0, 4), (4, 4, 4), (0, 4, 4)],
    [f for a, b, c, d in [(0, 3, 2, 1), (4, 5, 6, 7), (0, 1, 5, 4), (1, 2, 6, 5), (2, 3, 7, 6), (3, 0, 4, 7)] for f in [(a, b, c), (a, c, d)]],
)
OCTAHEDRON = (
    [(4, 0, 0), (-4, 0, 0), (0, 4, 0), (0, -4, 0), (0, 0, 4), (0, 0, -4)],
    [(0, 2, 4), (2, 1, 4), (1, 3, 4), (3, 0, 4), (2, 0, 5), (1, 2, 5), (3, 1, 5), (0, 3, 5)],
)


def ring(n):
    """A closed ring of N times 3 vertices."""
    points = []
    for i in range(n):
        x, y = [(8, 0), (4, 7), (-4, 7), (-8, 0), (-4, -7), (4, -7)][i * 6 // n % 6]
        points += [(2 * x, 2 * y, 0), (x, y, 3), (x, y, -3)]
    at = lambda i, j: 3 * (i % n) + j % 3
    faces = []
    for i in range(n):
        for j in range(3):
            faces += [(at(i, j), at(i + 1, j), at(i + 1, j + 1)), (at(i, j), at(i + 1, j + 1), at(i, j + 1))]
    return points, faces


def mesh_of(dice):
    """Points and faces, from 1: a few bodies, and sometimes a vertex or an edge that two of them share."""
    points, faces = [], []
    scale = dice.choice([1, 1, 2, 5, 20, 1000])
    spread = dice.choice([3, 5, 8])
    for body in range(dice.choice([1, 1, 2, 2, 3, 4, 6])):
        some, sides = dice.choice([TETRAHEDRON, TETRAHEDRON, CUBE, OCTAHEDRON, ring(6)])
        # most stand apart, in a row that wavers
        away = [dice.randint(-spread, spread) * scale for _ in range(3)]
        away[0] += body * dice.choice([8, 12, 16, 16, 24, 36]) * scale
        size = [dice.choice([1, 1, 1, 2]) * scale for _ in range(3)]
        jitter = dice.choice([0, 0, 1])
        base = len(points)
        for p in some:
            points.append([c * s + a + dice.randint(-jitter, jitter) for c, s, a in zip(p, size, away)])
        faces += [[base + v + 1 for v in f] for f in sides]
    if dice.random() < 0.2 and len(points) > 6:
        # two vertices are one
        a, b = dice.sample(range(1, len(points) + 1), 2)
        if not any(a in f and b in f for f in faces):
            faces = [[a if v == b else v for v in f] for f in faces]
    if dice.random() < 0.1:
        dice.shuffle(faces)
    if dice.random() < 0.03:
        faces.pop()
    return points, faces, scale


def shift_of(dice, scale):
    far = dice.choice([0, 1, 2, 4, 8, 30]) * scale
    return " ".join(str(dice.randint(-far, far)) for _ in range(3))


def directive(dice, vertices, scale, depth):
    kind = dice.random()
    vertex = dice.randint(1, vertices + (3 if dice.random() < 0.1 else 0))
    if kind < 0.30:
        return f"shift {vertex} {shift_of(dice, scale)}"
    if kind < 0.36:
        return f"shift all {shift_of(dice, scale)}"
    if kind < 0.40:
        return f"drive {dice.choice(['swirl', 'swell', 'shrink'] if dice.random() < 0.95 else ['nothing'])}"
    if kind < 0.43:
        return f"solid {vertex}"
    if kind < 0.50:
        return f"split {dice.choice([2, 4, 6, 9]) * scale}"
    if kind < 0.58:
        return f"collapse {dice.choice([1, 2, 4, 5, 7]) * scale}"
    if kind < 0.61:
        return "flip"
    if kind < 0.645:
        return "fit"
    if kind < 0.68:
        return f"zip {dice.choice([0, 1, 2, 4, 6]) * scale}"
    if kind < 0.72:
        return "pinch"
    if kind < 0.88:
        return "step"
    if kind < 0.91:
        return "save"
    if kind < 0.96:
        name, most = dice.choice([("depth", 10), ("halvings", 10), ("passes", 5), ("zones", 1)])
        return f"set {name} {dice.randint(0, most)}"
    return dice.choice(["group", "close"] if depth[0] else ["group"])


def steps_of(dice, vertices, scale):
    lines, depth = [], [0]
    for _ in range(dice.randint(1, 24)):
        line = directive(dice, vertices, scale, depth)
        if line == "group" and depth[0] == 8:
            continue
        depth[0] += {"group": 1, "close": -1}.get(line, 0)
        lines.append(line)
    lines += ["close"] * depth[0]
    if dice.random() < 0.03:
        lines.insert(dice.randint(0, len(lines)), dice.choice(["walk", "split", "split x", "shift 0 1 1 1", "set depth 11", "close", "step 1", "# nothing"]))
    return "".join(line + "\n" for line in lines)


def obj_of(dice, points, faces, places):
    """The text of the mesh, with so many digits behind the point."""
    word = lambda c: f"{c / 10**places:.{places}f}"
    lines = ["v " + " ".join(word(c) for c in p) for p in points]
    lines += ["f " + " ".join(str(v) for v in f) for f in faces]
    if dice.random() < 0.03:
        lines.insert(dice.randint(0, len(lines)), dice.choice(["v 1 2", "f 1 2", "v 1 x 3", "vn 1 2 3", "g body", "f 1 2 9999", "thing"]))
    return "".join(line + "\n" for line in lines)


def job_of(seed):
    dice = random.Random(seed)
    points, faces, scale = mesh_of(dice)
    places = dice.choice([0, 0, 0, 1, 3, 6])
    words = ["track", "m.obj", "s.txt", "out"] + ([] if places == 0 else ["--decimals", str(places)])
    if dice.random() < 0.03:
        words = ["convert", "m.obj", "m." + dice.choice(["off", "ply", "obj"])] + words[4:]
    return obj_of(dice, points, faces, places), steps_of(dice, len(points), scale), words


def outcome(program, mesh, steps, words, seconds):
    with tempfile.TemporaryDirectory() as folder:
        for name, text in (("m.obj", mesh), ("s.txt", steps)):
            with open(os.path.join(folder, name), "w", encoding="utf-8", newline="") as it:
                it.write(text)
        try:
            ran = subprocess.run([program, *words], cwd=folder, stdout=subprocess.PIPE, stderr=subprocess.DEVNULL, timeout=seconds)
        except subprocess.TimeoutExpired:
            return None
        files = {}
        for name in os.listdir(folder):
            with open(os.path.join(folder, name), "rb") as it:
                files[name] = it.read()
        return ran.returncode, ran.stdout, files


def keep_files(prefix, words, files):
    """A new folder with these files and the words that they are for."""
    folder = tempfile.mkdtemp(prefix=prefix)
    for name, text in {**files, "words": " ".join(words).encode() + b"\n"}.items():
        with open(os.path.join(folder, name), "wb") as it:
            it.write(text)
    return folder


def keep(seed, mesh, steps, words):
    return keep_files(f"job-{seed}-", words, {"m.obj": mesh.encode(), "s.txt": steps.encode()})


def is_small(mesh, steps, faces=SMALL_FACES):
    """Whether a job is small enough for the reference."""
    many = sum(line.startswith(("split", "fit", "zip")) for line in steps.split("\n"))
    return mesh.count("\nf ") <= faces and many <= SMALL_PASSES


def jobs_from(job_of, seed, count, other, faces=SMALL_FACES):
    """So many jobs from a number on, each with its number; for the reference those that are small enough."""
    numbers = itertools.count(seed)
    while count:
        number = next(numbers)
        job = job_of(number)
        if other != REFERENCE or is_small(*job[:2], faces):
            count -= 1
            yield number, job


def words_of_comparison(text, count, seconds):
    """The words of a check that compares two programs on random jobs."""
    reader = reader_of(text)
    add_other(reader)
    add_number(reader, "count", count, "so many jobs")
    add_number(reader, "seed", 1, "the first is that of this number")
    add_number(reader, "seconds", seconds, "the time of a run")
    return reader


def compare(job_of, words, faces=SMALL_FACES):
    """Runs jobs with the program and with another, tells how many were alike, and answers the lines of the logs that were, in words, and the
    exit status."""
    alike = late = unlike = 0
    lines = []
    for number, job in jobs_from(job_of, words.seed, words.count, words.other, faces):
        one, two = outcome(words.program, *job, words.seconds), outcome(words.other, *job, words.seconds)
        if one is None or two is None:
            late += 1
        elif one == two:
            alike += 1
            lines += [line.decode().split(" ")[:2] for line in one[1].split(b"\n")]
        else:
            unlike += 1
            print(f"job {number}: {'status' if one[0] != two[0] else 'log' if one[1] != two[1] else 'files'} differ; it is kept in {keep(number, *job)}")
    print(f"{alike} alike, {unlike} not, {late} not ended in time")
    return lines, 1 if unlike else 0


def counted(words):
    """How often each of these words stands, in a line."""
    return ", ".join(f"{word} {n}" for word, n in sorted(collections.Counter(words).items()) if word)


def main():
    lines, status = compare(job_of, words_of(words_of_comparison(__doc__, 100, 20)))
    print("lines of these logs:", counted(line[0] for line in lines))
    return status


if __name__ == "__main__":
    sys.exit(main())
