"""What the benchmarks share: how they are called, meshes and steps, and how a run is measured."""

import argparse
import math
import os
import random
import subprocess
import sys

ROOT = os.path.dirname(os.path.dirname(os.path.abspath(__file__)))
sys.path.append(os.path.join(ROOT, "checks"))
from calling import say_what_is_built  # noqa: E402

TOPO = os.path.join(ROOT, "topo")
CORNERS = [(0, 0, 0), (40, 0, 0), (40, 40, 0), (0, 40, 0), (0, 0, 40), (40, 0, 40), (40, 40, 40), (0, 40, 40)]
QUADS = [(1, 4, 3, 2), (5, 6, 7, 8), (1, 2, 6, 5), (2, 3, 7, 6), (3, 4, 8, 7), (4, 1, 5, 8)]
TETRAHEDRON = ([(0, 0, 0), (4, 0, 0), (0, 4, 0), (0, 0, 4)], [(1, 3, 2), (1, 2, 4), (2, 3, 4), (1, 4, 3)])
TRACK = ["track", "mesh.obj", "steps.txt", "t"]
# Runs the words behind a limit of seconds and one of KiB of stack (0: as it is), and prints the status, the processor seconds and the most
# memory in KiB. A process of its own, as small as may be, since a program counts the memory of what starts it.
ONE = """
import os, resource, sys
limit, stack, *words = sys.argv[1:]
if stack != "0":
    resource.setrlimit(resource.RLIMIT_STACK, (int(stack) << 10, resource.getrlimit(resource.RLIMIT_STACK)[1]))
null = [(os.POSIX_SPAWN_OPEN, 2, os.devnull, os.O_WRONLY, 0)]
child = os.posix_spawnp("timeout", ["timeout", limit] + words, os.environ, file_actions=null)
_, status, used = os.wait4(child, 0)
sys.stderr.write("%d %f %d" % (os.waitstatus_to_exitcode(status), used.ru_utime + used.ru_stime, used.ru_maxrss))
"""


def reader_of(text, kinds=(), best_of=True, small=True):
    """A reader of a benchmark's words. PROGRAM comes first, and is `./topo` where it is left out."""
    reader = argparse.ArgumentParser(description=text, formatter_class=argparse.RawDescriptionHelpFormatter)
    reader.add_argument("program", nargs="?", default=TOPO, metavar="PROGRAM", help="the built program; ./topo, which is built where need be, if left out")
    if best_of:
        reader.add_argument("--best-of", type=int, default=3, metavar="N", help="the least seconds of so many runs (3)")
    if small:
        reader.add_argument("--small", action="store_true", help="meshes of a hundredth of the faces: to see that the script runs")
    if kinds:
        reader.add_argument("--of", action="append", choices=list(kinds), help="this alone; may be given more than once")
    return reader


def words_of(reader):
    """The words of a call. The program is built where that is not done."""
    words = reader.parse_args()
    words.program = os.path.abspath(words.program)
    say_what_is_built(words.program)
    words.sized = lambda *sides: tuple(max(4, n // 10) for n in sides) if getattr(words, "small", False) else sides
    subprocess.run([words.program, "--version"], check=True, stdout=subprocess.DEVNULL)
    return words


def globe(rings, sides, radius=60_000_000):
    """A closed surface of RINGS rings of SIDES vertices and two poles."""
    points, faces = [(0, 0, radius)], []
    for r in range(1, rings + 1):
        down = math.pi * r / (rings + 1)
        for s in range(sides):
            turn = 2 * math.pi * s / sides
            points.append((round(radius * math.sin(down) * math.cos(turn)), round(radius * math.sin(down) * math.sin(turn)), round(radius * math.cos(down))))
    points.append((0, 0, -radius))
    at = lambda r, s: 2 + r * sides + s % sides
    last = len(points)
    for s in range(sides):
        faces.append((1, at(0, s), at(0, s + 1)))
        for r in range(rings - 1):
            faces.append((at(r, s), at(r + 1, s), at(r + 1, s + 1)))
            faces.append((at(r, s), at(r + 1, s + 1), at(r, s + 1)))
        faces.append((at(rings - 1, s), last, at(rings - 1, s + 1)))
    return points, faces


def torus(around, across, radius=40_000_000, tube=15_000_000):
    """A closed surface of AROUND times ACROSS vertices in the shape of a ring."""
    points, faces = [], []
    for i in range(around):
        turn = 2 * math.pi * i / around
        for j in range(across):
            up = 2 * math.pi * j / across
            out = radius + tube * math.cos(up)
            points.append((round(out * math.cos(turn)), round(out * math.sin(turn)), round(tube * math.sin(up))))
    at = lambda i, j: 1 + i % around * across + j % across
    for i in range(around):
        for j in range(across):
            faces.append((at(i, j), at(i + 1, j), at(i + 1, j + 1)))
            faces.append((at(i, j), at(i + 1, j + 1), at(i, j + 1)))
    return points, faces


def ball(times, radius=60_000_000):
    """A sphere: the 20 faces of an icosahedron, each cut in four so many times."""
    gold = (1 + math.sqrt(5)) / 2
    points = [(a, b, 0) for a, b in ((-1, gold), (1, gold), (-1, -gold), (1, -gold))]
    points = points + [(0, x, y) for x, y, _ in points] + [(y, 0, x) for x, y, _ in points]
    faces = [(1, 12, 6), (1, 6, 2), (1, 2, 8), (1, 8, 11), (1, 11, 12), (2, 6, 10), (6, 12, 5), (12, 11, 3), (11, 8, 7), (8, 2, 9),
             (4, 10, 5), (4, 5, 3), (4, 3, 7), (4, 7, 9), (4, 9, 10), (5, 10, 6), (3, 5, 12), (7, 3, 11), (9, 7, 8), (10, 9, 2)]
    on_sphere = lambda p: tuple(x / math.sqrt(sum(y * y for y in p)) for x in p)
    points = [on_sphere(p) for p in points]
    for _ in range(times):
        between, cut = {}, []

        def middle(a, b):
            ends = (a, b) if a < b else (b, a)
            if ends not in between:
                points.append(on_sphere(tuple(x + y for x, y in zip(points[a - 1], points[b - 1]))))
                between[ends] = len(points)
            return between[ends]

        for a, b, c in faces:
            ab, bc, ca = middle(a, b), middle(b, c), middle(c, a)
            cut += [(a, ab, ca), (b, bc, ab), (c, ca, bc), (ab, bc, ca)]
        faces = cut
    return [tuple(round(x * radius) for x in p) for p in points], faces


def cubes(n):
    """N * N * N cubes of side 40 at distances of 100."""
    points, faces = [], []
    for z in range(n):
        for y in range(n):
            for x in range(n):
                base = len(points)
                points += [(100 * x + i, 100 * y + j, 100 * z + k) for i, j, k in CORNERS]
                for a, b, c, d in QUADS:
                    faces += [(base + a, base + b, base + c), (base + a, base + c, base + d)]
    return points, faces


def put_mesh(folder, points, faces):
    with open(os.path.join(folder, "mesh.obj"), "w") as out:
        out.writelines("v %d %d %d\n" % p for p in points)
        out.writelines("f %d %d %d\n" % f for f in faces)


def put_steps(folder, steps):
    with open(os.path.join(folder, "steps.txt"), "w") as out:
        out.writelines(steps)


def measured(program, folder, words, limit=600, stack=0, into="log"):
    """Runs a command in a folder: its status, its processor seconds and its most memory in MiB. Its output is kept under a name there."""
    call = [sys.executable, "-S", "-c", ONE, str(limit), str(stack), program, *words]
    with open(os.path.join(folder, into), "wb") as out:
        said = subprocess.run(call, cwd=folder, stdout=out, stderr=subprocess.PIPE, check=True).stderr.split()
    return int(said[0]), float(said[1]), int(said[2]) / 1024


class Run:
    """Some runs of the job of a folder's mesh and these steps: the least seconds, the most memory, the status, and the lines of the log."""

    def __init__(self, program, folder, steps, best_of=1, limit=600):
        put_steps(folder, steps)
        self.seconds, self.memory, self.status = math.inf, 0, None
        for _ in range(best_of):
            if self.status == 124:
                break
            self.status, seconds, memory = measured(program, folder, TRACK, limit)
            self.seconds, self.memory = min(self.seconds, seconds), max(self.memory, memory)
        with open(os.path.join(folder, "log"), "rb") as log:
            self.lines = log.read().split(b"\n")[:-1]

    def counted(self, word):
        return sum(line.startswith(word + b" ") for line in self.lines)


def squared_lengths(points, faces):
    """The squares of the lengths of all edges, rising."""
    edges = {tuple(sorted(e)) for f in faces for e in ((f[0], f[1]), (f[1], f[2]), (f[2], f[0]))}
    return sorted(sum((p - q) ** 2 for p, q in zip(points[a - 1], points[b - 1])) for a, b in edges)


def rough(around, across):
    """A ring whose vertices stand a little beside their places."""
    dice = random.Random(3)
    points, faces = torus(around, across, radius=4_000_000, tube=1_500_000)
    return [tuple(x + dice.randint(-9_000, 9_000) for x in p) for p in points], faces


def put(mesh, at, size):
    """Puts a tetrahedron of this size, one number or one for each axis, at a place."""
    points, faces = mesh
    sizes = size if isinstance(size, tuple) else (size,) * 3
    base = len(points)
    points += [tuple(at[k] + p[k] // 4 * sizes[k] for k in range(3)) for p in TETRAHEDRON[0]]
    faces += [tuple(base + c for c in f) for f in TETRAHEDRON[1]]


def small_ones(n, size=600, apart=1_000):
    """N tetrahedra beside one another."""
    mesh = ([], [])
    for i in range(n):
        put(mesh, (i % 128 * apart, i // 128 % 128 * apart, i // 16_384 * apart), size)
    return mesh


def there_and_back(vertices, count):
    """Steps of the cubes, each with a displacement of its own for all its vertices, there and back."""
    for k in range(count):
        sign = 1 if k % 2 == 0 else -1
        for v in range(vertices):
            yield "shift %d %d %d %d\n" % (v + 1, *(sign * (1 + (38 + 7 * (v // 8 + 1) + 13 * axis) % 9) for axis in range(3)))
        yield "step\n"


def turned(around, across):
    """A ring, and the step that takes each vertex to where the next one round the ring stands."""
    points, faces = torus(around, across)
    steps = []
    for i in range(around):
        for j in range(across):
            at, to = points[i * across + j], points[(i + 1) % around * across + j]
            steps.append("shift %d %d %d %d\n" % ((i * across + j + 1,) + tuple(q - p for p, q in zip(at, to))))
    return (points, faces), steps + ["step\n"]
