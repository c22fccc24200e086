#!/usr/bin/env python3
"""A ball falls into a pool.

    examples/droplet/run.py [PROGRAM]

Makes two closed surfaces on the integer grid, writes `mesh.obj` and `steps.txt` beside this script, has the program (`topo` of this
repository where PROGRAM is left out) run them, and writes the log, `log.txt`, the stored meshes, `drop-000000.obj` and so on, four pictures and a
plot. It prints how many lines of each kind the log has, and what `measure` says of it. README.md says what can be seen.

Each of the 40 time steps requests of each vertex dt times a velocity at its place, and later a smoothing, rounded to whole units of the grid.
After some steps come passes. A pass ends vertices and makes others, so which vertices there are to shift is known only when the program has run
so far: the script writes the steps up to the next pass, runs the program, has `examples/replay.py` replay the log, and goes on from the mesh
that comes of it.
"""

import collections
import importlib.util
import math
import os
import subprocess
import sys

HERE = os.path.dirname(os.path.abspath(__file__))
ROOT = os.path.dirname(os.path.dirname(HERE))


def load(name, *path):
    """A Python file of the repository as a module."""
    spec = importlib.util.spec_from_file_location(name, os.path.join(ROOT, *path))
    module = importlib.util.module_from_spec(spec)
    spec.loader.exec_module(module)
    return module


sys.dont_write_bytecode = True
draw = load("draw", "docs", "pictures", "make.py")
replayer = load("replayer", "examples", "replay.py")

# the ball: its radius, into how many parts an edge of its double pyramid is cut, and how far above the pool it begins
RADIUS, PARTS, HEIGHT = 600, 5, 810
# the pool: its lines along x and along y, and along z, downwards from the surface
LINES, LEVELS = range(-1800, 1801, 200), (0, -200, -400)
STEPS, DT = 40, 0.25
# the fall, in units of the grid and of time; when it ends; and how fast, and to which height, the pool draws the ball in
GRAVITY, CONTACT, RATE, DEPTH = 160, 12, 0.32, 700
# how far out the pool draws; after which step the surface is smoothed, and which part of the way to the mean a vertex goes then
REACH, SMOOTHED, TENSION = 1750, 25, 0.3
# after which steps which passes come; the mesh is saved after each fifth step
PASSES = {12: ["zip 60", "collapse 100", "pinch"], **{step: ["split 300", "collapse 100", "flip", "pinch"] for step in (15, 25, 28, 31, 34, 37, 40)}}


# -- the mesh


def ball():
    """The points and faces of a ball: a double pyramid over eight corners, each of its edges cut into parts, blown up."""
    place, points, faces = {}, [], []
    slant = math.sqrt(0.5)
    corners = ((1, 0), (slant, slant), (0, 1), (-slant, slant), (-1, 0), (-slant, -slant), (0, -1), (slant, -slant))

    def vertex(k, a, b, up):
        """What stands a parts towards corner k, b parts towards the next one, and the others towards the upper or the lower tip."""
        (px, py), (qx, qy) = corners[k], corners[(k + 1) % 8]
        direction = draw.unit((a * px + b * qx, a * py + b * qy, up * (PARTS - a - b)))
        point = tuple(round(RADIUS * it) for it in direction)
        if point not in place:
            points.append(draw.plus(point, (0, 0, RADIUS + HEIGHT)))
            place[point] = len(points)
        return place[point]

    for k in range(8):
        for up in (1, -1):
            for i in range(PARTS):
                for j in range(PARTS - i):
                    found = [(vertex(k, i, j, up), vertex(k, i + 1, j, up), vertex(k, i, j + 1, up))]
                    if i + j + 2 <= PARTS:
                        found.append((vertex(k, i + 1, j, up), vertex(k, i + 1, j + 1, up), vertex(k, i, j + 1, up)))
                    faces += found if up == 1 else [(a, c, b) for a, b, c in found]
    return points, faces


def pool():
    """The points and faces of a closed box whose sides are cut along the lines."""
    place, points, faces = {}, [], []

    def vertex(*point):
        if point not in place:
            points.append(point)
            place[point] = len(points)
        return place[point]

    def square(corners, turn):
        a, b, c, d = (vertex(*p) for p in corners)
        # the diagonals of neighbouring squares run in turn one way and the other
        found = [(a, b, c), (a, c, d)] if turn % 2 == 0 else [(a, b, d), (b, c, d)]
        faces.extend(found)

    rows = range(len(LINES) - 1)
    top, bottom, low, high = LEVELS[0], LEVELS[-1], LINES[0], LINES[-1]
    for i in rows:
        a, b = LINES[i], LINES[i + 1]
        for j in rows:
            c, d = LINES[j], LINES[j + 1]
            square(((a, c, top), (b, c, top), (b, d, top), (a, d, top)), i + j)
            square(((a, c, bottom), (a, d, bottom), (b, d, bottom), (b, c, bottom)), i + j)
        for k in range(len(LEVELS) - 1):
            c, d = LEVELS[k + 1], LEVELS[k]
            square(((a, low, c), (b, low, c), (b, low, d), (a, low, d)), i + k)
            square(((b, high, c), (a, high, c), (a, high, d), (b, high, d)), i + k)
            square(((low, b, c), (low, a, c), (low, a, d), (low, b, d)), i + k)
            square(((high, a, c), (high, b, c), (high, b, d), (high, a, d)), i + k)
    return points, faces


# -- the motion


def velocity(step, point):
    """The velocity at a point in a time step, in units of the grid and of time."""
    x, y, z = point
    if step <= CONTACT:
        # the ball falls, and the pool rests
        return (0, 0, -GRAVITY * DT * step if z > 0 else 0)
    if z < -100:
        return (0, 0, 0)
    # the pool draws the ball in: what is low goes outwards and what is high inwards and down, so that the volume stays
    z = max(z, 0)
    fall = RATE * math.exp(-z / DEPTH)
    out = share(point) * fall * (1 - z / DEPTH) / 2
    return (out * x, out * y, -share(point) * fall * z)


def share(point):
    """Which part of the flow there is at a point: all of it in the middle, and none at the sides and at the bottom."""
    x, y, z = point
    return min(1, max(0, (REACH - math.sqrt(x * x + y * y)) / 1100)) if z >= -100 else 0


def smoothing(points, faces):
    """What smooths the surface, as its tension would: each vertex goes a part of its way to the mean of its neighbours, along the normal. What that
    takes of the volume is given back, evenly."""
    normal, way, count = ({v: (0, 0, 0) for v in points}, {v: (0, 0, 0) for v in points}, dict.fromkeys(points, 0))
    for face in faces:
        a, b, c = (points[v] for v in face)
        across = draw.cross(draw.minus(b, a), draw.minus(c, a))
        for k, v in enumerate(face):
            normal[v] = draw.plus(normal[v], across)
            way[v] = draw.plus(way[v], draw.minus(points[face[k - 1]], points[v]))
            count[v] += 1
    part = {v: share(points[v]) for v in points if count[v]}
    along, area = {v: draw.unit(normal[v]) for v in part}, {v: math.sqrt(draw.dot(normal[v], normal[v])) for v in part}
    by = {v: TENSION * min(1, 4 * part[v]) * draw.dot(way[v], along[v]) / count[v] for v in part}
    back = sum(area[v] * by[v] for v in part) / sum(area[v] * part[v] for v in part)
    return {v: draw.times(along[v], by[v] - back * part[v]) for v in part}


def shifts(step, points, faces):
    """The lines that ask of each vertex what the velocity and the smoothing say, and the points to which that leads."""
    lines, led = [], {}
    smooth = smoothing(points, faces) if step > SMOOTHED else {}
    for v, point in points.items():
        by = tuple(round(DT * it + more) for it, more in zip(velocity(step, point), smooth.get(v, (0, 0, 0))))
        led[v] = draw.plus(point, by)
        if any(by):
            lines.append("shift {} {} {} {}".format(v, *by))
    return lines, led


# -- the job


def write(name, text):
    """Writes a file beside this script."""
    with open(os.path.join(HERE, name), "w", encoding="utf-8", newline="") as it:
        it.write(text)


def run(program, *words):
    """What the program writes, run beside this script."""
    return subprocess.run([program, *words], cwd=HERE, stdout=subprocess.PIPE, check=True).stdout.decode()


def tracked(program, lines):
    """The log of the steps so far, and the mesh after it, with its ids."""
    write("steps.txt", "\n".join(lines) + "\n")
    log = run(program, "track", "mesh.obj", "steps.txt", "drop")
    mesh = replayer.read_mesh(replayer.read(os.path.join(HERE, "mesh.obj")), 0)
    collections.deque(replayer.replay(mesh, log), maxlen=0)
    return log, mesh


def job(program):
    """Writes the mesh and the steps, piece by piece, and runs them; the log."""
    points, faces = pool()
    more, others = ball()
    write("mesh.obj", draw.text_of_mesh(points + more, faces + [tuple(v + len(points) for v in face) for face in others]))
    # nothing moves the sides of the pool and its bottom
    lines = [f"solid {v}" for v, (x, y, z) in enumerate(points, 1) if max(abs(x), abs(y)) == LINES[-1] or z == LEVELS[-1]]
    now, sides = dict(enumerate(points + more, 1)), faces + [tuple(v + len(points) for v in face) for face in others]
    for step in range(1, STEPS + 1):
        asked, now = shifts(step, now, sides)
        lines += [f"# time step {step}", *asked, "step", *PASSES.get(step, []), *(["save"] if step % 5 == 0 else [])]
        if step in PASSES:
            log, mesh = tracked(program, lines)
            now, sides = mesh.points, list(mesh.faces.values())
    return log


# -- what is shown


def kinds_of(log):
    """How many lines of each kind a log has; of a `moved`, a `no` and a `pass` line its second word counts too."""
    rows = [line.split() for line in log.splitlines()]
    names = (" ".join(row[:2] if row[0] in ("moved", "no", "pass", "topo") else row[:1]) for row in rows)
    return collections.Counter(names)


def frames(meshes):
    """Four pictures of stored meshes, all seen alike."""
    camera = draw.Camera((5, -9, 4))
    for number, saved in enumerate((0, 3, 5, 8), 1):
        frame = draw.Frame(camera, [meshes[0]], 10, 44, 620, 520, 10)
        when = f"after {5 * saved} steps" if saved else "before the first step"
        picture = draw.Picture(f"frame-{number}.svg", 640, math.ceil(54 + frame.height), f"The ball and the pool {when}")
        picture.text(20, 30, when, "title")
        picture.text(620, 30, f"{len(meshes[saved].faces)} faces", "soft", "end")
        picture.mesh(frame, meshes[saved], draw.by_body(meshes[saved]))
        write(picture.name, picture.svg())


def plot(measured):
    """A picture of six times the volume at each stored mesh."""
    values = [int(row[3]) for row in (line.split() for line in measured.splitlines()) if row[0] == "measure"]
    low, high = min(values), max(values)
    picture = draw.Picture("volume.svg", 640, 300, "Six times the volume at each stored mesh")
    picture.text(20, 30, "six times the volume, in cubic units of the grid", "title")
    picture.text(20, 52, f"the smallest and the largest differ by {(high - low) / low * 100:.2f} %", "soft")
    place = lambda k: (130 + 480 * k / (len(values) - 1), 230 - 150 * (values[k] - low) / max(1, high - low))
    for value, y in ((high, 80), (low, 230)):
        picture.line((124, y), (616, y), "rule")
        picture.text(116, y + 4, f"{value:,}", "soft", "end")
    for k in range(len(values)):
        picture.text(place(k)[0], 256, str(5 * k), "soft", "middle")
        if k:
            picture.line(place(k - 1), place(k), "curve")
    picture.text(370, 282, "time steps", "soft", "middle")
    write(picture.name, picture.svg())


def main():
    program = os.path.abspath(sys.argv[1]) if len(sys.argv) > 1 else os.path.join(ROOT, "topo")
    log = job(program)
    write("log.txt", log)
    for kind, count in sorted(kinds_of(log).items()):
        print(f"{count:7} {kind}")
    measured = run(program, "measure", "mesh.obj", "log.txt")
    print(measured, end="")
    names = sorted(name for name in os.listdir(HERE) if name.startswith("drop-"))
    meshes = [draw.mesh_of(draw.text_of(os.path.join(HERE, name))) for name in names]
    frames(meshes)
    plot(measured)


if __name__ == "__main__":
    main()
