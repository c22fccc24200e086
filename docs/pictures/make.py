#!/usr/bin/env python3
"""Draws the pictures of this folder from the program's own output.

    docs/pictures/make.py [--check] [PROGRAM]

Runs the program on inputs of `examples` and `worked`, reads the log and the meshes that are stored, and writes SVG files beside this script.
With `--check` nothing is written: the pictures are made anew and compared byte for byte with the files, and the exit status is 1 where one
differs. PROGRAM is `topo` of this repository where it is left out. No sine and no cosine is taken and all numbers are written with one
decimal, so the same output of the program gives the same bytes.
"""

import heapq
import math
import os
import subprocess
import sys
import tempfile

HERE = os.path.dirname(os.path.abspath(__file__))
ROOT = os.path.dirname(os.path.dirname(HERE))
LEVELS = 12
STYLE = """.back{fill:#ffffff}.rule{stroke:#d0d7de}.box{fill:#eef2f6;stroke:#b6c1cc}
text{fill:#1f2328;font-family:system-ui,-apple-system,"Segoe UI",Roboto,"DejaVu Sans",sans-serif;font-size:13px}
.title{font-size:15px;font-weight:600}.soft{fill:#59636e}
.log{font-family:ui-monospace,Menlo,Consolas,"DejaVu Sans Mono",monospace;font-size:12px;white-space:pre}
.id{font-weight:600;paint-order:stroke;stroke:#ffffff;stroke-width:3px;stroke-linejoin:round}
.arrow{stroke:#b3261e;stroke-width:1.6;fill:none}.tip{fill:#b3261e}.edge{stroke:#b3261e;stroke-width:2.6;stroke-linecap:round}
.curve{stroke:#2f5f9e;stroke-width:2;fill:none}.second{stroke:#b06a12;stroke-width:2;fill:none}.of-curve{fill:#2f5f9e}.of-second{fill:#b06a12}
.way{stroke:#59636e;stroke-width:1.3;fill:none}.end{fill:#59636e}
.f{stroke:#223044;stroke-width:.6;stroke-linejoin:round}
"""
DARK = """.back{fill:#0d1117}.rule{stroke:#3d444d}.box{fill:#1b222b;stroke:#4a5561}text{fill:#e6edf3}.soft{fill:#9aa4af}
.id{stroke:#0d1117}.arrow,.edge{stroke:#ff6b60}.tip{fill:#ff6b60}.curve{stroke:#7fb0f0}.second{stroke:#e8a24a}.of-curve{fill:#7fb0f0}.of-second{fill:#e8a24a}.way{stroke:#9aa4af}.end{fill:#9aa4af}
.f{stroke:#0a1018}
"""
# the darkest and the lightest colour of a body's faces
COLOURS = {"a": ((52, 84, 128), (205, 224, 246)), "b": ((160, 92, 24), (255, 222, 168)), "c": ((40, 110, 92), (190, 235, 214))}
WIDTH_OF = {"title": 9.0, "log": 7.4, "id": 8.6, "soft": 7.4, "": 7.4, "of-curve": 7.4, "of-second": 7.4}
HEIGHT_OF = {"title": 15, "log": 12, "id": 13, "soft": 13, "": 13, "of-curve": 13, "of-second": 13}


# -- numbers and vectors


def plus(a, b):
    """The sum of two points."""
    return tuple(x + y for x, y in zip(a, b))


def minus(a, b):
    """The difference of two points."""
    return tuple(x - y for x, y in zip(a, b))


def times(a, k):
    """A vector times a number."""
    return tuple(x * k for x in a)


def dot(a, b):
    """The inner product of two vectors."""
    return sum(x * y for x, y in zip(a, b))


def cross(a, b):
    """The cross product of two vectors in space."""
    return (a[1] * b[2] - a[2] * b[1], a[2] * b[0] - a[0] * b[2], a[0] * b[1] - a[1] * b[0])


def unit(a):
    """A vector made one long; the null vector stays."""
    size = math.sqrt(dot(a, a))
    return times(a, 1 / size) if size else a


def number(x):
    """A number with one decimal, without a needless zero."""
    text = f"{x:.1f}"
    text = text[:-2] if text.endswith(".0") else text
    return "0" if text == "-0" else text


# -- meshes and the program


class Mesh:
    """Points by vertex id, and faces as triples of ids."""

    def __init__(self, points, faces):
        self.points, self.faces = points, faces

    def corners(self, face):
        """The three points of a face."""
        return [self.points[v] for v in face]

    def moved(self, shifts):
        """The same mesh with shifts, by vertex id, added."""
        return Mesh({v: plus(p, shifts.get(v, (0, 0, 0))) for v, p in self.points.items()}, self.faces)

    def named(self, ids):
        """The same mesh with other ids, given in the order of the old ones."""
        new = dict(zip(sorted(self.points), ids))
        return Mesh({new[v]: p for v, p in self.points.items()}, [tuple(new[v] for v in face) for face in self.faces])

    def bodies(self):
        """For each vertex the least vertex that faces join it with."""
        root = {v: v for v in self.points}

        def top(v):
            while root[v] != v:
                root[v] = root[root[v]]
                v = root[v]
            return v

        for face in self.faces:
            least = min(top(v) for v in face)
            for v in face:
                root[top(v)] = least
        return {v: top(v) for v in self.points}


def mesh_of(text):
    """The mesh of an OBJ text of triangles, with vertices numbered from 1."""
    lines = [line.split("#")[0].split() for line in text.splitlines()]
    points = [tuple(int(word) for word in words[1:4]) for words in lines if words[:1] == ["v"]]
    return Mesh(dict(enumerate(points, 1)), [tuple(int(word) for word in words[1:]) for words in lines if words[:1] == ["f"]])


def text_of_mesh(points, faces):
    """The OBJ text of a list of points and of faces that number them from 1."""
    return "".join(f"v {x} {y} {z}\n" for x, y, z in points) + "".join(f"f {a} {b} {c}\n" for a, b, c in faces)


def text_of(*names):
    """The text of a file of the repository."""
    with open(os.path.join(ROOT, *names), encoding="utf-8") as it:
        return it.read()


def track(program, mesh, steps):
    """The log, as lines, and the stored meshes of a job whose two texts are given."""
    with tempfile.TemporaryDirectory() as folder:
        for name, text in (("mesh.obj", mesh), ("steps.txt", steps)):
            with open(os.path.join(folder, name), "w", encoding="utf-8") as it:
                it.write(text)
        ran = subprocess.run([program, "track", "mesh.obj", "steps.txt", "t"], cwd=folder, stdout=subprocess.PIPE, check=True)
        stored = sorted(name for name in os.listdir(folder) if name.startswith("t-"))
        meshes = []
        for name in stored:
            with open(os.path.join(folder, name), encoding="utf-8") as it:
                meshes.append(mesh_of(it.read()))
    return ran.stdout.decode().splitlines(), meshes


def inputs_of_case(name):
    """The mesh and the steps of a worked case."""
    parts = text_of("worked", name + ".case").split("\n== ")
    texts = {part.partition("\n")[0]: part.partition("\n")[2] + "\n" for part in parts}
    return texts["input mesh.obj"], texts["input steps.txt"]


def shifts_in(lines, word):
    """The shifts that lines `shift V ..` or `move V ..` tell, by vertex."""
    rows = [line.split() for line in lines]
    return {int(row[1]): tuple(int(it) for it in row[2:5]) for row in rows if row[:1] == [word]}


# -- drawing


class Camera:
    """Looks along parallel lines from a direction, with z upwards."""

    def __init__(self, direction):
        self.toward = unit(direction)
        self.right = unit(cross((0, 0, 1), self.toward))
        self.up = cross(self.toward, self.right)
        self.light = unit(plus(plus(times(self.toward, 1.0), times(self.up, 0.8)), times(self.right, -0.6)))

    def see(self, point):
        """Where a point is seen: to the right, downwards, and towards the eye."""
        return (dot(point, self.right), -dot(point, self.up), dot(point, self.toward))


class Frame:
    """Places what a camera sees into a rectangle of the picture, so that all the meshes given have room in it.

    The rectangle is cut to the height that is used.
    """

    def __init__(self, camera, meshes, left, top, width, height, margin=22):
        self.camera = camera
        seen = [camera.see(p) for mesh in meshes for p in mesh.points.values()]
        low, high = ([pick(p[k] for p in seen) for k in (0, 1)] for pick in (min, max))
        spread = [max(high[k] - low[k], 1e-9) for k in (0, 1)]
        self.scale = min((width - 2 * margin) / spread[0], (height - 2 * margin) / spread[1])
        height = self.height = self.scale * spread[1] + 2 * margin
        middle = [(low[k] + high[k]) / 2 for k in (0, 1)]
        self.shift = (left + width / 2 - self.scale * middle[0], top + height / 2 - self.scale * middle[1])

    def place(self, point):
        """Where a point is drawn, and how near it is."""
        x, y, near = self.camera.see(point)
        return (self.scale * x + self.shift[0], self.scale * y + self.shift[1], self.scale * near)


def area2(polygon):
    """Twice the area of a polygon in the picture; above zero where it is drawn clockwise on the screen."""
    ends = zip(polygon, polygon[1:] + polygon[:1])
    return sum(p[0] * q[1] - q[0] * p[1] for p, q in ends)


def shared_part(one, other):
    """The polygon that two triangles, clockwise on the screen, have in common."""
    part = [p[:2] for p in one]
    for a, b in zip(other, other[1:] + other[:1]):
        inside = [(b[0] - a[0]) * (p[1] - a[1]) - (b[1] - a[1]) * (p[0] - a[0]) for p in part]
        cut = []
        for k, p in enumerate(part):
            q, u, v = part[k - 1], inside[k - 1], inside[k]
            if (u < 0) != (v < 0):
                cut.append((q[0] + (p[0] - q[0]) * u / (u - v), q[1] + (p[1] - q[1]) * u / (u - v)))
            if v >= 0:
                cut.append(p)
        part = cut
    return part


def nearness(triangle, point):
    """How near the plane of a triangle is at a point of the picture."""
    (ax, ay, az), (bx, by, bz), (cx, cy, cz) = triangle
    whole = (bx - ax) * (cy - ay) - (by - ay) * (cx - ax)
    u = ((point[0] - ax) * (cy - ay) - (point[1] - ay) * (cx - ax)) / whole
    v = ((bx - ax) * (point[1] - ay) - (by - ay) * (point[0] - ax)) / whole
    return az + u * (bz - az) + v * (cz - az)


def from_back_to_front(triangles, colours):
    """The numbers of triangles in an order of painting: where two overlap, the further one is first.

    They come in groups of one colour that can be drawn as one path, since none in a group lies before another one of it.
    """
    mean = [sum(p[2] for p in it) for it in triangles]
    order = sorted(range(len(triangles)), key=lambda k: (min(p[0] for p in triangles[k]), k))
    before, waits = {k: [] for k in order}, {k: 0 for k in order}
    for at, i in enumerate(order):
        right = max(p[0] for p in triangles[i])
        for j in order[at + 1 :]:
            if min(p[0] for p in triangles[j]) >= right:
                break
            part = shared_part(triangles[i], triangles[j])
            if len(part) < 3 or area2(part) < 0.2:
                continue
            middle = (sum(p[0] for p in part) / len(part), sum(p[1] for p in part) / len(part))
            behind, front = (i, j) if nearness(triangles[i], middle) < nearness(triangles[j], middle) else (j, i)
            before[behind].append(front)
            waits[front] += 1
    ready, left, groups, colour, covering = {it: [] for it in colours}, set(order), [], None, None
    for k in order:
        if waits[k] == 0:
            heapq.heappush(ready[colours[k]], (mean[k], k))
    while left:
        if colour is None or not ready[colour]:
            colour = max(sorted(ready), key=lambda it: len(ready[it]))
            covering = None
        # of triangles that cover one another in a ring, the furthest goes first
        k = heapq.heappop(ready[colour])[1] if ready[colour] else min(left, key=lambda it: (mean[it], it))
        if k in left:
            left.remove(k)
            if covering is None or k in covering or colours[k] != colours[groups[-1][0]]:
                groups.append([])
                covering = set()
            groups[-1].append(k)
            covering.update(before[k])
            for front in before[k]:
                waits[front] -= 1
                if waits[front] == 0 and front in left:
                    heapq.heappush(ready[colours[front]], (mean[front], front))
    return groups


def tenths(x):
    """A whole number of tenths, written as a number."""
    whole, part = divmod(abs(x), 10)
    return ("-" if x < 0 else "") + str(whole) + (f".{part}" if part else "")


def outline(points):
    """A closed path round points, with the way from each to the next."""
    spots = [(math.floor(10 * x + 0.5), math.floor(10 * y + 0.5)) for x, y, _ in points]
    ways = [it for p, q in zip(spots, spots[1:]) for it in (q[0] - p[0], q[1] - p[1])]
    text = f"M{tenths(spots[0][0])} {tenths(spots[0][1])}l" + " ".join(tenths(it) for it in ways) + "z"
    return text.replace(" -", "-")


class Picture:
    """An SVG text that grows; it refuses a label over another one or over the border."""

    def __init__(self, name, width, height, about):
        self.name, self.width, self.height, self.about = name, width, height, about
        self.parts, self.boxes = [], []

    def text(self, x, y, words, kind="", anchor="start"):
        """Writes words whose base line begins, has its middle or ends at x, y."""
        wide, high = WIDTH_OF[kind] * len(words), HEIGHT_OF[kind]
        left = x - {"start": 0, "middle": wide / 2, "end": wide}[anchor]
        box = (left, y - high, left + wide, y + high * 0.25)
        if box[0] < 0 or box[1] < 0 or box[2] > self.width or box[3] > self.height:
            raise ValueError(f"{self.name}: {words!r} is cut off")
        for other, said in self.boxes:
            if box[0] < other[2] and other[0] < box[2] and box[1] < other[3] and other[1] < box[3]:
                raise ValueError(f"{self.name}: {words!r} lies over {said!r}")
        self.boxes.append((box, words))
        words = words.replace("&", "&amp;").replace("<", "&lt;")
        kind = f' class="{kind}"' if kind else ""
        anchor = "" if anchor == "start" else f' text-anchor="{anchor}"'
        self.parts.append(f'<text x="{number(x)}" y="{number(y)}"{kind}{anchor}>{words}</text>')

    def lines(self, x, y, lines, kind="log", apart=17):
        """Writes lines one below the other."""
        for k, line in enumerate(lines):
            self.text(x, y + apart * k, line, kind)

    def line(self, p, q, kind):
        """Draws a straight line."""
        self.parts.append(f'<path class="{kind}" d="M{number(p[0])} {number(p[1])}L{number(q[0])} {number(q[1])}"/>')

    def arrow(self, p, q, kind="arrow"):
        """Draws an arrow from p to q, if that is not too short to be seen."""
        way = (q[0] - p[0], q[1] - p[1])
        if dot(way, way) < 9:
            return
        along = unit(way)
        size = min(7.0, math.sqrt(dot(way, way)) * 0.6)
        foot, side = minus(q[:2], times(along, size)), times((-along[1], along[0]), size * 0.42)
        self.line(p, foot, kind)
        tip = "L".join(f"{number(x)} {number(y)}" for x, y in (q[:2], plus(foot, side), minus(foot, side)))
        self.parts.append(f'<path class="{"tip" if kind == "arrow" else "end"}" d="M{tip}z"/>')

    def mesh(self, frame, mesh, colour_of):
        """Draws the faces that are turned to the eye, each in its colour and lit by its normal."""
        shown = []
        for face in mesh.faces:
            corners = mesh.corners(face)
            normal = unit(cross(minus(corners[1], corners[0]), minus(corners[2], corners[0])))
            seen = [frame.place(p) for p in corners]
            # y goes downwards in the picture, so a face that is turned to the eye runs backwards there
            if area2(seen) < -1e-6:
                level = int(max(0.0, dot(normal, frame.camera.light)) * (LEVELS - 1) + 0.5)
                shown.append((seen[::-1], f"{colour_of(face)}{level}"))
        colours = [colour for _, colour in shown]
        self.parts.append('<g class="f">')
        for some in from_back_to_front([seen for seen, _ in shown], colours):
            self.parts.append(f'<path class="{colours[some[0]]}" d="{"".join(outline(shown[k][0]) for k in some)}"/>')
        self.parts.append("</g>")

    def svg(self):
        """The text of the picture."""
        body = "\n".join(self.parts)
        faces = ""
        for letter, (dark, light) in COLOURS.items():
            for level in range(LEVELS):
                if f'class="{letter}{level}"' in body:
                    shade = [dark[k] + (light[k] - dark[k]) * level // (LEVELS - 1) for k in range(3)]
                    faces += f".{letter}{level}{{fill:#{shade[0]:02x}{shade[1]:02x}{shade[2]:02x}}}"
        head = f'<svg xmlns="http://www.w3.org/2000/svg" width="{self.width}" height="{self.height}" viewBox="0 0 {self.width} {self.height}" role="img">'
        style = f"<style>{STYLE}{faces}\n@media (prefers-color-scheme:dark){{{DARK}}}</style>"
        back = f'<rect class="back" width="{self.width}" height="{self.height}"/>'
        return f'{head}\n<title>{self.about}</title>\n{style}\n{back}\n{body}\n</svg>\n'


# -- the pictures


def by_body(mesh):
    """Colours of faces by body: the first has the first colour."""
    root = mesh.bodies()
    letters = {top: "abc"[k % 3] for k, top in enumerate(sorted({root[face[0]] for face in mesh.faces}))}
    return lambda face: letters[root[face[0]]]


def by_change(mesh, other):
    """Colours of faces: those that the other mesh does not have stand out."""
    there = {frozenset(other.corners(face)) for face in other.faces}
    return lambda face: "a" if frozenset(mesh.corners(face)) in there else "b"


def ids_after(log, count):
    """The ids of the vertices that live at the end of a log of splits, collapses of which one end is left, flips, zips and pinches."""
    live = set(range(1, count + 1))
    for words in (line.split() for line in log):
        if words[0] == "split":
            live.add(int(words[3]))
        if words[0] == "collapse":
            live.remove(int(words[2]))
        if words[0] == "pinch":
            live.update(int(words[at]) for at in range(5, len(words), 4))
    return sorted(live)


def ids(picture, frame, mesh, places):
    """Writes ids of vertices, each at its distance, to the right and downwards, from where the vertex is seen."""
    for v, (right, down) in places.items():
        x, y, _ = frame.place(mesh.points[v])
        picture.text(x + right, y + down + 4, str(v), "id", "middle")


def edges(picture, frame, mesh, pairs):
    """Draws edges thick."""
    for a, b in pairs:
        picture.line(frame.place(mesh.points[a])[:2], frame.place(mesh.points[b])[:2], "edge")


def edit(program, name, title, mesh, steps, view, marked, shown, said, about):
    """A picture of one edit: before and after, with the lines of the log that are about it.

    marked and shown have an entry for before and one for after: edges to draw thick, and ids to write with their distances.
    """
    log, meshes = track(program, text_of(*mesh), text_of(*steps))
    meshes = [meshes[0], meshes[1].named(ids_after(log, len(meshes[0].points)))]
    lines = [line for line in log if line.split()[0] in ("pass", said)]
    camera = Camera(view)
    frames = [Frame(camera, meshes, left, 72, 330, 280, 34) for left in (20, 370)]
    foot = math.ceil(72 + frames[0].height)
    picture = Picture(name, 720, foot + 34 + 17 * len(lines), about)
    picture.text(24, 32, title, "title")
    for k, (when, frame) in enumerate(zip(("before", "after"), frames)):
        picture.text(185 + 350 * k, 62, when, "soft", "middle")
        picture.mesh(frame, meshes[k], by_change(meshes[k], meshes[1 - k]))
        edges(picture, frame, meshes[k], marked[k])
        ids(picture, frame, meshes[k], shown[k])
    picture.line((24, foot + 6), (696, foot + 6), "rule")
    picture.lines(24, foot + 30, lines)
    red = "red: edges that are edited; " if marked[0] else ""
    picture.text(696, foot + 30, f"{red}orange: faces that change", "soft", "end")
    return picture


def split(program):
    """Three long edges of a tetrahedron are split."""
    places = {2: (0, 16), 3: (16, 0), 4: (0, -14)}
    return edit(
        program, "split.svg", "split 5: each edge longer than 5 gets a vertex at its middle",
        ("crates", "topo", "data", "mesh.obj"), ("examples", "split.txt"), (7, -4, 5),
        ([(2, 3), (2, 4), (3, 4)], [(2, 5), (5, 3), (2, 6), (6, 4), (3, 7), (7, 4)]),
        (places, {**places, 5: (14, 12), 6: (-13, -11), 7: (12, -10)}), "split",
        "A tetrahedron before and after a pass of splits, with the lines of its log",
    )


def collapse(program):
    """The short ridge of a roof is drawn together."""
    return edit(
        program, "collapse.svg", "collapse 3: each edge shorter than 3 is drawn together",
        ("examples", "roof.obj"), ("examples", "collapse.txt"), (2, -6, 5),
        ([(5, 6)], []),
        ({5: (-12, -10), 6: (12, -10)}, {5: (0, -16)}), "collapse",
        "A square base with a short ridge before and after the ridge is collapsed, with the line of the log",
    )


def flip(program):
    """The long diagonal of a kite gives way to the short one."""
    return edit(
        program, "flip.svg", "flip: an edge longer than the distance of its opposite vertices is exchanged",
        ("examples", "kite.obj"), ("examples", "flip.txt"), (1, -5, 6),
        ([(1, 2)], [(3, 4)]),
        ({1: (-14, 0), 2: (14, 0), 3: (0, -14), 4: (0, 15)},) * 2, "flip",
        "A flat kite with a point below, before and after its long diagonal is flipped, with the line of the log",
    )


def zip_(program):
    """A tunnel joins two boxes that face each other."""
    return edit(
        program, "zip.svg", "zip 4: two edges whose midpoints are at most 4 apart are joined by a tunnel",
        ("examples", "two_boxes.obj"), ("examples", "zip.txt"), (-3, -8, 4),
        ([(1, 2), (9, 10)], []),
        ({1: (-8, 15), 2: (-7, -12), 9: (2, 16), 10: (-16, -4)},) * 2, "zip",
        "Two boxes that face each other, before and after a zip makes them one surface, with the line of the log",
    )


def pinch(program):
    """Two bodies that hang together at one vertex are parted."""
    return edit(
        program, "pinch.svg", "pinch: fans of faces that meet at one vertex alone are parted there",
        ("examples", "hourglass.obj"), ("examples", "pinch.txt"), (2, -5, 2),
        ([], []),
        ({1: (20, 0)}, {1: (18, 4), 8: (18, 4)}), "pinch",
        "Two tetrahedra that have a vertex in common, before and after they are parted, with the line of the log",
    )


# how long a tail is drawn behind a vertex that was moved, of the way it went
TAIL = 5


def motion(name, title, mesh, steps, log, meshes, told, about):
    """A picture of one step: the mesh before, what is requested, and what is taken, with the lines of the log."""
    asked = shifts_in(steps.splitlines(), "shift")
    taken = shifts_in(log, "move")
    start = mesh_of(mesh)
    states = (start, start.moved(asked), start.moved(taken))
    if meshes and states[2].points != meshes[-1].points:
        raise ValueError(f"{name}: the stored mesh is not where the moves lead")
    lines = [line for line in log if line.split()[0] in told]
    camera = Camera((1.5, -5, 2.4))
    tails = start.moved({v: times(by, 1 - TAIL) for v, by in taken.items()})
    frames = [Frame(camera, [*states, tails], 10 + 300 * k, 72, 300, 280, 24) for k in range(3)]
    foot = math.ceil(max(72 + frames[0].height, 62 + 17 * len(lines))) + 14
    picture = Picture(name, 1090, foot, about)
    picture.text(24, 32, title, "title")
    picture.text(24, foot - 12, "hit A B F: the edge from A to B, and face F; face 1 has the corners 1, 2 and 3", "soft")
    for k, (when, frame) in enumerate(zip(("before", "as requested", f"as taken; arrows {TAIL} times as long"), frames)):
        picture.text(160 + 300 * k, 62, when, "soft", "middle")
        picture.mesh(frame, states[k], by_body(states[k]))
        for v, by in sorted((asked, asked, taken)[k].items()) if k else []:
            end = states[k].points[v]
            picture.arrow(frame.place(minus(end, times(by, TAIL if k == 2 else 1)))[:2], frame.place(end)[:2])
        if k == 0:
            ids(picture, frame, start, {1: (0, 15), 2: (0, -13), 3: (-4, -13), 4: (-12, 2), 5: (-12, 2), 6: (0, 16), 7: (10, 8), 8: (4, -12)})
    picture.line((916, 52), (916, foot - 18), "rule")
    picture.lines(930, 66, lines)
    return picture


def two_tetrahedra(program):
    """A corner that is asked to go into a face: impulses."""
    mesh, steps = text_of("examples", "two_tetrahedra.obj"), text_of("examples", "into_a_face.txt")
    log, meshes = track(program, mesh, steps)
    return motion(
        "two_tetrahedra.svg", "A corner is to go into a face: one pass of impulses is enough", mesh, steps, log, meshes,
        ("step", "hit", "move", "moved"), "Two tetrahedra before a step, as requested, and as the step is taken by impulses, with the lines of the log",
    )


def impact_zone(program):
    """The same without impulses: the two bodies move as one."""
    mesh, steps = inputs_of_case("a_zone_moves_as_one")
    log, _ = track(program, mesh, steps)
    return motion(
        "impact_zone.svg", "The same without impulses: what fails becomes one impact zone, which moves by the mean", mesh, steps, log, [],
        ("step", "hit", "block", "move", "moved"), "Two tetrahedra before a step, as requested, and as the step is taken by an impact zone, with the lines of the log",
    )


def bumpy_ball(parts, size):
    """The points and faces of a ball with bumps on the integer grid: an octahedron, each edge cut into so many parts, blown up."""
    place, points, faces = {}, [], []

    def vertex(direction):
        if direction not in place:
            x, y, z = unit(direction)
            bumps = 1 + 0.9 * x * y * z + 0.35 * (x * x - y * y) + 0.25 * z * z * z
            points.append(tuple(math.floor(size * bumps * it + 0.5) for it in (x, y, z)))
            place[direction] = len(points)
        return place[direction]

    for sx in (1, -1):
        for sy in (1, -1):
            for sz in (1, -1):
                for i in range(parts):
                    for j in range(parts - i):
                        spots = [(i, j), (i + 1, j), (i, j + 1), (i + 1, j + 1)]
                        a, b, c, d = (vertex((sx * k, sy * l, sz * (parts - k - l))) if k + l <= parts else None for k, l in spots)
                        found = [(a, b, c)] + ([(b, d, c)] if d else [])
                        faces += found if sx * sy * sz > 0 else [(a, c, b) for a, b, c in found]
    return points, faces


def outside_band(mesh):
    """How many edges are shorter, and how many longer, than the program's sizing wants them at their middle."""
    short = long = 0
    for a, b in {(min(p), max(p)) for face in mesh.faces for p in zip(face, face[1:] + face[:1])}:
        reach = max(abs((x + y) // 2) for x, y in zip(mesh.points[a], mesh.points[b]))
        square = dot(minus(mesh.points[a], mesh.points[b]), minus(mesh.points[a], mesh.points[b]))
        short += square < (20 + reach // 64) ** 2
        long += square > (60 + reach // 16) ** 2
    return short, long


def fit(program):
    """A ball with bumps before and after a pass by the sizing."""
    points, faces = bumpy_ball(8, 190)
    log, meshes = track(program, text_of_mesh(points, faces), "fit\nsave\n")
    camera = Camera((5, -8, 4))
    frames = [Frame(camera, meshes, left, 70, 400, 360, 16) for left in (10, 420)]
    foot = math.ceil(70 + frames[0].height)
    picture = Picture("fit.svg", 830, foot + 92, "A ball with bumps before and after a pass by the sizing")
    picture.text(24, 32, "fit: edges that are too long for their place are split, and too short ones collapsed", "title")
    for k, (when, frame) in enumerate(zip(("before", "after"), frames)):
        short, long = outside_band(meshes[k])
        picture.text(210 + 410 * k, 62, when, "soft", "middle")
        picture.mesh(frame, meshes[k], by_change(meshes[k], meshes[1 - k]))
        picture.text(210 + 410 * k, foot + 16, f"{len(meshes[k].faces)} faces; {short} edges too short, {long} too long", "", "middle")
    kinds = [line.split()[0] if not line.startswith("no ") else "no " + line.split()[1] for line in log]
    counts = [f"{kinds.count(kind)} {kind}" for kind in ("split", "collapse", "no split", "no collapse") if kind in kinds]
    picture.line((24, foot + 36), (806, foot + 36), "rule")
    picture.text(24, foot + 60, "the lines of the log: 1 pass fit, " + ", ".join(counts), "soft")
    picture.text(806, foot + 60, "orange: faces that change", "soft", "end")
    return picture


def groups_of_crates():
    """The groups of crates.txt: what its comment says, and the crates with what each stands on."""
    groups = []
    for line in text_of("crates.txt").splitlines():
        if line.startswith("#"):
            groups.append((line[1:].strip(), []))
        elif ":" in line:
            name, _, below = line.partition(":")
            groups[-1][1].append((name.split()[0], below.split()))
    return groups


def cut_words(words, room):
    """Words in lines of at most so many letters."""
    lines = [""]
    for word in words.split():
        if lines[-1] and len(lines[-1]) + 1 + len(word) > room:
            lines.append("")
        lines[-1] = f"{lines[-1]} {word}".strip()
    return lines


def levels_of(below):
    """For each group how many lie below it on its longest way down."""
    level = {}
    for k in sorted(below, key=lambda it: len(reached(it, below))):
        level[k] = 1 + max((level[j] for j in below[k]), default=-1)
    return level


def reached(k, below):
    """The groups on which a group stands, by however many steps."""
    return set().union(*({j} | reached(j, below) for j in below[k]))


class Box:
    """A group in the drawing of the crates: its lines of text, and where it stands."""

    def __init__(self, comment, rows, known, width):
        room = int((width - 24) / 7.4)
        kit = sorted({it for _, below in rows for it in below if it not in known})
        self.heads, self.names = cut_words(comment, room), cut_words(" ".join(name for name, _ in rows), room)
        self.notes = cut_words("with the kit's " + ", ".join(kit), room) if kit else []
        self.width, self.height = width, 16 + 17 * len(self.heads + self.names + self.notes)

    def draw(self, picture):
        picture.parts.append(f'<rect class="box" x="{number(self.x)}" y="{number(self.y)}" width="{number(self.width)}" height="{number(self.height)}" rx="5"/>')
        y = self.y + 20
        for lines, kind in ((self.heads, ""), (self.names, "log"), (self.notes, "soft")):
            picture.lines(self.x + 12, y, lines, kind)
            y += 17 * len(lines)


def crates(program):
    """The crates by group, with arrows to the groups on which each group stands and on which none of those stands."""
    groups = groups_of_crates()
    known = {name for _, rows in groups for name, _ in rows}
    group_of = {name: k for k, (_, rows) in enumerate(groups) for name, _ in rows}
    below = {k: {group_of[it] for _, names in rows for it in names if it in known} - {k} for k, (_, rows) in enumerate(groups)}
    ways = [(k, j) for k in below for j in sorted(below[k]) if not any(j in reached(i, below) for i in below[k])]
    level = levels_of(below)
    rows = [[k for k in sorted(below) if level[k] == at] for at in range(max(level.values()) + 1)]
    # in the middle the largest group of each row; on the left what is stood on from further above, on the right the rest
    middle = {max(row, key=lambda k: (len(groups[k][1]), -k)) for row in rows}
    left = {j for k, j in ways if level[k] > level[j] + 1} - middle
    place = lambda k: (285, 415) if k in middle else (54, 195) if k in left else (736, 190)
    boxes = {k: Box(*groups[k], known, place(k)[1]) for k in below}
    picture = Picture("crates.svg", 940, 2000, "The crates by group, with arrows to what each group stands on")
    picture.text(24, 32, "The crates by group: an arrow goes to a group on which a group stands", "title")
    picture.text(24, 52, "what that one stands on in turn has no arrow", "soft")
    top = 76
    for row in reversed(rows):
        ends = {}
        for k in row:
            boxes[k].x, boxes[k].y = place(k)[0], ends.get(place(k)[0], top)
            ends[boxes[k].x] = boxes[k].y + boxes[k].height + 12
        top = max(ends.values()) + 18
    picture.height = top - 12
    for k, j in ways:
        way(picture, boxes[k], boxes[j], j in left)
    for box in boxes.values():
        box.draw(picture)
    return picture


def way(picture, upper, lower, round_):
    """An arrow from a box to one below it: straight down, or round by the left border."""
    if not round_:
        if upper.x == lower.x:
            picture.arrow((lower.x + lower.width / 2, upper.y + upper.height), (lower.x + lower.width / 2, lower.y), "way")
        else:
            side = 30 if upper.x < lower.x else lower.width - 30
            picture.arrow((upper.x + upper.width / 2, upper.y + upper.height), (lower.x + side, lower.y), "way")
        return
    out, into = upper.y + upper.height / 2, lower.y + lower.height / 2
    picture.parts.append(f'<path class="way" d="M{number(upper.x)} {number(out)}H28V{number(into)}"/>')
    picture.arrow((28, into), (lower.x, into), "way")


def growth_rows():
    """The table of docs/SPEED.md: faces, seconds at rest, seconds with one step."""
    table = text_of("docs", "SPEED.md").partition("## Time against faces")[2]
    rows = []
    for line in table.splitlines():
        words = [word.strip() for word in line.split("|")]
        if len(words) == 5 and words[1][:1].isdigit():
            rows.append((int(words[1].replace(",", "")), float(words[2].split()[0]), float(words[3].split()[0])))
    return rows


def growth(program):
    """Time against faces, from the table of docs/SPEED.md."""
    rows = growth_rows()
    picture = Picture("growth.svg", 720, 434, "Time against faces, at rest and with one step")
    picture.text(24, 32, "A ring read, tested and saved; and the same with one step of all its vertices", "title")
    picture.text(24, 52, "processor seconds of the whole process; each point is a run of docs/SPEED.md", "soft")
    left, right, top, bottom = 84, 560, 80, 370
    most_faces, most_seconds = rows[-1][0], max(max(row[1:]) for row in rows)
    tick = next(it for it in (0.05, 0.1, 0.2, 0.5, 1.0, 2.0, 5.0) if most_seconds / it <= 6)
    highest = tick * math.ceil(most_seconds / tick)

    def at(faces, seconds):
        return left + (right - left) * faces / most_faces, bottom - (bottom - top) * seconds / highest

    for k in range(round(highest / tick) + 1):
        y = at(0, k * tick)[1]
        picture.line((left, y), (right, y), "rule")
        picture.text(left - 10, y + 4, f"{k * tick:.2f} s", "soft", "end")
    for faces in (32768, 65536, 98304, 131072):
        x = at(faces, 0)[0]
        picture.line((x, bottom), (x, bottom + 5), "rule")
        picture.text(x, bottom + 22, f"{faces:,}", "soft", "middle")
    picture.text((left + right) / 2, bottom + 46, "faces", "soft", "middle")
    for column, words, kind in ((1, "at rest", "curve"), (2, "with one step", "second")):
        places = [at(row[0], row[column]) for row in rows]
        for p, q in zip(places, places[1:]):
            picture.line(p, q, kind)
        for p in places:
            picture.parts.append(f'<circle class="of-{kind}" cx="{number(p[0])}" cy="{number(p[1])}" r="3"/>')
        picture.text(places[-1][0] + 12, places[-1][1] + 4, words, f"of-{kind}")
    return picture


PICTURES = [two_tetrahedra, impact_zone, split, collapse, flip, zip_, pinch, fit, growth, crates]


def held(path):
    """The bytes of a file, or none where it is not there."""
    if not os.path.exists(path):
        return None
    with open(path, "rb") as it:
        return it.read()


def main():
    words = [word for word in sys.argv[1:] if word != "--check"]
    program = os.path.abspath(words[0]) if words else os.path.join(ROOT, "topo")
    check, differ = "--check" in sys.argv[1:], []
    for make in PICTURES:
        picture = make(program)
        path, text = os.path.join(HERE, picture.name), picture.svg().encode()
        if not check:
            with open(path, "wb") as it:
                it.write(text)
            print(f"{picture.name} {len(text)}")
        elif held(path) != text:
            differ.append(picture.name)
    for name in differ:
        print(f"FAILED docs/pictures/{name} is not what the program gives")
    if check:
        print(f"{len(PICTURES) - len(differ)} passed, {len(differ)} failed")
    sys.exit(1 if differ else 0)


if __name__ == "__main__":
    main()
