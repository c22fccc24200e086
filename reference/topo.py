#!/usr/bin/env python3
"""The definitions of `topo` as one plain program: what `track`, `measure`, `check`, `convert` and `replay` have to answer.

    reference/topo.py track MESH STEPS PREFIX [--large] [--decimals N]
    reference/topo.py convert FROM TO [--large] [--decimals N]
    reference/topo.py check MESH [--large] [--decimals N]
    reference/topo.py measure MESH LOG [--large] [--decimals N]
    reference/topo.py replay MESH LOG PREFIX [--large] [--decimals N] [--only K]

It is written from docs/DEFINITIONS.md and docs/FORMATS.md, in the order of the first, and is there to be read and to be compared with: the
same status, the same standard output and the same stored meshes as the proved program, byte for byte. It looks at all pairs, in whole numbers,
and does nothing to be fast. A word in quotes in a comment is a definition's name. reference/README.md says what it is not.
"""
import os
import re
import sys
from functools import lru_cache
from itertools import combinations, count

BOX, SHIFT_MAX, LENGTH_MAX = 2**28, 2**29, 2**30
ID_MAX = 2**31
DEPTH_MAX, HALVINGS_MAX, PASSES_MAX, GROUPS_MAX = 10, 27, 100, 8
FAULTS_MAX, NUMBER_MAX, COUNT_MAX = 1_000_000, 2**32 - 1, 2**64 - 1
# The "scale" of a job: how many vertices and faces its meshes may have, and bytes a file that is read; `--large` tells the second.
STANDARD, LARGE = {"vertices": 65_536, "faces": 131_072, "bytes": 2**26}, {"vertices": 2**22, "faces": 2**23, "bytes": 2**31 - 1}
LIMITS = dict(STANDARD)

class Refused(Exception): """A job ends here: the words behind `refused`, and the exit status."""
class BadLine(Exception): """A line is outside its grammar: its number and the reason."""
class NotDone(Exception): """An edit is refused: the reason."""
class Unfit(Exception): """A line of a log does not fit the lines before it."""

def need(holds, refusal):
    if not holds:
        raise refusal

# ======== Numbers and places. A "triple" is three whole numbers: a position, a displacement or a direction.

def plus(p, q): return p[0] + q[0], p[1] + q[1], p[2] + q[2]
def minus(p, q): return p[0] - q[0], p[1] - q[1], p[2] - q[2]
def twice(p): return plus(p, p)
def dot(p, q): return p[0] * q[0] + p[1] * q[1] + p[2] * q[2]
def cross(p, q): return p[1] * q[2] - p[2] * q[1], p[2] * q[0] - p[0] * q[2], p[0] * q[1] - p[1] * q[0]
def squared_distance(p, q): return dot(minus(p, q), minus(p, q))
def size_of(p): return max(abs(x) for x in p)
def toward_zero(x, by): return x // by if x >= 0 else -(-x // by)
def divided(p, by): return tuple(toward_zero(x, by) for x in p)
def middle_down(p, q): return tuple(x // 2 for x in plus(p, q))
def is_in_box(p): return size_of(p) <= BOX

@lru_cache(maxsize=100_000)
def meet(five):
    """Five positions "meet": the edge's two ends and the triangle's three corners, where whole weights, not negative, of the ends and of the
    corners, with one positive sum, make the weighted sums equal."""
    a, b, c, d, e = five
    return have_weights([(*a, 1), (*b, 1)] + [(-x, -y, -z, -1) for x, y, z in (c, d, e)])

def have_weights(vectors):
    """Whether weights, none negative and not all zero, make the sum of the vectors zero. The fourth number of each vector is 1 for an end and
    -1 for a corner, so the ends then have the same sum of weights as the corners, and it is above zero."""
    # each row is a sum of the vectors, and behind it stand the weights of that sum; what is zero in front tells such weights
    rows = [[*vector, *(int(i == k) for i in range(len(vectors)))] for k, vector in enumerate(vectors)]
    for column in range(4):
        pivot = next((row for row in rows if row[column]), None)
        if pivot:
            rows = [[x * pivot[column] - y * row[column] for x, y in zip(row, pivot)] for row in rows if row is not pivot]
    weights = [row[4:] for row in rows]
    if len(weights) == 1:
        return min(weights[0]) >= 0 or max(weights[0]) <= 0
    # of more than one such sum there is one without this vector or without that, if any has weights that are not negative
    return len(weights) > 1 and any(have_weights(vectors[:k] + vectors[k + 1:]) for k in range(len(vectors)))

# ======== The written test. A motion has five starts and five ends; halving it takes units half as large.

def halves(starts, ends):
    """The two halves of a "motion", in units of 1/2: at the "fraction" 1/2 each position stands at its start and its end together."""
    middles = tuple(map(plus, starts, ends))
    return (tuple(map(twice, starts)), middles), (middles, tuple(map(twice, ends)))

def ten_directions(five):
    """The triangle's normal, the cross products of the edge with its three sides, and the ways from each end to each corner."""
    a, b, c, d, e = five
    yield cross(minus(d, c), minus(e, c))
    yield from (cross(minus(b, a), minus(q, p)) for p, q in ((c, d), (d, e), (e, c)))
    yield from (minus(corner, end) for end in (a, b) for corner in (c, d, e))

def directions(starts, ends):
    """The "23 directions"."""
    yield from ((1, 0, 0), (0, 1, 0), (0, 0, 1))
    yield from ten_directions(starts)
    yield from ten_directions(ends)

def gaps(direction, five):
    """By how much both ends of the edge are below all three corners, and by how much above them."""
    a, b, c, d, e = (dot(direction, p) for p in five)
    return min(c, d, e) - max(a, b), min(a, b) - max(c, d, e)

# Strictly on one side, and the same at the start and at the end.
def keeps_apart(direction, starts, ends): return any(s > 0 and e > 0 for s, e in zip(gaps(direction, starts), gaps(direction, ends)))
# On one side, at the start perhaps level and at the end strictly.
def opens_by(direction, starts, ends): return any(s >= 0 and e > 0 for s, e in zip(gaps(direction, starts), gaps(direction, ends)))

def is_separated(starts, ends, depth):
    """A pair is "separated" to a depth."""
    if any(keeps_apart(n, starts, ends) for n in directions(starts, ends)):
        return True
    return depth > 0 and all(is_separated(*half, depth - 1) for half in halves(starts, ends))

@lru_cache(maxsize=100_000)
def passes(starts, ends, depth):
    """A pair "passes"."""
    go_by_one_shift = len({minus(q, p) for p, q in zip(starts, ends)}) == 1
    return go_by_one_shift and not meet(starts) or is_separated(starts, ends, depth)

def opens(starts, ends, depth):
    """A pair "opens"."""
    if any(opens_by(n, starts, ends) for n in directions(starts, ends)):
        return True
    first, second = halves(starts, ends)
    return depth > 0 and opens(*first, depth - 1) and is_separated(*second, depth - 1)

# A pair "closes": it opens in the motion backwards.
def closes(starts, ends, depth): return opens(ends, starts, depth)

# ======== Meshes

class Mesh:
    """A "mesh". None is changed once it is made: each change makes another."""
    def __init__(self, points, faces, solid, next_vertex, next_face):
        self.points, self.faces, self.solid = points, faces, solid
        self.next_vertex, self.next_face = next_vertex, next_face
    def changed(self, **parts): return Mesh(**{**vars(self), **parts})
    def with_solid(self, v): return self.changed(solid=self.solid | {v})
    def with_points(self, points):
        """Vertices at these points; those that are new are the next ones in turn."""
        return self.changed(points={**self.points, **points}, next_vertex=max([self.next_vertex, *(v + 1 for v in points)]))
    def without_vertices(self, dropped):
        return self.changed(points={v: p for v, p in self.points.items() if v not in dropped}, solid=self.solid - dropped)
    def without_faces(self, dropped):
        return self.changed(faces={f: corners for f, corners in self.faces.items() if f not in dropped})
    def with_faces(self, made):
        """New faces under the next ids, in order; so the faces of a mesh stand by rising id."""
        return self.changed(faces={**self.faces, **dict(enumerate(made, self.next_face))}, next_face=self.next_face + len(made))
    def with_vertex_ids(self, next_vertex, *ids):
        """The vertices take these "new ids" in turn, and the next one gets the first number."""
        new = dict(zip(sorted(self.points), ids))
        faces = {f: tuple(new[v] for v in corners) for f, corners in self.faces.items()}
        return Mesh({new[v]: self.points[v] for v in sorted(self.points)}, faces, frozenset(new[v] for v in self.solid), next_vertex, self.next_face)
    def with_face_ids(self, next_face, *ids):
        """The same of faces."""
        return self.changed(faces=dict(zip(ids, (self.faces[f] for f in sorted(self.faces)))), next_face=next_face)

# The mesh of lists: ids are places, from 1, and no vertex is solid.
def mesh_of(points, faces): return Mesh(dict(enumerate(points, 1)), dict(enumerate(faces, 1)), frozenset(), len(points) + 1, len(faces) + 1)

def sides(corners):
    """From which vertex to which a face "runs"."""
    i, j, k = corners
    return (i, j), (j, k), (k, i)

def turnings(corners):
    i, j, k = corners
    return (i, j, k), (j, k, i), (k, i, j)

def opposite_face(corners):
    """The same corners, the other way round, in their least turning."""
    i, j, k = corners
    return min(turnings((i, k, j)))

# The faces that run from a vertex to another, by rising id.
def runs(mesh, a, b): return [f for f, corners in mesh.faces.items() if (a, b) in sides(corners)]
# The "edges", each with its smaller id first, in order.
def edges_of(mesh): return sorted({(min(side), max(side)) for corners in mesh.faces.values() for side in sides(corners)})
def is_edge(mesh, a, b): return any(a in corners and b in corners for corners in mesh.faces.values())
# More than one face runs one way along an edge.
def is_crowded(mesh, a, b): return len(runs(mesh, a, b)) > 1 or len(runs(mesh, b, a)) > 1
# Two faces have the same corners in the same order up to turning.
def has_doubled(mesh): return len({min(turnings(corners)) for corners in mesh.faces.values()}) < len(mesh.faces)

def box_around(positions):
    """A box along the axes: its least and its greatest corner."""
    xs, ys, zs = zip(*positions)
    return min(xs), min(ys), min(zs), max(xs), max(ys), max(zs)

def near_pairs(mesh, *places):
    """The "pairs", an edge and a face that has neither of its ends, in order of the edge and then of the face; but for those of which the
    boxes of all places (at rest one of each vertex, in a motion its start and its end) have no common point. An axis keeps these apart: so
    they do not meet and pass, open and close, and nothing more is asked of them."""
    boxes = [(f, corners, box_around([at[v] for at in places for v in corners])) for f, corners in mesh.faces.items()]
    for a, b in edges_of(mesh):
        x, y, z, to_x, to_y, to_z = box_around([at[v] for at in places for v in (a, b)])
        for f, corners, (low_x, low_y, low_z, high_x, high_y, high_z) in boxes:
            if x <= high_x and low_x <= to_x and y <= high_y and low_y <= to_y and z <= high_z and low_z <= to_z:
                if a not in corners and b not in corners:
                    yield a, b, f

def five_at(mesh, places, pair):
    """The "five positions" of a pair where the vertices stand at these places."""
    a, b, f = pair
    c, d, e = mesh.faces[f]
    return places[a], places[b], places[c], places[d], places[e]

# All "pairs that meet" of a mesh, in order, at its "rest positions". A mesh is "clear" where there is none.
def meeting_pairs(mesh): return (pair for pair in near_pairs(mesh, mesh.points) if meet(five_at(mesh, mesh.points, pair)))
# The points "after moves": each named vertex at its point and its shift together.
def moved_by(mesh, shifts): return {v: plus(p, shifts[v]) if v in shifts else p for v, p in mesh.points.items()}

def failing_pairs(mesh, shifts, depth):
    """The "failing pairs" of shifts, in order."""
    starts, ends = mesh.points, moved_by(mesh, shifts)
    for pair in near_pairs(mesh, starts, ends):
        if not passes(five_at(mesh, starts, pair), five_at(mesh, ends, pair), depth):
            yield pair

# ======== Stored fields and the sizing of the program

FIELDS = {"swirl": lambda x, y, z: divided((-y, x, 0), 64), "swell": lambda x, y, z: divided((x, y, z), 64),
          "shrink": lambda x, y, z: divided((-x, -y, -z), 64)}

def band_at(point):
    """The "band" of the sizing at a point: the least and the greatest length of an edge whose middle lies there."""
    d = size_of(point)
    return 20 + d // 64, 60 + d // 16

# ======== Texts

def lines_of(text):
    """The "lines" of a text that is read, without their ends."""
    *ended, last = text.split("\n")
    return [line[:-1] if line.endswith("\r") else line for line in ended] + ([last] if last else [])

def words_of(line):
    """The "words" of a line, up to one that begins with #."""
    words = []
    for word in re.split("[ \t]+", line.strip(" \t")):
        if not word or word.startswith("#"):
            break
        words.append(word)
    return words

DECIMAL = re.compile(r"([+-]?)([0-9]*)\.?([0-9]*)(?:[eE]([+-]?[0-9]{1,3}))?")

def scaled(word, decimals):
    """The sign of a "decimal word", and numerator and denominator of its size on the grid; nothing where it is misspelt."""
    spelt = DECIMAL.fullmatch(word)
    if not spelt or len(word) > 64 or not spelt[2] + spelt[3]:
        return None
    power = int(spelt[4] or 0) - len(spelt[3]) + decimals
    return -1 if spelt[1] == "-" else 1, int(spelt[2] + spelt[3]) * 10 ** max(power, 0), 10 ** max(-power, 0)

def coordinate_in(word, decimals, number):
    """The coordinate that a decimal word gives: the nearest whole number, halves away from zero."""
    value = scaled(word, decimals)
    need(value, BadLine(number, "number"))
    sign, numerator, denominator = value
    size = (2 * numerator + denominator) // (2 * denominator)
    need(size <= BOX, BadLine(number, "range"))
    return sign * size

# A face of k corners gives k - 2 triangles, all from its first corner.
def fan_of(corners): return [(corners[0], j, k) for j, k in zip(corners[1:], corners[2:])]

class Lists:
    """What a text of a mesh gives: points, and faces with corners from 1."""
    def __init__(self):
        self.points, self.faces = [], []

    def add_point(self, words, decimals, number):
        """The words are those of x, y and z, from left to right."""
        point = {axis: coordinate_in(word, decimals, number) for axis, word in words.items()}
        self.points.append((point["x"], point["y"], point["z"]))

NOT_READ = ("vn", "vt", "vp", "o", "g", "s", "usemtl", "mtllib")
OBJ_CORNER = re.compile(r"(-?[0-9]{1,10})(/-?[0-9]{1,10}|//-?[0-9]{1,10}|/-?[0-9]{1,10}/-?[0-9]{1,10})?")

def obj_corner(word, vertices, number):
    spelt = OBJ_CORNER.fullmatch(word)
    corner = int(spelt[1]) if spelt else 0
    corner += vertices + 1 if corner < 0 else 0
    need(0 < corner <= NUMBER_MAX, BadLine(number, "corner"))
    return corner

def obj_lists(text, decimals):
    """The lists that an OBJ text gives."""
    lists = Lists()
    for number, line in enumerate(lines_of(text), 1):
        need(not line.endswith("\\"), BadLine(number, "continuation"))
        kind, *words = words_of(line) or ["g"]
        if kind == "v":
            need(3 <= len(words) <= 7, BadLine(number, "short" if len(words) < 3 else "long"))
            lists.add_point(dict(zip("xyz", words)), decimals, number)
        elif kind == "f":
            need(len(words) >= 3, BadLine(number, "short"))
            lists.faces += fan_of([obj_corner(word, len(lists.points), number) for word in words])
        else:
            need(kind in NOT_READ, BadLine(number, "unknown"))
    return lists

def count_in(word, number):
    need(re.fullmatch("[0-9]{1,10}", word), BadLine(number, "number"))
    return int(word)

def corner_from_0(word, number):
    need(re.fullmatch("[0-9]{1,10}", word) and int(word) < NUMBER_MAX, BadLine(number, "corner"))
    return int(word) + 1

def worded_lines(text):
    """The lines with words. Where one more is asked for than there are, the line behind the last is short."""
    lines = lines_of(text)
    yield from ((number, words_of(line)) for number, line in enumerate(lines, 1) if words_of(line))
    raise BadLine(len(lines) + 1, "short")

def rows_in(lines, decimals, vertices, faces, names, further, may_be_longer):
    """The lists of the rows of OFF and of PLY: a row of a vertex has a word for each name, and one of a face a count, so many corners, and
    further words."""
    def need_words(wanted):
        need(len(words) >= wanted, BadLine(number, "short"))
        need(len(words) == wanted or may_be_longer, BadLine(number, "long"))

    lists = Lists()
    for _ in range(vertices):
        number, words = next(lines)
        need_words(len(names))
        lists.add_point({name: word for name, word in zip(names, words) if name in ("x", "y", "z")}, decimals, number)
    for _ in range(faces):
        number, words = next(lines)
        wanted = count_in(words[0], number)
        need(wanted >= 3, BadLine(number, "range"))
        need_words(1 + wanted + further)
        lists.faces += fan_of([corner_from_0(word, number) for word in words[1:1 + wanted]])
    try:
        number, _ = next(lines)
    except BadLine:
        return lists
    raise BadLine(number, "long")

def off_lists(text, decimals):
    """The lists that an OFF text gives."""
    lines = worded_lines(text)
    number, words = next(lines)
    need(words == ["OFF"], BadLine(number, "unknown"))
    number, words = next(lines)
    need(len(words) >= 2, BadLine(number, "short"))
    vertices, faces = [count_in(word, number) for word in words[:2]]
    return rows_in(lines, decimals, vertices, faces, ("x", "y", "z"), 0, True)

PLY_TYPES = ("char uchar short ushort int uint float double int8 uint8 int16 uint16 int32 uint32 float32 float64").split()

def ply_head(lines):
    """The names of a vertex's properties, the two counts, and how many properties of a face stand behind its corners."""
    def head(holds): need(holds, BadLine(number, "unknown"))
    def next_line(): return next((number, words) for number, words in lines if words[0] not in ("comment", "obj_info"))
    def is_property(): return len(words) == 3 and words[0] == "property" and words[1] in PLY_TYPES

    number, words = next(lines)
    head(words == ["ply"])
    number, words = next_line()
    head(words == ["format", "ascii", "1.0"])
    number, words = next_line()
    head(words[:2] == ["element", "vertex"] and len(words) == 3)
    vertices, names, further = count_in(words[2], number), [], 0
    number, words = next_line()
    while is_property():
        head(words[2] not in names or words[2] not in ("x", "y", "z"))
        names.append(words[2])
        number, words = next_line()
    head(words[:2] == ["element", "face"] and len(words) == 3 and {"x", "y", "z"} <= set(names))
    faces = count_in(words[2], number)
    number, words = next_line()
    head(len(words) == 5 and words[:2] == ["property", "list"] and words[2] in PLY_TYPES and words[3] in PLY_TYPES)
    head(words[4] in ("vertex_indices", "vertex_index"))
    number, words = next_line()
    while is_property():
        further += 1
        number, words = next_line()
    head(words == ["end_header"])
    return names, vertices, faces, further

def ply_lists(text, decimals):
    """The lists that an ASCII PLY text gives."""
    lines = worded_lines(text)
    names, vertices, faces, further = ply_head(lines)
    return rows_in(lines, decimals, vertices, faces, names, further, False)

def written(x, decimals):
    """A "written coordinate"."""
    whole, part = divmod(abs(x), 10 ** decimals)
    return f"{'-' if x < 0 else ''}{whole}" + (f".{part:0{decimals}}" if decimals else "")

def written_point(p, decimals): return " ".join(written(x, decimals) for x in p)

def obj_text(points, faces, decimals):
    lines = [f"v {written_point(p, decimals)}" for p in points] + ["f {} {} {}".format(*corners) for corners in faces]
    return "".join(line + "\n" for line in lines)

def rows_text(points, faces, decimals):
    lines = [written_point(p, decimals) for p in points] + ["3 {} {} {}".format(*(i - 1 for i in corners)) for corners in faces]
    return "".join(line + "\n" for line in lines)

def off_text(points, faces, decimals): return f"OFF\n{len(points)} {len(faces)} 0\n" + rows_text(points, faces, decimals)

def ply_text(points, faces, decimals):
    head = ["ply", "format ascii 1.0", f"element vertex {len(points)}", *(f"property double {axis}" for axis in "xyz"),
            f"element face {len(faces)}", "property list uchar int vertex_indices", "end_header"]
    return "".join(line + "\n" for line in head) + rows_text(points, faces, decimals)

# the formats by the endings of names: how a text of each is read and written
FORMATS = {".obj": (obj_lists, obj_text), ".off": (off_lists, off_text), ".ply": (ply_lists, ply_text)}

def text_of_mesh(mesh, decimals):
    """The text of a mesh: live vertices and faces by rising id, corners by the rank of their vertices."""
    rank = {v: k for k, v in enumerate(sorted(mesh.points), 1)}
    faces = [[rank[v] for v in mesh.faces[f]] for f in sorted(mesh.faces)]
    return obj_text([mesh.points[v] for v in sorted(mesh.points)], faces, decimals)

def shape_faults(points, faces):
    """All "faults of the shape" of lists, in order."""
    numbered = list(enumerate(faces, 1))
    if len(points) > LIMITS["vertices"]:
        yield f"vertices {len(points)}"
    if len(faces) > LIMITS["faces"]:
        yield f"faces {len(faces)}"
    for f, corners in numbered:
        yield from (f"corner {f} {k}" for k, v in enumerate(corners, 1) if not 1 <= v <= len(points))
    yield from (f"repeated {f}" for f, corners in numbered if len(set(corners)) < 3)
    same = {}
    for f, corners in numbered:
        same.setdefault(min(turnings(corners)), []).append(f)
    yield from ("doubled {} {}".format(*two) for two in sorted(two for alike in same.values() for two in zip(alike, alike[1:])))
    balance = {}
    for corners in faces:
        for a, b in sides(corners):
            balance[min(a, b), max(a, b)] = balance.get((min(a, b), max(a, b)), 0) + (1 if a < b else -1 if a > b else 0)
    yield from (f"unbalanced {a} {b}" for a, b in sorted(balance) if balance[a, b] and 1 <= a and b <= len(points))

SETTINGS = {"depth": (6, DEPTH_MAX), "halvings": (6, HALVINGS_MAX), "passes": (3, PASSES_MAX), "zones": (1, 1)}
# of each directive the ranges of its values
DIRECTIVES = {
    "shift": [(1, ID_MAX)] + [(-SHIFT_MAX, SHIFT_MAX)] * 3, "solid": [(1, ID_MAX)],
    "split": [(0, LENGTH_MAX)], "collapse": [(0, LENGTH_MAX)], "zip": [(0, LENGTH_MAX)],
    "flip": [], "pinch": [], "fit": [], "step": [], "save": [], "group": [], "close": [], "drive": ["name"],
    "set": ["setting", "value"],
}

def is_utf8(word):
    try:
        return bool(word.encode("latin-1").decode("utf-8"))
    except UnicodeDecodeError:
        return False

def step_value(word, values, number):
    """A value of a line of steps, by its range."""
    if values == "name":
        need(len(word) <= 32 and is_utf8(word), BadLine(number, "range"))
        return word
    need(re.fullmatch("-?[0-9]{1,10}", word), BadLine(number, "number"))
    need(values[0] <= int(word) <= values[1], BadLine(number, "range"))
    return int(word)

def directive_in(kind, words, number):
    """A "directive": the number of its line, its kind, and its values."""
    need(kind in DIRECTIVES and (kind != "set" or not words or words[0] in SETTINGS), BadLine(number, "unknown"))
    ranges = DIRECTIVES[kind]
    need(len(words) == len(ranges), BadLine(number, "short" if len(words) < len(ranges) else "long"))
    # these first words are no numbers
    named = words[:1] if kind == "set" or words[:1] == ["all"] and kind == "shift" else []
    ranges = ranges if kind != "set" else ["name", (0, SETTINGS[words[0]][1])]
    return number, kind, named + [step_value(word, its, number) for word, its in list(zip(words, ranges))[len(named):]]

def read_steps(text):
    """The "directives" of a step text."""
    directives, opened = [], []
    for number, line in enumerate(lines_of(text), 1):
        words = words_of(line)
        if not words:
            continue
        directives.append(directive_in(words[0], words[1:], number))
        if words[0] == "group":
            need(len(opened) != GROUPS_MAX, BadLine(number, "nesting"))
            opened.append(number)
        elif words[0] == "close":
            need(opened, BadLine(number, "nesting"))
            opened.pop()
    need(not opened, BadLine(*opened[:1], "nesting"))
    return directives

# ======== The lines of the log: each form by its fixed words, and the values behind them

FORMS = {
    "topo log": "version", "mesh": "mesh_number vertices faces", "step": "step_number", "solid": "id", "hit": "edge id", "block": "block",
    "vertices": "new_ids", "faces": "new_ids",
    "move": "id shift", "moved whole": "", "moved impulse": "passes", "moved zones": "rounds", "moved halved": "halvings", "moved zero": "",
    "pass split": "length", "pass collapse": "length", "pass flip": "", "pass zip": "length", "pass pinch": "", "pass fit": "",
    "split": "edge id point", "flip": "edge", "collapse": "edge point", "zip": "edge edge turn", "pinch": "pinch",
    "no split": "edge reason", "no collapse": "edge reason", "no flip": "edge reason", "no zip": "edge edge reason", "no pinch": "id reason",
    "group": "", "close kept": "", "close undone": "", "end": "",
    "refused long mesh": "count", "refused long steps": "count", "refused long log": "count", "refused long proof": "count",
    "refused missing mesh": "", "refused missing steps": "", "refused missing log": "", "refused missing proof": "",
    "refused mesh": "line why_mesh", "refused steps": "line why_steps", "refused meets": "edge id", "refused use": "line use",
    "refused shape vertices": "count", "refused shape faces": "count", "refused shape corner": "line corner", "refused shape repeated": "line",
    "refused shape doubled": "line line", "refused shape unbalanced": "line line",
}
# the first version of which a form is, where it is not the first of all
VERSION_OF = {**dict.fromkeys(("solid", "group", "close kept", "close undone", "pass fit",
                               "refused long log", "refused long proof", "refused missing log", "refused missing proof"), 2),
              "vertices": 3, "faces": 3}
RANGES = {
    "mesh_number": (0, NUMBER_MAX), "step_number": (1, NUMBER_MAX), "id": (1, ID_MAX), "next_id": (1, ID_MAX + 1),
    "passes": (1, PASSES_MAX), "halvings": (1, HALVINGS_MAX), "length": (0, LENGTH_MAX), "turn": (0, 3),
    "count": (0, COUNT_MAX), "line": (1, NUMBER_MAX), "corner": (1, 3), "coordinate": (-BOX, BOX), "component": (-SHIFT_MAX, SHIFT_MAX),
}
REASONS = ("noedge", "crowded", "edge", "shared", "full", "doubled", "onefan", "solid")
WHYS = ("unknown", "short", "long", "number", "range", "corner", "continuation")
USES = {"vertex": ["id"], "range": ["id"], "box": ["id"], "solid": ["id"], "field": []}

def range_of(kind):
    """The least and the greatest number of a kind. Counts of a mesh and rounds of impact zones, which are fewer than vertices, go by the scale."""
    by_scale = {"vertices": (0, LIMITS["vertices"]), "faces": (0, LIMITS["faces"]), "rounds": (1, LIMITS["vertices"] - 1)}
    return by_scale[kind] if kind in by_scale else RANGES[kind]

def is_number(word, kind):
    """A number has one spelling, and a range."""
    low, high = range_of(kind)
    return re.fullmatch("0|-?[1-9][0-9]{0,20}", word) is not None and low <= int(word) <= high

def are_numbers(words, kinds): return len(words) == len(kinds) and all(map(is_number, words, kinds))

# The reasons of a refused edit, but for `hit`.
def reasons_of(version): return REASONS if version > 1 else REASONS[:-1]
# What a directive is refused for, and of what numbers.
def uses_of(version): return {use: numbers for use, numbers in USES.items() if version > 1 or use != "solid"}

def words_wanted(kind, words, version):
    """How many of the words a value of this kind takes."""
    if kind in ("block", "new_ids"):
        return max({"block": 2, "new_ids": 1}[kind], len(words))
    if kind == "pinch":
        return max(8, len(words) + -len(words) % 4)
    if kind == "reason" and words and words[0] not in reasons_of(version):
        return 4 if words[0] == "hit" else len(words)
    if kind == "use" and words:
        return 1 + len(uses_of(version)[words[0]]) if words[0] in uses_of(version) else len(words)
    return {"edge": 2, "shift": 3, "point": 3}.get(kind, 1)

def is_value(kind, words, version):
    """Whether so many words spell a value of this kind, within its range."""
    if kind == "version":
        return words == [str(version)]
    if kind in ("edge", "block"):
        return are_numbers(words, ["id"] * len(words)) and all(int(v) < int(w) for v, w in zip(words, words[1:]))
    if kind == "new_ids":
        # rising ids, and before them the next one, which is above them all
        return is_number(words[0], "next_id") and is_value("block", words[1:], version) and all(int(v) < int(words[0]) for v in words[1:])
    if kind in ("shift", "point"):
        return are_numbers(words, ["component" if kind == "shift" else "coordinate"] * 3)
    if kind == "pinch":
        return are_numbers(words, ["id", "coordinate", "coordinate", "coordinate"] * (len(words) // 4))
    if kind == "reason" and words[0] == "hit":
        return is_value("edge", words[1:3], version) and is_number(words[3], "id")
    if kind == "reason":
        return words[0] in reasons_of(version)
    if kind in ("why_mesh", "why_steps"):
        return words[0] in WHYS or version > 1 and kind == "why_steps" and words[0] == "nesting"
    if kind == "use":
        return words[0] in uses_of(version) and are_numbers(words[1:], USES[words[0]])
    return is_number(words[0], kind)

def form_of(words, version, number):
    """The form to which the fixed words lead at which a line begins."""
    forms = [form for form in FORMS if version >= VERSION_OF.get(form, 1)]
    for at in range(1, len(words) + 1):
        fixed = " ".join(words[:at])
        if fixed in forms:
            return fixed
        need(any(form.startswith(fixed + " ") for form in forms), BadLine(number, "unknown"))
    raise BadLine(number, "short")

def log_line(line, is_ended, version, number):
    """The words of a line of the log."""
    words = line.split(" ")
    form = form_of(words, version, number)
    rest, values = words[len(form.split()):], []
    for kind in FORMS[form].split():
        wanted = words_wanted(kind, rest, version)
        need(len(rest) >= wanted, BadLine(number, "short"))
        values.append((kind, rest[:wanted]))
        rest = rest[wanted:]
    need(is_ended, BadLine(number, "short"))
    need(not rest, BadLine(number, "long"))
    need(all(is_value(kind, its, version) for kind, its in values), BadLine(number, "number"))
    return words

def read_log(text):
    """The lines of a log, each as its words."""
    *ended, last = text.split("\n")
    version = {"topo log 2": 2, "topo log 3": 3}.get((ended + [last])[0], 1)
    lines = [(line, True) for line in ended] + ([(last, False)] if last else [])
    return [log_line(line, is_ended, version, number) for number, (line, is_ended) in enumerate(lines, 1)]

# ======== Logs read again

def classes(members):
    """The classes into which chains of common members join the keys of a map from keys to sets: the keys and the members of each."""
    found = []
    for key, its in members.items():
        joined = [some for some in found if some[1] & its]
        found = [some for some in found if some not in joined]
        found.append(([key, *(k for keys, _ in joined for k in keys)], set(its).union(*(others for _, others in joined))))
    return found

# Six times the signed "volume", by the determinants of the faces' corners.
def volume6(mesh): return sum(dot(p, cross(q, r)) for p, q, r in ([mesh.points[v] for v in corners] for corners in mesh.faces.values()))
# The number of "components": the classes of faces that chains of shared vertices join.
def components(mesh): return len(classes({f: set(corners) for f, corners in mesh.faces.items()}))
# Vertices with a face less edges and more faces.
def euler_number(mesh): return len({v for corners in mesh.faces.values() for v in corners}) - len(edges_of(mesh)) + len(mesh.faces)

def genus(mesh):
    """The number G with 2 G = 2 C - X, or `none`."""
    twice_genus = 2 * components(mesh) - euler_number(mesh)
    is_manifold = not any(is_crowded(mesh, a, b) for a, b in edges_of(mesh)) and not any(len(fans(mesh, v)) > 1 for v in mesh.points)
    return twice_genus // 2 if is_manifold and twice_genus >= 0 and twice_genus % 2 == 0 else "none"

class Replay:
    """The "replay" of the lines of a log so far, and where it "stands": the mesh, the stack of meshes, and the moves of a step that is begun."""
    def __init__(self, mesh):
        self.mesh, self.groups, self.moves, self.is_first = mesh, [], None, True
    def take(self, words):
        """Takes a line where it "fits" the lines before it."""
        kind, *values = words
        need(self.is_first == (kind == "topo"), Unfit)
        self.is_first = False
        if kind == "move":
            self.take_move(*map(int, values))
        elif kind == "moved":
            self.take_moved()
        elif kind not in ("topo", "hit", "block", "pass", "no", "refused", "end"):
            need(self.moves is None, Unfit)
            self.take_between_steps(kind, words)
    def take_move(self, v, *shift):
        """A move fits in a step where its vertex lives, is not solid and has no move yet, and ends in the box."""
        need(self.moves is not None and v in self.mesh.points and v not in self.mesh.solid and v not in self.moves, Unfit)
        need(is_in_box(plus(self.mesh.points[v], shift)), Unfit)
        self.moves[v] = shift
    def take_moved(self):
        """A step ends where no pair of its motion fails, tested to the greatest depth."""
        need(self.moves is not None and not any(failing_pairs(self.mesh, self.moves, DEPTH_MAX)), Unfit)
        self.mesh, self.moves = self.mesh.with_points(moved_by(self.mesh, self.moves)), None
    def take_between_steps(self, kind, words):
        if kind == "step":
            self.moves = {}
        elif kind == "mesh":
            need([len(self.mesh.points), len(self.mesh.faces)] == [int(word) for word in words[2:]], Unfit)
        elif kind == "solid":
            need(int(words[1]) in self.mesh.points, Unfit)
            self.mesh = self.mesh.with_solid(int(words[1]))
        elif kind in ("vertices", "faces"):
            need(not self.groups and len(words) - 2 == len(self.mesh.points if kind == "vertices" else self.mesh.faces), Unfit)
            self.mesh = (self.mesh.with_vertex_ids if kind == "vertices" else self.mesh.with_face_ids)(*map(int, words[1:]))
        elif kind == "group":
            need(len(self.groups) < GROUPS_MAX, Unfit)
            self.groups.append(self.mesh)
        elif kind == "close":
            need(self.groups, Unfit)
            begun = self.groups.pop()
            self.mesh = begun if words[1] == "undone" else self.mesh
        else:
            self.take_edit(kind, words)
    def take_edit(self, kind, words):
        """A done edit fits where the edit, tested to the greatest depth, is done with just these ids, points and turn."""
        asked = [int(word) for word in words[1:1 + NUMBERS_ASKED[kind]]]
        try:
            told, self.mesh = EDITS[kind](self.mesh, *asked, DEPTH_MAX)
        except NotDone:
            raise Unfit
        need([kind, *map(str, told)] == words, Unfit)

# ======== Edits. Each answers the numbers that its line tells and the mesh that it leaves, or is refused with the first reason that holds.

def need_room(mesh):
    """A limit on vertices, on faces or on ids is not exceeded."""
    is_within = len(mesh.points) <= LIMITS["vertices"] and len(mesh.faces) <= LIMITS["faces"]
    need(is_within and mesh.next_vertex <= ID_MAX + 1 and mesh.next_face <= ID_MAX + 1, NotDone("full"))

# The corner that is no end of the edge.
def opposite_vertex(mesh, f, a, b): return next(v for v in mesh.faces[f] if v not in (a, b))

def edge_with_faces(mesh, a, b):
    """An "edge with the two faces beside it": the least face that runs each way, and their "opposite vertices"."""
    f, g = runs(mesh, a, b)[0], runs(mesh, b, a)[0]
    return [f, g], opposite_vertex(mesh, f, a, b), opposite_vertex(mesh, g, a, b)

def first_failing(mesh, ways, depth, contacts=(), contact_test=None):
    """The first pair that fails of a "scaffold": a mesh, the vertices that move and from where to where in half units, and the "contacts", of
    which two may touch. A pair whose edge has one contact and whose face another has to open, or to close; every other pair has to pass."""
    starts = {v: ways[v][0] if v in ways else twice(p) for v, p in mesh.points.items()}
    ends = {v: ways[v][1] if v in ways else twice(p) for v, p in mesh.points.items()}
    for a, b, f in near_pairs(mesh, starts, ends):
        joins_contacts = (a in contacts or b in contacts) and any(v in contacts for v in mesh.faces[f])
        test = contact_test if joins_contacts else passes
        if not test(five_at(mesh, starts, (a, b, f)), five_at(mesh, ends, (a, b, f)), depth):
            return a, b, f
    return None

def need_no_hit(pair): need(pair is None, NotDone(" ".join(map(str, ["hit", *(pair or [])]))))

def split_mesh(mesh, a, b):
    """What a split makes: the new vertex, and the mesh."""
    beside, c, d = edge_with_faces(mesh, a, b)
    w = mesh.next_vertex
    made = mesh.without_faces(beside).with_points({w: middle_down(mesh.points[a], mesh.points[b])})
    return w, made.with_faces([(a, w, c), (w, b, c), (b, w, d), (w, a, d)])

def split(mesh, a, b, depth):
    """ "Split": the edge gets a vertex at its middle, rounded down."""
    need(is_edge(mesh, a, b), NotDone("noedge"))
    need(not is_crowded(mesh, a, b), NotDone("crowded"))
    w, made = split_mesh(mesh, a, b)
    need_room(made)
    exact_middle = plus(mesh.points[a], mesh.points[b])
    need_no_hit(first_failing(made, {w: (exact_middle, twice(made.points[w]))}, depth))
    return [a, b, w, *made.points[w]], made

def flip(mesh, a, b, depth):
    """ "Flip": the edge is exchanged for the one between its opposite vertices; tested on the split's mesh, whose new vertex goes there."""
    need(is_edge(mesh, a, b), NotDone("noedge"))
    need(not is_crowded(mesh, a, b), NotDone("crowded"))
    beside, c, d = edge_with_faces(mesh, a, b)
    need(c != d and not is_edge(mesh, c, d), NotDone("edge"))
    w, tested = split_mesh(mesh, a, b)
    made = mesh.without_faces(beside).with_faces([(a, d, c), (b, c, d)])
    need_room(tested)
    need_room(made)
    way = plus(mesh.points[a], mesh.points[b]), plus(mesh.points[c], mesh.points[d])
    need_no_hit(first_failing(tested, {w: way}, depth))
    return [a, b], made

def collapse_point(mesh, a, b):
    """Where both ends of an edge go: to the one that is solid, or to the middle, rounded down."""
    return next((mesh.points[v] for v in (a, b) if v in mesh.solid), middle_down(mesh.points[a], mesh.points[b]))

def faces_at(mesh, v): return [f for f, corners in mesh.faces.items() if v in corners]

def third_act(mesh, a):
    """The "third act of a collapse": of the faces at a vertex the least that has an opposite is dropped with its least opposite, until none
    has one."""
    for f in faces_at(mesh, a):
        opposites = [g for g in faces_at(mesh, a) if min(turnings(mesh.faces[g])) == opposite_face(mesh.faces[f])]
        if opposites:
            return third_act(mesh.without_faces([f, opposites[0]]), a)
    return mesh

def collapse(mesh, a, b, depth):
    """ "Collapse": the edge is drawn together, in four acts, and tested on the mesh as it is."""
    need(is_edge(mesh, a, b), NotDone("noedge"))
    need(not {a, b} <= mesh.solid, NotDone("solid"))
    point = collapse_point(mesh, a, b)
    made = mesh.without_faces([f for f in faces_at(mesh, a) if b in mesh.faces[f]])
    renamed = faces_at(made, b)
    made = made.without_faces(renamed).with_faces([tuple(a if v == b else v for v in mesh.faces[f]) for f in renamed])
    made = third_act(made, a)
    need(not has_doubled(made), NotDone("doubled"))
    need_room(made)
    ways = {v: (twice(mesh.points[v]), twice(point)) for v in (a, b)}
    need_no_hit(first_failing(mesh, ways, depth, (a, b), closes))
    with_face_before, with_face_now = ({v for corners in its.faces.values() for v in corners} for its in (mesh, made))
    made = made.without_vertices(with_face_before - with_face_now)
    if a in made.points:
        made = made.with_points({a: point})
        made = made.with_solid(a) if mesh.solid & {a, b} else made
    return [a, b, *point], made

def turns_in_order(mesh, p, r):
    """The four turns of a "zip", by the sum of the squared lengths that they join, and then by number."""
    def length(k): return sum(squared_distance(mesh.points[p[i]], mesh.points[r[(i + k) % 4]]) for i in range(4))
    return sorted(range(4), key=lambda k: (length(k), k))

def tunnel(p, r, k):
    """The eight faces of a tunnel between two openings, the second turned by k."""
    r = [r[(i + k) % 4] for i in range(4)]
    return [face for i in range(4) for j in [(i + 1) % 4] for face in ((p[i], p[j], r[i]), (p[j], r[j], r[i]))]

def zip_edges(mesh, a, b, e, f, depth):
    """ "Zip": the faces beside two edges are dropped, and the two openings are joined by a tunnel. Nothing moves."""
    need(is_edge(mesh, a, b) and is_edge(mesh, e, f), NotDone("noedge"))
    need(not is_crowded(mesh, a, b) and not is_crowded(mesh, e, f), NotDone("crowded"))
    (one, c, d), (two, g, h) = edge_with_faces(mesh, a, b), edge_with_faces(mesh, e, f)
    need(len({a, b, c, d, e, f, g, h}) == 8, NotDone("shared"))
    opened, p, r = mesh.without_faces(one + two), (b, c, a, d), (f, h, e, g)
    need_room(opened.with_faces(tunnel(p, r, 0)))
    refused = None
    for k in turns_in_order(mesh, p, r):
        made = opened.with_faces(tunnel(p, r, k))
        try:
            need(not has_doubled(made), NotDone("doubled"))
            need_no_hit(next(meeting_pairs(made), None))
            return [a, b, e, f, k], made
        except NotDone as why:
            refused = why
    raise refused

def fans(mesh, v):
    """The "fans" at a vertex: the faces that a chain of shared second vertices joins, each with these vertices, in order of the least face."""
    found = classes({f: set(mesh.faces[f]) - {v} for f in faces_at(mesh, v)})
    return sorted((sorted(faces), others) for faces, others in found)

def pinch_point(mesh, v, others):
    """An eighth of the way to the mean of a fan's other vertices, each component of that way rounded toward zero."""
    ways = [minus(mesh.points[w], mesh.points[v]) for w in others]
    return plus(mesh.points[v], divided(tuple(map(sum, zip(*ways))), 8 * len(ways)))

def pinch(mesh, v, depth):
    """ "Pinch": a vertex with several fans gets a copy for each later fan, and they go apart."""
    its_fans = fans(mesh, v)
    need(len(its_fans) > 1, NotDone("onefan"))
    need(v not in mesh.solid, NotDone("solid"))
    made, told, ways = mesh, [], {}
    for faces, others in its_fans:
        w = made.next_vertex if told else v
        point = pinch_point(mesh, v, others)
        made = made.with_points({w: point})
        if w != v:
            made = made.without_faces(faces).with_faces([tuple(w if u == v else u for u in mesh.faces[f]) for f in faces])
        ways[w] = twice(mesh.points[v]), twice(point)
        told += [w, *point]
    need_room(made)
    need_no_hit(first_failing(made, ways, depth, tuple(ways), opens))
    return told, made

EDITS = {"split": split, "collapse": collapse, "flip": flip, "zip": zip_edges, "pinch": pinch}
# how many numbers of an edit's line say what is asked
NUMBERS_ASKED = {"split": 2, "collapse": 2, "flip": 2, "zip": 4, "pinch": 1}

# ======== Passes

def candidates(mesh, kind):
    """The "candidates" of a pass, in order."""
    if kind == "pinch":
        return [(v,) for v in sorted(mesh.points)]
    if kind == "zip":
        return [one + two for one, two in combinations(edges_of(mesh), 2)]
    return edges_of(mesh)

def is_zip_due(mesh, a, b, e, f, length):
    """Both edges stand, their midpoints are near enough, neither is crowded, and the eight vertices are different."""
    if not is_edge(mesh, a, b) or not is_edge(mesh, e, f):
        return False
    middles = plus(mesh.points[a], mesh.points[b]), plus(mesh.points[e], mesh.points[f])
    if squared_distance(*middles) > (2 * length) ** 2 or is_crowded(mesh, a, b) or is_crowded(mesh, e, f):
        return False
    return len({a, b, e, f, *edge_with_faces(mesh, a, b)[1:], *edge_with_faces(mesh, e, f)[1:]}) == 8

def is_flip_due(mesh, a, b):
    """The edge is not crowded and longer than the distance of its opposite vertices."""
    if is_crowded(mesh, a, b):
        return False
    _, c, d = edge_with_faces(mesh, a, b)
    return squared_distance(mesh.points[a], mesh.points[b]) > squared_distance(mesh.points[c], mesh.points[d])

def asked_at(mesh, kind, length, candidate):
    """The edit that is asked for at the turn of a candidate, where it still stands and is due; or nothing."""
    if kind == "pinch":
        return kind if candidate[0] in mesh.points and len(fans(mesh, *candidate)) > 1 else None
    if kind == "zip":
        return kind if is_zip_due(mesh, *candidate, *length) else None
    a, b = candidate
    if not is_edge(mesh, a, b):
        return None
    if kind == "flip":
        return kind if is_flip_due(mesh, a, b) else None
    squared = squared_distance(mesh.points[a], mesh.points[b])
    least, greatest = band_at(middle_down(mesh.points[a], mesh.points[b])) if kind == "fit" else length * 2
    if kind != "collapse" and squared > greatest ** 2:
        return "split"
    return "collapse" if kind != "split" and squared < least ** 2 else None

# ======== Steps

def gap_along(axis, edge, face):
    """How far apart an edge and a face stand along an axis; below zero where they overlap."""
    low, high = [[min(p[axis] for p in its) for its in (edge, face)], [max(p[axis] for p in its) for its in (edge, face)]]
    return max(low[1] - high[0], low[0] - high[1])

def impulse(mesh, shifts, pair):
    """An "impulse" on a pair: the five shifts along the axis of the greatest "gap" become their mean; zero where one of the five is solid."""
    a, b, f = pair
    five = five_at(mesh, mesh.points, pair)
    axis = max(range(3), key=lambda axis: (gap_along(axis, five[:2], five[2:]), -axis))
    vertices = sorted((a, b, *mesh.faces[f]))
    mean, left = divmod(sum(shifts[v][axis] for v in vertices), 5)
    for k, v in enumerate(vertices):
        part = 0 if mesh.solid & set(vertices) else mean + (k < left)
        shifts[v] = shifts[v][:axis] + (part,) + shifts[v][axis + 1:]

def impulse_pass(mesh, shifts, failing):
    """A "pass" of impulses gives one to each failing pair in order."""
    shifts = dict(shifts)
    for pair in failing:
        impulse(mesh, shifts, pair)
    return shifts

def blocks_of(mesh, failing):
    """The "blocks" of two vertices or more: what chains of failing pairs join, by rising id."""
    return sorted(sorted(vertices) for _, vertices in classes({(a, b, f): {a, b, *mesh.faces[f]} for a, b, f in failing}))

def zone_shifts(mesh, asked, blocks):
    """A block moves by the mean of what was asked of it, and not at all where it holds a solid vertex."""
    shifts = dict(asked)
    for block in blocks:
        mean = divided(tuple(map(sum, zip(*(asked[v] for v in block)))), len(block))
        shifts.update((v, (0, 0, 0) if mesh.solid & set(block) else mean) for v in block)
    return shifts

def tried(mesh, shifts, settings):
    """The failing pairs of shifts, or nothing where an end would leave the box."""
    if all(is_in_box(p) for p in moved_by(mesh, shifts).values()):
        return list(failing_pairs(mesh, shifts, settings["depth"]))
    return None

def by_impulses(mesh, asked, failing, settings):
    """The fewest impulse passes after which all pairs pass, and the shifts then."""
    shifts, number = asked, 0
    while failing and number < settings["passes"]:
        shifts, number = impulse_pass(mesh, shifts, failing), number + 1
        failing = tried(mesh, shifts, settings)
    return (f"impulse {number}", shifts, []) if failing == [] else None

def by_zones(mesh, asked, failing, settings):
    """The first round of impact zones in which all pairs pass, its shifts and its blocks."""
    joined, number, shifts, blocks = [], 0, asked, []
    while failing:
        joined, number = joined + failing, number + 1
        blocks = blocks_of(mesh, joined)
        shifts = zone_shifts(mesh, asked, blocks)
        failing = tried(mesh, shifts, settings)
    return (f"zones {number}", shifts, blocks) if failing == [] else None

def by_halvings(mesh, asked, settings):
    """The fewest halvings of the asked shifts with which all pairs pass."""
    for number in range(1, settings["halvings"] + 1):
        shifts = {v: divided(shift, 2 ** number) for v, shift in asked.items()}
        if not any(failing_pairs(mesh, shifts, settings["depth"])):
            return f"halved {number}", shifts, []
    return None

def way_taken(mesh, asked, failing, settings):
    """ "The way that is taken": its words, the shifts, and the blocks of the round of zones."""
    if not failing:
        return "whole", asked, []
    return (by_impulses(mesh, asked, failing, settings)
            or settings["zones"] and by_zones(mesh, asked, failing, settings)
            or by_halvings(mesh, asked, settings)
            or ("zero", {v: (0, 0, 0) for v in asked}, []))

# ======== The engine

class Engine:
    """The "state" between two directives, and what each "directive" does. `store` takes the meshes by their numbers. Of each open "group" it has
    the mesh and the asked shifts at its opening, and whether it has failed."""
    def __init__(self, mesh, store):
        self.mesh, self.store, self.groups, self.steps, self.saved = mesh, store, [], 0, 0
        self.asked = {v: (0, 0, 0) for v in mesh.points}
        self.settings = {name: first for name, (first, _) in SETTINGS.items()}
    def do(self, line, kind, values):
        if kind in ("split", "collapse", "flip", "zip", "pinch", "fit"):
            self.run_pass(kind, *values)
        else:
            getattr(self, kind)(line, *values)
    def set(self, line, name, value):
        self.settings[name] = value
    def ask(self, line, shifts):
        """Adds these shifts to what is asked."""
        sums = {v: plus(self.asked[v], shift) for v, shift in sorted(shifts.items())}
        for v in sums:
            need(size_of(sums[v]) <= SHIFT_MAX, Refused(f"use {line} range {v}", 10))
        self.asked.update(sums)
    def shift(self, line, v, *shift):
        if v == "all":
            return self.ask(line, {v: shift for v in self.mesh.points if v not in self.mesh.solid})
        need(v in self.mesh.points, Refused(f"use {line} vertex {v}", 10))
        need(v not in self.mesh.solid, Refused(f"use {line} solid {v}", 10))
        self.ask(line, {v: shift})
    def drive(self, line, name):
        need(name in FIELDS, Refused(f"use {line} field", 10))
        self.ask(line, {v: FIELDS[name](*p) for v, p in self.mesh.points.items() if v not in self.mesh.solid})
    def solid(self, line, v):
        need(v in self.mesh.points, Refused(f"use {line} vertex {v}", 10))
        self.mesh = self.mesh.with_solid(v)
        self.asked[v] = 0, 0, 0
        tell("solid", v)

    def step(self, line):
        for v, p in sorted(moved_by(self.mesh, self.asked).items()):
            need(is_in_box(p), Refused(f"use {line} box {v}", 10))
        self.steps += 1
        tell("step", self.steps)
        failing = list(failing_pairs(self.mesh, self.asked, self.settings["depth"]))
        for pair in failing:
            tell("hit", *pair)
        way, shifts, blocks = way_taken(self.mesh, self.asked, failing, self.settings)
        for block in blocks:
            tell("block", *block)
        for v in sorted(shifts):
            if shifts[v] != (0, 0, 0):
                tell("move", v, *shifts[v])
        tell("moved", way)
        self.mesh = self.mesh.with_points(moved_by(self.mesh, shifts))
        self.asked = {v: (0, 0, 0) for v in self.mesh.points}
        if way != "whole":
            self.fail()

    def run_pass(self, kind, *length):
        """A pass: each candidate has its turn, and what is asked then has one line."""
        tell("pass", kind, *length)
        for candidate in candidates(self.mesh, kind):
            edit = asked_at(self.mesh, kind, length, candidate)
            try:
                if edit:
                    told, self.mesh = EDITS[edit](self.mesh, *candidate, self.settings["depth"])
                    tell(edit, *told)
            except NotDone as why:
                tell("no", edit, *candidate, *why.args)
                self.fail()
                if self.groups:
                    break
        # what is new is asked nothing, and so is what has become solid
        asked = self.asked
        self.asked = {v: asked[v] if v in asked and v not in self.mesh.solid else (0, 0, 0) for v in self.mesh.points}

    def fail(self):
        """The innermost open group fails."""
        if self.groups:
            self.groups[-1]["has_failed"] = True
    def group(self, line):
        self.groups.append({"mesh": self.mesh, "asked": dict(self.asked), "has_failed": False})
        tell("group")
    def close(self, line):
        group = self.groups.pop()
        if group["has_failed"]:
            self.mesh, self.asked = group["mesh"], group["asked"]
        tell("close", "undone" if group["has_failed"] else "kept")
    def save(self, line=None):
        tell("mesh", self.saved, len(self.mesh.points), len(self.mesh.faces))
        self.store(self.saved, self.mesh)
        self.saved += 1

# ======== Files, and what a run reads

class Files:
    """The files of a run. Those that it has read are known by the path to which their names lead, so that none of them is lost."""
    def __init__(self, decimals):
        self.decimals, self.texts = decimals, {}
    def read(self, name, word):
        """The text of a file, a character for each byte."""
        try:
            with open(name, "rb") as it:
                text = it.read(LIMITS["bytes"] + 1).decode("latin-1")
        except FileNotFoundError:
            raise Refused(f"missing {word}", 11)
        need(len(text) <= LIMITS["bytes"], Refused(f"long {word} {len(text)}", 5))
        self.texts.setdefault(os.path.realpath(name), text)
        return text
    def lists(self, grammar, text):
        return read_by("mesh", 6, grammar, text, self.decimals)
    def store(self, name, text):
        """Stores a text; one that was read there is kept as it was, unless it is the same."""
        old = self.texts.pop(os.path.realpath(name), text)
        names = (f"{name}.before" + (f"-{k}" if k > 1 else "") for k in count(1))
        if old != text:
            write(next(its for its in names if not os.path.lexists(its)), old)
        write(name, text)
    def store_mesh(self, prefix, number, mesh): self.store(f"{prefix}-{number:06}.obj", text_of_mesh(mesh, self.decimals))

def write(name, text):
    with open(name, "w", encoding="latin-1", newline="") as it:
        it.write(text)

def read_by(word, status, grammar, *text):
    """What a text gives by its grammar, or the refusal of its first bad line."""
    try:
        return grammar(*text)
    except BadLine as bad:
        raise Refused("{} {} {}".format(word, *bad.args), status)

def mesh_in(lists):
    """The mesh that lists make, where their shape is good."""
    for fault in shape_faults(lists.points, lists.faces):
        raise Refused(f"shape {fault}", 7)
    return mesh_of(lists.points, lists.faces)

def need_clear(mesh):
    for pair in meeting_pairs(mesh):
        raise Refused("meets {} {} {}".format(*pair), 8)

def tell(*words):
    """Writes a line."""
    try:
        print(*words, flush=True)
    except OSError:
        sys.exit(4)

# ======== The commands

def track(files, mesh_name, steps_name, prefix):
    """The "log" of a job."""
    tell("topo log 2")
    mesh_text, steps_text = files.read(mesh_name, "mesh"), files.read(steps_name, "steps")
    mesh = mesh_in(files.lists(obj_lists, mesh_text))
    directives = read_by("steps", 9, read_steps, steps_text)
    need_clear(mesh)
    engine = Engine(mesh, lambda number, mesh: files.store_mesh(prefix, number, mesh))
    engine.save()
    for directive in directives:
        engine.do(*directive)
    tell("end")
    return 0

def convert(files, from_name, to_name):
    """A "conversion"."""
    lists = files.lists(FORMATS[from_name[-4:]][0], files.read(from_name, "mesh"))
    mesh_in(lists)
    files.store(to_name, FORMATS[to_name[-4:]][1](lists.points, lists.faces, files.decimals))
    tell("converted", len(lists.points), len(lists.faces))
    return 0

def check(files, name):
    """What a "check" tells: all faults of the shape, or all pairs that meet."""
    lists = files.lists(FORMATS[name[-4:]][0], files.read(name, "mesh"))
    faults, status = [f"shape {fault}" for fault in shape_faults(lists.points, lists.faces)], 7
    if not faults:
        faults, status = ["meets {} {} {}".format(*pair) for pair in meeting_pairs(mesh_of(lists.points, lists.faces))], 8
    for fault in faults[:FAULTS_MAX]:
        tell(fault)
    tell("checked", len(lists.points), len(lists.faces), "faults", len(faults[:FAULTS_MAX]))
    return status if faults else 0

def replayed(files, mesh_name, log_name):
    """Takes the lines of a log one after another: of each its number, its words, and the mesh before and behind it. A mesh and a log are a
    "log job"."""
    mesh_text, log_text = files.read(mesh_name, "mesh"), files.read(log_name, "log")
    mesh = mesh_in(files.lists(obj_lists, mesh_text))
    lines = read_by("log", 12, read_log, log_text)
    need_clear(mesh)
    so_far = Replay(mesh)
    for number, words in enumerate(lines or [["end"]], 1):
        before = so_far.mesh
        try:
            so_far.take(words)
        except Unfit:
            raise Refused(f"replay {number}", 13)
        yield number, words, before, so_far.mesh

# What a measurement compares from line to line.
def shape_told(mesh): return "components", components(mesh), "euler", euler_number(mesh)

def measure(files, mesh_name, log_name):
    """What a "measurement" writes: what a log tells of volume and shape, line by line."""
    for number, words, before, mesh in replayed(files, mesh_name, log_name):
        if words[0] == "mesh":
            tell("measure", words[1], "volume6", volume6(mesh), *shape_told(mesh), "genus", genus(mesh))
        elif mesh is not before and shape_told(mesh) != shape_told(before):
            tell("change", number, *shape_told(mesh))
    tell("end")
    return 0

def replay(files, mesh_name, log_name, prefix, only):
    """Which meshes of a log a "replay" stores."""
    stored = 0
    for _, words, _, mesh in replayed(files, mesh_name, log_name):
        if words[0] == "mesh" and only in (None, int(words[1])):
            files.store_mesh(prefix, int(words[1]), mesh)
            stored += 1
    tell("replayed", stored)
    return 0

# ======== The words of the program

COMMANDS = {"track": (track, 3), "convert": (convert, 2), "check": (check, 1), "measure": (measure, 2), "replay": (replay, 3)}

def named_in(command, words):
    """The names and the options that the words behind a command's name tell, or nothing where they are of no listed form."""
    names, options, words, only_names = [], {}, list(words), False
    while words:
        word = words.pop(0)
        option, equals, value = word.partition("=")
        if word == "--" and not only_names:
            only_names = True
        elif not only_names and word == "--large" and word not in options:
            options[word] = True
        elif not only_names and option in ("--decimals", "--only") and option not in options:
            options[option] = value if equals else words.pop(0) if words else ""
        else:
            names.append(word)
    decimals, only = options.get("--decimals", "0"), options.get("--only", "0")
    is_listed = (len(names) == COMMANDS[command][1] and all(name and name[0] != "-" for name in names)
                 and (command not in ("convert", "check") or all(name[-4:] in FORMATS for name in names))
                 and re.fullmatch("[0-6]", decimals) and re.fullmatch("0|[1-9][0-9]{0,9}", only) and int(only) <= NUMBER_MAX
                 and (command == "replay" or "--only" not in options))
    return (names, "--large" in options, int(decimals), int(only) if "--only" in options else None) if is_listed else None

def run(words):
    """The exit status of a run."""
    named = named_in(words[0], words[1:]) if words and words[0] in COMMANDS else None
    if named is None:
        sys.stderr.write(__doc__)
        return 2
    names, is_large, decimals, only = named
    LIMITS.update(LARGE if is_large else STANDARD)
    command, files = COMMANDS[words[0]][0], Files(decimals)
    try:
        return command(files, *names, *([only] if words[0] == "replay" else []))
    except Refused as refused:
        words, status = refused.args
        tell("refused", words)
        return status
    except OSError as why:
        sys.stderr.write(f"{why}\n")
        return 3

if __name__ == "__main__":
    sys.exit(run(sys.argv[1:]))
