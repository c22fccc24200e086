#!/usr/bin/env python3
"""Checks the proof of a log, as somebody would who trusts neither the program that wrote the log nor the one that wrote the proof.

    examples/verify.py MESH LOG PROOF [--large] [--decimals N]

Reads the mesh, sees that it is closed and that no edge meets a face with which it shares no vertex, takes the lines of the log one after
another, makes each edit anew and tests what it leaves, and looks at the certificate of each motion. Says `verified M`, where M counts the
motions, with exit status 0, or `refused` and why, with exit status 1. docs/CERTIFICATES.md says what is checked, and why that is enough.
"""
import argparse
import re
import sys
from collections import Counter
from fractions import Fraction
from itertools import chain, product, takewhile

class Refused(Exception): pass

def need(holds, why):
    if not holds: raise Refused(why)

# ---- An edge and a face are five positions: those of two ends and of three corners.

def plus(p, q): return p[0] + q[0], p[1] + q[1], p[2] + q[2]
def minus(p, q): return p[0] - q[0], p[1] - q[1], p[2] - q[2]
def twice(p): return plus(p, p)
def cross(p, q): return p[1] * q[2] - p[2] * q[1], p[2] * q[0] - p[0] * q[2], p[0] * q[1] - p[1] * q[0]

def gaps(n, five):
    """By how much the edge is below the face along a direction, and by how much it is above."""
    a, b, c, d, e = (n[0] * p[0] + n[1] * p[1] + n[2] * p[2] for p in five)
    return min(c, d, e) - max(a, b), min(a, b) - max(c, d, e)

def meets(five):
    """Whether edge and face have a common point. If not, one of these directions has them on two sides: they are normals of the set of all
    differences of a point of the one and a point of the other, be it a body, a flat polygon, a segment or a point."""
    a, b, c, d, e = five
    lines = minus(b, a), minus(d, c), minus(e, d), minus(c, e)
    normals = [cross(lines[1], lines[2]), *(cross(lines[0], side) for side in lines[1:])]
    in_plane = (cross(normal, line) for normal in normals for line in lines)
    off_line = (cross(line, cross(line, minus(a, c))) for line in lines)
    return not any(max(gaps(n, five)) > 0 for n in chain(normals, in_plane, off_line, lines, [minus(a, c)]))

# how wide the gap has to be at the start and at the end, and what is claimed of the two halves
LEAST = {"along": (1, 1), "after": (0, 1), "before": (1, 0)}
HALVES = {"along": ("along", "along"), "after": ("after", "along"), "before": ("along", "before")}

def serves(n, claim, start, end):
    return any(s >= LEAST[claim][0] and e >= LEAST[claim][1] for s, e in zip(gaps(n, start), gaps(n, end)))

def is_valid(tree, claim, start, end):
    """A tree is a direction, or a list of two trees for the halves of the motion."""
    if isinstance(tree, tuple):
        return serves(tree, claim, start, end)
    middle = [plus(p, q) for p, q in zip(start, end)]
    parts = ([twice(p) for p in start], middle), (middle, [twice(p) for p in end])
    return all(is_valid(half, its, *part) for half, its, part in zip(tree, HALVES[claim], parts))

# ---- Meshes. A motion is a map from the vertices that move to where they start and end, in half units.

# the greatest id of a vertex or face
ID_MAX = 2**31

class Mesh:
    def __init__(self, points, faces, solid, next_vertex, next_face):
        self.points, self.faces, self.solid = dict(points), dict(faces), set(solid)
        self.next_vertex, self.next_face = next_vertex, next_face

    def copy(self): return Mesh(**vars(self))

    def add(self, point):
        self.points[self.next_vertex] = point
        self.next_vertex += 1
        need(self.next_vertex <= ID_MAX + 1, "no id is left")
        return self.next_vertex - 1

    def exchange(self, dropped, made):
        self.faces.update(enumerate(made, self.next_face))
        self.next_face += len(made)
        need(self.next_face <= ID_MAX + 1, "no id is left")
        for face in dropped:
            del self.faces[face]

    def take_vertices(self, ids):
        """The vertices take these ids in turn, and the next one the last of them."""
        new, self.next_vertex = dict(zip(sorted(self.points), ids)), ids[-1]
        self.points = {new[v]: point for v, point in self.points.items()}
        self.faces = {f: tuple(new[v] for v in corners) for f, corners in self.faces.items()}
        self.solid = {new[v] for v in self.solid}

    def take_faces(self, ids):
        self.faces, self.next_face = dict(zip(ids, (self.faces[f] for f in sorted(self.faces)))), ids[-1]

    def at(self, *vertices):
        """The faces that have all these corners, rising."""
        wanted = set(vertices)
        return sorted(f for f, corners in self.faces.items() if wanted.issubset(corners))

    def beside(self, a, b):
        """The two faces beside an edge that is not crowded, and their corners that are no end of it."""
        runs = [[f for f in self.at(a, b) if way in sides(self.faces[f])] for way in ((a, b), (b, a))]
        need(a < b and [len(run) for run in runs] == [1, 1], f"{a} {b} is no edge of two faces")
        return [f for f, in runs], *(sum(self.faces[f]) - a - b for f, in runs)

    def places(self, motion, vertices): return [motion.get(v) or (twice(self.points[v]),) * 2 for v in vertices]

    def pair(self, motion, a, b, f):
        """The five starts and the five ends of an edge and a face."""
        return zip(*self.places(motion, (a, b, *self.faces[f])))

    def box(self, motion, vertices):
        axes = [*zip(*chain(*self.places(motion, vertices)))]
        return [*map(min, axes)], [*map(max, axes)]

def sides(corners): return corners[:2], corners[1:], corners[2:] + corners[:1]
def edges(faces): return {(min(side), max(side)) for corners in faces for side in sides(corners)}
def are_apart(one, two): return any(low > high for low, high in zip(one[0] + two[0], two[1] + one[1]))

def has_doubles(faces):
    """Whether two faces have the same corners in the same order, up to turning."""
    return len({min(c, c[1:] + c[:1], c[2:] + c[:2]) for c in faces}) < len(faces)

def near_pairs(mesh, motion, touched):
    """The pairs of a touched face, or of an edge of one, whose boxes have a common point; of others an axis keeps edge and face apart."""
    if not touched: return
    hull = mesh.box(motion, {v for f in touched for v in mesh.faces[f]})
    boxes = {f: box for f, corners in mesh.faces.items() if not are_apart(box := mesh.box(motion, corners), hull)}
    widths = [max(minus(high, low)) for low, high in boxes.values()]
    size = 1 + max(2 * sum(widths) // len(widths), max(widths) // 16)
    cells = lambda box: product(*(range(low // size, high // size + 1) for low, high in zip(*box)))
    table = {}
    for f, cell in ((f, cell) for f, box in boxes.items() for cell in cells(box)):
        table.setdefault(cell, []).append(f)
    touched_edges = edges(mesh.faces[f] for f in touched)
    for a, b in edges(mesh.faces[f] for f in boxes):
        box, is_asked = mesh.box(motion, (a, b)), (a, b) in touched_edges
        for f in {f for cell in cells(box) for f in table.get(cell, ()) if is_asked or f in touched}:
            if a not in mesh.faces[f] and b not in mesh.faces[f] and not are_apart(box, boxes[f]):
                yield a, b, f

def touched_of(mesh, motion, before):
    """The faces that move, and those that the mesh before has not."""
    return {f for f, corners in mesh.faces.items() if f not in before.faces or not motion.keys().isdisjoint(corners)}

def need_clear(mesh, touched):
    need(not has_doubles(mesh.faces.values()), "two faces are one")
    for pair in near_pairs(mesh, {}, touched):
        need(not meets([*mesh.pair({}, *pair)][0]), "meets {} {} {}".format(*pair))

def need_certified(at, mesh, motion, before, claim, given):
    """Looks at a certificate for a motion of a mesh, which is the one before, of which no pair meets, or is made of it."""
    its_claim, entries = given or (None, {})
    need(its_claim == claim, f"{at} nomotion")
    there = edges(mesh.faces.values()) if entries else ()
    for (a, b, f), tree in entries.items():
        need((a, b) in there and f in mesh.faces and not {a, b} & {*mesh.faces[f]}, f"{at} stranger {a} {b} {f}")
        need(is_valid(tree, claim, *mesh.pair(motion, a, b, f)), f"{at} invalid {a} {b} {f}")
    for a, b, f in near_pairs(mesh, motion, touched_of(mesh, motion, before)):
        start, end = mesh.pair(motion, a, b, f)
        if (a, b, f) not in entries and not any(serves(n, "along", start, end) for n in ((1, 0, 0), (0, 1, 0), (0, 0, 1))):
            is_rigid = len({minus(q, p) for p, q in zip(start, end)}) == 1
            need(is_rigid and (mesh is before or not meets(start)), f"{at} missing {a} {b} {f}")

# ---- Edits: what their line tells, the mesh on which they are tested and its motion, and the mesh that they leave.

def split_or_flip(old, kind, a, b):
    beside, c, d = old.beside(a, b)
    mesh, result, start = old.copy(), old.copy(), plus(old.points[a], old.points[b])
    w = mesh.add(tuple(x // 2 for x in start))
    mesh.exchange(beside, [(a, w, c), (w, b, c), (b, w, d), (w, a, d)])
    if kind == "split":
        return [a, b, w, *mesh.points[w]], mesh, {w: (start, twice(mesh.points[w]))}, mesh
    need(c != d and not old.at(c, d), f"{c} {d} is an edge")
    result.exchange(beside, [(a, d, c), (b, c, d)])
    return [a, b], mesh, {w: (start, plus(old.points[c], old.points[d]))}, result

def collapse(old, kind, a, b):
    need(a < b and old.at(a, b) and not {a, b} <= old.solid, f"{a} {b} is no edge, or solid")
    solid, mesh = [v for v in (a, b) if v in old.solid], old.copy()
    point = old.points[solid[0]] if solid else tuple(x // 2 for x in plus(old.points[a], old.points[b]))
    mesh.exchange(old.at(a, b), [])
    mesh.exchange(again := mesh.at(b), [tuple(a if v == b else v for v in mesh.faces[f]) for f in again])
    for f in (here := mesh.at(a)):
        twins = [g for g in here if {f, g} <= mesh.faces.keys() and has_doubles([mesh.faces[f], mesh.faces[g][::-1]])]
        if twins: mesh.exchange([f, twins[0]], [])
    for v in {*chain(*old.faces.values())} - {*chain(*mesh.faces.values())}:
        del mesh.points[v]
        mesh.solid.discard(v)
    if a in mesh.points:
        mesh.points[a] = point
        mesh.solid.update([a] if solid else [])
    return [a, b, *point], old, {v: (twice(old.points[v]), twice(point)) for v in (a, b)}, mesh

def join(old, kind, a, b, e, f, k):
    (one, c, d), (two, g, h), mesh = old.beside(a, b), old.beside(e, f), old.copy()
    need(len({a, b, c, d, e, f, g, h}) == 8 and 0 <= k < 4, "the edges share a vertex")
    p, r = (b, c, a, d), (f, h, e, g)[k:] + (f, h, e, g)[:k]
    mesh.exchange(one + two, [face for i in range(-4, 0) for face in ((p[i], p[i + 1], r[i]), (p[i + 1], r[i + 1], r[i]))])
    return [a, b, e, f, k], mesh, {}, mesh

def pinch(old, kind, v):
    fans = []
    for f in old.at(v):
        rim = {*old.faces[f]} - {v}
        joined = [fan for fan in fans if fan[1] & rim]
        whole = sorted([f, *chain(*(faces for faces, _ in joined))]), rim.union(*(its for _, its in joined))
        fans = [*(fan for fan in fans if fan not in joined), whole]
    need(len(fans) > 1 and v not in old.solid, f"{v} is solid, or has one fan")
    mesh, motion, told, here = old.copy(), {}, [], old.points[v]
    for faces, rim in sorted(fans, key=lambda fan: fan[0]):
        ways = [minus(old.points[u], here) for u in rim]
        point = plus(here, [int(Fraction(sum(axis), 8 * len(ways))) for axis in zip(*ways)])
        w = mesh.add(point) if told else v
        mesh.points[w], motion[w] = point, (twice(here), twice(point))
        if told: mesh.exchange(faces, [tuple(w if u == v else u for u in old.faces[f]) for f in faces])
        told += [w, *point]
    return told, mesh, motion, mesh

# how an edit is made, of how many numbers of its line, and what is claimed of its motion
EDITS = {"split": (split_or_flip, 2, "along"), "flip": (split_or_flip, 2, "along"), "collapse": (collapse, 2, "before"),
         "zip": (join, 5, None), "pinch": (pinch, 1, "after")}

# ---- Texts

# a coordinate, a corner of a face, and the first words of lines of a mesh that are not read
DECIMAL = re.compile(r"[+-]?([0-9]+\.?[0-9]*|\.[0-9]+)([eE][+-]?[0-9]{1,3})?")
CORNER = re.compile(r"(-?[0-9]{1,10})(/-?[0-9]{1,10}|/(-?[0-9]{1,10})?/-?[0-9]{1,10})?")
UNREAD = {"vn", "vt", "vp", "o", "g", "s", "usemtl", "mtllib"}
# how many vertices and faces a mesh may have, and bytes a text, without `--large` and with it
VERTICES, FACES, TEXT = (2**16, 2**22), (2**17, 2**23), (2**26, 2**31 - 1)

def grid_number(at, word, decimals):
    """A decimal word times a power of ten, rounded to the nearest whole number, halves away from zero."""
    need(len(word) <= 64 and DECIMAL.fullmatch(word), f"{at}: no coordinate: {word}")
    value = Fraction(word) * 10**decimals
    return int(value + Fraction(1, 2)) if value > 0 else int(value - Fraction(1, 2))

def vertex_of(at, word, read):
    """The number of the vertex that a corner names, which counts from the last of those read where it is negative."""
    found = CORNER.fullmatch(word)
    need(found, f"{at}: no corner: {word}")
    v = int(found[1])
    return v + read + 1 if v < 0 else v

def read_mesh(text, decimals, large):
    points, faces = [], []
    for number, line in enumerate(text.replace("\r\n", "\n").split("\n"), 1):
        at = f"line {number} of the mesh"
        need(not line.endswith("\\"), f"{at} goes on")
        kind, *words = [*takewhile(lambda word: word[0] != "#", filter(None, re.split("[ \t]", line)))] or ["g"]
        if kind == "v":
            need(3 <= len(words) <= 7, f"{at}: {len(words)} words")
            points.append(tuple(grid_number(at, word, decimals) for word in words[:3]))
        elif kind == "f":
            need(len(words) >= 3, f"{at}: {len(words)} corners")
            ids = [vertex_of(at, word, len(points)) for word in words]
            faces += zip(ids[:1] * (len(ids) - 2), ids[1:], ids[2:])
        else:
            need(kind in UNREAD, f"{at}: {kind}")
    need(len(points) <= VERTICES[large] and len(faces) <= FACES[large], "the mesh is too large")
    need(all(max(map(abs, p)) <= 2**28 for p in points), "a point is outside the box")
    need(all(len({*c}) == 3 and 0 < min(c) and max(c) <= len(points) for c in faces), "a corner is no vertex, or is there twice")
    runs = Counter(chain(*map(sides, faces)))
    need(all(runs[b, a] == runs[a, b] for a, b in [*runs]), "the mesh is not closed")
    return Mesh(enumerate(points, 1), enumerate(faces, 1), (), len(points) + 1, len(faces) + 1)

def numbers(words, count):
    need(len(words) == count and all(re.fullmatch("0|-?[1-9][0-9]{0,24}", word) for word in words), f"numbers: {words}")
    return [int(word) for word in words]

def new_ids(words, count):
    """The ids that so many take in turn, rising from 1 on, and behind them the next one, which the line tells first."""
    last, *ids = numbers(words, count + 1)
    ids.append(last)
    need(last <= ID_MAX + 1 and all(v < w for v, w in zip([0, *ids], ids)), f"ids: {words}")
    return ids

def read_tree(lines, level=0):
    kind, *words = next(lines, "").split(" ")
    if kind == "half":
        need(not words and level < 10, "a tree is too deep")
        return [read_tree(lines, level + 1), read_tree(lines, level + 1)]
    n = tuple(numbers(words, 3))
    need(kind == "dir" and max(map(abs, n)) <= 2**81, f"no direction: {kind}")
    return n

def read_proof(lines):
    """The claim and the entries of each motion, by the number of its line in the log."""
    need(lines[:1] + lines[-2:] == ["topo proof 1", "end", ""], "the proof has no head, or no end")
    motions, number, rest = {}, 0, iter(lines[1:-2])
    for kind, *words in (line.split(" ") for line in rest):
        if kind == "motion":
            last, (number,), claim = number, numbers(words[:1], 1), words[1:]
            need(last < number < 2**32 and claim in (["along"], ["after"], ["before"]), f"motion {number}")
            motions[number] = claim[0], {}
        else:
            need(kind == "pair" and motions, f"neither a motion nor a pair: {kind}")
            pair, entries = tuple(numbers(words, 3)), motions[number][1]
            need(next(reversed(entries), ()) < pair and 0 < pair[0] < pair[1] <= 2**31 and 0 < pair[2] <= 2**31, f"pair {pair}")
            entries[pair] = read_tree(rest)
    return motions

def replay(mesh, lines, motions):
    """Takes the lines of the log that change something, with a certificate for each motion."""
    need(lines[0] in ("topo log 1", "topo log 2", "topo log 3") and lines[-1] == "", "the log has no head, or a line without an end")
    step, groups = None, []
    for number, line in enumerate(lines[1:-1], 2):
        kind, *words = line.split(" ")
        if kind in ("hit", "block", "pass", "no", "refused", "end"): continue
        at = f"line {number}"
        need((kind in ("move", "moved")) == (step is not None), f"{at} is out of place")
        if kind == "step":
            step = {} if numbers(words, 1) else None
        elif kind == "move":
            v, *by = numbers(words, 4)
            need(v in mesh.points and v not in mesh.solid and v not in step, f"{at}: the vertex may not move")
            step[v] = plus(mesh.points[v], by)
            need(max(map(abs, step[v])) <= 2**28, f"{at}: out of the box")
        elif kind == "moved":
            motion = {v: (twice(mesh.points[v]), twice(end)) for v, end in step.items()}
            need_certified(at, mesh, motion, mesh, "along", motions.pop(number, None))
            mesh.points.update(step)
            step = None
        elif kind == "mesh":
            need(numbers(words, 3)[1:] == [len(mesh.points), len(mesh.faces)], f"{at}: other numbers")
        elif kind == "solid":
            need(numbers(words, 1)[0] in mesh.points, f"{at}: no vertex")
            mesh.solid.add(int(words[0]))
        elif kind in ("vertices", "faces"):
            need(lines[0] == "topo log 3" and not groups, f"{at}: no new ids may be taken")
            ids = new_ids(words, len(mesh.points if kind == "vertices" else mesh.faces))
            (mesh.take_vertices if kind == "vertices" else mesh.take_faces)(ids)
        elif kind == "group":
            need(not words and len(groups) < 8, f"{at}: no group may begin")
            groups.append(mesh.copy())
        elif kind == "close":
            need(groups and words in (["kept"], ["undone"]), f"{at}: no group is open")
            mesh = (mesh, groups.pop())[words == ["undone"]]
        else:
            need(kind in EDITS, f"{at}: {kind}")
            edit, asked, claim = EDITS[kind]
            told, tested, motion, result = edit(mesh, kind, *numbers(words[:asked], asked))
            need(words == [str(number) for number in told], f"{at}: the edit gives {told}")
            need_clear(result, touched_of(result, motion, mesh))
            need_certified(at, tested, motion, mesh, claim, motions.pop(number, None))
            mesh = result
    need(not motions, f"motion {min(motions, default=0)} nomotion")

def verify(mesh, log, proof, decimals=0, large=False):
    """How many motions of the log the proof certifies, or Refused. The texts are given as bytes."""
    need(max(map(len, (mesh, log, proof))) <= TEXT[large], "a text is too long")
    mesh, log, proof = (text.decode("latin-1") for text in (mesh, log, proof))
    mesh, log, motions = read_mesh(mesh, decimals, large), log.split("\n"), read_proof(proof.split("\n"))
    count = len(motions)
    need_clear(mesh, mesh.faces)
    replay(mesh, log, motions)
    return count

def main():
    parser = argparse.ArgumentParser(description=__doc__, formatter_class=argparse.RawDescriptionHelpFormatter)
    parser.add_argument("mesh", metavar="MESH")
    parser.add_argument("log", metavar="LOG")
    parser.add_argument("proof", metavar="PROOF")
    parser.add_argument("--large", action="store_true", help="meshes of up to 8,388,608 faces, and texts of up to 2 GiB")
    parser.add_argument("--decimals", type=int, choices=range(7), default=0)
    words = parser.parse_args()
    try:
        texts = [open(name, "rb").read() for name in (words.mesh, words.log, words.proof)]
        print("verified", verify(*texts, words.decimals, words.large))
    except (Refused, OSError, ValueError) as why:
        print("refused", ascii(str(why))[1:-1])
        sys.exit(1)

if __name__ == "__main__":
    main()
