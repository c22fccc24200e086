#!/usr/bin/env python3
"""Makes the meshes of a log again, from the mesh that it began with and the log alone.

    examples/replay.py MESH LOG PREFIX [--large] [--decimals N]

Writes PREFIX-000000.obj and so on, as `topo track` stored them, and says `replayed K`, the number of meshes. The log is believed: each line
is done as it says, and nothing is tested, so `--large` changes nothing. docs/FORMATS.md says how a log is replayed. Exit status 1 where the
log can not be of this mesh.
"""
import argparse
import sys
from fractions import Fraction

class Mesh:
    def __init__(self, points, faces):
        self.points, self.faces = dict(enumerate(points, 1)), {}
        self.next_vertex, self.next_face = len(points) + 1, 1
        self.faces_at = {v: set() for v in self.points}
        self.make(faces)

    def add(self, point):
        self.points[self.next_vertex], self.faces_at[self.next_vertex] = point, set()
        self.next_vertex += 1

    def make(self, faces):
        for corners in faces:
            self.faces[self.next_face] = corners
            for v in corners:
                self.faces_at[v].add(self.next_face)
            self.next_face += 1

    def drop(self, faces):
        for f in faces:
            for v in self.faces.pop(f):
                self.faces_at[v].remove(f)

    def remake(self, faces, old, new):
        """Drops faces, and makes each again with another vertex in one's place."""
        made = [tuple(new if v == old else v for v in self.faces[f]) for f in faces]
        self.drop(faces)
        self.make(made)

    def at(self, *vertices):
        """The faces that have all these corners, rising."""
        return sorted(set.intersection(*(self.faces_at[v] for v in vertices)))

    def beside(self, a, b):
        """The two faces beside an edge, and the corner of each that is no end: first of the face that runs from a to b."""
        f, g = sorted(self.at(a, b), key=lambda f: (a, b) not in sides(self.faces[f]))
        return (f, g), sum(self.faces[f]) - a - b, sum(self.faces[g]) - a - b

    def state(self):
        return dict(self.points), dict(self.faces), self.next_vertex, self.next_face

    def take(self, points, faces, next_vertex, next_face):
        self.points, self.faces, self.next_vertex, self.next_face = points, faces, next_vertex, next_face
        self.faces_at = {v: set() for v in self.points}
        for f, corners in self.faces.items():
            for v in corners:
                self.faces_at[v].add(f)

def sides(corners): return corners[:2], corners[1:], corners[2:] + corners[:1]

# ---- edits, by the numbers of their line

def split(mesh, a, b, w, *point):
    faces, c, d = mesh.beside(a, b)
    mesh.drop(faces)
    mesh.add(tuple(point))
    mesh.make([(a, w, c), (w, b, c), (b, w, d), (w, a, d)])

def flip(mesh, a, b):
    faces, c, d = mesh.beside(a, b)
    mesh.drop(faces)
    mesh.make([(a, d, c), (b, c, d)])

def collapse(mesh, a, b, *point):
    touched = {v for f in (*mesh.at(a), *mesh.at(b)) for v in mesh.faces[f]}
    mesh.drop(mesh.at(a, b))
    mesh.remake(mesh.at(b), b, a)
    for f in mesh.at(a):
        if f in mesh.faces:
            opposites = [g for g in mesh.at(*mesh.faces[f]) if mesh.faces[f][::-1] in sides_turned(mesh.faces[g])]
            mesh.drop([f, opposites[0]] if opposites else [])
    for v in touched:
        if not mesh.faces_at[v]:
            del mesh.points[v], mesh.faces_at[v]
    if a in mesh.points:
        mesh.points[a] = tuple(point)

def sides_turned(c): return c, c[1:] + c[:1], c[2:] + c[:2]

def join(mesh, a, b, e, f, k):
    (one, c, d), (two, g, h) = mesh.beside(a, b), mesh.beside(e, f)
    mesh.drop(one + two)
    p, r = (b, c, a, d) * 2, (f, h, e, g) * 3
    mesh.make([face for i in range(4) for face in ((p[i], p[i + 1], r[i + k]), (p[i + 1], r[i + 1 + k], r[i + k]))])

def pinch(mesh, v, *told):
    fans = []
    for f in mesh.at(v):
        rim = {*mesh.faces[f]} - {v}
        joined = [fan for fan in fans if fan[1] & rim]
        fans = [fan for fan in fans if fan not in joined]
        fans.append((sorted([f, *(g for faces, _ in joined for g in faces)]), rim.union(*(its for _, its in joined))))
    mesh.points[v] = told[:3]
    copies = [told[i:i + 4] for i in range(3, len(told), 4)]
    for (w, *point), (faces, _) in zip(copies, sorted(fans, key=lambda fan: fan[0])[1:]):
        mesh.add(tuple(point))
        mesh.remake(faces, v, w)

# ---- new ids, by the numbers of their line: the vertices, or the faces, take them in turn

def take_vertices(mesh, next_vertex, *ids):
    new = new_ids(mesh.points, ids)
    faces = {f: tuple(new[v] for v in corners) for f, corners in mesh.faces.items()}
    mesh.take({new[v]: point for v, point in mesh.points.items()}, faces, next_vertex, mesh.next_face)

def take_faces(mesh, next_face, *ids):
    new = new_ids(mesh.faces, ids)
    mesh.take(mesh.points, {new[f]: corners for f, corners in mesh.faces.items()}, mesh.next_vertex, next_face)

def new_ids(old, ids):
    if len(ids) != len(old) or any(v >= w for v, w in zip(ids, ids[1:])):
        raise ValueError(f"new ids {ids} of {len(old)}")
    return dict(zip(sorted(old), ids))

CHANGES = {"split": split, "flip": flip, "collapse": collapse, "zip": join, "pinch": pinch, "vertices": take_vertices, "faces": take_faces}

# ---- texts

def read_mesh(text, decimals):
    points, faces = [], []
    for kind, *words in (line.split("#")[0].split() or ["g"] for line in text.split("\n")):
        if kind == "v":
            values = [Fraction(word) * 10**decimals for word in words[:3]]
            points.append(tuple(int(x + Fraction(1, 2)) if x > 0 else int(x - Fraction(1, 2)) for x in values))
        if kind == "f":
            ids = [v + len(points) + 1 if v < 0 else v for v in (int(word.split("/")[0]) for word in words)]
            faces += zip(ids[:1] * (len(ids) - 2), ids[1:], ids[2:])
    return Mesh(points, faces)

def coordinate(x, decimals):
    if not decimals:
        return str(x)
    whole, part = divmod(abs(x), 10**decimals)
    return f"{'-' * (x < 0)}{whole}.{part:0{decimals}}"

def text_of(mesh, decimals):
    rank = {v: str(number) for number, v in enumerate(sorted(mesh.points), 1)}
    points = (["v", *(coordinate(x, decimals) for x in mesh.points[v])] for v in rank)
    faces = (["f", *(rank[v] for v in mesh.faces[f])] for f in sorted(mesh.faces))
    return "".join(" ".join(words) + "\n" for part in (points, faces) for words in part)

def replay(mesh, log):
    """The first word of each line, the others, and the mesh behind the line."""
    step, groups = {}, []
    for kind, *words in (line.split(" ") for line in log.split("\n")[:-1]):
        if kind == "step":
            step = {}
        elif kind == "move":
            v, *by = map(int, words)
            step[v] = by
        elif kind == "moved":
            for v, by in step.items():
                mesh.points[v] = tuple(x + y for x, y in zip(mesh.points[v], by))
            step = {}
        elif kind == "group":
            groups.append(mesh.state())
        elif kind == "close":
            state = groups.pop()
            if words == ["undone"]:
                mesh.take(*state)
        elif kind in CHANGES:
            CHANGES[kind](mesh, *map(int, words))
        yield kind, words, mesh

def read(name):
    with open(name, encoding="latin-1", newline="") as it:
        return it.read()

def write(name, text):
    with open(name, "w", encoding="ascii", newline="") as it:
        it.write(text)

def main():
    parser = argparse.ArgumentParser(description=__doc__, formatter_class=argparse.RawDescriptionHelpFormatter)
    parser.add_argument("mesh", metavar="MESH")
    parser.add_argument("log", metavar="LOG")
    parser.add_argument("prefix", metavar="PREFIX")
    parser.add_argument("--large", action="store_true")
    parser.add_argument("--decimals", type=int, choices=range(7), default=0)
    words = parser.parse_args()
    count = 0
    try:
        for kind, told, mesh in replay(read_mesh(read(words.mesh), words.decimals), read(words.log)):
            if kind == "mesh":
                write(f"{words.prefix}-{int(told[0]):06}.obj", text_of(mesh, words.decimals))
                count += 1
    except (LookupError, ValueError, TypeError) as why:
        sys.exit(f"replay: the log is of another mesh ({why!r})")
    print("replayed", count)

if __name__ == "__main__":
    main()
