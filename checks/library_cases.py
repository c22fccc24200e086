#!/usr/bin/env python3
"""Worked cases of `library/topo.py`: what it refuses, what it requests and reads by ids.

    checks/library_cases.py [--library FOLDER]

Where numpy is there, all is done once without it and once with it, and then columns are given as its arrays. Prints how many cases hold,
or which do not.
"""

import os
import sys
import threading

ROOT = os.path.dirname(os.path.dirname(os.path.abspath(__file__)))
sys.path.insert(0, os.path.join(ROOT, "library"))
sys.dont_write_bytecode = True
import topo  # noqa: E402
from calling import library_of  # noqa: E402

LIBRARY = os.path.join(library_of(__doc__), "libtopo.so")
POINTS = [(0, 0, 0), (4, 0, 0), (0, 4, 0), (0, 0, 4)]
FACES = [(1, 3, 2), (1, 2, 4), (2, 3, 4), (1, 4, 3)]
held, failed = 0, []


def holds(what, so):
    global held
    held += bool(so)
    failed.extend([] if so else [what])


def says(what, error, words, call):
    """Whether a call ends with this error, which has these words."""
    try:
        call()
    except error as why:
        holds(f"{what}: {why}", all(word in str(why) for word in words.split("|")))
    except Exception as why:
        holds(f"{what}: {why!r}", False)
    else:
        holds(f"{what}: nothing is said", False)


def tetrahedron(points=POINTS, faces=FACES, **words):
    return topo.Tracker(points, faces, library=LIBRARY, **{"unit": 0.1, **words})


class Narrow:
    """A number that is taken as a float before all arithmetic, or not at all: its own would be of few bits."""

    def __init__(self, value):
        self.value = value

    def __float__(self):
        return float(self.value)


class Whole:
    """A whole number that is no int."""

    def __index__(self):
        return 3


def shapes():
    says("two components", ValueError, "point 2 has 2 numbers", lambda: tetrahedron([*POINTS[:1], (4, 0), *POINTS[2:]]))
    says("four components", ValueError, "point 1 has 4 numbers", lambda: tetrahedron([(0, 0, 0, 1), *POINTS[1:]]))
    says("no row", TypeError, "point 1 is 7", lambda: tetrahedron([7, *POINTS[1:]]))
    says("no number", TypeError, "point 2|None", lambda: tetrahedron([POINTS[0], (None, 0, 0), *POINTS[2:]]))
    says("not finite", ValueError, "point 4|nan", lambda: tetrahedron([*POINTS[:3], (0, 0, float("nan"))]))
    says("beyond all floats", OverflowError, "point 2", lambda: tetrahedron([POINTS[0], (10**400, 0, 0), *POINTS[2:]]))
    says("too far", OverflowError, "point 4|1000000000.0|2^30", lambda: tetrahedron([*POINTS[:3], (0, 0, 1e9)]))
    says("outside the box", topo.TopoError, "topo_new|point 4 is not in the box", lambda: tetrahedron([*POINTS[:3], (0, 0, 3e7)]))
    says("two corners", ValueError, "face 2 has 2 numbers", lambda: tetrahedron(faces=[FACES[0], (1, 2), *FACES[2:]]))
    says("a corner beyond 32 bits", ValueError, f"face 2 is {2**32 + 1}", lambda: tetrahedron(faces=[FACES[0], (2**32 + 1, 2, 4), *FACES[2:]]))
    says("a corner below zero", ValueError, "face 2 is -1", lambda: tetrahedron(faces=[FACES[0], (-1, 2, 4), *FACES[2:]]))
    says("a corner that is no whole number", TypeError, "face 2 is 2.9", lambda: tetrahedron(faces=[FACES[0], (1, 2.9, 4), *FACES[2:]]))
    says("a corner that is no point", topo.TopoError, "face 2: its corner 2", lambda: tetrahedron(faces=[FACES[0], (1, 9, 4), *FACES[2:]]))
    says("an open surface", topo.TopoError, "topo_new|from vertex 1 to vertex 3|not closed", lambda: tetrahedron(faces=FACES[:3]))
    for unit in (0, -1, float("inf"), float("nan")):
        says("a unit that is none", ValueError, "the unit", lambda: tetrahedron(unit=unit))
    says("an origin that is none", ValueError, "the origin", lambda: tetrahedron(origin=(0, 0)))
    with tetrahedron([[Narrow(c) for c in p] for p in POINTS], origin=[Narrow(0.0)] * 3) as surface:
        holds("numbers of other types", surface.vertices()[2] == (4.0, 0.0, 0.0) and surface.rounded < 1e-12)
    with tetrahedron([], []) as surface:
        holds("no point", surface.vertices() == {} and surface.faces() == {} and surface.solids() == [] and surface.events() == [])
        for name, kind in (("topo_points", topo.Vertex), ("topo_solids", topo.u32)):
            rows = surface.rows(name, kind)
            holds("no row is an array too", len(rows) == 0 and (isinstance(rows, list) if topo.numpy is None else isinstance(rows, topo.numpy.ndarray)))


def ids():
    with tetrahedron() as surface:
        for call, what in ((lambda v: surface.shift({v: (0, 0, 1)}), "id 1"), (lambda v: surface.toward({v: (0, 0, 1)}), "id 1"), (surface.solid, "an id"), (surface.star, "an id")):
            says("an id beyond 32 bits", ValueError, f"{what} is {2**32 + 1}", lambda: call(2**32 + 1))
            says("an id below zero", ValueError, f"{what} is -1", lambda: call(-1))
            says("an id that is no whole number", TypeError, f"{what} is 2.9", lambda: call(2.9))
        says("a shift of two components", ValueError, "shift 1 has 2 numbers", lambda: surface.shift({1: (0, 1)}))
        says("a shift of all of two", ValueError, "a shift has 2 numbers", lambda: surface.shift_all((0, 1)))
        says("a shift beyond its range", ValueError, f"shift 2 is {6 * 10**8}", lambda: surface.shift({1: (0, 0, 1), 2: (6e7, 0, 0)}))
        says("fewer ids than shifts", ValueError, "1 ids|2 rows", lambda: surface.shift([1], [(0, 0, 1), (0, 0, 1)]))
        says("a vertex that does not live", topo.TopoError, "topo_shift_each|no live vertex has the id 9", lambda: surface.shift({1: (0, 0, 1), 9: (0, 0, 1)}))
        says("nor goes to a point", topo.TopoError, "no live vertex has the id 9", lambda: surface.toward({9: (0, 0, 1)}))
        holds("what stands before it is asked", surface.step() == ("whole", 0, 0) and surface.vertices()[1] == (0.0, 0.0, 1.0))
        surface.toward({Whole(): (1, 4, 0)})
        surface.shift([1, 2], [(0, 0, -0.5), (1, 0, 0)])
        surface.step()
        found, points = surface.columns()
        holds("columns", list(found) == [1, 2, 3, 4] and [tuple(p) for p in points] == [(0.0, 0.0, 0.5), (5.0, 0.0, 0.0), (1.0, 4.0, 0.0), (0.0, 0.0, 4.0)])
        surface.solid(2)
        says("a solid vertex", topo.TopoError, "vertex 2 is solid", lambda: surface.shift({2: (0, 0, 1)}))


def settings():
    with tetrahedron() as surface:
        for name, beyond in (("depth", 11), ("depth", 262), ("passes", 259), ("zones", 2), ("zones", 256), ("halvings", -1), ("halvings", 28)):
            says("a setting beyond its limit", ValueError, f"the setting {name} is {beyond}", lambda: surface.set(**{name: beyond}))
        says("a setting that is no whole number", TypeError, "the setting passes is 2.5", lambda: surface.set(passes=2.5))
        surface.set(10, 100, False, 27)
        for length in (-1, float("nan"), float("inf"), 1e12):
            says("a length that is none", (ValueError, OverflowError), "a length is ", lambda: surface.split(length))
        surface.split(1000.04)
        holds("a length is not counted as rounded", surface.rounded < 1e-12)
        surface.shift({1: (0.03, 0, 0)})
        holds("a shift is", abs(surface.rounded - 0.03) < 1e-12)


def edits():
    with tetrahedron() as surface:
        holds("no edit", len(surface.edit_each([])) == 0)
        answers = surface.edit_each([("split", 2, 1), ("pinch", 4), ("split", 2, 3)]).tolist()
        holds("by words", [tuple(row) for row in answers] == [(0, 5, 0, 0, 20, 0, 0), (7, 0, 0, 0, 0, 0, 0), (0, 6, 0, 0, 20, 20, 0)])
        answers = surface.edit_each([(2, 5, 4, 0, 0), (4, 77, 1, 0, 0)]).tolist()
        holds("by numbers", [tuple(row) for row in answers] == [(0, 7, 0, 0, 10, 0, 20), (1, 0, 0, 0, 0, 0, 0)])
        holds("no group is open", surface.undo() == "none")
        surface.open()
        holds("one component", surface.components() == [topo.Component(1, 4 + 2 * 3, 2, 64000 / 6 * 0.1**3)])
        holds("one edit", surface.ask("split", 1, 3) == topo.Answer("", 8, 0, 0, (0.0, 2.0, 0.0)))
        holds("its star", len(surface.star(8)) == 4 and [tuple(row)[0] for row in surface.beside(1, 8).tolist()] == sorted(f for f, c in surface.faces().items() if {1, 8} <= {*c}))
        holds("the first refused is the last", len(surface.edit_each([("flip", 1, 77), ("split", 1, 4)])) == 1)
        holds("it is taken back", surface.undo() == "taken back" and len(surface.star(8)) == 0 and len(surface.beside(1, 8)) == 0)
        holds("why not", surface.ask("pinch", 4) == topo.Answer("onefan", 0, 0, 0, None))
        says("no edit of this word", ValueError, "edit 2 is 'melt'|flip", lambda: surface.edit_each([("pinch", 4), ("melt", 1, 2)]))
        says("too few ids", ValueError, "edit 1|zip|has 2 numbers, and not 4", lambda: surface.edit_each([("zip", 1, 2)]))
        says("one end twice", ValueError, "edit 1|both ends of an edge are 2", lambda: surface.ask("split", 2, 2))
        says("an id beyond", ValueError, f"an id of edit 1 is {2**32 + 1}", lambda: surface.ask("split", 1, 2**32 + 1))
        says("an id that is none", TypeError, "an id of edit 1 is 2.9", lambda: surface.ask("split", 1, 2.9))
        says("a number beyond 32 bits", ValueError, f"edit 1 is {2**32 + 2}", lambda: surface.edit_each([(2**32 + 2, 1, 2, 0, 0)]))
        says("a kind that is none", topo.TopoError, "topo_edit_each|beyond its limit", lambda: surface.edit_each([(9, 1, 2, 0, 0)]))
        log = surface.log()
        surface.open()
        says("a group is open", topo.TopoError, "topo_renumber|a group is open", surface.renumber)
        surface.undo()
        surface.collapse(2.1)
        surface.renumber()
        count = surface.counts()
        holds("numbered anew", [*surface.vertices()] == [*range(1, count["vertices"] + 1)] and [*surface.faces()] == [*range(1, count["faces"] + 1)])
        holds("with no line", surface.log() == "" and count["next_vertex"] == count["vertices"] + 1 and count["next_face"] == count["faces"] + 1)
        surface.begin_log()
        holds("a mesh in a log", surface.save() == 1)
        surface.end_log()
        numbers = f"{count['vertices']} {count['faces']}"
        holds("which is whole", surface.log() == f"topo log 2\nmesh 0 {numbers}\nmesh 1 {numbers}\nend\n")
        surface.split(1)
        surface.begin_log()
        count, rows = surface.counts(), [" ".join(map(str, ids)) for ids in (surface.vertices(), surface.faces())]
        told = f"vertices {count['next_vertex']} {rows[0]}\nfaces {count['next_face']} {rows[1]}\n"
        holds("ids that are not dense are told first", surface.log() == f"topo log 3\nmesh 0 {count['vertices']} {count['faces']}\n{told}")
        holds("its log", log.startswith("split 1 2 5 20 0 0\nno pinch 4 onefan\n") and log.endswith("close undone\nno pinch 4 onefan\n") and surface.log() == "")
        holds("the component goes", surface.drop(1).why == "" and surface.components() == [])
        holds("and then there is no edge", surface.drop(1) == topo.Answer("noedge", 0, 0, 0, None))


def tables():
    cells, bands = ((-2, 0, 0), 2, (3, 1, 1)), [(0.1, 10), (0.1, 10), (0.1, 4.5)]
    with tetrahedron() as surface:
        holds("two edges are long in the last cell", surface.fit_by(*cells, bands) == (2, 0))
        holds("as their lines tell", surface.log() == "pass fit\nsplit 2 3 5 20 20 0\nsplit 2 4 6 20 0 20\n")
        says("fewer bands than cells", topo.TopoError, "topo_fit_by|not as many bands as cells", lambda: surface.fit_by(*cells, bands[1:]))
        says("no cells and no bands", topo.TopoError, "topo_fit_by|no cell", lambda: surface.fit_by((0, 0, 0), 2, (0, 1, 1), []))
        says("cells of no side", topo.TopoError, "the side of the cells is 0", lambda: surface.fit_by((0, 0, 0), 0.04, (3, 1, 1), bands))
        says("a band of one length", topo.TopoError, "band at place 1", lambda: surface.fit_by(*cells, [(1, 2), (2, 2), (2, 2)]))
        says("a band of three", ValueError, "band 1 has 3 numbers", lambda: surface.fit_by(*cells, [(1, 2), (2, 3, 4), (2, 3)]))
        says("a length below zero", OverflowError, "a length is -1", lambda: surface.fit_by(*cells, [(-1, 2), *bands[1:]]))
        says("a length that is too far", OverflowError, "2^30", lambda: surface.fit_by(*cells, [*bands[1:], (1, 1e9)]))
        says("two numbers of cells", ValueError, "the numbers of cells has 2 numbers", lambda: surface.fit_by((0, 0, 0), 2, (3, 1), bands))
        says("a number of cells below zero", ValueError, "a number of cells is -1", lambda: surface.fit_by((0, 0, 0), 2, (3, -1, -1), bands))
    half_of_an_octahedron()


def half_of_an_octahedron():
    """An octahedron gets short edges where x is 0 and more: each edge there is short in the end, and the half below has only those that end at x = 0."""
    points = [(1, 0, 0), (-1, 0, 0), (0, 1, 0), (0, -1, 0), (0, 0, 1), (0, 0, -1)]
    faces = [(1, 3, 5), (3, 2, 5), (2, 4, 5), (4, 1, 5), (3, 1, 6), (2, 3, 6), (4, 2, 6), (1, 4, 6)]
    bands = [(0.05, 0.3 if k % 2 else 1.5) for k in range(8)]
    with topo.Tracker(points, faces, unit=0.001, library=LIBRARY) as surface:
        while surface.fit_by((-2, -2, -2), 2, (2, 2, 2), bands)[0]:
            pass
        at = {v: p for v, *p in surface.leave().vertices}
        edges = {(a, b) for f in surface.faces().values() for a, b in zip(f, (*f[1:], f[0])) if a < b}
        longest = {(at[a][0] + at[b][0]) // 2 >= 0: 0 for a, b in edges}
        for a, b in edges:
            there = (at[a][0] + at[b][0]) // 2 >= 0
            longest[there] = max(longest[there], sum((p - q) ** 2 for p, q in zip(at[a], at[b])) ** 0.5)
        holds("short edges in the one half", longest[True] <= 300 and 300 < longest[False] <= 1500)
        holds("and one vertex in the other", [v for v, p in at.items() if p[0] < 0] == [2] and len(at) > 50)


def one_thread():
    with tetrahedron() as surface:
        said = []

        def elsewhere():
            for call in (surface.step, surface.vertices, surface.log, surface.free, surface.flip):
                try:
                    call()
                except RuntimeError as why:
                    said.append("on the thread that made it" in str(why))

        thread = threading.Thread(target=elsewhere)
        thread.start()
        thread.join()
        holds("on another thread", said == [True] * 5 and surface.step() == ("whole", 0, 0))
        left = surface.leave()
    says("after its end", topo.TopoError, "topo_step: there is no tracker", surface.step)
    with topo.Tracker(left, unit=0.1, library=LIBRARY) as again:
        holds("goes on", again.vertices()[2] == (4.0, 0.0, 0.0) and again.counts()["next_vertex"] == 5)
    left.faces[0] = (left.faces[0][0], 1, 2**32 + 3, 2)
    says("a corner that was not left", ValueError, f"face 1 is {2**32 + 3}", lambda: topo.Tracker(left, library=LIBRARY))
    left.vertices[2] = (3, 0, 2**31, 0)
    says("a coordinate that was not left", ValueError, f"vertex 3 is {2**31}", lambda: topo.Tracker(left, library=LIBRARY))


def arrays(numpy):
    """The same by arrays: of few bits, of the wrong shape, and of rows that are told."""
    points = numpy.array(POINTS, numpy.float32)
    with tetrahedron(points / numpy.float32(3), numpy.array(FACES, numpy.uint8), unit=1e-5) as surface:
        near = [tuple(round(float(c) / 1e-5) for c in p) for p in points / numpy.float32(3)]
        holds("coordinates of few bits", [row[1:] for row in surface.leave().vertices] == near and surface.rounded <= 0.50001e-5)
    with tetrahedron(numpy.array(POINTS, numpy.int8) * 31, numpy.array(FACES), unit=0.5) as surface:
        holds("whole ones of few bits", surface.vertices()[2] == (124.0, 0.0, 0.0))
        ids, rows = surface.columns()
        surface.shift(ids[:2], numpy.array([[0, 0, -1], [1, 0, 0]], numpy.int8))
        surface.toward(ids[2:], rows[2:] + 1)
        surface.step()
        holds("columns of arrays", surface.vertices() == {1: (0.0, 0.0, -1.0), 2: (125.0, 0.0, 0.0), 3: (1.0, 125.0, 1.0), 4: (1.0, 1.0, 125.0)})
        answers = surface.edit_each(numpy.array([(2, 1, 2, 0, 0), (6, 4, 0, 0, 0)], numpy.int16))
        holds("edits of arrays", answers["why"].tolist() == [0, 7] and answers["a"].tolist() == [5, 0])
        holds("bands of arrays", surface.fit_by((0, 0, 0), 500, (1, 1, 2), numpy.array([[1, 100], [1, 200]], numpy.float32)) == (7, 0))
        says("shifts of another number", ValueError, "2 ids|1 rows", lambda: surface.shift(ids[:2], numpy.zeros((1, 3))))
        says("an array of two columns", ValueError, "shift 1 has 2 numbers", lambda: surface.shift(ids[:2], numpy.zeros((2, 2))))
        says("ids that are no whole numbers", TypeError, "id 1", lambda: surface.shift(numpy.array([1.0]), numpy.zeros((1, 3))))
        says("not finite", ValueError, "shift 1|nan", lambda: surface.shift(ids[:1], numpy.array([[0, numpy.nan, 0]])))
        surface.shift(numpy.array([1], numpy.uint64), numpy.zeros((1, 3)))


def main():
    found = topo.numpy
    for numpy in (None, found) if found else (None,):
        topo.numpy = numpy
        for cases in (shapes, ids, settings, edits, tables, one_thread):
            cases()
    if found:
        arrays(found)
    for what in failed:
        print(f"not so: {what}")
    print(f"{held} hold, {len(failed)} do not{'' if found else '; without numpy'}")
    return min(len(failed), 1)


if __name__ == "__main__":
    sys.exit(main())
