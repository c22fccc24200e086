"""The tracker of topo.h from Python, by ctypes alone. It is no part of what is proved.

    import topo
    with topo.Tracker(points, faces, unit=0.001) as surface:
        surface.toward({3: (0.1, 0.2, 0.0)})
        print(surface.step(), surface.split(0.05))
        for event in surface.events(): ...
        print(surface.ask("split", 3, 7), surface.star(7))

Points, shifts and lengths are in the caller's unit, say metres; `unit` is the grid's in that, and `origin` is the point at grid 0 0 0. A coordinate
is rounded to the nearest grid point, halves to even, so it lies at most half a unit off; `rounded` is the farthest that a coordinate of a point or of
a shift was moved so far (a length is rounded too, and not counted). Columns of points and ids may be numpy's arrays, and rows are read as such, where
numpy is there; else rows are lists of tuples (`rows.tolist()` serves both). A call that the library does not do is a TopoError, and what is no number of
its range is refused before as a TypeError, a ValueError or an OverflowError: each says why, and where. A tracker is called on the thread that made it
alone, and elsewhere a RuntimeError.
"""

import collections
import ctypes
import math
import operator
import os
import threading

try:
    import numpy
except ImportError:
    numpy = None

u32, i32, size_t, ref = ctypes.c_uint32, ctypes.c_int32, ctypes.c_size_t, ctypes.byref
DONE, NO_MEMORY, REFUSED, RANGE, EMPTY, STOPPED, SPENT, GROUPED = range(8)
WAYS = ("whole", "impulse", "zones", "halved", "zero")
GROUPS = ("none", "kept", "taken back")
EVENTS = ("", "moved", "split", "flipped", "collapsed", "zipped", "pinched", "solid", "opened", "kept", "undone")
# the edits by ids with their numbers and how many ids they have, and why one is not done, in the words of the log
EDITS = {"split": (2, 2), "flip": (3, 2), "collapse": (4, 2), "zip": (5, 4), "pinch": (6, 1)}
AGAINST = ("", "noedge", "crowded", "edge", "shared", "full", "doubled", "onefan", "hit", "solid")
SETTINGS = {"depth": 10, "passes": 100, "zones": 1, "halvings": 27}
ID_MAX, SHIFT_MAX, LENGTH_MAX, WORD_MAX = 2**31, 2**29, 2**30, 2**32 - 1

CODES = {
    NO_MEMORY: "there was no memory",
    RANGE: "an argument is beyond its limit",
    EMPTY: "there is no tracker, or it was freed",
    STOPPED: "an earlier directive had no memory: the tracker can be read and freed, no more",
    SPENT: "2^32 - 1 steps were taken, or as many meshes saved",
    GROUPED: "a group is open",
}
REASONS = {
    1: "no live vertex has the id {a}",
    2: "a component of the summed shift of vertex {a} is above 2^29",
    3: "vertex {a} would leave the box",
    5: "vertex {a} is solid",
    10: "point {a} is not in the box",
    11: "{a} vertices are too many",
    12: "{a} faces are too many",
    13: "face {a}: its corner {b} is no vertex",
    14: "face {a} has a corner twice",
    15: "faces {a} and {b} are equal",
    16: "the faces do not run as often from vertex {a} to vertex {b} as back: the surface is not closed",
    17: "the edge from {a} to {b} meets the face {c}",
    18: "the id of the next vertex, {a}, is 0 or above 2^31 + 1",
    19: "the id of the next face, {a}, is 0 or above 2^31 + 1",
    20: "the id of the vertex at place {a} is 0, or not above the one before, or not below that of the next vertex",
    21: "the id of the face at place {a} is 0, or not above the one before, or not below that of the next face",
    22: "vertex {a}, which is to be solid, does not live, or is not above the one before",
    23: "the side of the cells is 0",
    24: "there is no cell, or there are not as many bands as cells",
    25: "the band at place {a}, from 0, has no low length below its high one, or that is above 2^30 units of the grid",
}


def struct(name, **fields):
    return type(name, (ctypes.Structure,), {"_fields_": [(word, kind) for words, kind in fields.items() for word in words.split("_")]})


Handle = struct("Handle", at=ctypes.c_void_p, live=u32)
Fault = struct("Fault", why_a_b_c=u32)
Point = struct("Point", x_y_z=i32)
Triangle = struct("Triangle", a_b_c=u32)
Vertex = struct("Vertex", id=u32, x_y_z=i32)
Face = struct("Face", id_a_b_c=u32)
Way = struct("Way", how_times=u32, hits=size_t)
Edits = struct("Edits", done_refused=ctypes.c_uint64)
Counted = type("Counted", (ctypes.Structure,), {"_fields_": [("lines", size_t)] + [(word, u32) for word in ("vertices", "faces", "next_vertex", "next_face", "steps")]})
Event = struct("Event", kind_a_b_c_d=u32, x_y_z=i32)
ComponentRow = type("ComponentRow", (ctypes.Structure,), {"_fields_": [("vertex", u32), ("faces", u32), ("euler", ctypes.c_int64), ("volume6_low", ctypes.c_uint64),
                                                                      ("volume6_high", ctypes.c_int64)]})
Asked = struct("Asked", kind_a_b_c_d=u32)
Answered = struct("Answered", why_a_b_c=u32, x_y_z=i32)
Band = struct("Band", low_high=u32)
Cells = struct("Cells", x_y_z=i32, side_nx_ny_nz=u32)

CALLS = ("topo_new topo_new_numbered topo_free topo_shift_each topo_shift_all topo_set topo_step topo_split topo_collapse topo_flip topo_zip topo_pinch topo_fit topo_fit_by "
         "topo_edit_each topo_close_fold topo_drop topo_solid topo_open topo_close topo_undo topo_counts topo_points topo_faces topo_star topo_beside topo_components "
         "topo_solids topo_events topo_log topo_forget topo_renumber topo_begin_log topo_save topo_end_log topo_keep topo_version topo_calls").split()

Component = collections.namedtuple("Component", "vertex faces euler volume")
Answer = collections.namedtuple("Answer", "why a b c at")
Answer.__doc__ = """What came of an edit: `why` is "" where it is done, and else a word of AGAINST. Of a split, a is the new vertex, of a collapse the vertex that is left, if
one is, and of a pinch the first copy of b, whose ids rise by one; b of a zip is one of four turns; a, b and c of a hit are the edge and the face. `at` is
where the vertex stands of which a split, a collapse or a pinch tells, and else None."""


class TopoError(Exception):
    """A call that is not done: the name of the call, its code, and of a refusal the reason and the place, as topo.h has them; as a text, all that in words."""

    def __init__(self, call, code, why=0, a=0, b=0, c=0):
        super().__init__(call, code, why, a, b, c)
        self.call, self.code, self.why, self.place = call, code, why, (a, b, c)

    def __str__(self):
        a, b, c = self.place
        words = REASONS.get(self.why, "reason %d, at {a} {b} {c}" % self.why) if self.code == REFUSED else CODES.get(self.code, f"code {self.code}")
        return f"{self.call}: {words.format(a=a, b=b, c=c)}"


def library_here():
    """Where the library is, if nothing is said of it: beside this file, as it is installed, or where library/build puts it."""
    here = os.path.dirname(os.path.abspath(__file__))
    beside = os.path.join(here, "libtopo.so")
    return beside if os.path.exists(beside) else os.path.join(here, "out/libtopo.so")


def load(path):
    """The library at a path, which has the calls that are called here."""
    library = ctypes.CDLL(path)
    lacking = [name for name in CALLS if not hasattr(library, name)]
    if lacking:
        raise ImportError(f"{path} is the library of another topo.h: it has no {', '.join(lacking)}")
    if library.topo_calls() != 4:
        raise ImportError(f"{path} is the library of another topo.h: its calls have the version {library.topo_calls()}, and not 4")
    if library.topo_version() != 2:
        raise ImportError(f"{path} has another version of the log than 2")
    return library


# ---- numbers that the library takes; the last words of each call say what is looked at, and where


def whole(number, low, high, *what):
    """A whole number from low to high."""
    try:
        found = operator.index(number)
    except TypeError:
        raise TypeError(f"{named(what)} is {number!r}, and no whole number") from None
    if not low <= found <= high:
        raise ValueError(f"{named(what)} is {found}, and not from {low} to {high}")
    return found


def real(number, *what):
    """A finite number."""
    try:
        found = float(number)
    except (TypeError, ValueError):
        raise TypeError(f"{named(what)} is {number!r}, and no number") from None
    except OverflowError:
        raise OverflowError(f"{named(what)} is beyond all floats") from None
    if not math.isfinite(found):
        raise ValueError(f"{named(what)} is {found}, and not finite")
    return found


def row_of(row, width, *what):
    """A row as a tuple, which has this width."""
    try:
        row = tuple(row)
    except TypeError:
        raise TypeError(f"{named(what)} is {row!r}, and no row of numbers") from None
    if len(row) != width:
        raise ValueError(f"{named(what)} has {len(row)} numbers, and not {width}")
    return row


def named(what):
    return " ".join(map(str, what))


def whole_table(rows, width, low, high):
    """Rows as a table of numpy's, where numpy is there and they are a table of whole numbers in this range; and else None."""
    if numpy is None:
        return None
    try:
        table = numpy.asarray(rows)
    except (TypeError, ValueError, OverflowError):
        return None
    if table.dtype.kind not in "iu" or table.ndim != 2 or table.shape[1] != width or table.size == 0:
        return None
    return table.astype(numpy.int64) if low <= int(table.min()) and int(table.max()) <= high else None


def whole_rows(what, rows, width, low, high):
    """Rows of whole numbers from low to high: a table of numpy's, or a list of tuples."""
    table = whole_table(rows, width, low, high)
    if table is not None:
        return table
    rows = [tuple([whole(n, low, high, "a number of", what, k) for n in row_of(row, width, what, k)]) for k, row in enumerate(rows, 1)]
    return rows if numpy is None else numpy.array(rows, numpy.int64).reshape(-1, width)


def with_ids(ids, rows):
    """Rows of whole numbers, each behind its id."""
    return [(v, *row) for (v,), row in zip(ids, rows)] if numpy is None else numpy.hstack([ids, rows])


def starts_of(rows, ids):
    """Where the vertices of a column of ids stand, of the rows of all that live."""
    at = {row[0]: row[1:] for row in rows}
    for (v,) in ids:
        if v not in at:
            raise TopoError("topo_shift_each", REFUSED, 1, v)
    return [at[v] for (v,) in ids]


def starts_table(rows, ids):
    """The same by columns; the row behind the last is of no vertex."""
    table = numpy.zeros((len(rows) + 1, 4), numpy.int64)
    for i, name in enumerate(("id", "x", "y", "z")):
        table[:-1, i] = rows[name]
    found = table[numpy.searchsorted(rows["id"], ids[:, 0])]
    missing = ids[found[:, 0] != ids[:, 0], 0]
    if len(missing):
        raise TopoError("topo_shift_each", REFUSED, 1, int(missing[0]))
    return found[:, 1:]


def buffer_of(kind, rows):
    """Rows of whole numbers as an array of structures, or of numbers, of 32 bits each, and how many they are."""
    if numpy is None or len(rows) == 0:
        rows = [row if issubclass(kind, ctypes.Structure) else row[0] for row in rows]
        return (kind * len(rows))(*rows), size_t(len(rows))
    # negative numbers keep their 32 bits
    return (kind * len(rows)).from_buffer(rows.astype(numpy.uint32, order="C")), size_t(len(rows))


def edit_row(k, row):
    """The five numbers of an edit that is asked for by a word of EDITS and its ids."""
    word, *ids = row
    if word not in EDITS:
        raise ValueError(f"edit {k} is {word!r}, which is none of {', '.join(EDITS)}")
    kind, width = EDITS[word]
    ids = [whole(v, 1, ID_MAX, "an id of edit", k) for v in row_of(ids, width, "edit", k, "behind the word", word)]
    for a, b in zip(ids[::2], ids[1::2]):
        if a == b:
            raise ValueError(f"edit {k}: both ends of an edge are {a}")
    return (kind, *ids, *(0,) * (4 - width))


def number_table(rows, columns):
    """Rows of so many finite numbers as a table of numpy's; None where numpy is not there, or they are no such rows."""
    if numpy is None:
        return None
    try:
        table = numpy.asarray(rows, numpy.float64)
    except (TypeError, ValueError, OverflowError):
        return None
    return table if table.ndim == 2 and table.shape[1] == columns and table.size and numpy.isfinite(table).all() else None


class Tracker:
    """A tracker of a closed surface that does not meet itself: `points`, and faces of three numbers of points from 1; or, in the place of both, what
    `leave` told of another, which goes on with its ids. Freed at the end of a `with` block, or by `free`."""

    def __init__(self, points, faces=(), unit=1.0, origin=(0.0, 0.0, 0.0), library=None):
        self.library, self.thread = load(library or os.environ.get("TOPO_LIBRARY") or library_here()), threading.get_ident()
        self.handle, self.fault, self.way, self.edits, self.kept, self.number = Handle(), Fault(), Way(), Edits(), u32(), u32()
        self.unit, self.origin, self.rounded = real(unit, "the unit"), tuple(real(c, "the origin") for c in row_of(origin, 3, "the origin")), 0.0
        if not self.unit > 0:
            raise ValueError(f"the unit is {unit}, and not above zero")
        if isinstance(points, Left):
            self.go_on(points)
            return
        rows, corners = self.grid_rows("point", points, self.origin), whole_rows("face", faces, 3, 0, WORD_MAX)
        self.must("topo_new", self.library.topo_new(*buffer_of(Point, rows), *buffer_of(Triangle, corners), ref(self.handle), ref(self.fault)))

    def go_on(self, left):
        rows = [row_of(row, 4, "vertex", k) for k, row in enumerate(left.vertices, 1)]
        vertices = with_ids(whole_rows("vertex", [row[:1] for row in rows], 1, 0, WORD_MAX), whole_rows("vertex", [row[1:] for row in rows], 3, -(2**31), 2**31 - 1))
        faces, solids = whole_rows("face", left.faces, 4, 0, WORD_MAX), whole_rows("solid vertex", [(v,) for v in left.solids], 1, 0, WORD_MAX)
        following = [u32(whole(v, 0, WORD_MAX, "a next id")) for v in (left.next_vertex, left.next_face)]
        lists = (*buffer_of(Vertex, vertices), *buffer_of(Face, faces), *buffer_of(u32, solids))
        self.must("topo_new_numbered", self.library.topo_new_numbered(*lists, *following, ref(self.handle), ref(self.fault)))

    def __enter__(self):
        return self

    def __exit__(self, *why):
        self.free()

    def free(self):
        self.code("topo_free")

    def must(self, call, code):
        if code != DONE:
            fault = self.fault if code == REFUSED else Fault()
            raise TopoError(call, code, fault.why, fault.a, fault.b, fault.c)

    def code(self, name, *words):
        """What a call answers, which is made on the tracker's thread alone."""
        if threading.get_ident() != self.thread:
            raise RuntimeError(f"{name}: a tracker is called on the thread that made it alone")
        return getattr(self.library, name)(ref(self.handle), *words)

    def call(self, name, *words):
        self.must(name, self.code(name, *words))

    # -- between the caller's unit and the grid's

    def nearest(self, length, *what):
        exact = length / self.unit
        near = round(exact) if abs(exact) < 2 * LENGTH_MAX else 2 * LENGTH_MAX
        if abs(near) > LENGTH_MAX:
            raise OverflowError(f"{named(what)} is {length}, which is more than 2^30 units of the grid")
        return near

    def units(self, length, *what):
        what = what or ("a coordinate",)
        length = real(length, *what)
        near = self.nearest(length, *what)
        self.rounded = max(self.rounded, abs(near * self.unit - length))
        return near

    def length(self, length):
        length = real(length, "a length")
        if length < 0:
            raise OverflowError(f"a length is {length}, and below zero")
        return u32(self.nearest(length, "a length"))

    def grid_point(self, point, origin, *what):
        x, y, z = row_of(point, 3, *what)
        a, b, c = origin
        return self.units(real(x, *what) - a, *what), self.units(real(y, *what) - b, *what), self.units(real(z, *what) - c, *what)

    def to_grid(self, point):
        return self.grid_point(point, self.origin, "a point")

    def grid_rows(self, what, rows, origin):
        """Rows of three coordinates in units of the grid from an origin: a table of numpy's, or a list of tuples."""
        table = self.grid_table(rows, origin)
        if table is not None:
            return table
        rows = [self.grid_point(row, origin, what, k) for k, row in enumerate(rows, 1)]
        return rows if numpy is None else numpy.array(rows, numpy.int64).reshape(-1, 3)

    def grid_table(self, rows, origin):
        """The same by columns, where numpy is there and nothing is to be refused; and else None."""
        table = number_table(rows, 3)
        if table is None:
            return None
        table = table - numpy.array(origin)
        near = numpy.rint(table / self.unit)
        if not (numpy.abs(near) <= LENGTH_MAX).all():
            return None
        self.rounded = max(self.rounded, float(numpy.abs(near * self.unit - table).max()))
        return near.astype(numpy.int64)

    def from_grid(self, point):
        return tuple(o + self.unit * int(p) for p, o in zip(point, self.origin))

    # -- directives

    def shift(self, shifts, by=None):
        """Adds to what is asked: a shift for each vertex of a dict, or for each of a column of ids the one of a column of shifts, in order. Where one is
        refused, those before it stay asked."""
        ids, by = (list(shifts), list(shifts.values())) if by is None else (shifts, by)
        self.shift_rows(self.ids(ids, by), self.grid_rows("shift", by, (0.0, 0.0, 0.0)))

    def toward(self, ends, to=None):
        """The same, by the points to which the vertices should go, as far as nothing was asked of them."""
        ids, to = (list(ends), list(ends.values())) if to is None else (ends, to)
        ids, ends = self.ids(ids, to), self.grid_rows("end", to, self.origin)
        starts = (starts_of if numpy is None else starts_table)(self.rows("topo_points", Vertex), ids)
        self.shift_rows(ids, [tuple(e - s for e, s in zip(end, start)) for end, start in zip(ends, starts)] if numpy is None else ends - starts)

    def ids(self, ids, rows):
        """A column of ids of vertices, as many as there are rows."""
        if len(ids) != len(rows):
            raise ValueError(f"there are {len(ids)} ids, and {len(rows)} rows beside them")
        ids = numpy.asarray(ids).reshape(-1, 1) if numpy is not None and isinstance(ids, numpy.ndarray) else [(v,) for v in ids]
        return whole_rows("id", ids, 1, 1, ID_MAX)

    def shift_rows(self, ids, by):
        by = whole_rows("shift", by, 3, -SHIFT_MAX, SHIFT_MAX)
        self.call("topo_shift_each", *buffer_of(Vertex, with_ids(ids, by)), ref(self.fault))

    def shift_all(self, by):
        self.call("topo_shift_all", *(i32(self.units(c, "a shift")) for c in row_of(by, 3, "a shift")), ref(self.fault))

    def set(self, depth=6, passes=3, zones=True, halvings=6):
        settings = dict(depth=depth, passes=passes, zones=zones, halvings=halvings)
        self.call("topo_set", *(u32(whole(settings[name], 0, most, "the setting", name)) for name, most in SETTINGS.items()))

    def step(self):
        """How the step was taken, how often that was done, and how many pairs did not pass as it was asked."""
        self.call("topo_step", ref(self.way), ref(self.fault))
        return WAYS[self.way.how], self.way.times, self.way.hits

    def edit(self, name, *lengths):
        """How many edits of a pass were done, and how many were refused."""
        self.call("topo_" + name, *(self.length(length) for length in lengths), ref(self.edits), ref(self.fault))
        return self.edits.done, self.edits.refused

    def split(self, over):
        return self.edit("split", over)

    def collapse(self, under):
        return self.edit("collapse", under)

    def flip(self):
        return self.edit("flip")

    def zip(self, within):
        return self.edit("zip", within)

    def pinch(self):
        return self.edit("pinch")

    def fit(self, low, high):
        """Splits each longer edge and collapses each shorter one, and tells how many edits were done and refused."""
        self.call("topo_fit", self.length(low), self.length(high), ref(self.edits))
        return self.edits.done, self.edits.refused

    def fit_by(self, corner, side, many, bands):
        """The same by a table of bands, rows of a low and a high length: of cells that are cubes of a side, so many along each axis, from a corner on, x
        running first, then y, then z. An edge goes by the cell in which its middle lies, or by the nearest."""
        counts = [whole(count, 0, WORD_MAX, "a number of cells") for count in row_of(many, 3, "the numbers of cells")]
        cells = Cells(*self.to_grid(corner), self.length(side), *counts)
        self.call("topo_fit_by", ref(cells), *buffer_of(Band, self.band_rows(bands)), ref(self.edits), ref(self.fault))
        return self.edits.done, self.edits.refused

    def band_rows(self, bands):
        """Rows of two lengths in units of the grid: a table of numpy's, or a list of tuples."""
        table = self.band_table(bands)
        if table is not None:
            return table
        rows = [tuple(self.length(length).value for length in row_of(row, 2, "band", k)) for k, row in enumerate(bands)]
        return rows if numpy is None else numpy.array(rows, numpy.int64).reshape(-1, 2)

    def band_table(self, bands):
        """The same by columns, where numpy is there and nothing is to be refused; and else None."""
        table = number_table(bands, 2)
        if table is None or (table < 0).any():
            return None
        near = numpy.rint(table / self.unit)
        return near.astype(numpy.int64) if (near <= LENGTH_MAX).all() else None

    def edit_each(self, asked):
        """Edits by ids, each in turn, and a row for what came of each; in an open group the first that is refused is the last that is asked. An edit is a word
        of EDITS and its ids, or a row of the five numbers of `struct topo_asked`; an answer is a row of the seven of `struct topo_answered`."""
        rows = asked if numpy is not None and isinstance(asked, numpy.ndarray) else list(asked)
        if isinstance(rows, list) and any(len(row) and isinstance(row[0], str) for row in rows):
            rows = [edit_row(k, row) for k, row in enumerate(rows, 1)]
        rows, count = buffer_of(Asked, whole_rows("edit", rows, 5, 0, WORD_MAX))
        answers, taken = (Answered * count.value)(), size_t()
        self.call("topo_edit_each", rows, count, answers, count, ref(taken))
        return table_of(Answered, answers, taken.value)

    def ask(self, word, *ids):
        """One edit by ids, and its Answer."""
        why, a, b, c, *at = self.edit_each([(word, *ids)]).tolist()[0]
        return Answer(AGAINST[why], a, b, c, self.from_grid(at) if why == 0 and word in ("split", "collapse", "pinch") else None)

    def close_fold(self, a, b):
        """Closes the fold at an edge with the faces a b c and b a d: it is flipped, and c and d are drawn together, whole or not at all. Its Answer is the
        collapse's, or the first reason against it; of "crowded" a and b are the ends of the edge that would be so, or 0, where the edge itself is."""
        ids, answer = [u32(whole(v, 1, ID_MAX, "an id")) for v in (a, b)], Answered()
        self.call("topo_close_fold", *ids, ref(answer))
        at = self.from_grid((answer.x, answer.y, answer.z)) if answer.why == 0 else None
        return Answer(AGAINST[answer.why], answer.a, answer.b, answer.c, at)

    def drop(self, vertex):
        """Drops the component of a vertex, all that chains of faces join with it, by collapses, whole or not at all. Its Answer is that of the last collapse, or
        the reason why the component stays."""
        answer = Answered()
        self.call("topo_drop", u32(whole(vertex, 1, ID_MAX, "an id")), ref(answer))
        at = self.from_grid((answer.x, answer.y, answer.z)) if answer.why == 0 else None
        return Answer(AGAINST[answer.why], answer.a, answer.b, answer.c, at)

    def solid(self, vertex):
        self.call("topo_solid", u32(whole(vertex, 1, ID_MAX, "an id")), ref(self.fault))

    def open(self):
        self.call("topo_open", ref(self.fault))

    def close(self):
        """What became of the group: a word of GROUPS."""
        self.call("topo_close", ref(self.kept), ref(self.fault))
        return GROUPS[self.kept.value]

    def undo(self):
        """Takes back the group that was opened last, whatever was done in it, and tells whether one was open: a word of GROUPS."""
        self.call("topo_undo", ref(self.kept))
        return GROUPS[self.kept.value]

    def forget(self):
        self.call("topo_forget")

    def renumber(self):
        """Numbers the live vertices and faces anew, from 1, in their order; the log is forgotten. Refused where a group is open."""
        self.call("topo_renumber")

    def begin_log(self):
        """Begins a log at the surface as it is: what was told is forgotten, and the first lines of a log file are told. Refused where a group is open."""
        self.call("topo_begin_log")

    def save(self):
        """Tells that the surface is saved, and answers by which number."""
        self.call("topo_save", ref(self.number))
        return self.number.value

    def end_log(self):
        """Tells the last line of a log. Refused where a group is open."""
        self.call("topo_end_log")

    def keep(self, lines):
        """Keeps the lines that are told from here on, or none: then there is no log, and there are no events."""
        self.call("topo_keep", u32(1 if lines else 0))

    # -- reading

    def read(self, name, kind, *words):
        """The rows of a reading call, in a buffer made as long as they are, and how many they are."""
        size, rows = size_t(0), (kind * 64)()
        while (code := self.code(name, *words, rows, size_t(len(rows)), ref(size))) == RANGE:
            rows = (kind * size.value)()
        self.must(name, code)
        return rows, size.value

    def rows(self, name, kind, *words):
        return table_of(kind, *self.read(name, kind, *words))

    def star(self, vertex):
        """The faces at a vertex, as rows of an id and three corners, by rising id."""
        return self.rows("topo_star", Face, u32(whole(vertex, 0, WORD_MAX, "an id")))

    def beside(self, a, b):
        """The faces beside the edge of two vertices, in the same way."""
        return self.rows("topo_beside", Face, *(u32(whole(v, 0, WORD_MAX, "an id")) for v in (a, b)))

    def components(self):
        """The components, in order of their least faces: of each its least vertex, how many faces it has, its Euler number, and its volume."""
        rows, size = self.read("topo_components", ComponentRow)
        return [Component(row.vertex, row.faces, row.euler, (row.volume6_high * 2**64 + row.volume6_low) / 6 * self.unit**3) for row in rows[:size]]

    def counts(self):
        """How many lines the log has, the live vertices and faces, the ids that come next, and the steps taken, by name."""
        counted = Counted()
        self.call("topo_counts", ref(counted))
        return {name: getattr(counted, name) for name, _ in Counted._fields_}

    def leave(self):
        """All that another tracker needs to go on with the same ids, in grid units."""
        counts = self.counts()
        rows = [self.rows(name, kind).tolist() for name, kind in (("topo_points", Vertex), ("topo_faces", Face), ("topo_solids", u32))]
        return Left(*rows, counts["next_vertex"], counts["next_face"])

    def columns(self):
        """The ids of the live vertices, rising, and where they stand, in two columns: arrays of numpy's, or lists."""
        rows = self.rows("topo_points", Vertex)
        if numpy is None:
            return [row[0] for row in rows], [self.from_grid(row[1:]) for row in rows]
        return rows["id"], numpy.stack([o + self.unit * rows[axis] for axis, o in zip("xyz", self.origin)], axis=1)

    def vertices(self):
        """Where each live vertex stands, by its id."""
        ids, points = self.columns()
        return dict(zip(ids, points)) if numpy is None else dict(zip(ids.tolist(), map(tuple, points.tolist())))

    def faces(self):
        """The corners of each live face, by its id."""
        return {row[0]: tuple(row[1:]) for row in self.rows("topo_faces", Face).tolist()}

    def solids(self):
        return self.rows("topo_solids", u32).tolist()

    def events(self):
        """What happened since the log was taken or forgotten: a word of EVENTS, four numbers, and a point (of `moved`, a shift in grid units)."""
        return [(EVENTS[row[0]], *row[1:5], self.from_grid(row[5:]) if row[0] != 1 else row[5:]) for row in self.rows("topo_events", Event).tolist()]

    def log(self):
        rows, size = self.read("topo_log", ctypes.c_char)
        return rows.raw[:size].decode()


class Left:
    """A surface as `leave` tells it: rows of vertices and of faces with their ids, the solid vertices, and the ids that come next."""

    def __init__(self, vertices, faces, solids, next_vertex, next_face):
        self.vertices, self.faces, self.solids = [tuple(row) for row in vertices], [tuple(row) for row in faces], list(solids)
        self.next_vertex, self.next_face = next_vertex, next_face


class Rows(list):
    """Rows as a list, where there is no numpy."""

    def tolist(self):
        return list(self)


def table_of(kind, rows, size):
    """The first rows of an array of structures, or of numbers: an array of numpy's, or a list of tuples, or of numbers."""
    if numpy is not None:
        return numpy.ndarray((size,), numpy.dtype(kind), buffer=rows)
    names = [name for name, _ in getattr(kind, "_fields_", ())]
    return Rows(tuple(getattr(row, name) for name in names) if names else row for row in rows[:size])
