"""Joins two sheets of a tracker's surface that face each other across a thin gap, and mends non-manifold edges, by single edits. It is
no part of what is proved: the tracker decides of each edit whether it is safe, so the surface stays closed and free of
self-intersections. It takes the same decisions as merge.hpp.

    import merge
    merge.merge(surface, merge.Merging(0.01))     # a mean edge of one centimetre; after each step
    merge.merge(surface, merge.Merging(0.01), improver.mesh_left())  # the same, where an Improver has read the surface

A pass of zips joins two sheets by many tunnels beside one another and leaves the walls between them: the two sheets stay, as a sieve. Here
there is one tunnel, and its walls are taken away:

1. Seed. One zip of the nearest two edges that face each other through the gap; then the four walls of the tunnel are collapsed, one edge
each, so that its two rims are one. That rim is a fold: each of its edges has a face of either sheet, and the two face each other, as pages
of a book at its back. 2. Grow. At a fold's edge ab, with the faces abc and bad, ab is flipped to cd, and cd is collapsed: the fold goes on
by one triangle of each sheet, the nearest first. Where cd is an edge already, it is only collapsed. Faces that come to lie on one another
go with the collapse. Where the collapse would turn a face over, ab is flipped alone, which fills the fold's back. 3. Pinch. Where the
hole's rim meets itself or another hole's, its vertex has two fans, and is parted: the holes become one.

Each of these is tried in a group, looked at, and taken back where it is refused or would leave a non-manifold edge. It ends, since each
collapse that is kept leaves fewer faces, each flip alone makes an edge that was never made so before, and each that is not kept is tried
but twice.
"""

import collections
import dataclasses
import heapq
import itertools
import math

import topo

try:
    from .improve import Columns, Mesh, SLACK, area_vector, cosine, dot, least_angle, minus, norm, numpy  # as topo.merge, of the wheel
except ImportError:
    from improve import Columns, Mesh, SLACK, area_vector, cosine, dot, least_angle, minus, norm, numpy

# an edge a b, and the corners opposite it: its faces are a b c and b a d
Ring = collections.namedtuple("Ring", "a b c d")


@dataclasses.dataclass
class Merging:
    """Lengths are fractions of average_edge_length, and cosines are between normals."""

    average_edge_length: float      # h, in the caller's unit
    merge_proximity: float = 1.25   # sheets are joined across gaps up to this. It has to exceed what a gap closes in one step, or the
                                    # sheets get between one another's vertices before they are joined; across a wider gap the rim of a
                                    # seed is no fold, and does not grow
    fold_reach: float = 1.8         # in the fold of faces abc and bad, c may be as far from d: farther than merge_proximity, since the
                                    # sheets' vertices may be up to h apart sideways
    facing: float = -0.5            # the two edges of a seed bound faces whose mean normals have at most this cosine
    folded: float = -0.2            # and the two faces of a fold this
    fill_min_angle: float = 2       # in degrees: a flip alone leaves no lesser one
    apart: int = 4                  # a seed's edges are more than so many edges apart along the surface
    mend_rounds: int = 20           # of mend


def merging_along_normals(average_edge_length):
    """For a surface that moves along its normals, as one that grows. The groove between two bodies opens while they grow, and its bottom
    is to move faster than the vertices there do, which go along the mean of their faces' normals. Were it closed only as far as its sides
    face each other, it would fall behind, and its sides would meet above it: a bubble."""
    return Merging(average_edge_length, folded=0.3)


@dataclasses.dataclass
class Merged:
    """What was done, and what was tried and taken back, by reason."""

    seeds: int = 0
    folds_closed: int = 0
    pinches: int = 0
    mended: int = 0
    filled: int = 0                 # folds at which a face would turn over, flipped alone
    turning: int = 0                # and those that were left
    undone_refused: int = 0
    undone_crowded: int = 0
    undone_no_fewer: int = 0
    crowded_left: int = 0           # of mend: non-manifold edges that are left


class Undone(Exception):
    """A group has to be taken back; its one word is the count of Merged for that."""


class Merger:
    """What is done is told in `told`, since the merger was made."""

    def __init__(self, surface, by):
        self.surface, self.by, self.told = surface, by, Merged()
        h = by.average_edge_length / surface.unit  # in grid units, as all lengths here
        self.gap, self.reach = by.merge_proximity * h, by.fold_reach * h
        self.queue = []         # folds to close, the nearest first
        self.tried = collections.Counter()  # how often closing a fold over an edge was refused
        self.filled = set()     # edges that a flip alone made
        self.near = {}          # in a call, the vertices within `apart` edges of one, as long as nothing is joined

    def merge(self, mesh=None):
        """The surface is read for it, or `mesh` is the surface as it is, as Improver.mesh_left has it."""
        self.near, self.tried, self.filled = {}, collections.Counter(), set()  # the surface may have moved since an earlier call
        mesh = Mesh(self.surface) if mesh is None else mesh
        for a, b, c, d in self.bends(mesh):  # folds that an earlier call left
            if self.is_fold(*(mesh.points[v] for v in (a, b, c, d))):
                heapq.heappush(self.queue, (norm(minus(mesh.points[c], mesh.points[d])), mesh.ids[a], mesh.ids[b]))
        pairs = self.facing_sides(mesh)
        if not self.queue and not pairs:  # as in most steps
            return
        self.at = dict(zip(mesh.ids, mesh.points))  # where each vertex stands
        self.grow()
        for _, a, b, e, f in self.matches(pairs):
            if self.seed(a, b, e, f):
                self.grow()

    def mend(self):
        """Takes non-manifold edges out, by collapses that leave fewer of them, and pinches. In each second round one that leaves as
        many is kept too. It ends, since each leaves fewer faces. Some may be left: told.crowded_left."""
        for k in range(self.by.mend_rounds):
            mesh = Mesh(self.surface)
            self.at = dict(zip(mesh.ids, mesh.points))
            edges = [(mesh.ids[a], mesh.ids[b]) for a, b in mesh.crowded]
            done = [self.mend_at(edge, k % 2) for edge in edges if self.is_crowded(edge)]
            pinched = self.pinch_fans()
            if not edges or (not any(done) and not pinched and k % 2):
                break
        self.told.crowded_left = len(Mesh(self.surface).crowded)

    # -- what the surface is around a place

    def read_points(self):
        self.at = {v: (float(x), float(y), float(z)) for v, x, y, z in self.surface.rows("topo_points", topo.Vertex).tolist()}

    def around(self, v):
        return {w for row in self.surface.star(v).tolist() for w in row[1:]} - {v}

    def ring(self, a, b):
        """Of an edge with just two faces, which run opposite ways; else None."""
        c = d = 0
        faces = self.surface.beside(a, b).tolist()
        for _, p, q, r in faces:
            for k in ((p, q, r), (q, r, p), (r, p, q)):
                c, d = (k[2] if k[:2] == (a, b) else c), (k[2] if k[:2] == (b, a) else d)
        return Ring(a, b, c, d) if len(faces) == 2 and c and d and c != d else None

    def state(self, v):
        """2 where an edge at v is non-manifold, else 1 where its faces are more than one fan, else 0."""
        sides = collections.defaultdict(list)
        for _, a, b, c in self.surface.star(v).tolist():
            p, q = (b, c) if a == v else (c, a) if b == v else (a, b)
            sides[p].append(q)
            sides[q].append(p)
        if any(len(others) > 2 for others in sides.values()):
            return 2
        left = set(sides)
        found = [left.pop()] if left else []
        while found:
            more = left.intersection(sides[found.pop()])
            left -= more
            found += more
        return 1 if left else 0

    # -- edits in a group

    def ask(self, *asked):
        """The answer of the last edit that was asked, as a row: a list ends at the first that is refused, since a group is open."""
        return self.surface.edit_each(asked).tolist()[-1]

    def tried_in_group(self, edits):
        """Whether what is done in a group was kept; where it is undone, the reason is counted and nothing is changed."""
        pinches = self.told.pinches
        self.surface.open()
        try:
            edits()
        except Undone as why:
            self.surface.undo()
            self.told.pinches = pinches
            setattr(self.told, why.args[0], getattr(self.told, why.args[0]) + 1)
            return False
        self.surface.close()
        return True

    def collapse(self, a, b, left, *before):
        """In an open group: collapses an edge after other edits, and pinches what is left where it has two fans. `left` gets the
        vertices around which folds may be new."""
        why, x, _, _, *point = self.ask(*before, ("collapse", a, b))
        if why:
            raise Undone("undone_refused")
        self.at[x] = tuple(map(float, point))
        left.append(x)
        state = self.state(x)
        if state == 2:
            raise Undone("undone_crowded")
        if state == 1:
            if self.ask(("pinch", x))[0]:
                raise Undone("undone_refused")
            self.read_points()  # the copies are new
            self.told.pinches += 1
            left.extend(self.around(x))  # the copies' neighbours

    # -- grow

    def is_fold(self, a, b, c, d):
        """Whether the faces a b c and b a d, of points, face each other, and are near."""
        if norm(minus(c, d)) > self.reach:
            return False
        n, m = area_vector(a, b, c), area_vector(b, a, d)
        over, size, other = dot(n, minus(d, a)), norm(n), norm(m)
        if not size > 0 or not other > 0 or cosine(n, m) > self.by.folded or over <= 0:
            return False
        return min(over / size, dot(m, minus(c, a)) / other) <= self.gap

    def bends(self, mesh):
        """The edges of a mesh that may be folds, each with the corners opposite it, as rows."""
        which = range(len(mesh.edges))
        if numpy is not None and mesh.edges:
            which = numpy.flatnonzero(Columns(mesh).bend() < self.by.folded + SLACK).tolist()
        return [mesh.edges[i][:4] for i in which]

    def push_ring(self, ring):
        if ring and self.is_fold(*(self.at[v] for v in ring)):
            heapq.heappush(self.queue, (norm(minus(self.at[ring.c], self.at[ring.d])), ring.a, ring.b))

    def push_around(self, v):
        """The folds at the edges of a vertex and of its neighbours."""
        if v in self.at:
            near = self.around(v)
            ends = {(v, w) for w in near} | {(w, u) for w in near for u in self.around(w) if u != v}
            for a, b in {(min(pair), max(pair)) for pair in ends}:
                self.push_ring(self.ring(a, b))

    def turns(self, c, d):
        """Whether faces that stay would turn over, were c and d to go to their middle."""
        mid = tuple(0.5 * (p + q) for p, q in zip(self.at[c], self.at[d]))
        for v in (c, d):
            for _, *corners in self.surface.star(v).tolist():
                if c in corners and d in corners:
                    continue
                before = area_vector(*(self.at[w] for w in corners))
                after = area_vector(*(mid if w == v else self.at[w] for w in corners))
                if norm(before) > 0 and cosine(before, after) < 0.1:
                    return True
        return False

    def close_fold(self, ring):
        c, d = pair = min(ring.c, ring.d), max(ring.c, ring.d)
        if self.tried[pair] > 1:
            return
        if self.turns(ring.c, ring.d):
            self.fill_fold(ring, pair)
            return
        flip, left, were = [] if d in self.around(c) else [("flip", ring.a, ring.b)], [], {c: self.at[c], d: self.at[d]}
        if self.tried_in_group(lambda: self.collapse(ring.c, ring.d, left, *flip)):
            self.told.folds_closed += 1
            for v in left:
                self.push_around(v)
        else:
            self.at.update(were)
            self.tried[pair] += 1

    def fill_fold(self, ring, pair):
        """Flips the edge alone, once for each pair of c and d."""
        a, b, c, d = (self.at[v] for v in ring)
        flat = min(least_angle(a, d, c), least_angle(d, b, c)) < self.by.fill_min_angle
        known = flat or pair in self.filled
        if not flat:
            self.filled.add(pair)
        if known or ring.d in self.around(ring.c) or self.ask(("flip", ring.a, ring.b))[0]:
            self.tried[pair] += 1
            self.told.turning += 1
            return
        self.told.filled += 1
        for v in ring:
            self.push_around(v)

    def grow(self):
        while self.queue:
            _, a, b = heapq.heappop(self.queue)
            ring = self.ring(a, b)
            if ring and self.is_fold(*(self.at[v] for v in ring)):
                self.close_fold(ring)

    # -- seed

    def vertices_near(self, v):
        if v not in self.near:
            seen, rim = {v}, {v}
            for _ in range(self.by.apart):
                rim = {w for u in rim for w in self.around(u)} - seen
                seen |= rim
            self.near[v] = seen
        return self.near[v]

    def seed(self, a, b, e, f):
        r, s = self.ring(a, b), self.ring(e, f)
        if not r or not s or not all(self.vertices_near(v).isdisjoint((e, f)) for v in (a, b)):
            return False
        # the rims of the tunnel, as the zip joins them
        one, other, left = (b, r.c, a, r.d), (f, s.d, e, s.c), []

        def edits():
            why, _, turn, *_ = self.ask(("zip", a, b, e, f))
            if why:
                raise Undone("undone_refused")
            for i in range(4):
                self.collapse(one[i], other[(i + turn) % 4], left)

        if not self.tried_in_group(edits):
            self.read_points()
            return False
        self.near.clear()
        self.told.seeds += 1
        for v in left:
            self.push_around(v)
        return True

    def sides(self, mesh):
        """The middle of each edge, the mean normal of its faces, and its ends, by x."""
        units, sides = [], []
        for f in range(len(mesh.faces)):
            n = mesh.normal(f)
            size = norm(n)
            units.append(tuple(1 / size * p for p in n) if size > 0 else None)
        for edge in mesh.edges:
            n, m = units[edge.left], units[edge.right]
            if n and m:
                mean = n[0] + m[0], n[1] + m[1], n[2] + m[2]
                size = norm(mean)
                if size > 0:
                    mid = tuple(0.5 * (p + q) for p, q in zip(mesh.points[edge.a], mesh.points[edge.b]))
                    sides.append((mid, tuple(1 / size * p for p in mean), mesh.ids[edge.a], mesh.ids[edge.b]))
        return sorted(sides, key=lambda side: (side[0][0], side[2], side[3]))

    @staticmethod
    def ways(normal, apart_by):
        """Of two sides that face each other one is turned to either end of an axis, by so much in all at least, and so to one end by half
        of that: the first number has a bit for each end to which a side is turned so, and the second the same bit where one is turned
        from it so far that the two may face each other."""
        ways = others = 0
        for i, x in enumerate((*normal, *(-x for x in normal))):
            ways |= (x >= apart_by / 2) << i
            others |= (x <= 1 - apart_by) << i
        return ways, others

    def facing_sides(self, mesh):
        """The pairs of edges that face each other across a gap, of the surface as it was when the call began. Near most edges no face is
        turned the other way, so that nothing has to be compared there."""
        sides, cells, found = self.sides(mesh), {}, []
        apart_by = math.sqrt(max(0.0, 2 - 2 * self.by.facing) / 3) - SLACK
        for i, (mid, normal, *_) in enumerate(sides):
            cell = cells.setdefault(tuple(math.floor(x / self.gap) for x in mid), [[], 0, 0])
            ways, others = self.ways(normal, apart_by)
            cell[0].append(i)
            cell[1] |= ways
            cell[2] |= others
        for key, (members, ways, others) in cells.items():
            for by in itertools.product((-1, 0, 1), repeat=3):
                near, its_ways, its_others = cells.get(tuple(map(int.__add__, key, by)), ((), 0, 0))
                if by < (0, 0, 0) or not (ways & its_others or its_ways & others):
                    continue  # each two cells are compared once
                for i, j in itertools.product(members, near):
                    one, other = sides[min(i, j)], sides[max(i, j)]  # the first is that of the lesser x, as in merge.hpp
                    if (i < j or any(by)) and dot(one[1], other[1]) <= self.by.facing:
                        d = minus(other[0], one[0])
                        # each lies on the outer side of the other
                        if dot(d, d) <= self.gap * self.gap and dot(d, one[1]) > 0 > dot(d, other[1]):
                            found.append((d, one[2:], other[2:]))
        return found

    def matches(self, pairs):
        """Those whose ends still stand, the nearest first."""
        return sorted(it for pair in pairs for it in self.match(*pair))

    def match(self, d, one, other):
        if any(v not in self.at for v in one + other):
            return []
        a, b, e, f = (self.at[v] for v in one + other)
        ends = min(norm(minus(a, e)) + norm(minus(b, f)), norm(minus(a, f)) + norm(minus(b, e)))
        return [(norm(d) + ends, *one, *other)]

    # -- mend

    def is_crowded(self, edge):
        return len(self.surface.beside(*edge)) > 2

    def crowd(self, edges):
        return sum(map(self.is_crowded, edges))

    def edges_at(self, *vertices):
        faces = [row[1:] for v in vertices for row in self.surface.star(v).tolist()]
        return {(min(p, q), max(p, q)) for a, b, c in faces for p, q in ((a, b), (b, c), (c, a))}

    def mend_by(self, edge, more):
        """Collapses the edge where that leaves fewer non-manifold edges than there were and `more`."""
        were = self.edges_at(*edge)
        before = self.crowd(were)

        def edits():
            why, x, _, _, *point = self.ask(("collapse", *edge))
            if why:
                raise Undone("undone_refused")
            if self.crowd(self.edges_at(x) | {it for it in were if not set(it) & set(edge)}) >= before + more:
                raise Undone("undone_no_fewer")
            self.at[x] = tuple(map(float, point))

        done = self.tried_in_group(edits)
        self.told.mended += done
        return done

    def mend_at(self, edge, more):
        """By itself, or else by the shortest edge around it."""
        if self.mend_by(edge, more):
            return True
        others = ((norm(minus(self.at[p], self.at[q])), (p, q)) for p, q in self.edges_at(*edge))
        return any(self.mend_by(other, more) for far, other in sorted(others) if far < self.reach)

    def pinch_fans(self):
        self.read_points()
        done = [not self.ask(("pinch", v))[0] for v in sorted(self.at) if self.state(v) == 1]
        self.told.pinches += sum(done)
        return any(done)


def merge(surface, by, mesh=None):
    """Joins the sheets that face each other across thin gaps, and tells what was done."""
    merger = Merger(surface, by)
    merger.merge(mesh)
    return merger.told


def mend(surface, by):
    """Takes non-manifold edges out, and tells what was done."""
    merger = Merger(surface, by)
    merger.mend()
    return merger.told
