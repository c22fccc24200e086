"""Keeps the mesh of a tracker good while a flow carries it: splits, collapses and flips under guards, repair of folds, and a smoothing
that keeps the volume. It is no part of what is proved: what is good for the shape is decided here, and whether an edit is safe is
decided by the tracker, edit by edit, so the surface stays closed and free of self-intersections whatever is asked. It takes the same
decisions as improve.hpp.

    improver, mesh = improve.Improver(surface, improve.Improving(0.01)), improve.Mesh(surface)   # a mean edge of one centimetre
    each step:
        targets = [where the flow takes p for p in mesh.positions()]
        improve.slide(targets, mesh.faces, 0.2)                                                  # smoothing, over the targets
        surface.toward(mesh.ids, targets)
        surface.step()
        improver.improve()
        mesh.read()

A round reads points and faces, lists the edits that pass the guards, best first, such that none touches what another's guards looked
at, and asks them in one call. Names that El Topo has too (min_edge_length, max_edge_length, max_volume_change, min_triangle_angle,
max_triangle_angle) mean what they mean there, with all lengths and volumes as fractions of average_edge_length and its cube. Where
numpy is there, it picks out which edges are looked at more closely, and decides nothing.
"""

import dataclasses
import math
from collections import namedtuple

import topo

numpy = topo.numpy

# the face `left` is a b c, and `right` is b a d; a is below b; all are rows
Edge = namedtuple("Edge", "a b c d left right")
# an edit that passes the guards: how much is won by it, the row of its edge, and six times the volume that it wins
Wish = namedtuple("Wish", "worth edge volume")

# ---- points, as tuples; coordinates of a mesh are grid units, whole numbers in floats, so that differences are exact


def minus(a, b):
    return a[0] - b[0], a[1] - b[1], a[2] - b[2]


def dot(a, b):
    return a[0] * b[0] + a[1] * b[1] + a[2] * b[2]


def norm(a):
    return math.sqrt(a[0] * a[0] + a[1] * a[1] + a[2] * a[2])


def area_vector(a, b, c):
    """Twice the area of a face, along its normal."""
    ux, uy, uz = b[0] - a[0], b[1] - a[1], b[2] - a[2]
    vx, vy, vz = c[0] - a[0], c[1] - a[1], c[2] - a[2]
    return uy * vz - uz * vy, uz * vx - ux * vz, ux * vy - uy * vx


def cosine(n, m):
    """Between two vectors; -1 where one of them is zero, which is as bad as can be."""
    size = norm(n) * norm(m)
    return dot(n, m) / size if size > 0 else -1.0


def angle(at, p, q):
    """At a corner, in degrees."""
    return math.atan2(norm(area_vector(at, p, q)), dot(minus(p, at), minus(q, at))) * 57.29577951308232


def least_angle(a, b, c):
    """The least angle of a face: it is opposite the shortest edge."""
    u, v, w = minus(b, c), minus(c, a), minus(a, b)
    p, q, r = dot(u, u), dot(v, v), dot(w, w)
    return angle(a, b, c) if p <= q and p <= r else angle(b, c, a) if q <= r else angle(c, a, b)


def stars_of(vertices, faces):
    """The faces at each vertex, rising."""
    stars = [[] for _ in range(vertices)]
    for f, corners in enumerate(faces):
        for v in corners:
            stars[v].append(f)
    return stars


class Mesh:
    """The live vertices and faces of a tracker by rows, which have no gaps, with their ids rising."""

    def __init__(self, surface):
        self.surface = surface
        self.read()

    def read(self):
        vertices = self.surface.rows("topo_points", topo.Vertex).tolist()
        self.ids = [row[0] for row in vertices]
        self.points = [(float(x), float(y), float(z)) for _, x, y, z in vertices]
        row = {v: i for i, v in enumerate(self.ids)}
        self.faces = [(row[a], row[b], row[c]) for _, a, b, c in self.surface.rows("topo_faces", topo.Face).tolist()]
        self.solid = [False] * len(self.ids)
        for v in self.surface.solids():
            self.solid[row[v]] = True
        self.stars = stars_of(len(self.ids), self.faces)
        self.find_edges()

    def find_edges(self):
        """The edges with just two faces, by rising a and then b, and as pairs of rows those with more."""
        sides = {}
        for f, (a, b, c) in enumerate(self.faces):
            for p, q, r in ((a, b, c), (b, c, a), (c, a, b)):
                sides.setdefault((p, q), []).append((r, f))
        self.edges, self.crowded = [], []
        for a, b in sorted(side for side in sides if side[0] < side[1]):
            forth, back = sides[a, b], sides[b, a]
            if len(forth) == len(back) == 1:
                self.edges.append(Edge(a, b, forth[0][0], back[0][0], forth[0][1], back[0][1]))
            else:
                self.crowded.append((a, b))

    def positions(self):
        """Where the vertices stand, in the caller's unit."""
        unit, (a, b, c) = self.surface.unit, self.surface.origin
        return [(a + unit * x, b + unit * y, c + unit * z) for x, y, z in self.points]

    def corners(self, f):
        a, b, c = self.faces[f]
        return self.points[a], self.points[b], self.points[c]

    def normal(self, f):
        return area_vector(*self.corners(f))

    def beside(self, a, b, but):
        """A face with both corners that is not this one, or else this one."""
        return next((f for f in self.stars[a] if f != but and b in self.faces[f]), but)

    def joined(self, a, b):
        return any(b in self.faces[f] for f in self.stars[a])


# ---- which edges are looked at more closely, where numpy is there: each that may pass, and a few more


SLACK = 1e-6


class Columns:
    """The edges of a mesh by columns, with the figures that say at once that most of them are of no interest."""

    def __init__(self, mesh):
        points = numpy.array(mesh.points, numpy.float64).reshape(-1, 3)
        edges = numpy.array(mesh.edges, numpy.int64).reshape(-1, 6)
        self.a, self.b, self.c, self.d = (points[edges[:, i]] for i in range(4))
        self.length = numpy.sqrt(((self.a - self.b) ** 2).sum(1))

    @staticmethod
    def angle(at, p, q):
        u, v = p - at, q - at
        n = numpy.cross(u, v)
        return numpy.degrees(numpy.arctan2(numpy.sqrt((n * n).sum(1)), (u * v).sum(1)))

    def least(self, a, b, c):
        return numpy.minimum(numpy.minimum(self.angle(a, b, c), self.angle(b, c, a)), self.angle(c, a, b))

    def opposite(self, pick):
        """The lesser, or the greater, of the two angles opposite each edge."""
        return pick(self.angle(self.c, self.a, self.b), self.angle(self.d, self.a, self.b))

    def rise(self):
        """By how much a flip of each edge raises the least angle of its two faces."""
        a, b, c, d = self.a, self.b, self.c, self.d
        return numpy.minimum(self.least(a, d, c), self.least(d, b, c)) - numpy.minimum(self.least(a, b, c), self.least(b, a, d))

    def bend(self):
        n, m = numpy.cross(self.b - self.a, self.c - self.a), numpy.cross(self.a - self.b, self.d - self.b)
        size = numpy.sqrt((n * n).sum(1) * (m * m).sum(1))
        return numpy.where(size > 0, (n * m).sum(1) / numpy.where(size > 0, size, 1), -1)


# ---- the passes


@dataclasses.dataclass
class Improving:
    """Cosines are between normals of two faces, or of one face before and after. Angles are in degrees."""

    average_edge_length: float                    # h, in the caller's unit; what follows are fractions of it
    min_edge_length: float = 0.5                  # shorter edges are collapsed, where the guards let them be
    max_edge_length: float = 1.5                  # longer edges are split; a collapse leaves none
    max_volume_change: float = 1 / 60             # of a collapse, in h^3
    min_triangle_angle: float = 15                # the edge opposite a lesser angle is collapsed, if it is below needle_max_length
    max_triangle_angle: float = 130               # the edge opposite a greater angle is split, if it is above cap_min_length
    needle_max_length: float = 1
    cap_min_length: float = 1
    edge_flip_min_cosine: float = 0.9             # a flip's two faces bend no more than this, as they are and as they would be
    edge_flip_max_volume_change: float = 1 / 600
    collapse_min_angle: float = 10                # least angle after a collapse, or no less than it was
    collapse_max_turn: float = 0.5                # no face turns by more than this cosine
    collapse_min_cosine: float = 0                # no two faces at the edge bend more than this after a collapse, or no more than they did
    fold_cosine: float = -0.5                     # beside an edge that bends by more, edges are collapsed where that lessens it,
                                                  # whatever the other guards say
    rim_cosine: float = -0.6                      # an edge that bends by more is a rim that grows sharp, and is drawn in with the next
    rim_max_shift: float = 0.1                    # step, by at most so many h
    collapse_rounds: int = 2                      # in one call
    flip_rounds: int = 2
    allow_topology_changes: bool = False          # whether a neck of three short edges is cut
    restore_volume: bool = True                   # what edits took of the volume is asked back, where it was taken, with the next step,
    restore_max_shift: float = 0.1                # by shifts of at most so many h


def moving_along_normals(average_edge_length):
    """For a surface that moves along its normals, as one that grows or flows by its curvature: it swallows its creases and necks, and so
    an edge is collapsed there though that changes more of the volume, and bends more, and no crease is drawn in."""
    return Improving(average_edge_length, max_volume_change=0.1, collapse_min_cosine=-2, rim_max_shift=0)


@dataclasses.dataclass
class Improved:
    """How many edits were done, refused by the tracker, and held back by the guards."""

    splits: int = 0
    splits_refused: int = 0
    caps: int = 0
    caps_refused: int = 0
    collapses: int = 0
    collapses_refused: int = 0
    collapses_held: int = 0
    flips: int = 0
    flips_refused: int = 0
    flips_held: int = 0
    necks: int = 0
    necks_undone: int = 0


class Improver:
    """The passes over a tracker, under guards; `told` counts the edits since it was made."""

    def __init__(self, surface, by):
        self.surface, self.by, self.told = surface, by, Improved()
        self.h = by.average_edge_length / surface.unit  # in grid units, as all lengths here
        self.mesh, self.columns = None, None  # of the tracker as it is, or none since an edit
        self.won = {}  # six times the volume, by vertex
        # what is still asked of a collapse that takes a fold away
        self.loose = dataclasses.replace(by, max_volume_change=1e99, collapse_max_turn=-2, collapse_min_cosine=-2,
                                         collapse_min_angle=min(by.collapse_min_angle, 5.0))

    def improve(self):
        """All of it, which is to follow each step. Raises what the tracker raises."""
        self.mesh = None
        self.split_long()
        self.split_caps()
        for _ in range(self.by.collapse_rounds):
            if not self.collapse_short():
                break
        if self.by.allow_topology_changes:
            self.cut_necks()
        for _ in range(self.by.flip_rounds):
            if not self.flip():
                break
        if self.by.rim_max_shift > 0:
            self.draw_in_rims()
        if self.by.restore_volume:
            self.give_back()

    def mesh_left(self):
        """The surface as it is right after `improve`, for who looks at it next; mostly it is read already."""
        self.read()
        return self.mesh

    # -- the parts, for who wants them in another order

    def split_long(self):
        done, refused = self.surface.split(self.by.max_edge_length * self.by.average_edge_length)
        self.told.splits, self.told.splits_refused, self.mesh = self.told.splits + done, self.told.splits_refused + refused, None

    def split_caps(self):
        """Splits the edge opposite an angle above max_triangle_angle."""
        if self.by.max_triangle_angle >= 180:
            return
        self.read()
        wishes, chosen, held = [], [], set()
        for i in self.near(lambda them: them.opposite(numpy.maximum) > self.by.max_triangle_angle - SLACK):
            a, b, c, d = self.ends(self.mesh.edges[i])
            wide = max(angle(c, a, b), angle(d, a, b))
            if wide > self.by.max_triangle_angle and norm(minus(a, b)) / self.h > self.by.cap_min_length:
                wishes.append(Wish(wide, i, 0.0))
        for wish in best_first(wishes):
            edge = self.mesh.edges[wish.edge]
            if held.isdisjoint((edge.left, edge.right)):
                chosen.append(wish)
                held.update((edge.left, edge.right))
        self.ask("split", "caps", chosen)

    def flip(self):
        """A round of flips, of edges at which the least angle of the two faces rises; whether one was done."""
        self.read()
        wishes, chosen, held = [], [], set()
        for i in self.near(lambda them: them.rise() > -SLACK):
            edge = self.mesh.edges[i]
            rise = self.rise(edge)
            if rise > 1e-9 and edge.c != edge.d and not self.mesh.joined(edge.c, edge.d):
                volume, may = self.may_flip(edge)
                if may:
                    wishes.append(Wish(rise, i, volume))
                else:
                    self.told.flips_held += 1
        for wish in best_first(wishes):
            corners = self.mesh.edges[wish.edge][:4]
            if held.isdisjoint(corners):
                chosen.append(wish)
                held.update(corners)
        mesh, done = self.mesh, self.ask("flip", "flips", chosen)
        for wish, _ in done:
            for v in mesh.edges[wish.edge][:4]:
                self.won[mesh.ids[v]] = self.won.get(mesh.ids[v], 0.0) + wish.volume / 4
        return bool(done)

    def collapse_short(self):
        """A round of collapses: of short edges, of those opposite a small angle, and of those beside a fold; whether one was done."""
        self.read()
        folded, wishes, chosen = self.folded_faces(), [], []
        for i in self.near(self.may_want_collapse, folded):
            wish = self.wants_collapse(i, folded)
            if wish:
                wishes.append(wish)
        # none of two edits moves a vertex that the other's guards looked at
        moves, seen, mesh = set(), set(), self.mesh
        for wish in best_first(wishes):
            ends = mesh.edges[wish.edge][:2]
            ring = {r for v in ends for f in mesh.stars[v] for r in mesh.faces[f]}
            if seen.isdisjoint(ends) and moves.isdisjoint(ring):
                seen |= ring
                moves.update(ends)
                chosen.append(wish)
        done = self.ask("collapse", "collapses", chosen)
        for wish, answer in done:
            a, b = (mesh.ids[v] for v in mesh.edges[wish.edge][:2])
            kept, gone = (a, b) if answer[1] == a else (b, a)
            self.won[kept] = self.won.get(kept, 0.0) + (wish.volume + self.won.get(gone, 0.0))
        return bool(done)

    def cut_necks(self):
        """Cuts each neck of three edges that are no face, where one of them is below min_edge_length and none above max_edge_length:
        collapses that edge, and the two that are then one, and parts the vertex that is left. It is taken back where that is refused or
        leaves a non-manifold edge."""
        self.read()
        mesh, necks, held = self.mesh, [], set()
        for i in self.near(lambda them: them.length / self.h < self.by.min_edge_length + SLACK):
            a, b, *beside = mesh.edges[i][:4]
            if norm(minus(mesh.points[a], mesh.points[b])) / self.h >= self.by.min_edge_length or not held.isdisjoint((a, b)):
                continue
            for v in (v for f in mesh.stars[a] for v in mesh.faces[f] if v not in (a, b, *beside)):
                if held.isdisjoint((a, v)) and mesh.joined(b, v) and self.is_near(a, v) and self.is_near(b, v):
                    necks.append((a, b, v))
                    held.update(necks[-1])
        for neck in necks:
            done = self.cut(*(mesh.ids[v] for v in neck))
            self.told.necks, self.told.necks_undone, self.mesh = self.told.necks + done, self.told.necks_undone + (not done), None

    def draw_in_rims(self):
        """A sheet that a flow thins gets a rim as sharp as it is thin, since the faces at the rim are no smaller than others. Where it is
        sharp the ends of its edges are asked to go inward, toward the middle between the corners on both sides, as surface tension
        would draw them: by at most 0.3 of the least height of the faces there, so that none turns over. The volume that this takes
        goes to the neighbours that stay, and so the rim grows thick."""
        self.read()
        mesh, inward = self.mesh, {}
        for i in self.near(lambda them: them.bend() < self.by.rim_cosine + SLACK):
            edge = mesh.edges[i]
            if cosine(mesh.normal(edge.left), mesh.normal(edge.right)) >= self.by.rim_cosine:
                continue
            a, b, c, d = self.ends(edge)
            along, to = minus(b, a), tuple(0.5 * (r + s) - 0.5 * (p + q) for p, q, r, s in zip(a, b, c, d))
            size = dot(along, along)
            share = dot(to, along) / size if size > 0 else 0.0
            across = tuple(p - share * q for p, q in zip(to, along))
            far = norm(across)
            share = 1 / far if far > 0 else 0.0
            for v in edge[:2]:
                inward[v] = tuple(p + share * q for p, q in zip(inward.get(v, (0.0, 0.0, 0.0)), across))
        ids, shifts, unit = [], [], self.surface.unit
        for i in sorted(inward):
            size, far, ring = norm(inward[i]), self.by.rim_max_shift * self.h, []  # in the ring each is twice
            if not size > 0 or mesh.solid[i]:
                continue
            for f in mesh.stars[i]:
                a, b, c = corners = mesh.corners(f)
                longest = max(norm(minus(a, b)), norm(minus(b, c)), norm(minus(c, a)))
                ring += [v for v in mesh.faces[f] if v not in inward]
                far = min(far, 0.3 * norm(area_vector(*corners)) / longest)
            share = far / size
            shift = tuple(share * p for p in inward[i])
            lost = dot(shift, total(mesh.normal(f) for f in mesh.stars[i]))
            for v in ring:
                self.won[mesh.ids[v]] = self.won.get(mesh.ids[v], 0.0) + lost / len(ring)
            ids.append(mesh.ids[i])
            shifts.append(tuple(unit * p for p in shift))
        self.surface.shift(ids, shifts)

    def give_back(self):
        """Asks back what the edits won or took of the volume since it was last asked: where it was, along the vertex's area vector."""
        self.read()
        mesh, h, unit = self.mesh, self.h, self.surface.unit
        ids, shifts, most = [], [], self.by.restore_max_shift * h
        for i, v in enumerate(mesh.ids):
            if v not in self.won or mesh.solid[i]:
                continue
            n = total(mesh.normal(f) for f in mesh.stars[i])
            size = norm(n)
            if size < 0.05 * h * h:  # a vertex of so thin a place has no normal
                continue
            far = min(max(-self.won[v] / size, -most), most) / size
            ids.append(v)
            shifts.append(tuple(far * unit * c for c in n))
        self.won.clear()
        self.surface.shift(ids, shifts)

    # -- what they share

    def read(self):
        if self.mesh is None:
            self.mesh, self.columns = Mesh(self.surface), None

    def near(self, test, *words):
        """The rows of the edges that may pass a test of the columns; all, where numpy is not there."""
        if numpy is None or not self.mesh.edges:
            return range(len(self.mesh.edges))
        if self.columns is None:
            self.columns = Columns(self.mesh)
        return numpy.flatnonzero(test(self.columns, *words)).tolist()

    def ends(self, edge):
        points = self.mesh.points
        return points[edge.a], points[edge.b], points[edge.c], points[edge.d]

    def ask(self, word, counted, chosen):
        """Asks the chosen edits, and tells which were done, each with its answer."""
        ids, edges = self.mesh.ids, self.mesh.edges
        asked = [(word, ids[edges[wish.edge].a], ids[edges[wish.edge].b]) for wish in chosen]
        answers = self.surface.edit_each(asked).tolist() if asked else []
        done = [(wish, answer) for wish, answer in zip(chosen, answers) if not answer[0]]
        setattr(self.told, counted, getattr(self.told, counted) + len(done))
        setattr(self.told, counted + "_refused", getattr(self.told, counted + "_refused") + len(chosen) - len(done))
        if done:
            self.mesh = None
        return done

    def is_near(self, p, q):
        return norm(minus(self.mesh.points[p], self.mesh.points[q])) <= self.by.max_edge_length * self.h

    def cut(self, a, b, c):
        surface = self.surface
        surface.open()
        left = surface.ask("collapse", a, b)
        left = left if left.why else surface.ask("collapse", left.a, c)
        vertex = left.a
        left = left if left.why else surface.ask("pinch", vertex)
        around = {v for _, *corners in surface.star(vertex).tolist() for v in corners} - {vertex}
        if left.why or any(len(surface.beside(vertex, v)) != 2 for v in around):
            surface.undo()
            return False
        return surface.close() == "kept"

    def folded_faces(self):
        """The faces of which an edge is a fold."""
        mesh, folded = self.mesh, set()
        for i in self.near(lambda them: them.bend() < self.by.fold_cosine + SLACK):
            left, right = mesh.edges[i][4:]
            if cosine(mesh.normal(left), mesh.normal(right)) < self.by.fold_cosine:
                folded.update((left, right))
        return folded

    # -- the guards of a flip: the faces a d c and d b c are to stand for a b c and b a d

    def rise(self, edge):
        a, b, c, d = self.ends(edge)
        return min(least_angle(a, d, c), least_angle(d, b, c)) - min(least_angle(a, b, c), least_angle(b, a, d))

    def may_flip(self, edge):
        """Six times what it wins of the volume, and whether it passes the guards."""
        (a, b, c, d), by = self.ends(edge), self.by
        volume = dot(minus(d, a), area_vector(a, b, c))
        may = (cosine(area_vector(a, b, c), area_vector(b, a, d)) >= by.edge_flip_min_cosine
               and cosine(area_vector(a, d, c), area_vector(d, b, c)) >= by.edge_flip_min_cosine
               and abs(volume) <= 6 * by.edge_flip_max_volume_change * self.h * self.h * self.h)
        return volume, may

    # -- the guards of a collapse

    def may_want_collapse(self, them, folded):
        by, size = self.by, them.length / self.h
        needle = (size < by.needle_max_length + SLACK) & (them.opposite(numpy.minimum) < by.min_triangle_angle + SLACK)
        wanted = (size < by.min_edge_length + SLACK) | needle
        if folded:
            wanted |= numpy.array([edge.left in folded or edge.right in folded for edge in self.mesh.edges])
        return wanted

    def wants_collapse(self, i, folded):
        edge, by = self.mesh.edges[i], self.by
        a, b, c, d = self.ends(edge)
        size = norm(minus(a, b)) / self.h
        if (edge.left in folded or edge.right in folded) and size < by.max_edge_length:
            volume, may = self.may_collapse(edge, self.loose)
            gain = self.worst_cosine(edge, True) - self.worst_cosine(edge, False) if may else 0
            if gain > 0.1:
                return Wish(10 * gain - size, i, volume)
        if size < by.min_edge_length or (size < by.needle_max_length and min(angle(c, a, b), angle(d, a, b)) < by.min_triangle_angle):
            volume, may = self.may_collapse(edge, by)
            if may:
                return Wish(-size, i, volume)
            self.told.collapses_held += 1
        return None

    def target(self, edge):
        """Where the tracker puts the vertex that is left."""
        mesh = self.mesh
        a, b = mesh.points[edge.a], mesh.points[edge.b]
        if mesh.solid[edge.a] or mesh.solid[edge.b]:
            return a if mesh.solid[edge.a] else b
        return tuple(float(math.floor((p + q) / 2)) for p, q in zip(a, b))

    def may_collapse(self, edge, by):
        """Six times what its collapse wins of the volume, and whether the edge passes the guards; without the latter, the former says
        nothing."""
        mesh = self.mesh
        if mesh.solid[edge.a] and mesh.solid[edge.b]:
            return 0.0, False
        mid, was, least, volume = self.target(edge), 180.0, 180.0, 0.0
        for v in edge[:2]:
            for f in mesh.stars[v]:
                corners = mesh.corners(f)
                before = area_vector(*corners)
                was = min(was, least_angle(*corners))
                if v == edge.a or f not in edge[4:]:
                    volume -= dot(minus(corners[0], mid), before)  # of the tetrahedron between the face and what stands for it
                if f in edge[4:]:
                    continue
                if any(w != v and w not in edge[2:4] and mesh.joined(edge.a, w) and mesh.joined(edge.b, w) for w in mesh.faces[f]):
                    return volume, False  # a ring of three edges, which would become a non-manifold edge
                after = [mid if w == v else p for w, p in zip(mesh.faces[f], corners)]
                least = min(least, least_angle(*after))
                if cosine(before, area_vector(*after)) < by.collapse_max_turn:
                    return volume, False
                if any(norm(minus(p, mid)) > by.max_edge_length * self.h for p in after):
                    return volume, False
        if abs(volume) > 6 * by.max_volume_change * self.h * self.h * self.h or least < min(by.collapse_min_angle, was):
            return volume, False
        if by.collapse_min_cosine < -1:
            return volume, True
        return volume, self.worst_cosine(edge, True) >= min(by.collapse_min_cosine, self.worst_cosine(edge, False))

    def worst_cosine(self, edge, after):
        """The least cosine between two neighbours, of which one is at the edge: as it is, or as it would be after the collapse."""
        mesh, mid, ring, sides = self.mesh, self.target(edge), [], {}
        for v in edge[:2]:
            for f in mesh.stars[v]:
                if f in edge[4:] and (after or v == edge.b):
                    continue
                corners, points = mesh.faces[f], mesh.corners(f)
                if after:
                    points = [mid if w == v else p for w, p in zip(corners, points)]
                    corners = tuple(edge.a if w == edge.b else w for w in corners)
                ring.append((f, corners, area_vector(*points)))
        for _, corners, n in ring:
            for s in range(3):
                sides.setdefault((corners[s], corners[s - 2]), []).append(n)
        worst = 1.0
        for f, corners, n in ring:
            for s in range(3):
                p, q = corners[s], corners[s - 2]
                beside = sides.get((q, p)) or [mesh.normal(mesh.beside(p, q, f))]
                worst = min(worst, *(cosine(n, m) for m in beside))
        return worst


def total(vectors):
    x = y = z = 0.0
    for a, b, c in vectors:
        x, y, z = x + a, y + b, z + c
    return x, y, z


def best_first(wishes):
    return sorted(wishes, key=lambda wish: (-wish.worth, wish.edge))


def slide(points, faces, weight, flat=0.7, solid=None):
    """Smoothing. Vertices slide toward the mean of the middles of their faces, by area: one at a time, in the plane across the summed
    area of their faces as these are by then, and by at most a fifth of the shortest edge. As the volume is linear in each vertex, with
    that sum as its gradient, the volume stays, but for rounding. A vertex with a face that turns from the sum by more than `flat`
    stays, and so does a solid one. It goes over where the vertices are to be, the targets of a step, a list of points by row, which is
    changed; `faces` are rows of them."""
    for i, star in enumerate(stars_of(len(points), faces)):
        if solid and solid[i]:
            continue
        at, areas, all_, near, sx, sy, sz = points[i], [], 0.0, 1e99, 0.0, 0.0, 0.0
        for f in star:
            a, b, c = faces[f]
            p, q, r = points[a], points[b], points[c]
            areas.append(area_vector(p, q, r))
            size = norm(areas[-1])
            third = size / 3
            sx, sy, sz = sx + third * (p[0] + q[0] + r[0]), sy + third * (p[1] + q[1] + r[1]), sz + third * (p[2] + q[2] + r[2])
            all_ += size
            near = min(near, *(norm(minus(points[v], at)) for v in faces[f] if v != i))
        n = total(areas)
        if not all_ > 0 or min(cosine(m, n) for m in areas) < flat:
            continue
        by = 1 / all_
        d = by * sx - at[0], by * sy - at[1], by * sz - at[2]
        off = dot(d, n) / dot(n, n)
        d = d[0] - off * n[0], d[1] - off * n[1], d[2] - off * n[2]
        far, most = norm(d), 0.2 * near
        share = weight * (most / far if far > most else 1)
        points[i] = at[0] + share * d[0], at[1] + share * d[1], at[2] + share * d[2]
