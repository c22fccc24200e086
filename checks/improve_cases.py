#!/usr/bin/env python3
"""Worked cases of `library/improve.py`: each guard alone.

    checks/improve_cases.py [--library FOLDER]

A figure that a guard looks at is measured beside it, by a tracker that makes the
edit: the guard has to let the edit pass where its limit is a little above the figure, and to hold it back where it is a little below.
Where numpy is there, all is done once without it and once with it. Prints how many cases hold, or which do not.
"""

import collections
import itertools
import math
import os
import random
import sys

ROOT = os.path.dirname(os.path.dirname(os.path.abspath(__file__)))
sys.path.insert(0, os.path.join(ROOT, "library"))
sys.dont_write_bytecode = True
import improve  # noqa: E402
import topo  # noqa: E402
from calling import library_of  # noqa: E402

LIBRARY = None
H = 1000  # the mean edge, in units of the grid
# nothing is wanted, and nothing held back
OFF = dict(min_edge_length=0, max_edge_length=1e4, max_volume_change=1e9, min_triangle_angle=0, max_triangle_angle=180,
           needle_max_length=0, edge_flip_min_cosine=-2, edge_flip_max_volume_change=1e9, collapse_min_angle=0, collapse_max_turn=-2,
           collapse_min_cosine=-2, fold_cosine=-2, rim_max_shift=0, restore_volume=False)
GOLD = (1 + math.sqrt(5)) / 2
CORNERS = [(-1, GOLD, 0), (1, GOLD, 0), (-1, -GOLD, 0), (1, -GOLD, 0), (0, -1, GOLD), (0, 1, GOLD), (0, -1, -GOLD), (0, 1, -GOLD),
           (GOLD, 0, -1), (GOLD, 0, 1), (-GOLD, 0, -1), (-GOLD, 0, 1)]
held, failed, seen = 0, [], collections.Counter()


def holds(what, so):
    global held
    held += bool(so)
    failed.extend([] if so else [what])


# ---- surfaces, and what is measured of them: points and faces by id


def ball(parts, bump=0.0, seed=0):
    """A bumpy ball whose mean edge is about H: an icosahedron, each edge cut in parts; points, and faces from 1."""
    chance, places, faces, radius = random.Random(seed), {}, [], H * parts / 1.17
    near = lambda p, q: abs(math.dist(CORNERS[p], CORNERS[q]) - 2) < 1e-9
    sides = [(p, q, r) for p, q, r in itertools.combinations(range(12), 3) if near(p, q) and near(q, r) and near(p, r)]

    def at(corners, i, j):
        a, b, c = (CORNERS[v] for v in corners)
        p = tuple(x * (parts - i - j) + y * i + z * j for x, y, z in zip(a, b, c))
        key = tuple(round(x * 1e6) for x in p)
        if key not in places:
            size = radius * (1 + bump * chance.uniform(-1, 1)) / math.hypot(*p)
            places[key] = len(places) + 1, tuple(round(x * size + bump * H * chance.uniform(-1, 1)) for x in p)
        return places[key][0]

    for corners in sides:
        a, b, c = (CORNERS[v] for v in corners)
        if six_volume_of(a, b, c) < 0:
            corners = corners[::-1]
        for i in range(parts):
            for j in range(parts - i):
                faces.append((at(corners, i, j), at(corners, i + 1, j), at(corners, i, j + 1)))
                if i + j + 1 < parts:
                    faces.append((at(corners, i + 1, j), at(corners, i + 1, j + 1), at(corners, i, j + 1)))
    return [p for _, p in sorted(places.values())], faces


def tracker(points, faces):
    return topo.Tracker(points, faces, library=LIBRARY)


def improver(surface, **words):
    return improve.Improver(surface, improve.Improving(H, **{**OFF, **words}))


def read(surface):
    return {v: tuple(map(int, p)) for v, p in surface.vertices().items()}, surface.faces()


def six_volume_of(a, b, c):
    return a[0] * (b[1] * c[2] - b[2] * c[1]) + a[1] * (b[2] * c[0] - b[0] * c[2]) + a[2] * (b[0] * c[1] - b[1] * c[0])


def six_volume(mesh):
    points, faces = mesh
    return sum(six_volume_of(*(points[v] for v in face)) for face in faces.values())


def normal(mesh, face):
    a, b, c = (mesh[0][v] for v in face)
    u, v = [q - p for p, q in zip(a, b)], [q - p for p, q in zip(a, c)]
    n = u[1] * v[2] - u[2] * v[1], u[2] * v[0] - u[0] * v[2], u[0] * v[1] - u[1] * v[0]
    return [x / math.hypot(*n) for x in n]


def between(n, m):
    return sum(x * y for x, y in zip(n, m))


def corner_angles(mesh, face):
    """Of each corner, in degrees, by the lengths of the sides."""
    a, b, c = (math.dist(mesh[0][face[i - 2]], mesh[0][face[i - 1]]) for i in range(3))
    return [math.degrees(math.acos((q * q + r * r - p * p) / (2 * q * r))) for p, q, r in ((a, b, c), (b, c, a), (c, a, b))]


def corners_of(mesh):
    """The angle of each corner of all faces, with the edge opposite it."""
    rows = [(face, i, angle) for face in mesh[1].values() for i, angle in enumerate(corner_angles(mesh, face))]
    return [(angle, tuple(sorted((face[i - 2], face[i - 1])))) for face, i, angle in rows]


def star(mesh, *vertices):
    return {f: face for f, face in mesh[1].items() if set(face) & set(vertices)}


def least(mesh, faces):
    return min(angle for face in faces.values() for angle in corner_angles(mesh, face))


def bend(mesh, faces):
    """The least cosine between the normals of two neighbours, of which one is of these faces."""
    worst = 1
    for f, face in faces.items():
        for other, its in mesh[1].items():
            if other != f and len(set(face) & set(its)) == 2:
                worst = min(worst, between(normal(mesh, face), normal(mesh, its)))
    return worst


def turn(before, after, edge, left):
    """The least cosine between the normals of a face at the vertex that is left, and of the one for which it stands."""
    were = {frozenset(face): face for face in before[1].values()}
    stand = [(face, were.get(frozenset(face) - {left} | {v})) for face in star(after, left).values() for v in edge]
    return min(between(normal(before, was), normal(after, face)) for face, was in stand if was)


def edges_of(mesh):
    return sorted({tuple(sorted(pair)) for face in mesh[1].values() for pair in itertools.combinations(face, 2)})


def length(mesh, edge):
    return math.dist(*(mesh[0][v] for v in edge)) / H


def twin(surface, *edit):
    """What another tracker, left as this one, has after an edit."""
    with topo.Tracker(surface.leave(), library=LIBRARY) as other:
        holds(f"{edit} is done", other.ask(*edit).why == "")
        return read(other)


# ---- collapses


def collapses(seed):
    """The shortest edge of a bumpy ball alone is short: each guard at its figure."""
    with tracker(*ball(2, 0.16 if seed % 2 else 0.3, seed)) as surface:
        before = read(surface)
        edges = sorted(edges_of(before), key=lambda edge: length(before, edge))
        (a, b), short = edges[0], (length(before, edges[0]) + length(before, edges[1])) / 2
        if seed % 3:
            surface.solid((a, b)[seed % 2])
        after = twin(surface, "collapse", a, b)
        left = a if a in after[0] else b
        limits(surface, f"ball {seed}, edge {a} {b}", short, before, after, (a, b), left)


def limits(surface, name, short, before, after, edge, left):
    changed, gone, new = abs(six_volume(after) - six_volume(before)) / 6 / H ** 3, star(before, *edge), star(after, left)
    angle, turned, bent = least(after, new), turn(before, after, edge, left), bend(after, new)
    longest = max(length(after, e) for e in edges_of(after) if left in e)
    tried = trials(surface, name, before, after, short)
    tried("no guard", True)
    tried("the volume", True, max_volume_change=changed * 1.0001)
    tried("more than the volume", False, max_volume_change=changed * 0.9999)
    was, bent_before = least(before, gone), bend(before, gone)
    tried("the least angle", True, collapse_min_angle=angle - 1e-6)
    tried("a greater least angle", was <= angle + 1e-6, collapse_min_angle=angle + 1e-6)
    tried("any least angle", was <= angle, collapse_min_angle=60)
    tried("the turn", True, collapse_max_turn=turned - 1e-9)
    tried("a lesser turn", False, collapse_max_turn=turned + 1e-9)
    tried("the bend", True, collapse_min_cosine=bent - 1e-9)
    tried("a lesser bend", bent_before <= bent + 1e-9, collapse_min_cosine=bent + 1e-9)
    tried("any bend", bent_before <= bent, collapse_min_cosine=1)
    tried("the longest edge", True, max_edge_length=longest + 1e-9)
    tried("a lesser longest edge", False, max_edge_length=longest - 1e-9)
    seen["no less an angle"] += was <= angle
    seen["a lesser angle"] += was > angle + 1e-6
    seen["no more bend"] += bent_before <= bent
    seen["more bend"] += bent_before > bent + 1e-9
    with topo.Tracker(surface.leave(), library=LIBRARY) as other:
        passes = improver(other, min_edge_length=length(before, edge) - 1e-9)
        holds(f"{name}: it is not short", not passes.collapse_short() and passes.told.collapses_held == 0)


def trials(surface, name, before, after, short):
    """Tries the short edge under other guards, each time from the start."""
    def tried(what, passes, **words):
        with topo.Tracker(surface.leave(), library=LIBRARY) as other:
            told = improver(other, min_edge_length=short, **words)
            done = told.collapse_short()
            counts = told.told.collapses, told.told.collapses_held
            holds(f"{name}, {what}: {'passes' if passes else 'is held back'}: {counts}", read(other) == (after if passes else before)
                  and done == passes and counts == (int(passes), int(not passes)))

    return tried


def rings():
    """A ring of three edges that is no face is not collapsed; nor is an edge of which both ends are solid."""
    points = [(0, 0, 2000), (0, 0, -2000), (400, 0, 0), (-200, 350, 0), (-200, -350, 0)]
    faces = [(1, 3, 4), (1, 4, 5), (1, 5, 3), (2, 4, 3), (2, 5, 4), (2, 3, 5)]
    with tracker(points, faces) as surface:
        passes = improver(surface, min_edge_length=1)
        holds("a neck's edges are held back", not passes.collapse_short() and passes.told.collapses_held == 3)
        holds("it is left as it was", len(surface.vertices()) == 5)
    with tracker(*ball(2)) as surface:
        for v in surface.vertices():
            surface.solid(v)
        passes = improver(surface, min_edge_length=10)
        holds("between solid vertices none is collapsed", not passes.collapse_short() and passes.told.collapses_held == 120)


def needles(seed):
    """The edge opposite the least angle goes, where the angle is below its limit and the edge short enough."""
    with tracker(*ball(2, 0.16, seed)) as surface:
        before = read(surface)
        angle, edge = min(corners_of(before))
        for under, size, wanted in ((1e-6, 1e-9, 1), (-1e-6, 1e-9, 0), (1e-6, -1e-9, 0)):
            with topo.Tracker(surface.leave(), library=LIBRARY) as other:
                passes = improver(other, min_triangle_angle=angle + under, needle_max_length=length(before, edge) + size)
                passes.collapse_short()
                gone = set(edge) - set(other.vertices())
                holds(f"ball {seed}, needle at {edge}: {passes.told}", passes.told.collapses == wanted and len(gone) == wanted)


def caps(seed):
    """The edge opposite the greatest angle is split, where the angle is above its limit and the edge long enough."""
    with tracker(*ball(2, 0.16, seed)) as surface:
        before = read(surface)
        angle, edge = max(corners_of(before))
        for over, size, wanted in ((-1e-6, -1e-9, 1), (1e-6, -1e-9, 0), (-1e-6, 1e-9, 0)):
            with topo.Tracker(surface.leave(), library=LIBRARY) as other:
                passes = improver(other, max_triangle_angle=angle + over, cap_min_length=length(before, edge) + size)
                passes.split_caps()
                holds(f"ball {seed}, cap at {edge}: {passes.told}", passes.told.caps == wanted and len(other.vertices()) == 42 + wanted
                      and (edge in edges_of(read(other))) != bool(wanted))


def chosen(seed):
    """Of the short edges of one round none moves a vertex of the faces at another's ends; and of two that touch the shorter goes."""
    with tracker(*ball(3, 0.1, seed)) as surface:
        before, passes = read(surface), improver(surface, min_edge_length=0.95)
        passes.collapse_short()
        done = [(event[1], event[2]) for event in surface.events() if event[0] == "collapsed"]
        rings = [{v for face in star(before, *edge).values() for v in face} for edge in done]
        holds(f"ball {seed}: {len(done)} collapses apart from one another", len(done) > 3 and passes.told.collapses == len(done)
              and all(not set(done[i]) & rings[j] for i, j in itertools.permutations(range(len(done)), 2)))
        shortest = min(edges_of(before), key=lambda edge: length(before, edge))
        holds(f"ball {seed}: the shortest goes first", shortest in [tuple(sorted(edge)) for edge in done])


def folds():
    """A vertex is carried over the edge opposite it, so that a face is folded over its neighbour: that is mended, whatever other guards
    say."""
    points, faces = ball(3)
    a, b, c = faces[len(faces) // 2]
    d = next(v for face in faces if {a, b} < set(face) and c not in face for v in set(face) - {a, b})
    mid = [(p + q) / 2 for p, q in zip(points[a - 1], points[b - 1])]
    points[c - 1] = tuple(round((m + 0.15 * (q - m)) * 1.04) for m, q in zip(mid, points[d - 1]))
    strict = dict(max_volume_change=0, collapse_min_angle=60, collapse_max_turn=1, collapse_min_cosine=1, max_edge_length=3)
    with tracker(points, faces) as surface:
        before = read(surface)
        worst = bend(before, before[1])
        for limit, mends in ((worst - 1e-6, False), (worst + 1e-6, True)):
            with topo.Tracker(surface.leave(), library=LIBRARY) as other:
                passes = improver(other, fold_cosine=limit, **strict)
                passes.collapse_short()
                holds(f"a fold of {worst:.3f} at {limit:.3f}: {passes.told}", (passes.told.collapses > 0) == mends)
                after = read(other)
                holds(f"it bends less: {bend(after, after[1]):.3f}", worst < -0.5 and (not mends or bend(after, after[1]) > worst + 0.1))


# ---- flips


def flipped_ball(seed, bump, first):
    """An edge of a bumpy ball is flipped to the worse, the first at which that edge alone then wants a flip."""
    points, faces = ball(2, bump, seed)
    with tracker(points, faces) as surface:
        edges = diagonals(read(surface))
    for (a, b), (c, d) in edges[first:first + 20]:
        with tracker(points, faces) as surface:
            holds(f"ball {seed}: {a} {b} is flipped", surface.ask("flip", a, b).why == "")
            with topo.Tracker(surface.leave(), library=LIBRARY) as other:
                held_back, passes = improver(other, edge_flip_max_volume_change=-1), improver(other)
                alone = not held_back.flip() and held_back.told.flips_held == 1 and passes.flip() and (a, b) in edges_of(read(other))
            if alone:
                flips(surface, f"ball {seed}", (c, d), (a, b))
                break


def diagonals(mesh):
    """Each edge, and that which a flip would make of it: first those at which the flip lessens the bend most."""
    opposite = {(face[i - 2], face[i - 1]): face[i] for face in mesh[1].values() for i in range(3)}
    rows = []
    for a, b in edges_of(mesh):
        c, d = opposite[a, b], opposite[b, a]
        bends = [between(normal(mesh, one), normal(mesh, other)) for one, other in (((a, b, c), (b, a, d)), ((a, d, c), (d, b, c)))]
        rows.append((bends[0] - bends[1], (a, b), (c, d)))
    return [row[1:] for row in sorted(rows)]


def flips(surface, name, edge, new):
    """An edge that wants a flip to a new one, alone: each guard at its figure."""
    before, after = read(surface), twin(surface, "flip", *edge)
    changed = abs(six_volume(after) - six_volume(before)) / 6 / H ** 3
    beside = lambda mesh, ends: (normal(mesh, face) for face in mesh[1].values() if set(ends) < set(face))
    bends = between(*beside(before, edge)), between(*beside(after, new))
    seen["flips, bent before" if bends[0] < bends[1] else "flips, bent after"] += 1
    for what, passes, words in (("no guard", True, {}), ("the volume", True, dict(edge_flip_max_volume_change=changed * 1.0001)),
                                ("more than the volume", False, dict(edge_flip_max_volume_change=changed * 0.9999)),
                                ("the bend", True, dict(edge_flip_min_cosine=min(bends) - 1e-9)),
                                ("a lesser bend", False, dict(edge_flip_min_cosine=min(bends) + 1e-9))):
        with topo.Tracker(surface.leave(), library=LIBRARY) as other:
            told = improver(other, **words)
            done = told.flip()
            counts = told.told.flips, told.told.flips_held
            holds(f"{name}, {edge}, {what}: {counts}", done == passes and counts == (int(passes), int(not passes)))
            now = edges_of(read(other))
            holds(f"{name}, {edge}, {what}: the edge", (tuple(sorted(new)) in now) == passes and (tuple(sorted(edge)) in now) != passes)


def no_flips():
    """The edge that a flip would make is there already; and a ball of like faces wants none."""
    with tracker([(0, 0, 0), (4000, 0, 0), (0, 4000, 0), (0, 0, 500)], [(1, 3, 2), (1, 2, 4), (2, 3, 4), (1, 4, 3)]) as surface:
        passes = improver(surface)
        holds("a tetrahedron", not passes.flip() and passes.told.flips_held == passes.told.flips_refused == 0)
    with tracker(*ball(2)) as surface:
        passes = improver(surface)
        holds("a ball", not passes.flip() and passes.told.flips_held == 0)


# ---- necks, the volume, smoothing


def necks():
    """Two pyramids that hang together by a triangle of short edges."""
    points, turns = [(0, 0, 2000), (0, 0, -2000)], [2 * math.pi * k / 3 for k in range(3)]
    points += [(round(r * math.cos(t)), round(r * math.sin(t)), z) for z, r in ((800, 1500), (0, 100), (-800, 1500)) for t in turns]
    faces = [(1, 3 + k, 3 + (k + 1) % 3) for k in range(3)] + [(2, 9 + (k + 1) % 3, 9 + k) for k in range(3)]
    for low in (3, 6):
        for k in range(3):
            p, q, r, s = low + k, low + (k + 1) % 3, low + 3 + k, low + 3 + (k + 1) % 3
            faces += [(p, r, q), (q, r, s)]
    for words, parts in ((dict(allow_topology_changes=True), 2), ({}, 1), (dict(allow_topology_changes=True, min_edge_length=0.1), 1)):
        with tracker(points, faces) as surface:
            passes = improver(surface, **{**dict(min_edge_length=0.5, max_edge_length=3.5, collapse_rounds=0, flip_rounds=0), **words})
            passes.improve()
            mesh = read(surface)
            euler = len(mesh[0]) - len(edges_of(mesh)) + len(mesh[1])
            counts = passes.told.necks, passes.told.necks_undone
            holds(f"a neck, {words}: Euler number {euler}, {passes.told}", euler == 2 * parts and counts == (parts - 1, 0))


def restored(seed):
    """What a collapse took of the volume comes back with the next step, but for rounding; by no more than the shift that is allowed."""
    for most in (10, 0.001):
        with tracker(*ball(2, 0.16, seed)) as surface:
            before = read(surface)
            edges = sorted(edges_of(before), key=lambda edge: length(before, edge))
            short = (length(before, edges[0]) + length(before, edges[1])) / 2
            words = dict(restore_volume=True, restore_max_shift=most, collapse_rounds=1, flip_rounds=0)
            passes = improver(surface, min_edge_length=short, **words)
            passes.improve()
            after = read(surface)
            holds(f"ball {seed}: one collapse", passes.told.collapses == 1 and passes.told.splits == 0)
            surface.step()
            last = read(surface)
            moved = {v: math.dist(p, last[0][v]) for v, p in after[0].items() if p != last[0][v]}
            (v, far), = moved.items()
            pull = sum(abs(sum(six_volume_by(last, f, v, axis) for f in star(last, v).values())) for axis in range(3))
            if most == 10:
                seen["volume taken"] += abs(six_volume(after) - six_volume(before)) > 2 * pull
                holds(f"ball {seed}: the volume is back", abs(six_volume(last) - six_volume(before)) <= 0.51 * pull)
            else:
                holds(f"ball {seed}: the shift is bounded: {far}", far <= 0.001 * H + 1)


def rims():
    """A rim that bends by more than rim_cosine is drawn in with the next step, up to the shift and to the height of its faces that are
    allowed, and the volume that this takes is given back."""
    a, b, c, d = 0, -500, 870, 100
    points, faces = [(a, b, 0), (a, -b, 0), (c, 0, d), (c, 0, -d)], [(1, 2, 3), (2, 1, 4), (1, 3, 4), (2, 4, 3)]
    bent = between(*(normal((dict(enumerate(points, 1)), None), face) for face in faces[:2]))
    height = 2 * d * math.hypot(c, b) / math.sqrt(c * c + b * b + d * d)  # of the two faces at c d, over their longest edges
    for limit, most, solid in ((bent + 0.01, 1, False), (bent + 0.01, 0.01, False), (bent - 0.01, 1, False), (bent + 0.01, 1, True)):
        with tracker(points, faces) as surface:
            for v in (1, 2) if solid else ():
                surface.solid(v)
            before = six_volume(read(surface))
            improver(surface, rim_cosine=limit, rim_max_shift=most, collapse_rounds=0, flip_rounds=0, restore_volume=True).improve()
            surface.step()
            after = read(surface)
            far = after[0][1][0] if limit > bent and not solid else 0
            moved = [round(p - q) for v in (1, 2) for p, q in zip(after[0][v], points[v - 1])]
            wanted = 0 if limit < bent or solid else min(0.3 * height, most * H)
            holds(f"a rim, {limit:.2f}, {most}, {solid}: {moved}", moved == [far, 0, 0] * 2 and abs(far - wanted) <= 1)
            holds(f"its volume: {six_volume(after) / before}", abs(six_volume(after) / before - 1) < 0.01)


def six_volume_by(mesh, face, v, axis):
    """By how much six times the volume below a face grows where a corner of it goes by one along an axis."""
    points = [list(mesh[0][w]) for w in face]
    before = six_volume_of(*points)
    points[face.index(v)][axis] += 1
    return six_volume_of(*points) - before


def smoothing(seed):
    """The volume stays, the least angle rises, nothing goes far, and what is solid or at a crease stays."""
    points, faces = ball(3, 0.08, seed)
    mesh, rows = [tuple(map(float, p)) for p in points], [tuple(v - 1 for v in face) for face in faces]
    for solid in (None, [i % 4 == 0 for i in range(len(mesh))]):
        after = list(mesh)
        improve.slide(after, rows, 0.5, flat=-2, solid=solid)
        one, other = (({v: p for v, p in enumerate(its)}, dict(enumerate(rows))) for its in (mesh, after))
        holds(f"ball {seed}: the volume stays", abs(six_volume(other) / six_volume(one) - 1) < 1e-12 and other != one)
        holds(f"ball {seed}: the least angle rises", solid or least(other, other[1]) > least(one, one[1]))
        holds(f"ball {seed}: what is solid stays", all(p == q for p, q, stays in zip(mesh, after, solid or ()) if stays))
    points, faces = ball(3, 0.3, seed)
    before = [tuple(map(float, p)) for p in points]
    after = list(before)
    improve.slide(after, [tuple(v - 1 for v in face) for face in faces], 1, flat=-2)
    near = [min(math.dist(p, points[w - 1]) for face in faces if v in face for w in face if w != v) for v, p in enumerate(points, 1)]
    # a neighbour that slid before makes it at most so much farther
    holds(f"ball {seed}: none goes far", all(math.dist(p, q) <= 0.2 * 1.2 * size for p, q, size in zip(before, after, near)))
    grid = range(-2, 3)
    box = [p for p in itertools.product(grid, repeat=3) if max(map(abs, p)) == 2]
    box_rows = {p: i for i, p in enumerate(box)}
    quads = []
    for axis, side in itertools.product(range(3), (-2, 2)):
        for i, j in itertools.product(range(-2, 2), repeat=2):
            square = [tuple(it[:axis]) + (side,) + tuple(it[axis:]) for it in ((i, j), (i + 1, j), (i + 1, j + 1), (i, j + 1))]
            square = square if (side > 0) == (axis != 1) else square[::-1]
            quads += [(square[0], square[1], square[2]), (square[0], square[2], square[3])]
    after = [tuple(map(float, p)) for p in box]
    inner = [i for i, p in enumerate(box) if sum(abs(x) == 2 for x in p) == 1]
    for i in inner:
        axis = max(range(3), key=lambda k: abs(box[i][k]))
        after[i] = tuple(x if k == axis else x + 0.3 for k, x in enumerate(after[i]))
    start = list(after)
    improve.slide(after, [tuple(box_rows[p] for p in face) for face in quads], 0.5, flat=0.75)
    holds("a box: creases and corners stay", all(p == q for i, (p, q) in enumerate(zip(start, after)) if i not in inner))
    holds("a box: inside a side they slide in it", all(p != q for i, (p, q) in enumerate(zip(start, after)) if i in inner)
          and all(abs(max(map(abs, p)) - 2) < 1e-12 for p in after))


def all_cases():
    for seed in range(12):
        collapses(seed)
    for seed in range(4):
        needles(seed)
        caps(seed)
        restored(seed)
    for seed in range(6):
        flipped_ball(seed, 0.03, 60)
    flipped_ball(6, 0.15, 0)
    for case in (rings, folds, no_flips, necks, rims):
        case()
    chosen(1)
    smoothing(1)
    kinds = "no less an angle", "a lesser angle", "no more bend", "more bend", "flips, bent before", "flips, bent after", "volume taken"
    few = [what for what in kinds if not seen[what]]
    holds(f"of each kind of figure there is one: not of {few}; {dict(seen)}", not few)


def main():
    global LIBRARY
    LIBRARY = os.path.join(library_of(__doc__), "libtopo.so")
    found = improve.numpy
    for numpy in (None, found) if found else (None,):
        improve.numpy = topo.numpy = numpy
        seen.clear()
        all_cases()
    print("".join(f"no: {what}\n" for what in failed) + f"{held} hold, {len(failed)} do not; {'with and ' if found else ''}without numpy")
    sys.exit(bool(failed))


if __name__ == "__main__":
    main()
