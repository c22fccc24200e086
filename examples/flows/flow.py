"""What the flows in Python share: the words of a run, its steps, and its figures. README.md says what the columns are."""

import os
import sys
import time

sys.path.insert(0, os.path.join(os.path.dirname(os.path.abspath(__file__)), "../../library"))
import topo  # noqa: E402

try:
    import improve
    import merge
except ImportError:  # of the wheel
    from topo import improve, merge

area_vector, cosine, dot, least_angle, minus, norm = (
    improve.area_vector, improve.cosine, improve.dot, improve.least_angle, improve.minus, improve.norm)
COLUMNS = ("step,time,way,times,vertices,faces,volume,exact,area,least,mean,below5,folds,non_manifold,components,euler,"
           "split,collapse,flip,zip,pinch,refused,seconds_flow,seconds_step,seconds_improve,seconds_merge")
EDITS = ("split", "collapsed", "flipped", "zipped", "pinched")


def words_of(words):
    """FOLDER and then NAME=NUMBER: the folder, and the numbers by their names."""
    if not words or not all("=" in word for word in words[1:]):
        sys.exit("usage: FLOW FOLDER [NAME=NUMBER ...]")
    return words[0], {name: float(number) for name, number in (word.split("=", 1) for word in words[1:])}


def plus(a, b, share=1.0):
    return a[0] + share * b[0], a[1] + share * b[1], a[2] + share * b[2]


class Run:
    """A surface that a flow carries: `points` by row, in metres, `mesh` in grid units."""

    def __init__(self, words, points, faces, h, improving=None, merging=None):
        self.folder, given = words
        self.h, self.smooth, self.merging = h, given.get("smooth", 0.2), merging or merge.Merging(h)
        self.merging.merge_proximity = given.get("merge", 0)  # where it is 0, no sheets are merged
        self.kept, self.frames = given.get("log", 0) != 0, int(given.get("frames", 0))
        self.surface = topo.Tracker(points, [(a + 1, b + 1, c + 1) for a, b, c in faces], unit=h * 1e-5)
        improving = improving or improve.Improving(h)
        improving.allow_topology_changes = given.get("part", 0) != 0
        self.improver, self.mesh = improve.Improver(self.surface, improving), improve.Mesh(self.surface)
        self.exact, self.steps, self.points, self.log = 0.0, 0, self.mesh.positions(), []
        if self.kept:
            self.write("start0.obj", self.mesh.points, "v %d %d %d\n")
            self.surface.begin_log()
        if self.frames:
            self.write("frame-000000.obj")
        self.rows = []
        self.tell(0.0, ("whole", 0), dict.fromkeys(EDITS, 0), 0, [0.0] * 4)

    def advance(self, to, now):
        """A step: `to` is where the flow takes each point, by row. After it come the edits."""
        self.steps, begin = self.steps + 1, self.last
        if self.smooth > 0:
            improve.slide(to, self.mesh.faces, self.smooth)
        shifts, spent = [minus(q, p) for q, p in zip(to, self.points)], [time.process_time()]
        self.surface.shift(self.mesh.ids, shifts)
        way, before = self.surface.step(), self.refusals()
        spent.append(time.process_time())
        self.improver.improve()
        refused = self.refusals() - before
        spent.append(time.process_time())
        if self.merging.merge_proximity > 0:
            refused += merge.merge(self.surface, self.merging, self.improver.mesh_left()).undone_refused
        spent.append(time.process_time())
        done = self.tally()
        self.mesh.read()
        self.points = self.mesh.positions()
        self.tell(now, way, done, refused, [b - a for a, b in zip([begin] + spent, spent)])
        if self.frames and self.steps % self.frames == 0:
            self.write("frame-%06d.obj" % (self.steps // self.frames))

    def refusals(self):
        told = self.improver.told
        return told.splits_refused + told.caps_refused + told.collapses_refused + told.flips_refused

    def tally(self):
        """The edits that stand, group by group; and takes the log."""
        groups = [dict.fromkeys(EDITS, 0)]
        for row in self.surface.rows("topo_events", topo.Event).tolist():
            word = topo.EVENTS[row[0]]
            if word == "opened":
                groups.append(dict.fromkeys(EDITS, 0))
            elif word in ("kept", "undone"):
                inner = groups.pop()
                groups[-1].update((name, groups[-1][name] + inner[name]) for name in EDITS if word == "kept")
            elif word in EDITS:
                groups[-1][word] += 1
        if self.kept:
            self.log.append(self.surface.log())
        self.surface.forget()
        return groups[0]

    def tell(self, now, way, done, refused, spent):
        """The row of a step, of the mesh as it is."""
        mesh, p = self.mesh, self.points
        angles = [least_angle(p[a], p[b], p[c]) for a, b, c in mesh.faces]
        area = sum(norm(area_vector(p[a], p[b], p[c])) for a, b, c in mesh.faces) / 2
        self.volume = sum(dot(p[a], area_vector((0, 0, 0), p[b], p[c])) for a, b, c in mesh.faces) / 6
        folds = sum(cosine(mesh.normal(e.left), mesh.normal(e.right)) < -0.9 for e in mesh.edges)
        self.components, self.euler = self.parts(), len(p) - len(mesh.edges) - len(mesh.crowded) + len(mesh.faces)
        figures = [self.steps, "%.6f" % now, topo.WAYS.index(way[0]), way[1], len(p), len(mesh.faces)]
        figures += ["%.9f" % self.volume, "%.9f" % self.exact, "%.6f" % area, "%.3f" % min(angles, default=0)]
        figures += ["%.3f" % (sum(angles) / max(1, len(angles))), sum(a < 5 for a in angles), folds, len(mesh.crowded)]
        figures += [self.components, self.euler, *(done[name] for name in EDITS), refused, *("%.4f" % s for s in spent)]
        self.rows.append(dict(zip(COLUMNS.split(","), figures)))
        with open(os.path.join(self.folder, "steps.csv"), "a" if self.steps else "w", encoding="utf-8") as out:
            out.write(("" if self.steps else COLUMNS + "\n") + ",".join(map(str, figures)) + "\n")
        self.last = time.process_time()

    def parts(self):
        """How many components the surface has."""
        left, count = set(range(len(self.points))), 0
        while left:
            found, count = [left.pop()], count + 1
            while found:
                near = {v for f in self.mesh.stars[found.pop()] for v in self.mesh.faces[f]} & left
                left -= near
                found += near
        return count

    def write(self, name, points=None, line="v %.9f %.9f %.9f\n"):
        with open(os.path.join(self.folder, name), "w", encoding="utf-8") as out:
            out.writelines(line % p for p in points or self.points)
            out.writelines("f %d %d %d\n" % (a + 1, b + 1, c + 1) for a, b, c in self.mesh.faces)

    def end(self):
        """The surface as it is, the log, and a line of what came of the run."""
        self.write("last.obj")
        if self.kept:
            self.write("stop0.obj", self.mesh.points, "v %d %d %d\n")
            self.surface.save()
            self.surface.end_log()
            with open(os.path.join(self.folder, "log0.txt"), "w", encoding="utf-8") as out:
                out.write("".join(self.log) + self.surface.log())
        least, off = min(float(row["least"]) for row in self.rows), 100 * (self.volume / self.exact - 1) if self.exact else 0
        whole, folds = sum(row["way"] == 0 for row in self.rows[1:]), sum(row["folds"] > 0 for row in self.rows)
        print(f"{self.steps} steps, {whole} whole; volume {self.volume:.9f}, {off:+.3f} % off the exact; least angle ever {least:.2f}; "
              f"steps with folds {folds}; components {self.components}, Euler number {self.euler}, "
              f"non-manifold edges {len(self.mesh.crowded)}")
