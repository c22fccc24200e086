"""Gives vertices and faces of a log other ids here and there, and so makes a log of version 3 of one of version 2.

It tells the same run as the log that it is made of: it has the same lines in other ids, and `vertices` and `faces` lines between two steps and
outside of groups. So its measures are the same, but for the numbers of lines, and it is replayed to the same meshes.
"""

import os
import sys

from calling import ROOT

sys.path.insert(0, os.path.join(ROOT, "examples"))
from replay import read_mesh, replay  # noqa: E402

ID_MAX = 2**31
# where the ids of vertices (v) and of faces (f) stand among the words of a line; the words of `block`, `pinch` and `no` are counted
FORMS = {"solid": ".v", "hit": ".vvf", "move": ".v", "split": ".vvv", "flip": ".vv", "collapse": ".vv", "zip": ".vvvv"}


def form_of(words):
    """For each word v, f or nothing, as an id of a vertex or of a face stands there or not."""
    if words[0] == "block":
        return "." + "v" * len(words[1:])
    if words[0] == "pinch":
        return "." + "v..." * (len(words) // 4)
    if words[0] == "no":
        return ".." + {"zip": "vvvv", "pinch": "v"}.get(words[1], "vv") + ".vvf"
    return FORMS.get(words[0], "")


class Ids:
    """The new ids of live vertices, or faces, and what is next in the old ids and the new."""

    def __init__(self, live):
        self.new, self.old_next, self.new_next = {i: i for i in live}, max(live, default=0) + 1, max(live, default=0) + 1

    def of(self, i):
        return self.new.get(i, self.new_next + i - self.old_next)

    def follow(self, live, old_next):
        """What has been made has the next ids, and what is gone has none."""
        self.new, self.new_next = {i: self.of(i) for i in live}, self.new_next + old_next - self.old_next
        self.old_next = old_next

    def take(self, dice, live):
        """Other ids, for the live ones in turn: the words of the line that tells so."""
        count, least = len(live), len(live) + 1
        self.new_next = dice.choice([least, least + dice.randrange(20), dice.randrange(least, ID_MAX // 2), dice.randrange(least, ID_MAX // 2)])
        ids = sorted(dice.sample(range(1, self.new_next), count))
        self.new = dict(zip(sorted(live), ids))
        return [str(i) for i in (self.new_next, *ids)]

    def copy(self):
        return self.new, self.old_next, self.new_next

    def go_back(self, copy):
        self.new, self.old_next, self.new_next = copy


def with_new_ids(dice, mesh_text, log, decimals=0, odds=0.1):
    """The log of version 3, in bytes as the log; of a log that can not be replayed, and of one of another version, nothing."""
    lines, made, groups, is_between = log.decode().split("\n")[:-1], [], [], False
    if lines[:1] != ["topo log 2"]:
        return None
    try:
        mesh = read_mesh(mesh_text, decimals)
        vertices, faces = Ids(mesh.points), Ids(mesh.faces)
        for line, (kind, words, mesh) in zip(lines, replay(mesh, log.decode())):
            if kind == "group":
                groups.append((vertices.copy(), faces.copy()))
            elif kind == "close":
                before = groups.pop()
                if words == ["undone"]:
                    vertices.go_back(before[0])
                    faces.go_back(before[1])
            words = [kind, *words]
            form = form_of(words).ljust(len(words), ".")
            made.append(" ".join(str({"v": vertices, "f": faces}[its].of(int(word))) if its != "." else word for its, word in zip(form, words)))
            vertices.follow(mesh.points, mesh.next_vertex)
            faces.follow(mesh.faces, mesh.next_face)
            is_between = kind in ("topo", "moved") or is_between and kind != "step"
            for word, ids, live in (("vertices", vertices, mesh.points), ("faces", faces, mesh.faces)):
                if is_between and not groups and dice.random() < (0.7 if kind == "topo" else odds):
                    made.append(" ".join([word, *ids.take(dice, live)]))
    except (LookupError, ValueError, TypeError):
        return None
    made[0] = "topo log 3"
    return "".join(line + "\n" for line in made).encode()
