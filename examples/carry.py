#!/usr/bin/env python3
"""Carries what is known of vertices through a log.

    examples/carry.py MESH LOG PREFIX [--large] [--decimals N]

In the lines `v X Y Z R G B ..` of MESH what stands after the coordinates (three numbers of a colour, say) is carried along, by what docs/FORMATS.md says
of the ids that each line of the log makes and ends: a new vertex in the middle of an edge gets the mean of its ends, what is left of a collapsed edge the
mean of its ends, or what is known of the one that is solid, and a copy what is known of its original. At each mesh that the log saves, the stored
PREFIX-000000.obj, and so on, has to have the points and faces that are due, and PREFIX-000000-carried.obj is written: the same with what is known in
the lines of its vertices. Says `carried K`, the number of meshes. `--large` changes nothing. Exit status 1 where a stored mesh is another.
"""
import argparse
import sys

# nothing is left beside the examples
sys.dont_write_bytecode = True
from replay import new_ids, read, read_mesh, replay, text_of, write  # noqa: E402

def known_of(text):
    """What stands behind the coordinates of each vertex."""
    lines = (line.split("#")[0].split() for line in text.split("\n"))
    return dict(enumerate(([float(word) for word in words[4:]] for words in lines if words[:1] == ["v"]), 1))

def mean(one, two): return [(x + y) / 2 for x, y in zip(one, two)]

def carried(known, log, mesh):
    """The number of each saved mesh, the mesh, and what is known of its vertices."""
    solid, groups = set(), []
    for kind, words, mesh in replay(mesh, log):
        ids = [int(word) for word in words] if kind in ("split", "collapse", "pinch", "solid", "mesh", "vertices") else []
        if kind == "split":
            a, b, w = ids[:3]
            known[w] = mean(known[a], known[b])
        elif kind == "collapse":
            a, b = ids[:2]
            known[a] = known[a] if a in solid else known[b] if b in solid else mean(known[a], known[b])
            solid |= {a} if b in solid else set()
        elif kind == "pinch":
            known.update((w, known[ids[0]]) for w in ids[4::4])
        elif kind == "vertices":
            new = new_ids(known, ids[1:])
            known, solid = {new[v]: its for v, its in known.items()}, {new[v] for v in solid}
        elif kind == "solid":
            solid.add(ids[0])
        elif kind == "group":
            groups.append((dict(known), set(solid)))
        elif kind == "close":
            before = groups.pop()
            known, solid = before if words == ["undone"] else (known, solid)
        elif kind == "mesh":
            yield ids[0], mesh, known
        if kind == "collapse":
            known, solid = {v: its for v, its in known.items() if v in mesh.points}, solid & mesh.points.keys()

def main():
    parser = argparse.ArgumentParser(description=__doc__, formatter_class=argparse.RawDescriptionHelpFormatter)
    parser.add_argument("mesh", metavar="MESH")
    parser.add_argument("log", metavar="LOG")
    parser.add_argument("prefix", metavar="PREFIX")
    parser.add_argument("--large", action="store_true")
    parser.add_argument("--decimals", type=int, choices=range(7), default=0)
    words = parser.parse_args()
    text, log = read(words.mesh), read(words.log)
    count = 0
    for k, mesh, known in carried(known_of(text), log, read_mesh(text, words.decimals)):
        name = f"{words.prefix}-{k:06}"
        due = text_of(mesh, words.decimals)
        if read(name + ".obj") != due:
            sys.exit(f"carry: {name}.obj is not the mesh that is due")
        lines = due.split("\n")
        lines[: len(mesh.points)] = [" ".join([line, *(f"{x:g}" for x in known[v])]) for line, v in zip(lines, sorted(mesh.points))]
        write(name + "-carried.obj", "\n".join(lines))
        count += 1
    print("carried", count)

if __name__ == "__main__":
    main()
