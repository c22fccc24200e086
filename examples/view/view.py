#!/usr/bin/env python3
"""Makes one page of the meshes that a job stored, which a browser shows as an animation, with no network and nothing else.

    examples/view/view.py PREFIX [--log FILE] [--colours MESH] [--steps N] [--up y] [-o view.html]

Shows PREFIX-000000.obj and so on. With the log of the job, colours are carried along by it, as examples/carry.py does, and the lines of the log that led
to a mesh stand beside it; a row of more than four lines of one kind is cut. The colours are those of the lines `v X Y Z R G B` of MESH (0 to 1), the mesh
that the job read, and where they are not given each piece of mesh 0 has one. Exit status 1 where a file is not there or a mesh is not that of the log.
"""
import argparse
import array
import base64
import glob
import itertools
import json
import os
import re
import sys

sys.dont_write_bytecode = True
HERE = os.path.dirname(os.path.abspath(__file__))
sys.path.insert(0, os.path.dirname(HERE))
from carry import carried, known_of  # noqa: E402
from replay import read, read_mesh, text_of  # noqa: E402

PALETTE = [(0.36, 0.62, 0.86), (0.93, 0.52, 0.25), (0.45, 0.75, 0.42), (0.85, 0.40, 0.55), (0.60, 0.50, 0.82), (0.86, 0.75, 0.30)]
# of a row of lines of one kind that is longer, so many are shown
ROW = 4


def pieces(mesh):
    """A colour for each vertex: one for each piece of the surface."""
    piece, number = {}, 0
    for first in sorted(mesh.points):
        found = [] if first in piece else [first]
        number += first not in piece
        while found:
            v = found.pop()
            if v not in piece:
                piece[v] = number - 1
                found += [w for f in mesh.faces_at[v] for w in mesh.faces[f]]
    return {v: PALETTE[number % len(PALETTE)] for v, number in piece.items()}


def decimals_of(text):
    """How many decimals a stored mesh is written with."""
    found = re.match(r"v -?\d+\.(\d+)", text)
    return len(found.group(1)) if found else 0


def lines_before(log):
    """The lines of a log that led to each mesh that it saves, by its number; after the last one, the rest."""
    parts, lines, last = {}, [], None
    for line in log.split("\n"):
        lines.append(line)
        if line.startswith("mesh "):
            last, parts[int(line.split()[1])], lines = int(line.split()[1]), lines, []
    if last is not None:
        parts[last] += lines
    return {number: shortened(its) for number, its in parts.items()}


def shortened(lines):
    shown = []
    for kind, row in itertools.groupby(lines, lambda line: line.split(" ")[0]):
        row = list(row)
        shown += row if len(row) <= ROW else [*row[: ROW - 2], f"    ({len(row) - ROW + 2} more lines `{kind}`)"]
    return "\n".join(shown)


def shown(name, mesh, colours, log, up):
    """What the page needs of a mesh, but for its place and size: points, the numbers of corners, colours from 0 to 255."""
    rank = {v: number for number, v in enumerate(mesh.points)}
    points = [(x, z, -y) if up == "z" else (x, y, z) for x, y, z in mesh.points.values()]
    faces = [rank[v] for corners in mesh.faces.values() for v in corners]
    return {"name": os.path.basename(name), "points": points, "faces": faces, "colours": [round(255 * c) for v in mesh.points for c in colours[v]], "log": log}


def meshes(words, names):
    """What is shown, mesh by mesh."""
    texts = [read(name) for name in names]
    decimals = decimals_of(texts[0])
    first = read_mesh(texts[0], decimals)
    given = known_of(read(words.colours)) if words.colours else known_of(texts[0])
    colours = {v: tuple(its[:3]) for v, its in given.items()} if all(len(its) >= 3 for its in given.values()) else pieces(first)
    if not words.log:
        for name, text in zip(names, texts):
            mesh = read_mesh(text, decimals)
            own = known_of(text)
            yield shown(name, mesh, own if all(len(its) == 3 for its in own.values()) else dict.fromkeys(mesh.points, PALETTE[0]), "", words.up)
        return
    log = read(words.log)
    stored, parts, by_number = dict(zip(names, texts)), lines_before(log), {}
    for number, mesh, known in carried(colours, log, first):
        name = f"{words.prefix}-{number:06}.obj"
        if name in stored and stored[name].split() != text_of(mesh, decimals).split():
            sys.exit(f"view: {name} is not the mesh of the log")
        by_number[name] = shown(name, mesh, known, parts[number], words.up)
    for name in names:
        if name not in by_number:
            sys.exit(f"view: the log has no mesh {name}")
        yield by_number[name]


def packed(kind, numbers):
    """Numbers as the bytes of an array, in a text."""
    return base64.b64encode(array.array(kind, numbers).tobytes()).decode()


def page(rows):
    """The page, whose meshes lie within one unit of its middle."""
    columns = list(zip(*(point for row in rows for point in row["points"]))) or 3 * [(0,)]
    middle = [(min(column) + max(column)) / 2 for column in columns]
    far = max(max(column) - min(column) for column in columns) / 2 or 1
    for row in rows:
        row["counts"] = [len(row["points"]), len(row["faces"]) // 3]
        row["points"] = packed("f", ((c - m) / far for point in row["points"] for c, m in zip(point, middle)))
        row["faces"], row["colours"] = packed("I", row["faces"]), packed("B", row["colours"])
    return read(os.path.join(HERE, "page.html")).replace("MESHES", json.dumps(rows).replace("<", "\\u003c"))


def main():
    parser = argparse.ArgumentParser(description=__doc__, formatter_class=argparse.RawDescriptionHelpFormatter)
    parser.add_argument("prefix", metavar="PREFIX")
    parser.add_argument("--log", metavar="FILE")
    parser.add_argument("--colours", metavar="MESH")
    parser.add_argument("--steps", metavar="N", type=int, help="show N meshes after the first at most")
    parser.add_argument("--up", choices=("y", "z"), default="z", help="which axis goes up")
    parser.add_argument("-o", "--out", metavar="FILE", default="view.html")
    words = parser.parse_args()
    names = sorted(glob.glob(glob.escape(words.prefix) + "-" + 6 * "[0-9]" + ".obj"))[: None if words.steps is None else 1 + words.steps]
    if not names or not names[0].endswith("-000000.obj"):
        sys.exit(f"view: there is no {words.prefix}-000000.obj")
    try:
        rows = list(meshes(words, names))
    except OSError as why:
        sys.exit(f"view: {why}")
    except (LookupError, ValueError, TypeError) as why:
        sys.exit(f"view: the log is of another mesh, or is cut off ({why!r})")
    with open(words.out, "w", encoding="utf-8") as out:
        out.write(page(rows))
    print(f"{words.out}: {len(rows)} meshes")


if __name__ == "__main__":
    main()
