#!/usr/bin/env python3
"""Puts several bodies into one mesh, each where it stands or moved.

    examples/merge.py MESH[@X,Y,Z] .. > bodies.obj

Reads Wavefront OBJ meshes and writes their vertices and faces, one mesh after the other, so that the vertices of the second have the next numbers, and so
on. What stands after a name and `@` is added to each point of that mesh: three decimal numbers, and not a digit is lost. What else stands in the lines of
vertices (a colour, say) is kept; texture and normal numbers of faces are not. Nothing is tested: `topo track` says whether the bodies meet.
"""
import sys
from decimal import Decimal, localcontext

def moved(words, by):
    with localcontext() as exact:
        exact.prec = 400
        return [f"{Decimal(word) + Decimal(shift):f}" for word, shift in zip(words, by)] + words[3:]

def lines_of(name, by, before):
    """The lines of a mesh that stands behind so many vertices, and how many it has."""
    count, lines = 0, []
    with open(name, encoding="latin-1") as text:
        for kind, *words in (line.split("#")[0].split() or [""] for line in text):
            if kind == "v":
                count += 1
                lines.append(["v", *moved(words, by)])
            if kind == "f":
                corners = [int(word.split("/")[0]) for word in words]
                lines.append(["f", *(str(before + (count + 1 + c if c < 0 else c)) for c in corners)])
    return lines, count

def main():
    if len(sys.argv) < 2:
        sys.exit(__doc__)
    before = 0
    for word in sys.argv[1:]:
        name, _, shift = word.partition("@")
        by = shift.split(",") if shift else ["0", "0", "0"]
        if len(by) != 3:
            sys.exit(f"merge: {shift} is not X,Y,Z")
        lines, count = lines_of(name, by, before)
        sys.stdout.writelines(" ".join(line) + "\n" for line in lines)
        before += count

if __name__ == "__main__":
    main()
