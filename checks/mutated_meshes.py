#!/usr/bin/env python3
"""Spoils small meshes at random, and compares what `verify` and examples/verify.py say of them.

Each text is a mesh in OBJ with what its grammar allows beside it: points with signs, exponents and further words, corners of each form,
lines that are not read, comments, CRLF. It is spoilt as mutated_texts.py does it, also by words that only look like coordinates or
corners, and read with a log and a proof that report nothing, so that the mesh alone decides. The two have to take the same texts and to
refuse the same. The last lines count the texts of each status; at a difference the text is kept and the exit status is 1.
"""

import collections
import os
import random
import subprocess
import sys
import tempfile

import mutated_texts
from calling import ROOT, add_number, reader_of, words_of
from random_jobs import CUBE, OCTAHEDRON, TETRAHEDRON

sys.path.insert(0, os.path.join(ROOT, "examples"))
sys.dont_write_bytecode = True
import verify  # noqa: E402

# what only looks like a coordinate, a corner or a first word, beside the words that mutated_texts.py knows
LOOKS = [b"0_8", b"8/2", b"1e-99999999", b"1e999", b"1e-999", b"1e1000", b"1e+2", b"1E-2", b"1e", b"e1", b".", b"+.5", b"5.", b"--1", b"+-1", b"1.2.3", b"1e2.5", b"infinity", b"1d3", b"0b1", b"\xb2",
         b"\xef\xbc\x91", b"\xd9\xa1", b"0" * 64, b"0" * 65, b"1/", b"/1", b"1/2/", b"1//", b"//1", b"1/-2/-3", b"1/+2", b"1/2/3/4", b"-1", b"-2//1", b"+1", b"00000000001", b"0000000001", b"-9999999999",
         b"1#", b"#1", b"1/2#", b"l", b"p", b"curv", b"zzz", b"V", b"vp", b"vt", b"o", b"g", b"s", b"usemtl", b"mtllib", b"v\xa0", b"\x0b", b"\x0c", b"\x85", b"\xa0", b"\x1c", b"\\", b"\r", b"\r\r"]
BODIES = [TETRAHEDRON, TETRAHEDRON, CUBE, OCTAHEDRON]
LOG, PROOF = b"topo log 2\nend\n", b"topo proof 1\nend\n"
# a text of a mesh and its decimals are spoilt so often
TIMES = 20


def coordinate(dice, value, decimals):
    """A word for a value in units of the grid."""
    word = f"{value / 10**decimals:.{decimals}f}"
    return dice.choice([word] * 8 + [f"{'-' if value < 0 else '+'}{abs(value) * 10}e-{decimals + 1}", f"{value}E-{decimals:03}", word + ("0" if "." in word else "."), "+" * (value >= 0) + word])


def corner(dice, v, read):
    """A word for the vertex of a number."""
    return dice.choice([f"{v}"] * 8 + [f"{v}/7", f"{v}//-7", f"{v}/7/{v}", f"{v - read - 1}", f"{v - read - 1}/1", f"{v:010}"])


def mesh_of(dice, decimals):
    """The text of a mesh of one body or two."""
    lines, read = [], 0
    for body in range(dice.choice([1, 1, 1, 2])):
        points, faces = dice.choice(BODIES)
        for p in points:
            more = dice.choice([""] * 6 + [" 1", " 0.5 0.5 x", " a b c d", "\t", " # v", " #"])
            lines.append(dice.choice(["v", "v", "v", " v", "\tv"]) + " " + " ".join(coordinate(dice, c + 20 * body * (i == 0), decimals) for i, c in enumerate(p)) + more)
        read += len(points)
        lines += ["f " + " ".join(corner(dice, v + 1 + read - len(points), read) for v in f) for f in faces]
        lines.insert(dice.randrange(len(lines) + 1), dice.choice(["", "# a comment", "vn 0 0 1", "vt 0", "vp", "o body", "g", "s off", "usemtl red", "mtllib a.mtl b.mtl", " \t"]))
    return dice.choice(["\n", "\n", "\n", "\r\n"]).join([*lines, ""]).encode()


def spoilt(dice, text):
    """The text with some faults, as those of mutated_texts.py or by a word that looks like one that may stand there."""
    for _ in range(dice.choice([1, 1, 1, 2, 3])):
        if dice.random() < 0.5:
            text = dice.choice([mutated_texts.spoil_bytes, mutated_texts.spoil_lines, mutated_texts.spoil_words])(dice, text)
            continue
        lines = text.split(b"\n")
        at = dice.randrange(len(lines))
        words = lines[at].split(b" ")
        place = dice.randrange(len(words))
        words[place : place + dice.randrange(2)] = [dice.choice(LOOKS)]
        lines[at] = b" ".join(words)
        text = b"\n".join(lines)
    return text


def said_by_program(program, folder, decimals):
    ran = subprocess.run([program, "verify", "m.obj", "l.txt", "p.txt", "--decimals", str(decimals)], cwd=folder, stdout=subprocess.PIPE, stderr=subprocess.DEVNULL, timeout=60)
    return ran.returncode, ran.stdout.decode()


def said_by_python(text, decimals):
    """Whether examples/verify.py takes the text, or the error by which it ends otherwise."""
    try:
        return verify.verify(text, LOG, PROOF, decimals) == 0
    except verify.Refused:
        return False
    except Exception as why:
        return repr(why)


def main():
    reader = reader_of(__doc__)
    add_number(reader, "count", 1000, "so many texts")
    add_number(reader, "seed", 1, "the first are those of this number")
    words = words_of(reader)
    program, count, seed = words.program, words.count, words.seed
    texts = unlike = 0
    statuses = collections.Counter()
    with tempfile.TemporaryDirectory() as folder:
        for name, text in (("l.txt", LOG), ("p.txt", PROOF)):
            with open(os.path.join(folder, name), "wb") as it:
                it.write(text)
        while texts < count:
            dice = random.Random(f"mesh {seed}")
            decimals = dice.choice([0, 0, 1, 3, 6])
            mesh = mesh_of(dice, decimals)
            for text in [mesh, *(spoilt(dice, mesh) for _ in range(TIMES))][: count - texts]:
                with open(os.path.join(folder, "m.obj"), "wb") as it:
                    it.write(text)
                status, said = said_by_program(program, folder, decimals)
                taken = said_by_python(text, decimals)
                texts += 1
                statuses[said.split(" ")[3].strip() if status == 6 else f"status {status}"] += 1
                if taken is not (status == 0):
                    unlike += 1
                    kept = tempfile.mkdtemp(prefix=f"mesh-{seed}-")
                    with open(os.path.join(kept, "m.obj"), "wb") as it:
                        it.write(text)
                    print(f"mesh {seed}, {decimals} decimals: the program says {said.strip()}, and examples/verify.py {taken}; the text is kept in {kept}")
            seed += 1
    print("what the program said:", ", ".join(f"{word} {n}" for word, n in sorted(statuses.items())))
    print(f"{texts - unlike} texts alike, {unlike} not")
    return 1 if unlike else 0


if __name__ == "__main__":
    sys.exit(main())
