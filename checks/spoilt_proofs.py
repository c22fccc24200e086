#!/usr/bin/env python3
"""Spoils the proofs of the worked logs in every way, and compares two programs and examples/verify.py.

Of each log of the folder `worked`, or of those named, both programs write the proof, which has to be the same, and then one fault at a
time is made in it: each line doubled, left out, exchanged with the next, and each number raised by one; and a short proof is cut after
each byte. Of each text both have to say the same of `verify`, with one status, and examples/verify.py has to accept it where they do, and
nowhere else. Proofs of more than 2,000 bytes are not spoilt. The last line counts those alike, and those of each status; at a difference
the proof is kept and the exit status is 1.
"""

import os
import sys
import tempfile

from calling import ROOT, add_number, reader_of, words_of
from random_logs import told
from spoilt_logs import spoilt
from worked_cases import FOLDER, Case

sys.path.insert(0, os.path.join(ROOT, "examples"))
sys.dont_write_bytecode = True
import verify  # noqa: E402

LONG, SHORT = 2_000, 500


def logs(names):
    """The name, mesh, log and decimals of each worked case that has a mesh and a log, or of those named."""
    for name in sorted(os.listdir(FOLDER)):
        if names and name.removesuffix(".case") not in names:
            continue
        with open(os.path.join(FOLDER, name), encoding="utf-8", newline="") as it:
            case = Case(it.read())
        if case.words[0] == "track" and case.words[1] in case.inputs and case.log and len(case.log) <= 4_000:
            yield name, case.inputs[case.words[1]], case.log, case.words[4:]
        elif case.words[0] == "prove" and all(word in case.inputs for word in case.words[1:3]):
            yield name, case.inputs[case.words[1]], case.inputs[case.words[2]], case.words[3:]


def spoilt_proofs(text):
    if len(text) <= LONG:
        for lines in spoilt(text.split("\n")[:-1]):
            yield "".join(line + "\n" for line in lines)
    if len(text) <= SHORT:
        for at in range(len(text)):
            yield text[:at]


def third(mesh, log, proof, decimals):
    """What examples/verify.py says: the status of `verify` and its output, or None where it refuses."""
    try:
        count = verify.verify(mesh.encode(), log.encode(), proof.encode(), int(decimals[1]) if decimals else 0)
        return 0, f"verified {count}\n".encode()
    except verify.Refused:
        return None


def put(folder, name, text):
    with open(os.path.join(folder, name), "w", encoding="utf-8", newline="") as it:
        it.write(text)


def main():
    reader = reader_of(__doc__)
    reader.add_argument("names", nargs="*", metavar="NAME", help="a worked case; all of them if left out")
    reader.add_argument("--other", required=True, metavar="OTHER", help="a program of the same command line, written apart from it, that proves and verifies")
    add_number(reader, "seconds", 20, "the time of a run")
    words = words_of(reader)
    program, other, seconds = words.program, words.other, words.seconds
    alike = unlike = late = proofs = 0
    statuses = {}
    for name, mesh, log, decimals in logs(words.names):
        with tempfile.TemporaryDirectory() as folder:
            put(folder, "m.obj", mesh)
            put(folder, "log.txt", log)
            one, two = (told(it, ["prove", "m.obj", "log.txt", *decimals], folder, seconds) for it in (program, other))
            if one != two:
                unlike += 1
                print(f"{name}: they do not write one proof")
            if one != two or one is None or one[0] != 0:
                continue
            proofs += 1
            proof = one[1].decode()
            for text in [proof, *spoilt_proofs(proof)]:
                put(folder, "proof.txt", text)
                one, two = (told(it, ["verify", "m.obj", "log.txt", "proof.txt", *decimals], folder, seconds) for it in (program, other))
                if one is None or two is None:
                    late += 1
                elif one == two and third(mesh, log, text, decimals) == (one if one[0] == 0 else None):
                    alike += 1
                    statuses[one[0]] = statuses.get(one[0], 0) + 1
                else:
                    unlike += 1
                    kept = tempfile.mkdtemp(prefix="proof-")
                    for file, its in (("m.obj", mesh), ("log.txt", log), ("proof.txt", text)):
                        put(kept, file, its)
                    print(f"{name}: {'the two' if one != two else 'the two and examples/verify.py'} differ; the texts are kept in {kept}")
    print(f"{proofs} proofs; statuses:", ", ".join(f"{status} {n}" for status, n in sorted(statuses.items())))
    print(f"{alike} alike, {unlike} not, {late} not ended in time")
    return 1 if unlike else 0


if __name__ == "__main__":
    sys.exit(main())
