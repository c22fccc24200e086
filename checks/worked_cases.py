#!/usr/bin/env python3
"""Runs the program on the cases of `worked`, and compares its status, its log and its files.
What `verify` is asked is asked of `examples/verify.py` too, which shares nothing with the program and has to accept just what the case accepts;
`replay` and `examples/replay.py` have to make the stored meshes of a log again, and `examples/carry.py` to find them; of a log that is replayed
the two examples have to make and find what the case stores.

Each call of the program is proved to answer exactly what its definition says, so a case that comes out right shows what the definitions
say of it: the cases were worked by hand from the rules, or are those of a program that was written apart from this one (`random_..`).
A case is a text: a line `# what it shows`, a line `words: ..`, and then sections, each with a line `== ..` at its head: `input NAME`,
`status N`, `log` and `stored NAME`. An input whose last line has no end says so.
"""

import os
import re
import subprocess
import sys
import tempfile

from calling import ROOT, reader_of, words_of

FOLDER = os.path.join(ROOT, "worked")
CHECKER = os.path.join(ROOT, "examples", "verify.py")
REPLAYER, CARRIER = (os.path.join(ROOT, "examples", name) for name in ("replay.py", "carry.py"))


class Case:
    def __init__(self, text):
        head, *sections = re.split(r"(?m)^== ", text)
        self.words = re.search(r"(?m)^words: (.*)$", head).group(1).split()
        self.inputs, self.stored, self.status, self.log = {}, {}, None, None
        for section in sections:
            title, _, body = section.partition("\n")
            kind, _, name = title.partition(" ")
            if kind == "input":
                whole = not name.endswith(" (no end)")
                self.inputs[name.removesuffix(" (no end)")] = body if whole else body[:-1]
            elif kind == "stored":
                self.stored[name] = body
            elif kind == "status":
                self.status = int(name)
            else:
                self.log = body


def text_of(path):
    with open(path, encoding="utf-8", newline="") as it:
        return it.read()


def first_difference(what, wanted, got):
    for number, (a, b) in enumerate(zip(wanted.split("\n"), got.split("\n")), 1):
        if a != b:
            return f"{what}, line {number}: {a!r} is right, and {b!r} came"
    return f"{what}: {len(wanted)} bytes are right, and {len(got)} came"


def put_files(folder, files):
    for name, text in files.items():
        with open(os.path.join(folder, name), "w", encoding="utf-8", newline="") as it:
            it.write(text)


def files_in(folder):
    return {name: text_of(os.path.join(folder, name)) for name in os.listdir(folder)}


def difference_of_files(wanted, made):
    if sorted(made) != sorted(wanted):
        return f"the files {sorted(wanted)} are right, and {sorted(made)} are there"
    for name, text in wanted.items():
        if made[name] != text:
            return first_difference(name, text, made[name])
    return None


def fault_of_replayers(words, given, stored):
    """What is wrong with the meshes that the two examples make and find, or nothing."""
    with tempfile.TemporaryDirectory() as folder:
        put_files(folder, given)
        ran = subprocess.run([sys.executable, REPLAYER, *words], cwd=folder, stdout=subprocess.PIPE, stderr=subprocess.PIPE, timeout=60)
        made = files_in(folder)
        carried = subprocess.run([sys.executable, CARRIER, *words], cwd=folder, stdout=subprocess.PIPE, stderr=subprocess.PIPE, timeout=60)
    for name, ended, said in (("replay", ran, "replayed"), ("carry", carried, "carried")):
        if ended.returncode != 0 or ended.stdout.decode() != f"{said} {len(stored)}\n":
            return f"examples/{name}.py ends with {ended.returncode} and says {(ended.stdout + ended.stderr).decode()!r}"
    return difference_of_files({**given, **stored}, made)


def fault_of_replay(program, case):
    """What is wrong with the meshes that are made of the case's log, or nothing. The log is given in the place of the steps."""
    mesh, steps = (word for word in case.words if word in case.inputs)
    given = {mesh: case.inputs[mesh], steps: case.log}
    with tempfile.TemporaryDirectory() as folder:
        put_files(folder, given)
        ran = subprocess.run([program, "replay", *case.words[1:]], cwd=folder, stdout=subprocess.PIPE, stderr=subprocess.PIPE, timeout=60)
        made = files_in(folder)
    if ran.returncode != 0 or ran.stdout.decode() != f"replayed {len(case.stored)}\n":
        return f"replay ends with {ran.returncode} and says {ran.stdout.decode()!r}"
    fault = difference_of_files({**given, **case.stored}, made)
    if fault:
        return f"replay: {fault}"
    return fault_of_replayers(case.words[1:], given, case.stored)


def fault_of(program, case):
    """What is wrong with the program's run of a case, or nothing."""
    with tempfile.TemporaryDirectory() as folder:
        put_files(folder, case.inputs)
        ran = subprocess.run([program, *case.words], cwd=folder, stdout=subprocess.PIPE, stderr=subprocess.PIPE, timeout=60)
        if case.words[0] == "verify":
            checked = subprocess.run([sys.executable, CHECKER, *case.words[1:]], cwd=folder, stdout=subprocess.PIPE, stderr=subprocess.PIPE, timeout=60)
        made = files_in(folder)
    if ran.returncode != case.status:
        return f"status {case.status} is right, and {ran.returncode} came"
    if ran.stdout.decode() != case.log:
        return first_difference("log", case.log, ran.stdout.decode())
    if case.words[0] == "verify":
        # the two may refuse in other words
        said = checked.stdout.decode()
        if checked.returncode != (case.status != 0) or (said != case.log if case.status == 0 else not said.startswith("refused ")):
            return f"examples/verify.py ends with {checked.returncode} and says {said!r}"
    fault = difference_of_files({**case.inputs, **case.stored}, made)
    if fault is None and case.words[0] == "track" and case.stored:
        fault = fault_of_replay(program, case)
    if fault is None and case.words[0] == "replay" and case.status == 0 and not any(word.startswith("--only") for word in case.words):
        fault = fault_of_replayers(case.words[1:], case.inputs, case.stored)
    return fault


def main():
    reader = reader_of(__doc__)
    reader.add_argument("names", nargs="*", metavar="NAME", help="a worked case; all of them if left out")
    words = words_of(reader)
    program = words.program
    names = sorted(name.removesuffix(".case") for name in os.listdir(FOLDER) if name.endswith(".case"))
    names = [name for name in names if name in words.names] if words.names else names
    failed = 0
    for name in names:
        fault = fault_of(program, Case(text_of(os.path.join(FOLDER, name + ".case"))))
        if fault:
            failed += 1
            print(f"FAILED {name}: {fault}")
    print(f"{len(names) - failed} passed, {failed} failed")
    sys.exit(1 if failed or not names else 0)


if __name__ == "__main__":
    main()
