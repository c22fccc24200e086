#!/usr/bin/env python3
"""Tries the wrong edits outside the gate (crates/NAME/must-fail-more): the prover must refuse each.

The gate tries those in must-fail, which tell most. The others are tried here, over a copy of the crates, for the crates that are named, for
those whose src, specs or proofs differ from a revision in what is committed or not, or for all. It says first how many they are and about how
long they take, and with --list no more than that. The last line and the exit status are those of `rt must-fail`.
"""

import argparse
import glob
import os
import shutil
import subprocess
import sys
import tempfile

ROOT = os.path.dirname(os.path.dirname(os.path.abspath(__file__)))
# What was measured, roughly, in processor seconds: an edit, over what a check of its crate proved, and that check for 1,000 lines.
LEAST_OF_AN_EDIT, MOST_OF_AN_EDIT, CHECK_OF_1000_LINES = 20, 40, 25


def in_crate(name, *parts):
    return os.path.join(ROOT, "crates", name, *parts)


def edits_of(name):
    """The names of the further edits of a crate."""
    return sorted(os.path.basename(path) for path in glob.glob(in_crate(name, "must-fail-more", "*.edit")))


def all_names():
    """The crates that have further edits."""
    return sorted(path.split(os.sep)[-2] for path in glob.glob(in_crate("*", "must-fail-more")))


def changed_names(revision):
    """Those of them whose code, definitions or proofs differ from a revision; files that git does not know yet count too."""
    parts = [f":(glob)crates/*/{part}/**" for part in ("src", "specs", "proofs")]
    paths = []
    for words in (["diff", "--name-only", "--no-renames", revision], ["ls-files", "--others", "--exclude-standard"]):
        ran = subprocess.run(["git", *words, "--", *parts], cwd=ROOT, stdout=subprocess.PIPE, text=True)
        if ran.returncode:
            sys.exit(ran.returncode)
        paths += ran.stdout.splitlines()
    changed = {path.split("/")[1] for path in paths}
    return [name for name in all_names() if name in changed]


def lines_of(name):
    """How many lines a check of the crate reads."""
    paths = [path for part in ("src", "specs", "proofs") for path in glob.glob(in_crate(name, part, "**", "*.*"), recursive=True)]
    return sum(open(path, "rb").read().count(b"\n") for path in paths)


def forecast(names):
    """How many edits there are, and a rough guess of the time that they take."""
    edits = sum(len(edits_of(name)) for name in names)
    checks = CHECK_OF_1000_LINES * sum(lines_of(name) for name in names) / 1000
    least, most = (round((edits * each + checks) / 60) for each in (LEAST_OF_AN_EDIT, MOST_OF_AN_EDIT))
    return f"{edits} edits of {len(names)} crates: very roughly {least} to {most} processor minutes"


def try_edits(names):
    """Tries them over a copy in which they stand in the place of those of the gate."""
    with tempfile.TemporaryDirectory() as folder:
        copy = os.path.join(folder, "copy")
        os.mkdir(copy)
        shutil.copytree(os.path.join(ROOT, "crates"), os.path.join(copy, "crates"), ignore=shutil.ignore_patterns("must-fail"))
        for name in ("crates.txt", "HANDLES"):
            shutil.copy(os.path.join(ROOT, name), copy)
        for name in names:
            crate = os.path.join(copy, "crates", name)
            os.rename(os.path.join(crate, "must-fail-more"), os.path.join(crate, "must-fail"))
        return subprocess.run(["rt", "must-fail", *names], cwd=copy).returncode


def main():
    asked = argparse.ArgumentParser(description="Tries the wrong edits that stand outside the gate.")
    asked.add_argument("names", nargs="*", metavar="NAME", help="a crate; without any, all of them")
    asked.add_argument("--changed", metavar="REVISION", help="the crates that differ from this revision, as origin/main, alone")
    asked.add_argument("--list", action="store_true", help="print the edits, and try none")
    given = asked.parse_args()
    if given.names and given.changed is not None:
        asked.error("name crates, or a revision, and not both")
    for name in given.names:
        if name not in all_names():
            asked.error(f"{name} has no further edits")
    names = all_names()
    if given.changed is not None:
        names = changed_names(given.changed)
    elif given.names:
        names = sorted(set(given.names))
    print(forecast(names), flush=True)
    if given.list:
        for name in names:
            for edit in edits_of(name):
                print(f"{name}/{edit}")
        return 0
    return try_edits(names) if names else 0


if __name__ == "__main__":
    sys.exit(main())
