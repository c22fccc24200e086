#!/usr/bin/env python3
"""Writes docs/CRATES.md, the one table of crates.

    docs/crates.py [--check]

The crates and their groups are those of crates.txt, in its order. What a crate is for is the first sentence of its README.md, or, of a crate
of tests, of its source; its wrong edits are counted in its folders must-fail (in the gate) and must-fail-more (outside it). With `--check`
nothing is written, and the exit status is 1 where the page differs.
"""

import argparse
import os
import re
import sys

ROOT = os.path.dirname(os.path.dirname(os.path.abspath(__file__)))
PAGE = os.path.join(ROOT, "docs", "CRATES.md")
HEAD = """# The crates

Written by `docs/crates.py` from `crates.txt`, which has what each crate stands on, and from the crates' own pages; from the bottom up. A
crate's page has its public calls, what a contract sees of it, what is proved, and an example. `docs/ARCHITECTURE.md` says how they fit
together. Wrong edits (mutants of the code, which the prover must refuse) are counted in the gate and outside it.
"""


def text_of(*parts):
    with open(os.path.join(ROOT, *parts)) as it:
        return it.read()


def groups():
    """The groups of crates.txt: what its comment says, and the names of its crates."""
    found = []
    for line in text_of("crates.txt").splitlines():
        if line.startswith("#"):
            found.append((line[1:].strip(), []))
        elif ":" in line:
            found[-1][1].append(line.partition(":")[0].split()[0])
    return found


def page_of(crate):
    """Where a crate says what it is for."""
    name = os.path.join("crates", crate, "README.md")
    return name if os.path.exists(os.path.join(ROOT, name)) else os.path.join("crates", crate, "src", "lib.rt")


def purpose_of(crate):
    """The first sentence of what a crate says of itself."""
    text = text_of(page_of(crate))
    if text.startswith("//!"):
        said = " ".join(line[3:].strip() for line in re.match(r"(?://!.*\n)+", text).group().splitlines())
    else:
        said = " ".join(text.split("\n\n")[1].split())
    return re.match(r".*?\.(?= |$)", said).group()


def edits_of(crate, folder):
    path = os.path.join(ROOT, "crates", crate, folder)
    return sum(name.endswith(".edit") for name in os.listdir(path)) if os.path.isdir(path) else 0


def page():
    """The text of docs/CRATES.md."""
    parts, crates = [HEAD], []
    for title, names in groups():
        parts.append(f"\n## {title[0].upper()}{title[1:]}\n\n| crate | what it is for | gate | outside |\n|---|---|---|---|\n")
        for name in names:
            counts = edits_of(name, "must-fail"), edits_of(name, "must-fail-more")
            crates.append(counts)
            parts.append(f"| [`{name}`](../{page_of(name)}) | {purpose_of(name)} | {counts[0]} | {counts[1]} |\n")
    gate, outside = (sum(counts[at] for counts in crates) for at in (0, 1))
    some = sum(counts[0] > 0 for counts in crates)
    parts.append(f"\nIn all {len(crates)} crates, {gate} wrong edits in the gate, of {some} crates, and {outside} outside it.\n")
    return "".join(parts)


def main():
    words = argparse.ArgumentParser(description="Writes docs/CRATES.md, the one table of crates.")
    words.add_argument("--check", action="store_true", help="write nothing, and fail where the page differs")
    if words.parse_args().check:
        good = os.path.exists(PAGE) and text_of("docs", "CRATES.md") == page()
        print("docs/CRATES.md " + ("is the crates'" if good else "differs: run docs/crates.py"))
        sys.exit(0 if good else 1)
    with open(PAGE, "w") as it:
        it.write(page())


if __name__ == "__main__":
    main()
