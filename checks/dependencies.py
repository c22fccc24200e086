#!/usr/bin/env python3
"""Looks whether crates.txt gives a crate a library that its code, definitions and proofs never name.

Prints each such library. Ends with 0 where there is none.
"""

import argparse
import pathlib
import re
import sys

TOP = pathlib.Path(__file__).resolve().parent.parent


def declared(text):
    """The crates of a text of crates.txt, each with its libraries."""
    for line in text.splitlines():
        line = line.split("#", 1)[0]
        if ":" in line:
            head, libraries = line.split(":", 1)
            yield head.split()[0], libraries.split()


def named(crate):
    """The words that stand in code before `::` or after `use`, and in definitions and proofs after `Rattle.`."""
    words = set()
    for path in crate.rglob("*"):
        if path.suffix == ".rt":
            text = path.read_text(encoding="utf-8")
            words.update(re.findall(r"\b([a-z_0-9]+)::", text))
            words.update(re.findall(r"\buse ([a-z_0-9]+)", text))
            words.update(re.findall(r"\bRattle\.([a-z_0-9]+)\.", text))
        elif path.suffix == ".antt":
            words.update(re.findall(r"\bRattle\.([a-z_0-9]+)\.", path.read_text(encoding="utf-8")))
    return words


def main():
    argparse.ArgumentParser(description=__doc__).parse_args()
    needless = []
    for crate, libraries in declared((TOP / "crates.txt").read_text(encoding="utf-8")):
        folder = TOP / "crates" / crate
        words = set()
        for part in ("src", "specs", "proofs"):
            words |= named(folder / part)
        needless += [f"{crate}: {library}" for library in libraries if library not in words]
    for line in needless:
        print(f"crates.txt names a library that is named nowhere in the crate: {line}")
    print(f"{len(needless)} needless libraries")
    return 1 if needless else 0


if __name__ == "__main__":
    sys.exit(main())
