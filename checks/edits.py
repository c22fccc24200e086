#!/usr/bin/env python3
"""Looks whether each wrong edit can still be made: each text that it takes out stands once in its file.

So an edit that outlived a renaming is found before somebody tries it. Prints each that cannot be made. Ends with 0 where there is none.
"""

import argparse
import pathlib
import sys

CRATES = pathlib.Path(__file__).resolve().parent.parent / "crates"


def why_not(edit):
    """Why an edit cannot be made, or None."""
    crate, path, old, texts = edit.parent.parent, None, None, {}
    for line in edit.read_text(encoding="utf-8").splitlines():
        word, _, rest = line.partition(": ") if line != "new:" else ("new", "", "")
        if word == "file":
            path = crate / rest.strip()
            if not path.is_file():
                return f"there is no file {rest.strip()}"
            texts.setdefault(path, path.read_text(encoding="utf-8"))
        elif word == "old":
            old = rest
        elif word == "new":
            if path is None or old is None:
                return "a new text stands before its file or its old text"
            times = texts[path].count(old)
            if times != 1:
                return f"its old text stands {times} times in {path.relative_to(crate)}: {old}"
            texts[path], old = texts[path].replace(old, rest), None
    if not texts or all(text == at.read_text(encoding="utf-8") for at, text in texts.items()):
        return "it changes nothing"
    return None


def main():
    argparse.ArgumentParser(description=__doc__).parse_args()
    edits = sorted(CRATES.glob("*/must-fail*/*.edit"))
    bad = [(edit, why) for edit in edits for why in [why_not(edit)] if why]
    for edit, why in bad:
        print(f"{edit.relative_to(CRATES)}: {why}")
    print(f"{len(edits) - len(bad)} edits can be made, {len(bad)} cannot")
    return 1 if bad or not edits else 0


if __name__ == "__main__":
    sys.exit(main())
