"""How the checks are called: PROGRAM comes first, and all else is an option."""

import argparse
import os
import subprocess
import sys

ROOT = os.path.dirname(os.path.dirname(os.path.abspath(__file__)))
TOPO = os.path.join(ROOT, "topo")
REFERENCE = os.path.join(ROOT, "reference", "topo.py")


def reader_of(text, has_program=True):
    """A reader of a check's words, with the program, which is `./topo` where it is left out; a check of the library alone has none."""
    reader = argparse.ArgumentParser(description=text, formatter_class=argparse.RawDescriptionHelpFormatter)
    if has_program:
        reader.add_argument("program", nargs="?", default=TOPO, metavar="PROGRAM", help="the built program; ./topo, which is built where need be, if left out")
    return reader


def add_library(reader):
    reader.add_argument("--library", metavar="FOLDER", default=os.path.join(ROOT, "library/out"), help="where libtopo.a and libtopo.so are (library/out if left out)")


def library_of(text):
    """The folder of the library, from the words of a check that looks at nothing else."""
    reader = reader_of(text, has_program=False)
    add_library(reader)
    return os.path.abspath(reader.parse_args().library)


def add_number(reader, name, default, what):
    reader.add_argument("--" + name, type=int, default=default, metavar="N", help=f"{what} ({default} if left out)" if default is not None else what)


def add_other(reader):
    """A second program, which should be written apart from the first."""
    reader.add_argument("--other", default=REFERENCE, metavar="OTHER", help="a program of the same command line, written apart from it; reference/topo.py if left out, with small jobs alone")


def is_built():
    """Whether `./topo` starts at once, by the rule of that script: its program is there, and no source is newer."""
    built = os.path.join(ROOT, "crates/topo/out/topo")
    if not os.access(built, os.X_OK):
        return False
    parts = [os.path.join(ROOT, "crates", crate, part) for crate in os.listdir(os.path.join(ROOT, "crates")) for part in ("src", "specs", "proofs")]
    paths = [os.path.join(ROOT, "crates.txt")] + [os.path.join(top, name) for part in parts for top, _, names in os.walk(part) for name in ["", *names]]
    return max(os.path.getmtime(path) for path in paths) <= os.path.getmtime(built)


def say_what_is_built(program):
    """Says where a long build begins, before it does."""
    if program == TOPO and not is_built():
        name = os.path.basename(sys.argv[0])
        print(f"{name}: no PROGRAM is given, and what ./topo built is not there or older than a source: it is proved and built first", file=sys.stderr, flush=True)
        print(f"{name}: end this, and name a built program, where that takes too long", file=sys.stderr, flush=True)


def words_of(reader):
    """The words of a call, with whole paths. Where the program is to be built first, that is said."""
    words = reader.parse_args()
    for name in ("program", "other", "library"):
        if getattr(words, name, None):
            setattr(words, name, os.path.abspath(getattr(words, name)))
    say_what_is_built(words.program)
    subprocess.run([words.program, "--version"], check=True, stdout=subprocess.DEVNULL)
    return words
