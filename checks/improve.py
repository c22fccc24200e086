#!/usr/bin/env python3
"""Compiles the small cases of library/improve.hpp and library/merge.hpp without warnings, and runs them.

    checks/improve.py [--library FOLDER]

Each guard is tried by a mesh at which it alone holds an edit back; balls and slabs have to become one body with the Euler number that is
theirs and no non-manifold edge. Exit status 0 where all hold.
"""

import os
import shutil
import subprocess
import sys
import tempfile

from calling import library_of

ROOT = os.path.dirname(os.path.dirname(os.path.abspath(__file__)))


def main():
    archive = os.path.join(library_of(__doc__), "libtopo.a")
    found = {os.path.realpath(path): name for name in ("c++", "g++", "clang++") if (path := shutil.which(name))}
    failed = not found
    folders = [flag for name in ("library", "examples/flows") for flag in ("-I", os.path.join(ROOT, name))]
    with tempfile.TemporaryDirectory() as folder:
        for name in found.values():
            made = os.path.join(folder, "cases")
            words = [name, "-std=c++17", "-O2", "-Wall", "-Wextra", "-pedantic", "-Werror", *folders]
            subprocess.run([*words, os.path.join(ROOT, "checks/improve_cases.cpp"), archive, "-o", made], check=True)
            ran = subprocess.run([made], stdout=subprocess.PIPE, timeout=600)
            print(f"{name}: {ran.stdout.decode().strip()}")
            failed = failed or ran.returncode != 0
    return int(failed)


if __name__ == "__main__":
    sys.exit(main())
