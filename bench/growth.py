#!/usr/bin/env python3
"""Times a mesh at rest and one step of it, as the mesh grows.

Rings of 2,048 to 131,072 faces are read, tested and saved, and then turned by one edge length round their axis: each vertex has a
displacement of its own. Prints the table of docs/SPEED.md from which the picture of time against faces is drawn: processor seconds of the
whole process.
"""

import tempfile

from job import Run, put_mesh, reader_of, turned, words_of

SIZES = ((32, 32), (64, 64), (128, 64), (128, 128), (192, 128), (256, 192), (256, 256))


def main():
    words = words_of(reader_of(__doc__))
    print("| faces | at rest | one step |")
    print("|---|---|---|")
    for sides in SIZES:
        (points, faces), steps = turned(*words.sized(*sides))
        with tempfile.TemporaryDirectory() as folder:
            put_mesh(folder, points, faces)
            rest = Run(words.program, folder, [], words.best_of).seconds
            step = Run(words.program, folder, steps, words.best_of).seconds
        print(f"| {len(faces):,} | {rest:.3f} s | {step:.3f} s |", flush=True)


if __name__ == "__main__":
    main()
