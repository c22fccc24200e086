#!/usr/bin/env python3
"""Times what is done before the first step: reading, the shape, the test of a mesh at rest, and `check`.

test: rings, read, tested and saved, beside the same without their last face, which ends before the test.
read: a globe without its last face, whose shape is refused at the end, and 64 MiB of comments.
check: a ring, the same without a face, with each face of one half turned over, and with a second one that goes through it.
"""

import os
import tempfile

from job import TRACK, globe, measured, put_mesh, put_steps, reader_of, torus, words_of


def least(words, folder, command, into="log"):
    """The status, the least seconds and the most memory of some runs of a command."""
    runs = [measured(words.program, folder, command, into=into) for _ in range(words.best_of)]
    return runs[0][0], min(run[1] for run in runs), max(run[2] for run in runs)


def row(words, what, mesh, command=TRACK):
    with tempfile.TemporaryDirectory() as folder:
        if isinstance(mesh, str):
            with open(os.path.join(folder, "mesh.obj"), "w") as out:
                out.write(mesh)
        else:
            put_mesh(folder, *mesh)
        put_steps(folder, [])
        status, seconds, memory = least(words, folder, command)
        with open(os.path.join(folder, "log"), "rb") as log:
            last = log.read().rstrip(b"\n").rsplit(b"\n", 1)[-1].decode()
    print(f"| {what} | {command[0]} | {status} | {seconds:.2f} | {memory:.0f} | {last} |", flush=True)


def test(words):
    for sides in ((128, 81), (256, 256)):
        points, faces = torus(*words.sized(*sides))
        row(words, f"a ring of {len(faces):,} faces", (points, faces))
        row(words, "the same without a face", (points, faces[:-1]))


def read(words):
    points, faces = globe(*words.sized(217, 302))
    row(words, f"a globe of {len(faces):,} faces without the last one", (points, faces[:-1]))
    row(words, "64 MiB of comments", ("# " + "c" * 60 + "\n") * ((64 << 20) // 63))


def check(words):
    points, faces = torus(*words.sized(256, 256))
    half = len(faces) // 2
    small, some = torus(*words.sized(180, 180))
    through = small + [(x, z, y) for x, y, z in small], some + [tuple(v + len(small) for v in (a, c, b)) for a, b, c in some]
    command = ["check", "mesh.obj"]
    row(words, f"a ring of {len(faces):,} faces", (points, faces), command)
    row(words, "the same without a face", (points, faces[:-1]), command)
    row(words, "half of its faces turned over", (points, faces[:half] + [(a, c, b) for a, b, c in faces[half:]]), command)
    row(words, "two that go through one another", through, command)
    row(words, "the ring, tracked without steps", (points, faces))


KINDS = {"test": test, "read": read, "check": check}


def main():
    words = words_of(reader_of(__doc__, KINDS))
    print("| mesh | command | status | s | MiB | last line |\n|---|---|---|---|---|---|", flush=True)
    for kind in words.of or KINDS:
        KINDS[kind](words)


if __name__ == "__main__":
    main()
