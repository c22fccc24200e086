#!/usr/bin/env python3
"""Spoils the logs of the worked cases in every way, and compares what two programs measure.

Of each log of the folder `worked` that tells a run of a mesh, or is measured or replayed as a log of version 3, beside the reference of those
of at most 150 bytes: each line doubled, left out, exchanged with the next, each number raised by one, and each new id left out or made the
one before, one fault at a time. Compared are status and output. The last line counts
those alike, and those of each status; at a difference the log is kept and the exit status is 1.
"""

import os
import sys
import tempfile

from calling import REFERENCE, add_number, add_other, reader_of, words_of
from random_jobs import keep
from random_logs import measured
from worked_cases import FOLDER, Case


def spoilt(lines):
    """The log with one fault, in each way."""
    for at, line in enumerate(lines):
        yield lines[:at] + [line] + lines[at:]
        yield lines[:at] + lines[at + 1 :]
        if at + 1 < len(lines):
            yield lines[:at] + [lines[at + 1], line] + lines[at + 2 :]
        words = line.split(" ")
        for i, word in enumerate(words):
            if word.lstrip("-").isdigit():
                yield lines[:at] + [" ".join(words[:i] + [str(int(word) + 1)] + words[i + 1 :])] + lines[at + 1 :]
            if words[0] in ("vertices", "faces") and i:
                yield lines[:at] + [" ".join(words[:i] + words[i + 1 :])] + lines[at + 1 :]
                yield lines[:at] + [" ".join(words[:i] + words[i - 1 : i] + words[i + 1 :])] + lines[at + 1 :]


def log_of(case):
    """The log that a case writes, or that of version 3 that it reads."""
    if case.words[0] == "track" and case.words[1] in case.inputs:
        return case.log
    read = case.inputs.get("log.txt", "")
    return read if case.words[0] in ("measure", "replay") and read.startswith("topo log 3\n") else None


def main():
    reader = reader_of(__doc__)
    add_other(reader)
    add_number(reader, "seconds", 20, "the time of a run")
    words = words_of(reader)
    program, other, seconds = words.program, words.other, words.seconds
    longest = 150 if other == REFERENCE else 4_000
    alike = unlike = late = logs = 0
    statuses = {}
    for name in sorted(os.listdir(FOLDER)):
        with open(os.path.join(FOLDER, name)) as it:
            case = Case(it.read())
        log = log_of(case)
        if not log or len(log) > longest:
            continue
        logs += 1
        mesh, decimals = case.inputs[case.words[1]], case.words[4:]
        with tempfile.TemporaryDirectory() as folder:
            with open(os.path.join(folder, "m.obj"), "w", encoding="utf-8", newline="") as it:
                it.write(mesh)
            for lines in spoilt(log.split("\n")[:-1]):
                text = "".join(line + "\n" for line in lines)
                with open(os.path.join(folder, "log.txt"), "w", encoding="utf-8", newline="") as it:
                    it.write(text)
                one, two = measured(program, folder, decimals, seconds), measured(other, folder, decimals, seconds)
                if one is None or two is None:
                    late += 1
                elif one == two:
                    alike += 1
                    statuses[one[0]] = statuses.get(one[0], 0) + 1
                else:
                    unlike += 1
                    print(f"{name}: {'status' if one[0] != two[0] else 'output'} differ; the log is kept as s.txt in {keep(0, mesh, text, ['measure', 'm.obj', 's.txt', *decimals])}")
    print(f"{logs} logs; statuses:", ", ".join(f"{status} {n}" for status, n in sorted(statuses.items())))
    print(f"{alike} alike, {unlike} not, {late} not ended in time")
    return 1 if unlike else 0


if __name__ == "__main__":
    sys.exit(main())
