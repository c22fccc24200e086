#!/usr/bin/env python3
"""Feeds texts that were spoilt at random to the program and to another.

Random jobs are made, as random_jobs.py makes them; the other program tracks each, converts its mesh to OFF and PLY, and proves its log.
Then each of these texts (a mesh in three formats, steps, a log, a proof) is spoilt some times and given to the commands that read it. It
is spoilt in one place or in several: bytes are turned, put in, doubled or left out (zero bytes and bytes of no ASCII text too), lines are
doubled, left out, exchanged, joined or cut, words become numbers at a limit or other words of the formats, and some lines get other ends.
The reference has no proofs: beside it none is spoilt, and only small jobs are taken. Compared are status, output and files; what one of
the two does not end in time is not compared. The last lines count the texts of each kind and status, and those alike; at a difference the
files are kept and the exit status is 1.
"""

import collections
import os
import random
import subprocess
import sys
import tempfile

from calling import REFERENCE, add_number, add_other, reader_of, words_of
from random_jobs import is_small, job_of, keep_files

# how often each text of a job is spoilt
TIMES = 6
NUMBERS = [b"0", b"-0", b"+1", b"1", b"-1", b"01", b"1.", b".5", b"1e3", b"1e-400", b"0x1", b"268435456", b"268435457", b"268435456.5", b"536870912", b"536870913", b"1073741824",
           b"1073741825", b"2147483647", b"2147483648", b"2147483649", b"4294967295", b"4294967296", b"9999999999", b"99999999999", b"18446744073709551615", b"18446744073709551616",
           b"-9223372036854775809", b"2417851639229258349412352", b"2417851639229258349412353", b"9" * 64, b"9" * 65, b"nan", b"inf", b"1,5", b"1_0"]
WORDS = [b"v", b"f", b"vn", b"OFF", b"ply", b"element", b"end_header", b"shift", b"all", b"step", b"save", b"split", b"collapse", b"flip", b"zip", b"pinch", b"fit", b"group", b"close",
         b"solid", b"set", b"depth", b"drive", b"swirl", b"topo", b"log", b"proof", b"2", b"mesh", b"move", b"moved", b"whole", b"zero", b"hit", b"no", b"end", b"refused", b"motion",
         b"along", b"after", b"before", b"pair", b"dir", b"half", b"#", b"\\", b"1/2/3", b"1//3", b"", b"\xff", b"\xc3\xa9", b"\x00", b"\t"]
BYTES = [0, 9, 10, 11, 13, 32, 35, 43, 45, 46, 47, 48, 57, 92, 127, 128, 195, 255]


def spoil_bytes(dice, text):
    at = dice.randrange(len(text) + 1)
    new = bytes([dice.choice(BYTES) if dice.random() < 0.5 else dice.randrange(256)])
    return dice.choice([text[:at] + new + text[at + 1 :], text[:at] + new + text[at:], text[:at] + text[at : at + 1] + text[at:], text[:at] + text[at + 1 :], text[:at]])


def spoil_lines(dice, text):
    lines = text.split(b"\n")
    at, to = dice.randrange(len(lines)), dice.randrange(len(lines))
    how = dice.randrange(6)
    if how == 0:
        lines.insert(at, lines[to])
    elif how == 1:
        del lines[at]
    elif how == 2:
        lines[at], lines[to] = lines[to], lines[at]
    elif how == 3:
        lines[at : at + 2] = [b" ".join(lines[at : at + 2])]
    elif how == 4:
        lines[at] = lines[at][: dice.randrange(len(lines[at]) + 1)]
    else:
        end = dice.choice([b"\r", b" ", b"\t", b"\\", b" # more", b"\x00", b"\r\r"])
        lines = [line + end if dice.random() < 0.3 else line for line in lines]
    return b"\n".join(lines)


def spoil_words(dice, text):
    lines = text.split(b"\n")
    at = dice.randrange(len(lines))
    words = lines[at].split(b" ")
    word = dice.randrange(len(words))
    how = dice.randrange(4)
    if how == 0:
        words[word] = dice.choice(NUMBERS)
    elif how == 1:
        words[word] = dice.choice(WORDS)
    elif how == 2:
        words.insert(word, dice.choice(NUMBERS + WORDS))
    else:
        del words[word]
    lines[at] = b" ".join(words)
    return b"\n".join(lines)


def spoilt(dice, text):
    for _ in range(dice.choice([1, 1, 1, 1, 2, 5])):
        text = dice.choice([spoil_bytes, spoil_lines, spoil_words, spoil_words])(dice, text)
    return text


def files_of(folder):
    found = {}
    for name in os.listdir(folder):
        with open(os.path.join(folder, name), "rb") as it:
            found[name] = it.read()
    return found


def run(program, words, files, seconds):
    """The status, the output and the files at the end, if it ends in time."""
    with tempfile.TemporaryDirectory() as folder:
        for name, text in files.items():
            with open(os.path.join(folder, name), "wb") as it:
                it.write(text)
        try:
            ran = subprocess.run([program, *words], cwd=folder, stdout=subprocess.PIPE, stderr=subprocess.DEVNULL, timeout=seconds)
        except subprocess.TimeoutExpired:
            return None
        return ran.returncode, ran.stdout, files_of(folder)


def texts_of(other, seed, seconds):
    """The texts of a job: of each its name, the files beside it, and the words of the commands that read it."""
    mesh, steps, words = job_of(seed)
    if other == REFERENCE and not is_small(mesh, steps):
        return
    places = words[4:] if words[0] == "track" else words[3:]
    files = {"m.obj": mesh.encode(), "s.txt": steps.encode()}
    track = ["track", "m.obj", "s.txt", "t", *places]
    yield "m.obj", files, [track, ["convert", "m.obj", "c.ply", *places]]
    yield "s.txt", files, [track]
    for name in ("m.off", "m.ply"):
        made = run(other, ["convert", "m.obj", name, *places], files, seconds)
        if made and name in made[2]:
            yield name, {name: made[2][name]}, [["convert", name, "c.obj", *places]]
    ran = run(other, track, files, seconds)
    if ran is None:
        return
    files = {"m.obj": files["m.obj"], "l.txt": ran[1]}
    if other == REFERENCE:
        yield "l.txt", files, [["measure", "m.obj", "l.txt", *places], ["replay", "m.obj", "l.txt", "r", *places]]
        return
    yield "l.txt", files, [["measure", "m.obj", "l.txt", *places], ["prove", "m.obj", "l.txt", *places]]
    proof = run(other, ["prove", "m.obj", "l.txt", *places], files, seconds)
    if proof and proof[0] == 0:
        yield "p.txt", {**files, "p.txt": proof[1]}, [["verify", "m.obj", "l.txt", "p.txt", *places]]


def main():
    reader = reader_of(__doc__)
    add_other(reader)
    add_number(reader, "count", 1000, "so many spoilt texts")
    add_number(reader, "seed", 1, "the first are those of this number")
    add_number(reader, "seconds", 20, "the time of a run")
    asked = words_of(reader)
    program, other, count, seed, seconds = asked.program, asked.other, asked.count, asked.seed, asked.seconds
    alike = unlike = late = texts = 0
    statuses = collections.Counter()
    while texts < count:
        dice = random.Random(f"texts {seed}")
        for name, files, commands in texts_of(other, seed, seconds):
            for _ in range(TIMES):
                given = {**files, name: spoilt(dice, files[name])}
                texts += 1
                for words in commands:
                    one, two = run(program, words, given, seconds), run(other, words, given, seconds)
                    if one is None or two is None:
                        late += 1
                    elif one == two:
                        alike += 1
                        statuses[name, one[0]] += 1
                    else:
                        unlike += 1
                        what = "status" if one[0] != two[0] else "output" if one[1] != two[1] else "files"
                        print(f"job {seed}: {what} of {' '.join(words)} differ; the files are kept in {keep_files(f'text-{seed}-', words, given)}")
        seed += 1
    print("statuses:", ", ".join(f"{name} {status}: {n}" for (name, status), n in sorted(statuses.items())))
    print(f"{texts} texts: {alike} runs alike, {unlike} not, {late} not ended in time")
    return 1 if unlike else 0


if __name__ == "__main__":
    sys.exit(main())
