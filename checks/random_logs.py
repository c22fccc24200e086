#!/usr/bin/env python3
"""Measures, proves and replays the logs of random jobs, whole and spoilt, beside another program.

Jobs are made as random_jobs.py makes them, and tracked by the other program; each log is measured and proved by both as it is, and as a
log of version 3, which gives other ids here and there. Both are spoilt then: a line is doubled, left out, exchanged with the next, or cut
short, or a number is raised by one, or ids are spoilt, at a random place; and the proof of the whole log is verified with each of these
logs. Compared are status and output; a log that one of the two does not end in time is not compared. The program replays each log too:
with the status of `measure`, and a whole log, also of version 3, to the meshes that the other program stored where it tracked the job.
The reference neither proves nor verifies: beside it logs of small jobs are measured and replayed alone. The last lines count statuses,
motions that were proved and verified alike, meshes that were replayed, and runs alike; at a difference the log is kept and the exit
status is 1.
"""

import os
import random
import subprocess
import sys
import tempfile

from calling import REFERENCE, add_number, words_of
from new_ids import with_new_ids
from random_jobs import job_of, jobs_from, keep, words_of_comparison


def spoilt(dice, log):
    """The log with one fault."""
    lines = log.decode().split("\n")[:-1]
    if not lines:
        return log
    at = dice.randrange(len(lines))
    how = dice.choice(["doubled", "left out", "exchanged", "raised", "raised", "raised", "cut", "other"])
    told = [i for i, line in enumerate(lines) if line.startswith(("vertices ", "faces "))]
    if told and dice.random() < 0.4:
        how, at = "ids", dice.choice(told)
    if how == "doubled":
        lines.insert(at, lines[at])
    elif how == "left out":
        del lines[at]
    elif how == "exchanged" and at + 1 < len(lines):
        lines[at], lines[at + 1] = lines[at + 1], lines[at]
    elif how == "raised":
        words = lines[at].split(" ")
        places = [i for i, word in enumerate(words) if word.lstrip("-").isdigit()]
        if places:
            i = dice.choice(places)
            words[i] = str(int(words[i]) + 1)
        lines[at] = " ".join(words)
    elif how == "ids":
        lines[at] = spoilt_ids(dice, lines[at])
    elif how == "cut":
        text = "\n".join(lines) + "\n"
        return text[: dice.randrange(len(text))].encode()
    elif how == "other":
        lines[at] = dice.choice(["group", "close undone", "close kept", "step 1", "moved whole", "solid 1", "flip 1 2", "end", "pass flip", "mesh 0 8 12", "wrong", "", "vertices 5 1 2 3 4", "faces 9", "topo log 3"])
    return ("\n".join(lines) + "\n").encode()


def spoilt_ids(dice, line):
    """A line of new ids with one fault."""
    words = line.split(" ")
    i = dice.randrange(1, len(words))
    one = dice.choice(words[1:])
    words[i : i + 1] = dice.choice([[], [words[i]] * 2, [one], ["0"], ["x"], [""], [str(2**31)], [str(2**31 + 1)], [str(2**31 + 2)]])
    return " ".join(words)


def told(program, words, folder, seconds):
    """The status and the output of a command, if it ends in time."""
    try:
        ran = subprocess.run([program, *words], cwd=folder, stdout=subprocess.PIPE, stderr=subprocess.DEVNULL, timeout=seconds)
    except subprocess.TimeoutExpired:
        return None
    return ran.returncode, ran.stdout


def measured(program, folder, decimals, seconds):
    return told(program, ["measure", "m.obj", "log.txt", *decimals], folder, seconds)


def stored_in(folder):
    """The meshes of a folder below."""
    meshes = {}
    for name in os.listdir(folder):
        with open(os.path.join(folder, name), "rb") as it:
            meshes[name] = it.read()
    return meshes


def fault_of_replay(program, folder, decimals, measured, tracked, is_whole, seconds):
    """What is wrong with the replay of a log, if anything is, and how many meshes it stored; None where it did not end."""
    with tempfile.TemporaryDirectory() as apart:
        ran = told(program, ["replay", "m.obj", "log.txt", os.path.join(apart, "p"), *decimals], folder, seconds)
        if ran is None:
            return None
        meshes = stored_in(apart)
    # a line of a mesh may stand twice in a spoilt log, and then stores it twice
    with open(os.path.join(folder, "log.txt"), "rb") as log:
        lines = sum(line.startswith(b"mesh ") for line in log)
    said = b"replayed %d\n" % lines if ran[0] == 0 else measured[1].splitlines(keepends=True)[-1:] and measured[1].splitlines(keepends=True)[-1]
    if ran[0] != measured[0] or ran[1] != said:
        return "status" if ran[0] != measured[0] else "output", len(meshes)
    return "meshes" if is_whole and meshes != tracked else None, len(meshes)


def main():
    reader = words_of_comparison(__doc__, 100, 20)
    add_number(reader, "spoilt", 3, "each log is spoilt so many times")
    given = words_of(reader)
    program, other, count, seed, seconds, times = given.program, given.other, given.count, given.seed, given.seconds, given.spoilt
    commands = [["measure", "m.obj", "log.txt"], ["prove", "m.obj", "log.txt"], ["verify", "m.obj", "log.txt", "proof.txt"]]
    commands = commands[:1] if other == REFERENCE else commands
    alike = late = unlike = motions = replayed = 0
    statuses = {}
    for number, (mesh, steps, words) in jobs_from(job_of, seed, count, other):
        if words[0] != "track":
            continue
        dice = random.Random(f"log {number}")
        with tempfile.TemporaryDirectory() as folder:
            for name, text in (("m.obj", mesh), ("s.txt", steps)):
                with open(os.path.join(folder, name), "w", encoding="utf-8", newline="") as it:
                    it.write(text)
            os.mkdir(os.path.join(folder, "stored"))
            try:
                log = subprocess.run([other, *words[:3], "stored/p", *words[4:]], cwd=folder, stdout=subprocess.PIPE, stderr=subprocess.DEVNULL, timeout=seconds).stdout
            except subprocess.TimeoutExpired:
                late += 1
                continue
            tracked = stored_in(os.path.join(folder, "stored"))
            new = with_new_ids(dice, mesh, log, *map(int, words[5:]))
            texts = [(text, n == 0) for whole in (log, new) if whole is not None for n, text in enumerate([whole] + [spoilt(dice, whole) for _ in range(times)])]
            for text, is_whole in texts:
                if is_whole and os.path.exists(os.path.join(folder, "proof.txt")):
                    os.remove(os.path.join(folder, "proof.txt"))
                with open(os.path.join(folder, "log.txt"), "wb") as it:
                    it.write(text)
                for command, *files in commands:
                    if command == "verify" and not os.path.exists(os.path.join(folder, "proof.txt")):
                        continue
                    asked = [command, *files, *words[4:]]
                    one, two = told(program, asked, folder, seconds), told(other, asked, folder, seconds)
                    if one is None or two is None:
                        late += 1
                    elif one == two:
                        alike += 1
                        statuses[command, one[0]] = statuses.get((command, one[0]), 0) + 1
                        motions += int(one[1].split()[1]) if is_whole and command == "verify" and one[0] == 0 else 0
                    else:
                        unlike += 1
                        kept = keep(number, mesh, text.decode(), [command, "m.obj", "s.txt", *files[2:], *words[4:]])
                        print(f"job {number}: {'status' if one[0] != two[0] else 'output'} of {command} differ; the log is kept as s.txt in {kept}")
                    if command == "measure" and one is not None:
                        found = fault_of_replay(program, folder, words[4:], one, tracked, is_whole, seconds)
                        if found is None:
                            late += 1
                        elif found[0] is None:
                            alike += 1
                            statuses["replay", one[0]] = statuses.get(("replay", one[0]), 0) + 1
                            replayed += found[1]
                        else:
                            unlike += 1
                            kept = keep(number, mesh, text.decode(), ["replay", "m.obj", "s.txt", "p", *words[4:]])
                            print(f"job {number}: {found[0]} of replay differ; the log is kept as s.txt in {kept}")
                    if command == "prove" and is_whole and two is not None and two[0] == 0:
                        with open(os.path.join(folder, "proof.txt"), "wb") as it:
                            it.write(two[1])
    print("statuses:", ", ".join(f"{command} {status}: {n}" for (command, status), n in sorted(statuses.items())))
    print(f"motions of whole logs, proved and verified alike: {motions}")
    print(f"meshes replayed: {replayed}")
    print(f"{alike} alike, {unlike} not, {late} not ended in time")
    return 1 if unlike else 0


if __name__ == "__main__":
    sys.exit(main())
