#!/usr/bin/env python3
"""Runs the program and `reference/topo.py` on fixed small jobs, and compares all, byte for byte.

The reference is what docs/DEFINITIONS.md and docs/FORMATS.md say, as one plain program, so a change of what a definition means shows here
without any prover. The jobs are made as random_jobs.py, broken_meshes.py and mutated_texts.py make them: steps of each way, all edits and
their refusals, groups, fields, fits and grids are tracked, and each log is measured and replayed; meshes are converted to each format and
back and checked; broken meshes are checked; and spoilt texts are refused. Then it is looked whether reference/definitions.txt names each
definition of docs/DEFINITIONS.md, and the reference what it names there. It takes less than a minute on one core. The last line counts the
jobs alike; at a difference the job is kept and the exit status is 1.
"""

import os
import random
import re
import sys

from broken_meshes import mesh_from
from calling import ROOT, add_other, reader_of, words_of
from mutated_texts import run, spoilt
from new_ids import with_new_ids
from random_jobs import job_of, keep_files

# what does not end by then hangs; a busy machine is given its time
SECONDS = 600
TRACKED = (7, 49, 213, 234, 309, 388, 417, 560, 585, 626, 662, 896, 959, 960, 984, 1115, 1126, 1263, 1279, 1547, 1620, 1683, 1753, 1788, 1900, 1909, 2014, 2209, 2251, 2348, 2467, 650086)
# jobs before whose steps a vertex is made solid, which lies in an impact zone then
WITH_SOLID = {757: 1, 1788: 3}
CONVERTED = (3, 11, 19, 27)
BROKEN = (1, 2, 3, 5, 8, 13)
SPOILT = (1, 2, 3, 4, 5, 6)


def jobs_of_tracking(program):
    """Jobs that are tracked, each with its log, as the program writes it and with other ids, measured and replayed."""
    for number, solid in [*((number, None) for number in TRACKED), *WITH_SOLID.items()]:
        mesh, steps, words = job_of(number)
        files = {"m.obj": mesh.encode(), "s.txt": (f"solid {solid}\n" * bool(solid) + steps).encode()}
        commands = [(words, files)]
        if words[0] == "track":
            log = run(program, words, files, SECONDS)[1]
            new = with_new_ids(random.Random(f"new ids {number}"), mesh, log, *map(int, words[5:]))
            for text in (log, new) if new else (log,):
                files = {"m.obj": files["m.obj"], "l.txt": text}
                commands += [(["measure", "m.obj", "l.txt", *words[4:]], files), (["replay", "m.obj", "l.txt", "again", *words[4:]], files)]
        yield f"tracked {number}{' with a solid vertex' * bool(solid)}", commands


def jobs_of_meshes(program):
    """Meshes that are converted to each format, from that to another, and checked; and broken meshes that are checked."""
    for number in CONVERTED:
        mesh, _, words = job_of(number)
        options, commands = words[4:] if words[0] == "track" else words[3:], []
        for ending, other in ((".off", ".ply"), (".ply", ".obj")):
            files = {"m.obj": mesh.encode()}
            commands.append((["convert", "m.obj", "n" + ending, *options], files))
            made = run(program, *commands[-1], SECONDS)[2].get("n" + ending, b"")
            commands.append((["convert", "n" + ending, "o" + other, *options], {"n" + ending: made}))
            commands.append((["check", "n" + ending, *options], {"n" + ending: made}))
        # what is rounded is kept as it was
        commands.append((["convert", "m.obj", "m.obj"], {"m.obj": mesh.replace("\nv ", "\nv 0.25").encode()}))
        yield f"converted {number}", commands
    for number in BROKEN:
        points, faces = mesh_from(number)
        text = "".join("v {} {} {}\n".format(*p) for p in points) + "".join("f {} {} {}\n".format(*f) for f in faces)
        yield f"broken {number}", [(["check", "m.obj"], {"m.obj": text.encode()})]


def jobs_of_texts(program):
    """Texts that dice have spoilt: a mesh in each format, steps and a log."""
    mesh, steps, words = job_of(TRACKED[0])
    files = {"m.obj": mesh.encode(), "s.txt": steps.encode()}
    files["l.txt"] = run(program, words, files, SECONDS)[1]
    for name in ("m.off", "m.ply"):
        files[name] = run(program, ["convert", "m.obj", name], files, SECONDS)[2][name]
    asked = {"m.obj": ["check", "m.obj"], "m.off": ["convert", "m.off", "c.obj"], "m.ply": ["convert", "m.ply", "c.obj"],
             "s.txt": ["track", "m.obj", "s.txt", "t"], "l.txt": ["replay", "m.obj", "l.txt", "t"]}
    for number in SPOILT:
        dice = random.Random(f"reference {number}")
        yield f"spoilt {number}", [(words, {**files, name: spoilt(dice, files[name])}) for name, words in asked.items()]


def difference(program, reference, commands):
    """The first command that the two do not answer alike, with its files and what differs."""
    for words, files in commands:
        one, two = run(program, words, files, SECONDS), run(reference, words, files, SECONDS)
        if one is None or one != two:
            return words, files, "time" if None in (one, two) else "status" if one[0] != two[0] else "output" if one[1] != two[1] else "files"
    return None


def text_of(*names):
    with open(os.path.join(ROOT, *names), encoding="utf-8") as it:
        return it.read()


def names_missing(reference):
    """The definitions that reference/definitions.txt does not name, and what it names that is not in the reference."""
    told, program = text_of("reference", "definitions.txt"), text_of(reference)
    definitions = text_of("docs", "DEFINITIONS.md").partition("\n## The field's terms")[0]
    terms = {re.sub(r"\s+", " ", term) for term in re.findall(r"\*\*(.+?)\*\*", definitions, re.S)}
    plain = re.sub(r"\s+", " ", told).lower()
    yield from (f"reference/definitions.txt does not name the definition {term!r}" for term in sorted(terms) if term.strip("`").lower() not in plain)
    for name in re.findall(r"`(\w+)`", told.partition("\n# What of the definitions is not in it")[0]):
        if not re.search(rf"^ *(def|class) {name}\b|^{name}\b", program, re.M):
            yield f"reference/definitions.txt names `{name}`, which is not in the reference"


def main():
    reader = reader_of(__doc__)
    add_other(reader)
    given = words_of(reader)
    program, reference = given.program, given.other
    alike = failed = 0
    for jobs in (jobs_of_tracking, jobs_of_meshes, jobs_of_texts):
        for name, commands in jobs(program):
            found = difference(program, reference, commands)
            if found:
                failed += 1
                words, files, what = found
                kept = keep_files(f"{name.replace(' ', '-')}-", words, files)
                print(f"FAILED {name}: {what} of {' '.join(words)} differ; it is kept in {kept}")
            else:
                alike += 1
    for fault in names_missing(reference):
        failed += 1
        print(f"FAILED {fault}")
    print(f"{alike} passed, {failed} failed")
    return 1 if failed or not alike else 0


if __name__ == "__main__":
    sys.exit(main())
