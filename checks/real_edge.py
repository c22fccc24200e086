#!/usr/bin/env python3
"""Runs the built program where the world does not play along, and looks at its exit status and its messages.

Each case must end with its status, with `topo: status N` as the last line of standard error where N is not 0, and never by a signal. What
it writes to standard output must be the first lines of the log that the job is due, or none where the words name no job. Files that a case
must leave have to hold what they held, and no case may leave a file that it wrote beside another. Further cases look at the sentences on
standard error: some must be there, and some must not.
"""

import contextlib
import fcntl
import hashlib
import os
import pty
import resource
import shutil
import subprocess
import sys
import tempfile
import threading
import time
import tty

from calling import ROOT, TOPO, reader_of, words_of

PROGRAM = os.path.join(ROOT, "crates/topo/out/topo")
# whom the program is run as where a folder is to refuse it: root may write everywhere
NOBODY = {"user": 65534, "group": 65534, "extra_groups": []} if os.geteuid() == 0 else {}
# the mesh, and the same with a line that a stored mesh hasn't
MESH = "v 0 0 0\nv 4 0 0\nv 0 4 0\nv 0 0 4\nf 1 3 2\nf 1 2 4\nf 2 3 4\nf 1 4 3\n"
COMMENTED = "# as it was\n" + MESH
PROVED = "topo proof 1\nmotion 8 along\nend\n"
MEASURED = "".join(f"measure {k} volume6 64 components 1 euler 2 genus 0\n" for k in (0, 1)) + "end\n"
STEPS = "shift all 1 2 3\nstep\nsave\n"
JOB = ["track", "mesh.obj", "steps.txt", "t"]
LOG = "topo log 2\nmesh 0 4 4\nstep 1\n" + "".join(f"move {v} 1 2 3\n" for v in (1, 2, 3, 4)) + "moved whole\nmesh 1 4 4\nend\n"
# the whole output of a command that writes no log, and a log of which a terminal is told before its end
WHOLE = {"measure": MEASURED, "prove": PROVED, "verify": "verified 1\n", "replay": "replayed 2\n", "check": "checked 4 4 faults 0\n", "convert": "converted 4 4\n"}
# a mesh that is long enough to be spoken of on a terminal, its log, and steps that give a long one
MANY = 1000
GREAT = "".join(f"v {10 * k} 0 0\nv {10 * k + 4} 0 0\nv {10 * k} 4 0\nv {10 * k} 0 4\n" for k in range(MANY)) + "".join(
    f"f {p} {p + 2} {p + 1}\nf {p} {p + 1} {p + 3}\nf {p + 1} {p + 2} {p + 3}\nf {p} {p + 3} {p + 2}\n" for p in range(1, 4 * MANY, 4)
)
GREAT_LOG = f"topo log 2\nmesh 0 {4 * MANY} {4 * MANY}\nend\n"
MANY_STEPS = 400 * "shift all 1 0 0\nstep\n" + "save\n"
LONG_LOG = LOG.removesuffix("end\n") + "".join(f"step {k}\nmove 1 0 0 {1 - 2 * (k % 2)}\nmoved whole\n" for k in range(2, 102)) + "end\n"


def closed_pipe():
    """The writing end of a pipe that no one reads."""
    reading, writing = os.pipe()
    os.close(reading)
    return writing


def pieces_of(words, folder):
    """What a program writes to standard output, a piece for each call by which it is written."""
    reading, writing = os.pipe2(os.O_DIRECT)
    with subprocess.Popen(words, cwd=folder, stdout=writing, stderr=subprocess.DEVNULL, **NOBODY):
        os.close(writing)
        pieces = list(iter(lambda: os.read(reading, 1 << 16), b""))
    os.close(reading)
    return [piece.decode(errors="replace") for piece in pieces]


def small_device(folder):
    """A full device in a folder: the mesh, the steps, and no room for more. False where nothing can be mounted."""
    os.mkdir(folder)
    mounted = subprocess.run(["mount", "-t", "tmpfs", "-o", "size=64k,mode=1777", "tmpfs", folder], capture_output=True)
    if mounted.returncode != 0:
        return False
    for name, text in (("t-000000.obj", MESH), ("steps.txt", STEPS)):
        with open(os.path.join(folder, name), "w") as out:
            out.write(text)
        os.chmod(os.path.join(folder, name), 0o666)
    with open(os.path.join(folder, "filler"), "wb", buffering=0) as out:
        try:
            while True:
                out.write(bytes(4096))
        except OSError:
            pass
    return True


def on_terminal(words, folder, both, given=None):
    """Runs the words with a terminal for standard error, and for both outputs where that is asked, and with a text that comes by a pipe as
    standard input, after more than a second, where there is one: the status, what standard output had, and what the terminal had."""
    ours, its = pty.openpty()
    tty.setraw(its)
    out = its if both else subprocess.PIPE
    reading, writing = os.pipe()
    os.fchmod(reading, 0o666)
    later = threading.Thread(target=lambda: (time.sleep(1.5 if given else 0), os.write(writing, (given or "").encode()), os.close(writing)))
    later.start()
    ended = subprocess.run(words, cwd=folder, stdin=reading, stdout=out, stderr=its, timeout=60, **NOBODY)
    later.join()
    os.close(reading)
    os.close(its)
    told = b""
    with contextlib.suppress(OSError):
        while more := os.read(ours, 4096):
            told += more
    os.close(ours)
    return ended.returncode, (ended.stdout or b"").decode(), told.decode()


def parts(folder):
    """The files that stand beside others, as a store that is under way has them."""
    return sorted(os.path.join(at, name) for at, _, names in os.walk(folder) for name in names if name.startswith(".topo-") and name.endswith(".part"))


# two tetrahedra that share an edge, and two faces that are one another's opposites
CROWDED = "v 0 0 0\nv 4 0 0\nv 0 4 0\nv 0 0 4\nv 0 -4 0\nv 0 0 -4\n" + "".join(
    f"f {p} {r} {q}\nf {p} {q} {s}\nf {q} {r} {s}\nf {p} {s} {r}\n" for p, q, r, s in ((1, 2, 3, 4), (1, 2, 5, 6))
)
OPPOSITE = "v 0 0 0\nv 4 0 0\nv 0 4 0\nf 1 2 3\nf 1 3 2\n"
ROUNDED = MESH.replace("v 4 0 0", "v 4.25 0 0")
SEVEN = MESH.replace("v 4 0 0", "v 4.1234567 0 0")
NOUGHTS = MESH.replace("v 4 0 0", "v 4.2500000 0 0")
COLOURED = "# 0.12345678\n" + MESH.replace("v 4 0 0", "v 4 0 0 0.12345678 0.5 1")
MOVED = "v 1 2 3\nv 5 2 3\nv 1 6 3\nv 1 2 7\n" + MESH[MESH.index("f") :]
OFF = "OFF\n4 4 0\n" + "".join(f"{' '.join(line.split()[1:])}\n" for line in MESH.splitlines() if line[0] == "v") + "3 0 2 1\n3 0 1 3\n3 1 2 3\n3 0 3 2\n"
CRLF = lambda text: text.replace("\n", "\r\n")
FILES = ["track", "m", "s", "t"]


def card_of(mesh=MESH, steps=STEPS, log=LOG, decimals=0, program="0.1.0"):
    """The text of a card, made without the program."""
    marks = "".join(f"{name} {len(text)} {hashlib.sha256(text.encode()).hexdigest()}\n" for name, text in (("mesh", mesh), ("steps", steps), ("log", log)))
    return f"topo card 1\nprogram {program}\ndecimals {decimals}\n{marks}end\n"


CARD = card_of()
CARDED = {"m": MESH, "l": LOG, "c": CARD}
NUMBERS = ["try", "1", "0"]
# the sentences: what is asked, its words, what standard input has (through a pipe), its status, what has to be told on standard error,
# what may not be, the files that are there before it and the files that have to hold a text behind it
TOLD = [
    ("a mesh from a pipe", ["track", "/dev/stdin", "s", "t"], MESH, 0, [], ["empty", "rounded"], {"s": STEPS}, {"t-000000.obj": MESH}),
    ("a mesh from a pipe that is rounded", ["track", "/dev/stdin", "s", "t"], ROUNDED, 0, ["1 of 12 coordinates were rounded by up to 0.25"], ["empty"],
     {"s": STEPS}, {}),
    ("a mesh from a pipe that is empty", ["track", "/dev/stdin", "s", "t"], "", 0, ["the mesh is empty"], [], {"s": STEPS}, {}),
    ("steps from a pipe", ["track", "m", "/dev/stdin", "t"], "", 0, ["there are no steps"], [], {"m": MESH}, {}),
    ("a bad line from a pipe", ["track", "m", "/dev/stdin", "t"], "stop\n", 9, ['/dev/stdin, line 1: "stop"; a line begins with set'], [], {"m": MESH}, {}),
    ("one pipe for both files", ["track", "/dev/stdin", "/dev/stdin", "t"], MESH, 3, ["/dev/stdin could not be read (it is a pipe, and was read before)"], [],
     {}, {}),
    ("a mesh that is rounded onto itself", ["convert", "h.obj", "h.obj"], None, 0,
     ["h.obj was read and is overwritten (1 of 12 coordinates were rounded by up to 0.25; --decimals 2 keeps them): as it was, it is kept as h.obj.before"], [],
     {"h.obj": ROUNDED}, {"h.obj": MESH, "h.obj.before": ROUNDED}),
    ("the same, where such a file is there", ["convert", "h.obj", "h.obj"], None, 0, ["it is kept as h.obj.before-2"], [],
     {"h.obj": ROUNDED, "h.obj.before": "mine"}, {"h.obj": MESH, "h.obj.before": "mine", "h.obj.before-2": ROUNDED}),
    ("a mesh that is written onto itself", ["convert", "h.obj", "h.obj"], None, 0, ["h.obj was read and is overwritten"], ["kept"],
     {"h.obj": MESH}, {"h.obj": MESH, "h.obj.before": None}),
    ("a mesh with a comment that is written onto itself", ["convert", "h.obj", "h.obj"], None, 0,
     ["h.obj was read and is overwritten: as it was, it is kept as h.obj.before"], [], {"h.obj": COMMENTED}, {"h.obj": MESH, "h.obj.before": COMMENTED}),
    ("a mesh of seven digits that is written onto itself", ["convert", "h.obj", "h.obj", "--decimals", "6"], None, 0,
     ["h.obj was read and is overwritten (digits after decimal 6 of the coordinates were rounded; no grid that holds the mesh keeps them): as it was, it is kept as "
      "h.obj.before"], [], {"h.obj": SEVEN}, {"h.obj.before": SEVEN}),
    ("a mesh of seven digits that are noughts", ["track", "m", "s", "t", "--decimals", "2"], None, 0, [], ["rounded"], {"m": NOUGHTS, "s": STEPS}, {}),
    ("a mesh of seven digits on a coarser grid", ["track", "m", "s", "t", "--decimals", "2"], None, 0,
     ["coordinates were rounded by up to", "--decimals 6 keeps them to that decimal, and what is after it no grid that holds the mesh keeps"], [],
     {"m": SEVEN, "s": STEPS}, {}),
    ("digits of colours and of a comment", ["track", "m", "s", "t"], None, 0, [], ["rounded"], {"m": COLOURED, "s": STEPS}, {}),
    ("an exponent that is small", ["track", "m", "s", "t"], None, 0, ["digits after decimal 6 of the coordinates were rounded"], [],
     {"m": MESH.replace("v 0 0 0\n", "v 0 0 5e-9\n", 1), "s": STEPS}, {}),
    ("a mesh under the name of the first that is stored", ["track", "own-000000.obj", "s", "own"], None, 0, ["own-000000.obj was read and is overwritten"],
     ["kept"], {"own-000000.obj": MESH, "s": STEPS}, {"own-000000.obj": MESH, "own-000000.obj.before": None}),
    ("the same with a comment", ["track", "own-000000.obj", "s", "own"], None, 0, ["it is kept as own-000000.obj.before"],
     [], {"own-000000.obj": COMMENTED, "s": STEPS}, {"own-000000.obj": MESH, "own-000000.obj.before": COMMENTED}),
    ("steps under the name of the first that is stored", ["track", "m", "./own-000000.obj", "own"], None, 0,
     ["own-000000.obj was read and is overwritten: as it was, it is kept as own-000000.obj.before"], [], {"m": MESH, "own-000000.obj": STEPS},
     {"own-000000.obj": MESH, "own-000000.obj.before": STEPS}),
    ("another file that is overwritten", ["track", "m", "s", "t"], None, 0, [], ["overwritten"], {"m": MESH, "s": STEPS, "t-000000.obj": "old"},
     {"t-000000.obj": MESH, "t-000000.obj.before": None}),
    ("a name with control characters", ["track", "no\x1b[31m\x07\u202e\u0085such", "s", "t"], None, 11, ["there is no file no\\u001b[31m\\u0007\\u202e\\u0085such"],
     ["\x1b", "\x07", "\u202e", "\u0085"], {"s": STEPS}, {}),
    ("a prefix with control characters", ["track", "m", "s", "\x1b]0;t/"], None, 3, ["\\u001b]0;t/-000000.obj could not be stored"], ["\x1b"], {"m": MESH, "s": STEPS}, {}),
    ("shifts that sum to zero", ["track", "m", "s", "t"], None, 0, [], ["nothing takes them"],
     {"m": MESH, "s": "shift 1 1 0 0\nshift all 0 2 0\nshift 2 0 0 3\nshift 2 0 0 -3\nshift 1 -1 0 0\nshift all 0 -2 0\nsave\n"}, {}),
    ("shifts of two vertices", ["track", "m", "s", "t"], None, 0, ["nothing takes them"], [], {"m": MESH, "s": "shift 1 1 0 0\nshift 2 -1 0 0\n"}, {}),
    ("vertex 0", ["track", "m", "s", "t"], None, 9, ["a vertex is 1 to 2147483648"], [], {"m": MESH, "s": "shift 0 1 0 0\n"}, {}),
    ("a vertex that is not there yet", ["track", "m", "s", "t"], None, 10, ["there is no vertex 5 here: it was not made yet"], [], {"m": MESH, "s": "shift 5 1 0 0\n"}, {}),
    ("a vertex that a collapse took away", ["track", "m", "s", "t"], None, 10,
     ["s, line 2; there is no vertex 2 any more: line 4 of the log, a collapse, has taken it away"], [], {"m": MESH, "s": "collapse 5\nshift 2 1 0 0\n"}, {}),
    ("a vertex whose faces an edit took away", ["track", "m", "s", "t"], None, 10,
     ["s, line 2; there is no vertex 3 any more: an edit has taken it away with the faces that it had"], [], {"m": MESH, "s": "collapse 5\nshift 3 1 0 0\n"}, {}),
    *((f"dashes at place {place}", [*FILES[:place], "--", *FILES[place:]], None, 0, [], ["dash"], {"m": MESH, "s": STEPS}, {"t-000001.obj": MOVED})
      for place in (1, 2, 3, 4)),
    *((f"dashes at place {place} of numbers", [*NUMBERS[:place], "--", *NUMBERS[place:]], None, 0, [], ["dash"], {}, {}) for place in (1, 2, 3)),
    ("dashes in front of the command", ["--", *FILES], None, 2, ['"--" is no command'], [], {"m": MESH, "s": STEPS}, {}),
    ("dashes that come twice", [*FILES, "--", "--"], None, 2, ['"--" stands after `--`'], [], {"m": MESH, "s": STEPS}, {}),
    ("an option behind dashes", ["track", "--", "m", "s", "t", "--decimals", "1"], None, 2, ['"--decimals" stands after `--`, where names of files stand alone'], [],
     {"m": MESH, "s": STEPS}, {}),
    ("a prefix that is a folder", ["track", "m", "s", "d"], None, 0, ["the prefix d is a folder: the meshes are not in it but beside it, d-000000.obj"], [],
     {"m": MESH, "s": STEPS, "d/": None}, {"d-000000.obj": MESH}),
    ("a prefix that ends in a slash", ["track", "m", "s", "d/"], None, 0, ["the prefix ends in `/`", "the meshes are d/-000000.obj"], [],
     {"m": MESH, "s": STEPS, "d/": None}, {"d/-000000.obj": MESH}),
    ("a crowded edge", ["track", "m", "s", "t"], None, 0, ["t-000001.obj is no manifold: crowded edges (more than two faces): 1, faces with an opposite: 0"], [],
     {"m": CROWDED, "s": STEPS}, {}),
    ("opposite faces", ["convert", "m.obj", "t.off"], None, 0, ["t.off is no manifold: crowded edges (more than two faces): 0, faces with an opposite: 2"], [],
     {"m.obj": OPPOSITE}, {}),
    ("a manifold", ["convert", "m.obj", "t.off"], None, 0, [], ["manifold"], {"m.obj": MESH}, {}),
    ("a log that has no end", ["measure", "m", "l"], None, 0, ["l has no line `end` or `refused`: it may have been cut, or its run was stopped"], [],
     {"m": MESH, "l": "topo log 2\nmesh 0 4 4\n"}, {}),
    ("a log that goes on after its end", ["measure", "m", "l"], None, 0, ["l, line 4: a run writes nothing after its end"], [],
     {"m": MESH, "l": "topo log 2\nmesh 0 4 4\nend\nend\n"}, {}),
    ("a log of a run that was refused", ["measure", "m", "l"], None, 0, [], ["warning"],
     {"m": MESH, "l": "topo log 2\nmesh 0 4 4\nrefused use 1 vertex 5\n"}, {}),
    ("a log whose lines end with CRLF", ["measure", "m", "l"], None, 12, ["the text has the byte CR"], ["needless"], {"m": MESH, "l": "topo log 2\r\nend\r\n"}, {}),
    ("a log of another version", ["measure", "m", "l"], None, 12, ["its version is none that this program knows"], ["needless"], {"m": MESH, "l": "topo log 4\nend\n"}, {}),
    ("a proof whose lines end with CRLF", ["verify", "m", "l", "p"], None, 14, ["the text has the byte CR"], ["needless"],
     {"m": MESH, "l": "topo log 2\nmesh 0 4 4\nend\n", "p": "topo proof 1\r\nend\r\n"}, {}),
    ("a proof of another version", ["verify", "m", "l", "p"], None, 14, ["its version is none that this program knows"], ["needless"],
     {"m": MESH, "l": "topo log 2\nmesh 0 4 4\nend\n", "p": "topo proof 2\nend\n"}, {}),
]


# the same of links, and of a log that is sent to a file by `>` as a shell does it: the file is emptied, or made, before the program begins. What stands
# under a name is a text, a folder (None), or a link to a name ("link"), a second name of a file ("hard") or a pipe ("pipe"); behind a case None says that
# there is no file
LINKS = [
    ("a log sent to a name that the job stores", ["track", "m", "s", "x", ">", "x-000001.obj"], None, 3,
     ["standard output goes to x-000001.obj, a name that this job may store: what is written there would be lost"], [],
     {"m": MESH, "s": STEPS}, {"x-000000.obj": None, "x-000001.obj": ""}),
    ("a log sent to the name of the first mesh", ["track", "m", "s", "x", ">", "x-000000.obj"], None, 3, ["standard output goes to x-000000.obj, a name"], [],
     {"m": MESH, "s": STEPS}, {"x-000000.obj": "", "x-000001.obj": None}),
    ("a log added to a name that the job stores", ["track", "m", "s", "x", ">>", "x-000001.obj"], None, 3, ["standard output goes to x-000001.obj, a name"], [],
     {"m": MESH, "s": STEPS, "x-000001.obj": "mine"}, {"x-000000.obj": None, "x-000001.obj": "mine"}),
    ("a log sent to a mesh of the prefix that the job does not come to", ["track", "m", "s", "x", ">", "x-4294967295.obj"], None, 3,
     ["standard output goes to x-4294967295.obj, a name"], [], {"m": MESH, "s": STEPS}, {"x-000000.obj": None}),
    ("a log sent to a mesh in the folder of the prefix", ["track", "m", "s", "./d/x", ">", "d/x-000001.obj"], None, 3,
     ["standard output goes to ./d/x-000001.obj, a name"], [], {"m": MESH, "s": STEPS, "d/": None}, {"d/x-000000.obj": None, "d/x-000001.obj": ""}),
    ("a log sent to a name that has too few digits for a mesh", ["track", "m", "s", "x", ">", "x-00001.obj"], None, 0, [], ["warning", "x-"],
     {"m": MESH, "s": STEPS}, {"x-00001.obj": LOG, "x-000001.obj": MOVED}),
    ("a log sent to a name behind that of a mesh", ["track", "m", "s", "x", ">", "x-000001.obj.log"], None, 0, [], ["warning", "x-"],
     {"m": MESH, "s": STEPS}, {"x-000001.obj.log": LOG, "x-000001.obj": MOVED}),
    ("a log sent to a mesh of another prefix", ["track", "m", "s", "x", ">", "y-000001.obj"], None, 0, [], ["warning", "x-"],
     {"m": MESH, "s": STEPS}, {"y-000001.obj": LOG, "x-000001.obj": MOVED}),
    ("what a replay tells, sent to a name that it stores", ["replay", "m", "l", "x", ">", "x-000001.obj"], None, 3, ["standard output goes to x-000001.obj, a name"], [],
     {"m": MESH, "l": LOG}, {"x-000000.obj": None, "x-000001.obj": ""}),
    ("what a conversion tells, sent to the name that it stores", ["convert", "m.obj", "c.off", ">", "c.off"], None, 3, ["standard output goes to c.off, a name"], [],
     {"m.obj": MESH}, {"c.off": ""}),
    ("what a conversion tells, sent onto what it reads", ["convert", "m.obj", "c.off", ">", "m.obj"], None, 3, ["standard output goes to m.obj, which this job reads"],
     ["warning"], {"m.obj": MESH}, {"m.obj": "", "c.off": None}),
    ("a log sent onto the mesh file, which is emptied before", ["track", "m", "s", "t", ">", "m"], None, 3,
     ["standard output goes to m, which this job reads, and which `>` empties before the job begins"], [], {"m": MESH, "s": STEPS}, {"m": "", "t-000000.obj": None}),
    ("a log added to the mesh file, which stays", ["track", "m", "s", "t", ">>", "m"], None, 3, ["standard output goes to m, which this job reads"], [],
     {"m": MESH, "s": STEPS}, {"m": MESH, "t-000000.obj": None}),
    ("a log sent onto the steps", ["track", "m", "s", "t", ">", "s"], None, 3, ["standard output goes to s, which this job reads"], [],
     {"m": MESH, "s": STEPS}, {"s": "", "t-000000.obj": None}),
    ("a log that is measured onto itself", ["measure", "m", "l", ">", "l"], None, 3, ["standard output goes to l, which this job reads"], [], {"m": MESH, "l": LOG}, {"l": ""}),
    ("a measurement that is added to its log", ["measure", "m", "l", ">>", "l"], None, 3, ["standard output goes to l, which"], [], {"m": MESH, "l": LOG}, {"l": LOG}),
    ("a proof that is added to its log", ["prove", "m", "l", ">>", "./l"], None, 3, ["standard output goes to l, which"], [], {"m": MESH, "l": LOG}, {"l": LOG}),
    ("a verdict that is added to its proof", ["verify", "m", "l", "p", ">>", "p"], None, 3, ["standard output goes to p, which"], [],
     {"m": MESH, "l": LOG, "p": PROVED}, {"p": PROVED}),
    ("faults that are added to their mesh", ["check", "m.obj", ">>", "m.obj"], None, 3, ["standard output goes to m.obj, which"], [], {"m.obj": MESH}, {"m.obj": MESH}),
    ("a log sent where a link to a name leads that the job stores", ["track", "m", "s", "x", ">", "log"], None, 3, ["standard output goes to x-000001.obj, a name"], [],
     {"m": MESH, "s": STEPS, "x-000001.obj": "", "log": ("link", "x-000001.obj")}, {"log": ("link", "x-000001.obj"), "x-000000.obj": None, "x-000001.obj": ""}),
    ("a log sent where a name leads by a link that the job stores", ["track", "m", "s", "x", ">", "log"], None, 3, ["standard output goes to x-000001.obj, a name"], [],
     {"m": MESH, "s": STEPS, "log": "", "x-000001.obj": ("link", "log")}, {"x-000001.obj": ("link", "log"), "x-000000.obj": None, "log": ""}),
    ("a log sent to a second name of a mesh that the job stores", ["track", "m", "s", "x", ">", "log"], None, 3, ["standard output goes to x-000001.obj, a name"], [],
     {"m": MESH, "s": STEPS, "log": "", "x-000001.obj": ("hard", "log")}, {"x-000000.obj": None, "log": ""}),
    ("a link to a file: the file is replaced and the link stays", ["track", "m", "s", "t"], None, 0, [], ["warning"],
     {"m": MESH, "s": STEPS, "f": "old", "t-000000.obj": ("link", "f")}, {"t-000000.obj": ("link", "f"), "f": MESH}),
    ("a link to a link to a file in another folder", ["track", "m", "s", "t"], None, 0, [], ["warning"],
     {"m": MESH, "s": STEPS, "d/": None, "d/f": "old", "g": ("link", "d/f"), "t-000000.obj": ("link", "g")},
     {"t-000000.obj": ("link", "g"), "g": ("link", "d/f"), "d/f": MESH}),
    ("a link that leads to no file is replaced itself", ["track", "m", "s", "t"], None, 0, [], ["warning"],
     {"m": MESH, "s": STEPS, "t-000000.obj": ("link", "none")}, {"t-000000.obj": MESH, "none": None}),
    ("a link that leads into no folder is replaced itself", ["convert", "m.obj", "c.off"], None, 0, [], ["warning"],
     {"m.obj": MESH, "c.off": ("link", "none/c.off")}, {"c.off": OFF, "none": None}),
    ("a link that leads to itself", ["track", "m", "s", "t"], None, 3, ["t-000000.obj could not be stored"], [],
     {"m": MESH, "s": STEPS, "t-000000.obj": ("link", "t-000000.obj")}, {"t-000000.obj": ("link", "t-000000.obj")}),
    ("a link to a folder", ["track", "m", "s", "t"], None, 3, ["t-000000.obj could not be stored"], [],
     {"m": MESH, "s": STEPS, "d/": None, "t-000000.obj": ("link", "d")}, {"t-000000.obj": ("link", "d")}),
    ("a link to a pipe", ["track", "m", "s", "t"], None, 3, ["t-000000.obj could not be stored", "it is a pipe"], [],
     {"m": MESH, "s": STEPS, "p": ("pipe",), "t-000000.obj": ("link", "p")}, {"t-000000.obj": ("link", "p")}),
    ("a link to a device: it is written to", ["track", "m", "s", "t"], None, 0, [], ["warning"],
     {"m": MESH, "s": STEPS, "t-000000.obj": ("link", "/dev/null")}, {"t-000000.obj": ("link", "/dev/null"), "t-000001.obj": MOVED}),
    ("two links to one file: the mesh stored last stays", ["track", "m", "s", "t"], None, 0, [], ["warning"],
     {"m": MESH, "s": STEPS, "f": "old", "t-000000.obj": ("link", "f"), "t-000001.obj": ("link", "f")}, {"f": MOVED}),
    ("a mesh under the name of the second that is stored", ["track", "own-000001.obj", "s", "own"], None, 0, ["it is kept as own-000001.obj.before"], [],
     {"own-000001.obj": COMMENTED, "s": STEPS}, {"own-000001.obj": MOVED, "own-000001.obj.before": COMMENTED}),
    ("a second name of a file keeps what it had", ["track", "m", "s", "t"], None, 0, [], ["warning"],
     {"m": MESH, "s": STEPS, "f": "old", "t-000000.obj": ("hard", "f")}, {"t-000000.obj": MESH, "f": "old"}),
    ("a second name of the mesh file keeps what it had, and nothing is said", ["track", "m", "s", "t"], None, 0, [], ["warning"],
     {"m": COMMENTED, "s": STEPS, "t-000000.obj": ("hard", "m")}, {"t-000000.obj": MESH, "m": COMMENTED}),
    ("a link to the mesh file", ["track", "m", "s", "t"], None, 0, ["t-000000.obj was read and is overwritten: as it was, it is kept as t-000000.obj.before"], [],
     {"m": COMMENTED, "s": STEPS, "t-000000.obj": ("link", "m")}, {"t-000000.obj": ("link", "m"), "m": MESH, "t-000000.obj.before": COMMENTED}),
    ("a mesh, steps and a folder by links", ["track", "k", "l", "e/t"], None, 0, [], ["warning"],
     {"m": MESH, "s": STEPS, "d/": None, "k": ("link", "m"), "l": ("link", "s"), "e": ("link", "d")}, {"d/t-000001.obj": MOVED, "k": ("link", "m")}),
    ("a mesh by a link that leads to no file", ["track", "k", "s", "t"], None, 11, ["there is no file k"], [], {"s": STEPS, "k": ("link", "none")}, {"t-000000.obj": None}),
    ("an ending in capitals to be tracked", ["track", "M.OBJ", "s", "t"], None, 0, [], ["warning"], {"M.OBJ": MESH, "s": STEPS}, {"t-000001.obj": MOVED}),
    ("an ending in capitals to be looked at", ["check", "M.OBJ"], None, 2,
     ['"M.OBJ" ends neither in .obj nor in .off nor in .ply: an ending counts in small letters alone, so rename the file'], [], {"M.OBJ": MESH}, {}),
    ("an ending in capitals to be converted to", ["convert", "m.obj", "M.Off"], None, 2, ['"M.Off" ends neither in .obj', "small letters"], [], {"m.obj": MESH}, {"M.Off": None}),
    ("an ending that is none, in capitals or not", ["check", "m.STL"], None, 2, ['"m.STL" ends neither in .obj nor in .off nor in .ply'], ["small letters"], {}, {}),
    ("lines that end with CRLF", ["track", "m", "s", "t"], None, 0, [], ["warning"], {"m": CRLF(MESH), "s": CRLF(STEPS)}, {"t-000000.obj": MESH, "t-000001.obj": MOVED}),
    ("a mesh whose lines end with CRLF onto itself", ["convert", "m.obj", "m.obj"], None, 0, ["it is kept as m.obj.before"], [],
     {"m.obj": CRLF(MESH)}, {"m.obj": MESH, "m.obj.before": CRLF(MESH)}),
    ("a byte NUL in a comment", ["track", "m", "s", "t"], None, 0, [], ["warning"], {"m": "# \0\n" + MESH, "s": "# \0\n" + STEPS}, {"t-000001.obj": MOVED}),
    ("a byte NUL in a line of the mesh", ["track", "m", "s", "t"], None, 6, ['m, line 2: "\\0v 4 0 0"'], ["\0"], {"m": MESH.replace("v 4", "\0v 4"), "s": STEPS}, {"t-000000.obj": None}),
    ("a byte NUL in a number", ["track", "m", "s", "t"], None, 6, ["m, line 2"], ["\0"], {"m": MESH.replace("v 4", "v 4\0"), "s": STEPS}, {"t-000000.obj": None}),
    ("a mesh with bytes NUL at its end, as of a file that was cut off", ["check", "m.obj"], None, 6, ["m.obj, line 9"], ["\0"], {"m.obj": MESH + 4 * "\0"}, {}),
    ("a byte NUL in the steps", ["track", "m", "s", "t"], None, 9, ["s, line 1"], ["\0"], {"m": MESH, "s": STEPS.replace("3", "3\0")}, {"t-000000.obj": None}),
    ("a byte NUL in a log", ["measure", "m", "l"], None, 12, ["l, line 2"], ["\0"], {"m": MESH, "l": LOG.replace("4 4", "4 4\0", 1)}, {}),
    ("a byte NUL in a proof", ["verify", "m", "l", "p"], None, 14, ["p, line 1"], ["\0"], {"m": MESH, "l": LOG, "p": PROVED.replace("1", "1\0", 1)}, {}),
    ("a card that is made", [*FILES, "--card", "c"], None, 0, [], ["warning"], {"m": MESH, "s": STEPS}, {"c": CARD, "t-000001.obj": MOVED}),
    ("a card that is made of decimals", ["track", "--card=c", "--decimals=2", "m", "s", "t"], None, 0, [], ["warning"], {"m": MESH, "s": STEPS},
     {"c": card_of(log=LOG, decimals=2)}),
    ("a card of a run that is refused", [*FILES, "--card", "c"], None, 10, ["there is no vertex 5 here"], [], {"m": MESH, "s": "shift 5 1 0 0\n"},
     {"c": card_of(steps="shift 5 1 0 0\n", log="topo log 2\nmesh 0 4 4\nrefused use 1 vertex 5\n")}),
    ("no card where the steps are missing", [*FILES, "--card", "c"], None, 11, ["there is no file s"], [], {"m": MESH}, {"c": None}),
    ("a card in place of the mesh file", [*FILES, "--card", "m"], None, 0, ["m was read and is overwritten: as it was, it is kept as m.before"], [],
     {"m": MESH, "s": STEPS}, {"m": CARD, "m.before": MESH}),
    ("a card that can not be stored", [*FILES, "--card", "d"], None, 3, ["d could not be stored"], [], {"m": MESH, "s": STEPS, "d/": None}, {"t-000001.obj": MOVED}),
    ("a log that is sent to its card", [*FILES, "--card", "c", ">", "c"], None, 3, ["standard output goes to c"], [], {"m": MESH, "s": STEPS}, {"t-000000.obj": None}),
    ("a log with its card", ["replay", "m", "l", "r", "--card", "c"], None, 0, [], ["warning"], CARDED, {"r-000001.obj": MOVED}),
    ("a card of another version of the program", ["measure", "--card", "c", "m", "l"], None, 0, [], ["warning"], {**CARDED, "c": card_of(program="7.0.12")}, {}),
    ("another mesh that is replayed", ["replay", "m", "l", "r", "--card", "c"], None, 16, ["the card c is that of another mesh than m"], [],
     {**CARDED, "m": MOVED}, {"r-000000.obj": None}),
    ("another mesh that is verified", ["verify", "m", "l", "p", "--card", "c"], None, 16, ["another mesh than m"], [], {**CARDED, "m": MOVED, "p": PROVED}, {}),
    ("the mesh with another comment", ["prove", "m", "l", "--card", "c"], None, 16, ["another mesh than m"], [], {**CARDED, "m": COMMENTED}, {}),
    ("other decimals that are measured", ["measure", "m", "l", "--decimals", "2", "--card", "c"], None, 16, ["other decimals: call it with `--decimals 0`"], [],
     CARDED, {}),
    ("a log that was cut", ["measure", "m", "l", "--card", "c"], None, 16, ["the card c is that of another log than l"], ["warning"], {**CARDED, "l": LOG[:-4]}, {}),
    ("an empty log with a card", ["measure", "m", "l", "--card", "c"], None, 16, ["another log than l"], [], {**CARDED, "l": ""}, {}),
    ("a card that was cut", ["measure", "m", "l", "--card", "c"], None, 16, ["c, line 5: a card has `steps`"], [], {**CARDED, "c": CARD[: CARD.index("log ") - 9]}, {}),
    ("a card without its last line feed", ["measure", "m", "l", "--card", "c"], None, 16, ["c, line 7: a card has `end`"], [], {**CARDED, "c": CARD[:-1]}, {}),
    ("a card with a line too much", ["measure", "m", "l", "--card", "c"], None, 16, ["c, line 8: a card has nothing there"], [], {**CARDED, "c": CARD + "\n"}, {}),
    ("a card in another format", ["measure", "m", "l", "--card", "c"], None, 16, ["c, line 1: a card has `topo card 1` there"], [],
     {**CARDED, "c": CARD.replace("card 1", "card 2")}, {}),
    ("a card whose lines end with CRLF", ["measure", "m", "l", "--card", "c"], None, 16, ["c, line 1: a card has `topo card 1` there"], [], {**CARDED, "c": CRLF(CARD)}, {}),
    ("a card with great hex digits", ["measure", "m", "l", "--card", "c"], None, 16, ["c, line 4: a card has `mesh`"], [],
     {**CARDED, "c": CARD.replace(CARD.split()[9], CARD.split()[9].upper())}, {}),
    ("a card with a needless zero", ["measure", "m", "l", "--card", "c"], None, 16, ["c, line 4: a card has `mesh`"], [], {**CARDED, "c": CARD.replace("mesh ", "mesh 0")}, {}),
    ("a card of seven decimals", ["measure", "m", "l", "--card", "c"], None, 16, ["c, line 3: a card has `decimals`"], [], {**CARDED, "c": card_of(decimals=7)}, {}),
    ("a log in place of its card", ["measure", "m", "l", "--card", "l"], None, 16, ["l, line 1: a card has `topo card 1` there"], [], CARDED, {}),
    ("a card that is missing", ["replay", "m", "l", "r", "--card", "c"], None, 11, ["there is no file c"], [], {"m": MESH, "l": LOG}, {"r-000000.obj": None}),
    ("a folder in place of the card", ["measure", "m", "l", "--card", "d"], None, 3, ["d could not be"], [], {"m": MESH, "l": LOG, "d/": None}, {}),
    ("a card without a name", ["measure", "m", "l", "--card"], None, 2, ['"--card"'], [], CARDED, {}),
    ("two cards", ["measure", "m", "l", "--card", "c", "--card", "c"], None, 2, ['"--card"'], [], CARDED, {}),
    ("a card behind dashes", ["measure", "--", "m", "l", "--card", "c"], None, 2, ['"--card" stands after `--`'], [], CARDED, {}),
    ("a card of a command that has none", ["check", "m.obj", "--card", "c"], None, 2, ['"--card"'], [], {"m.obj": MESH, "c": CARD}, {}),
    ("a pipe that nobody writes, in place of a mesh to be stored", ["convert", "m.obj", "p.off"], None, 3, ["p.off could not be stored", "it is a pipe"], [],
     {"m.obj": MESH, "p.off": ("pipe",)}, {"p.off": ("pipe",)}),
]


def hash_of(name):
    """The hash in the names of the files in which a store is made."""
    value = 0xCBF29CE484222325
    for byte in name.encode():
        value = (value ^ byte) * 0x100000001B3 % 2**64
    return f"{value:016x}"


def put(path, what):
    """Makes what stands under a name, as LINKS says it; whoever runs the program may write it."""
    if what is None:
        os.mkdir(path)
    elif isinstance(what, str):
        with open(path, "w", newline="") as out:
            out.write(what)
    elif what[0] == "link":
        os.symlink(what[1], path)
        return
    elif what[0] == "hard":
        os.link(os.path.join(os.path.dirname(path), what[1]), path)
    else:
        os.mkfifo(path)
    os.chmod(path, 0o777 if what is None else 0o666)


def standing(path):
    """What stands under a name, as LINKS says it behind a case."""
    if os.path.islink(path):
        return "link", os.readlink(path)
    if os.path.isfile(path):
        with open(path, newline="") as it:
            return it.read()
    return ("pipe",) if os.path.exists(path) and not os.path.isdir(path) else None


def said_as_due(program, it):
    """Whether a sentence of a case of TOLD or LINKS is as it should be, and what stands behind it; else what is wrong."""
    _, words, given, status, due, undue, before, behind = it
    with tempfile.TemporaryDirectory() as folder:
        os.chmod(folder, 0o777)
        for name, what in before.items():
            put(os.path.join(folder, name), what)
        # a pipe that whoever runs the program may open by the name of standard input
        reading, writing = os.pipe()
        os.fchmod(reading, 0o666)
        os.write(writing, (given or "").encode())
        os.close(writing)
        out = subprocess.PIPE
        if words[-2] in (">", ">>"):
            out = open(os.path.join(folder, words[-1]), {">": "wb", ">>": "ab"}[words[-2]])
            os.fchmod(out.fileno(), 0o666)
            words = words[:-2]
        ended = subprocess.run([program, *words], cwd=folder, stdin=reading, stdout=out, stderr=subprocess.PIPE, timeout=60, **NOBODY)
        os.close(reading)
        if out != subprocess.PIPE:
            out.close()
        told = ended.stderr.decode(errors="replace")
        if ended.returncode != status or not all(text in told for text in due) or any(text in told for text in undue):
            return f"status {ended.returncode}, {status} was due; {told!r}"
        for name, what in behind.items():
            if standing(os.path.join(folder, name)) != what:
                return f"{name} is another file; {told!r}"
        if parts(folder):
            return f"{parts(folder)} are left"
    return None


def left_behind(program):
    """Whether what a dead run left is taken away, and what a living run has locked or what is no file stays; else what is wrong."""
    with tempfile.TemporaryDirectory() as folder:
        os.chmod(folder, 0o777)
        names = [os.path.join(folder, f".topo-{hash_of('t-000000.obj')}-{number}.part") for number in range(4)]
        for name in names[:2]:
            with open(name, "w") as out:
                out.write("a part")
            os.chmod(name, 0o666)
        os.symlink("mesh.obj", names[2])
        os.mkfifo(names[3])
        for name, text in (("mesh.obj", MESH), ("steps.txt", STEPS)):
            with open(os.path.join(folder, name), "w") as out:
                out.write(text)
        with open(names[1]) as held:
            fcntl.flock(held, fcntl.LOCK_EX)
            ended = subprocess.run([program, "track", "mesh.obj", "steps.txt", "t"], cwd=folder, capture_output=True, timeout=60, **NOBODY)
        is_there = [os.path.lexists(name) for name in names]
        with open(os.path.join(folder, "mesh.obj")) as mesh:
            kept = mesh.read() == MESH
        others = [name for name in parts(folder) if name not in names]
        if ended.returncode == 0 and is_there == [False, True, True, True] and kept and not others:
            return None
        return f"status {ended.returncode}; {is_there}; {others}; {ended.stderr!r}"


def past_the_limit(program):
    """Whether a file that is longer than the system allows is refused, and one that is not is stored; else what is wrong."""
    with tempfile.TemporaryDirectory() as folder:
        os.chmod(folder, 0o777)
        for name, text in (("mesh.obj", MESH), ("steps.txt", STEPS)):
            with open(os.path.join(folder, name), "w") as out:
                out.write(text)
        for most, status in ((len(MESH) - 1, 3), (len(MESH), 0)):
            limit = lambda: resource.setrlimit(resource.RLIMIT_FSIZE, (most, most))
            ended = subprocess.run([program, "track", "mesh.obj", "steps.txt", "t"], cwd=folder, capture_output=True, timeout=60, preexec_fn=limit, **NOBODY)
            if ended.returncode != status or os.path.exists(os.path.join(folder, "t-000000.obj")) != (status == 0):
                return f"status {ended.returncode}, {status} was due; {ended.stderr!r}"
    return None


def ends_closed(program):
    """Whether a job whose outputs or input are closed, so that a file may get their numbers, has nothing of them in its files; else what is wrong."""
    whole = {"x-000000.obj": MESH, "x-000001.obj": MOVED, "x-000000.obj.before": COMMENTED, "s": STEPS}
    for shut, status, log, files in ((">&-", 4, "", {"x-000000.obj": COMMENTED, "s": STEPS}), ("2>&-", 0, LOG, whole), ("<&-", 0, LOG, whole), ("<&- 2>&-", 0, LOG, whole), ("<&- >&- 2>&-", 4, "", {"x-000000.obj": COMMENTED, "s": STEPS})):
        with tempfile.TemporaryDirectory() as folder:
            os.chmod(folder, 0o777)
            put(os.path.join(folder, "x-000000.obj"), COMMENTED)
            put(os.path.join(folder, "s"), STEPS)
            ended = subprocess.run(["sh", "-c", f'exec "$0" track x-000000.obj s x {shut}', program], cwd=folder, capture_output=True, timeout=60, **NOBODY)
            there = {name: standing(os.path.join(folder, name)) for name in os.listdir(folder)}
            if (ended.returncode, ended.stdout.decode(), there) != (status, log, files):
                return f"with {shut} status {ended.returncode}; {ended.stdout!r}; {there}"
    return None


# what a terminal is told of jobs that may take long: what is asked, its words, what standard input has, and what has to be told
WAITED = [
    ("a long mesh that is looked at", ["check", "great.obj"], None, ["reading great.obj", f"looking for what is wrong with {4 * MANY} faces of great.obj"]),
    ("a long mesh that is converted", ["convert", "great.obj", "open/great.ply"], None,
     ["reading great.obj", f"converting {4 * MANY} faces of great.obj", "storing open/great.ply"]),
    ("a long mesh in another format", ["check", "great.off"], None, ["reading great.off", f"looking for what is wrong with {8 * MANY + 2} lines of great.off"]),
    ("a log of a long mesh that is measured", ["measure", "great.obj", "great_log.txt"], None, ["reading great.obj", f"testing {4 * MANY} faces of great.obj at rest"]),
    ("a long mesh that is tracked", ["track", "great.obj", "steps.txt", "open/great"], None,
     ["reading great.obj", f"testing {4 * MANY} faces of great.obj at rest", "storing open/great-000000.obj", "step 1 of 1, 3 lines of the log", "storing open/great-000001.obj"]),
    ("long steps", ["track", "mesh.obj", "long_steps.txt", "open/long"], None,
     ["reading long_steps.txt", f"reading {(2 << 20) + 2} lines of long_steps.txt", "step 1 of 1,"]),
    ("a log that is replayed", ["replay", "mesh.obj", "long_log.txt", "open/long"], None, ["256 of 310 lines of the log are taken (82 %)"]),
    ("a log that is measured", ["measure", "mesh.obj", "long_log.txt"], None, ["256 of 310 lines of the log are taken (82 %)"]),
    ("a log that is verified", ["verify", "mesh.obj", "long_log.txt", "long_proof.txt"], None, ["256 of 310 lines of the log are taken (82 %)"]),
    ("a job that is made", ["try", "4", "0"], None, ["a job of 4 * 4 * 4 cubes is made and run"]),
    ("a mesh from a pipe that is slow", ["track", "/dev/stdin", "steps.txt", "open/slow"], MESH, ["reading /dev/stdin"]),
]


def told_while_waiting(program, folder):
    """What is wrong with what a terminal is told of jobs that may take long, a sentence each; none where standard error is no terminal."""
    wrong = []
    for what, words, given, due in WAITED:
        status, wrote, told = on_terminal([program, *words], folder, False, given)
        told, ends = told.removesuffix("\r\x1b[K"), told.endswith("\r\x1b[K")
        if status != 0 or not ends or not all(f"\r{text}" in told for text in due) or not told.startswith(f"\r{due[0]}") or "\n" in told:
            wrong.append(f"{what}: status {status}; {told!r}")
    status, _, told = on_terminal([program, "check", "great.obj"], folder, True)
    if status != 0 or "looking" not in told or not told.endswith(f"\r\x1b[Kchecked {4 * MANY} {4 * MANY} faults 0\n"):
        wrong.append(f"a terminal for both, of a long mesh: {told!r}")
    ended = subprocess.run([program, "convert", "great.obj", "open/great.ply"], cwd=folder, capture_output=True, timeout=60, **NOBODY)
    if ended.returncode != 0 or ended.stderr:
        wrong.append(f"no terminal, of a long mesh: {ended.stderr!r}")
    return "; ".join(wrong) or None


def named_at_status_4(program, folder):
    """Whether the sentence of status 4 has what the system said; else what is wrong."""
    shut = lambda: os.open("/dev/null", os.O_RDONLY)
    for what, to, due in (("full", lambda: os.open("/dev/full", os.O_WRONLY), "No space left"), ("broken", closed_pipe, "Broken pipe"), ("read", shut, "Bad file descriptor")):
        for words in (JOB, ["measure", "mesh.obj", "log.txt"], ["try", "1", "0"], ["--help"]):
            out = to()
            words = [f"open/{it}" if it == "t" else it for it in words]
            ended = subprocess.run([program, *words], cwd=folder, stdout=out, stderr=subprocess.PIPE, timeout=60, **NOBODY)
            os.close(out)
            told = ended.stderr.decode()
            if ended.returncode != 4 or not told.startswith(f"topo: standard output could not be written ({due}"):
                return f"{what}: {words[0]}: {told!r}"
    return None


def slow_reader(program, folder):
    """Whether a pipe that does not block, is small and read late has the whole log; else what is wrong."""
    reading, writing = os.pipe()
    fcntl.fcntl(writing, fcntl.F_SETPIPE_SZ, 4096)
    os.set_blocking(writing, False)
    with subprocess.Popen([program, "track", "mesh.obj", "many_steps.txt", "open/many"], cwd=folder, stdout=writing, stderr=subprocess.PIPE, **NOBODY) as run:
        os.close(writing)
        time.sleep(0.5)
        wrote = b""
        while more := os.read(reading, 4096):
            wrote += more
        os.close(reading)
        told = run.stderr.read()
    if run.returncode != 0 or told or not wrote.endswith(b"step 400\nmove 1 1 0 0\nmove 2 1 0 0\nmove 3 1 0 0\nmove 4 1 0 0\nmoved whole\nmesh 1 4 4\nend\n"):
        return f"status {run.returncode}; {len(wrote)} bytes; {told!r}"
    return None


def spared_in_vain(program):
    """Whether of a text that can not be overwritten nothing is told or left as if it were; else what is wrong."""
    with tempfile.TemporaryDirectory() as folder:
        os.chmod(folder, 0o777)
        put(os.path.join(folder, "h.obj"), COMMENTED)
        os.chmod(os.path.join(folder, "h.obj"), 0o444)
        ended = subprocess.run([program, "convert", "h.obj", "h.obj"], cwd=folder, capture_output=True, timeout=60, **NOBODY)
        if ended.returncode != 3 or b"h.obj could not be stored" not in ended.stderr or b"overwritten" in ended.stderr or os.listdir(folder) != ["h.obj"]:
            return f"status {ended.returncode}; {ended.stderr!r}; {os.listdir(folder)}"
    return None


def main():
    given = words_of(reader_of(__doc__)).program
    program = PROGRAM if given == TOPO else given
    failed = 0
    with tempfile.TemporaryDirectory() as folder, contextlib.ExitStack() as at_end:
        os.chmod(folder, 0o755)
        at = lambda name: os.path.join(folder, name)
        shutil.copy(program, at("topo"))
        os.chmod(at("topo"), 0o755)
        with open(at("mesh.obj"), "w") as out:
            out.write(MESH)
        with open(at("steps.txt"), "w") as out:
            out.write(STEPS)
        great = GREAT.splitlines()
        off = f"OFF\n{4 * MANY} {4 * MANY} 0\n" + "".join(f"{line[2:]}\n" for line in great if line[0] == "v")
        off += "".join(f"3 {' '.join(str(int(id) - 1) for id in line.split()[1:])}\n" for line in great if line[0] == "f")
        long_proof = "topo proof 1\nmotion 8 along\n" + "".join(f"motion {k} along\n" for k in range(12, 310, 3)) + "end\n"
        for name, text in (
            ("log.txt", LOG), ("long_log.txt", LONG_LOG), ("proof.txt", PROVED), ("long_proof.txt", long_proof), ("great.obj", GREAT), ("great.off", off),
            ("great_log.txt", GREAT_LOG), ("long_steps.txt", (2 << 20) * "\n" + "step\nsave\n"), ("many_steps.txt", MANY_STEPS),
        ):
            with open(at(name), "w") as out:
                out.write(text)
        os.mkdir(at("folder"))
        os.mkdir(at("taken-000000.obj"))
        with open(at("long.obj"), "wb") as out:
            out.truncate((64 << 20) + 1)
        with open(at("secret.obj"), "w") as out:
            out.write(MESH)
        os.chmod(at("secret.obj"), 0o000)
        os.mkdir(at("shut"))
        os.mkdir(at("open"))
        os.chmod(at("open"), 0o777)
        # files that are the mesh and its own name as the first one that is stored: in a folder that may be written, in one that
        # may not, one that may not be written itself, and one that a link leads to
        for name in ("shut/own-000000.obj", "open/own-000000.obj", "open/locked-000000.obj", "open/behind.obj"):
            with open(at(name), "w") as out:
                out.write(COMMENTED)
            os.chmod(at(name), 0o666)
        os.chmod(at("open/locked-000000.obj"), 0o444)
        os.symlink("behind.obj", at("open/link-000000.obj"))
        with open(at("open/own-000000.obj.0.part"), "w") as out:
            out.write("of someone else")
        os.mkfifo(at("open/pipe-000000.obj"))
        os.chmod(at("open/pipe-000000.obj"), 0o666)
        os.chmod(at("shut"), 0o555)
        device = small_device(at("device"))
        if device:
            at_end.callback(subprocess.run, ["umount", at("device")], check=True)
        os.symlink("/dev/full", at("full-000000.obj"))
        os.symlink("locked-000000.obj", at("open/through-000000.obj"))
        os.symlink("../shut/own-000000.obj", at("open/into-000000.obj"))
        os.symlink("/dev/full", at("open/late-000001.obj"))
        cases = [
            # what is asked, its words, where standard output goes, its status, the last line of the log where it tells one, and
            # perhaps what files hold at the end
            ("the job is done", JOB, None, 0, "end"),
            ("no words", [], None, 2, None),
            ("an unknown word", ["trick"], None, 2, None),
            ("too few words", ["track", "mesh.obj", "steps.txt"], None, 2, None),
            ("seven decimals", [*JOB, "--decimals", "7"], None, 2, None),
            ("an empty word", ["track", "", "steps.txt", "t"], None, 2, None),
            ("a word with a dash", ["track", "mesh.obj", "-s", "t"], None, 2, None),
            ("a word that is no text", ["track", b"\xff\xfe", "steps.txt", "t"], None, 2, None),
            ("a generated job", ["try", "1", "0"], None, 0, None),
            ("no generated job", ["try", "0", "0"], None, 2, None),
            ("a generated job to a full device", ["try", "1", "0"], lambda: os.open("/dev/full", os.O_WRONLY), 4, None),
            ("help", ["--help"], None, 0, None),
            ("help, short", ["-h"], None, 0, None),
            ("version", ["--version"], None, 0, None),
            ("help of a command", ["track", "--help"], None, 0, None),
            ("help of a generated job", ["try", "--help"], None, 0, None),
            ("help among other words", ["track", "--help", "mesh.obj"], None, 2, None),
            ("help of a measurement", ["measure", "--help"], None, 0, None),
            ("a log that is measured", ["measure", "mesh.obj", "log.txt"], None, 0, "end"),
            ("a log that is measured to a full device", ["measure", "mesh.obj", "log.txt"], lambda: os.open("/dev/full", os.O_WRONLY), 4, None),
            ("no such log", ["measure", "mesh.obj", "none.txt"], None, 11, "refused missing log"),
            ("a log of 64 MiB and a byte", ["measure", "mesh.obj", "long.obj"], None, 5, "refused long log 67108865"),
            ("the same with --large", ["measure", "mesh.obj", "long.obj", "--large"], None, 12, "refused log 1 unknown"),
            ("--large for a command that has none", ["try", "--large", "1", "0"], None, 2, None),
            ("--large twice", [*JOB, "--large", "--large"], None, 2, None),
            ("a folder in place of the log", ["measure", "mesh.obj", "folder"], None, 3, None),
            ("steps in place of the log", ["measure", "mesh.obj", "steps.txt"], None, 12, "refused log 1 unknown"),
            ("help of a proof", ["prove", "--help"], None, 0, None),
            ("a log that is proved", ["prove", "mesh.obj", "log.txt"], None, 0, "end"),
            ("a log that is proved to a full device", ["prove", "mesh.obj", "log.txt"], lambda: os.open("/dev/full", os.O_WRONLY), 4, None),
            ("no such log to be proved", ["prove", "mesh.obj", "none.txt"], None, 11, "refused missing log"),
            ("help of a check", ["verify", "-h"], None, 0, None),
            ("a proof", ["verify", "mesh.obj", "log.txt", "proof.txt"], None, 0, "verified 1"),
            ("a proof that is checked to a full device", ["verify", "mesh.obj", "log.txt", "proof.txt"], lambda: os.open("/dev/full", os.O_WRONLY), 4, None),
            ("no such proof", ["verify", "mesh.obj", "log.txt", "none.txt"], None, 11, "refused missing proof"),
            ("a proof of 64 MiB and a byte", ["verify", "mesh.obj", "log.txt", "long.obj"], None, 5, "refused long proof 67108865"),
            ("a folder in place of the proof", ["verify", "mesh.obj", "log.txt", "folder"], None, 3, None),
            ("the log in place of the proof", ["verify", "mesh.obj", "log.txt", "log.txt"], None, 14, "refused proof 1 number"),
            ("help of a replay", ["replay", "--help"], None, 0, None),
            ("a log that is replayed", ["replay", "mesh.obj", "log.txt", "open/again"], None, 0, "replayed 2", {"open/again-000000.obj": MESH}),
            ("a log of which another mesh is replayed", ["replay", "mesh.obj", "log.txt", "open/none", "--only", "7"], None, 0, None,
             {"open/none-000000.obj": None}),
            ("a log that is replayed to a full device", ["replay", "mesh.obj", "log.txt", "open/told"], lambda: os.open("/dev/full", os.O_WRONLY), 4, None,
             {"open/told-000000.obj": MESH}),
            ("a log that is replayed to a folder that may not be written", ["replay", "mesh.obj", "log.txt", "shut/t"], None, 3, None),
            ("no such log to be replayed", ["replay", "mesh.obj", "none.txt", "open/no"], None, 11, "refused missing log", {"open/no-000000.obj": None}),
            ("steps in place of the log to be replayed", ["replay", "mesh.obj", "steps.txt", "open/no"], None, 12, "refused log 1 unknown"),
            ("help of a look at a mesh", ["check", "-h"], None, 0, None),
            ("a mesh that is looked at", ["check", "mesh.obj"], None, 0, "checked 4 4 faults 0"),
            ("a mesh that is looked at to a full device", ["check", "mesh.obj"], lambda: os.open("/dev/full", os.O_WRONLY), 4, None),
            ("no such mesh to look at", ["check", "none.obj"], None, 11, "refused missing mesh"),
            ("a mesh to look at of 64 MiB and a byte", ["check", "long.obj"], None, 5, "refused long mesh 67108865"),
            ("the same mesh with --large", ["check", "--large", "long.obj"], None, 6, "refused mesh 1 unknown"),
            ("a mesh to look at of no format", ["check", "steps.txt"], None, 2, None),
            ("a mesh to look at that may not be read", ["check", "secret.obj"], None, 3, None),
            ("a mesh that is converted", ["convert", "mesh.obj", "open/c.obj"], None, 0, "converted 4 4", {"open/c.obj": MESH}),
            ("a mesh that is converted, to a full device", ["convert", "mesh.obj", "open/d.obj"], lambda: os.open("/dev/full", os.O_WRONLY), 4, None, {"open/d.obj": MESH}),
            ("a mesh that is converted to a folder that may not be written", ["convert", "mesh.obj", "shut/c.obj"], None, 3, None),
            ("a mesh that is converted onto a full device", ["convert", "mesh.obj", "device/c.obj"], None, 3, None, {"device/c.obj": None}),
            ("no such mesh to be converted", ["convert", "none.obj", "open/n.obj"], None, 11, "refused missing mesh", {"open/n.obj": None}),
            ("a mesh to be converted of 64 MiB and a byte", ["convert", "long.obj", "open/n.obj"], None, 5, "refused long mesh 67108865", {"open/n.obj": None}),
            ("a mesh to be converted that may not be read", ["convert", "secret.obj", "open/n.obj"], None, 3, None, {"open/n.obj": None}),
            ("no such mesh file", ["track", "none.obj", "steps.txt", "t"], None, 11, "refused missing mesh"),
            ("no such step file", ["track", "mesh.obj", "none.txt", "t"], None, 11, "refused missing steps"),
            ("a mesh file in no folder", ["track", "nowhere/mesh.obj", "steps.txt", "t"], None, 11, "refused missing mesh"),
            ("a mesh file that may not be read", ["track", "secret.obj", "steps.txt", "t"], None, 3, "topo log 2"),
            ("a folder in place of the mesh file", ["track", "folder", "steps.txt", "t"], None, 3, "topo log 2"),
            ("a folder in place of the step file", ["track", "mesh.obj", "folder", "t"], None, 3, "topo log 2"),
            ("a mesh file of 64 MiB and a byte", ["track", "long.obj", "steps.txt", "t"], None, 5, "refused long mesh 67108865"),
            ("a step file of 64 MiB and a byte", ["track", "mesh.obj", "long.obj", "t"], None, 5, "refused long steps 67108865"),
            ("a step file of 64 MiB and a byte, with --large", ["track", "mesh.obj", "long.obj", "t", "--large"], None, 9, "refused steps 1 unknown"),
            ("a mesh file without end", ["track", "/dev/zero", "steps.txt", "t"], None, 5, "refused long mesh"),
            ("a prefix in no folder", ["track", "mesh.obj", "steps.txt", "nowhere/t"], None, 3, "mesh 0 4 4"),
            ("a prefix in a file", ["track", "mesh.obj", "steps.txt", "mesh.obj/t"], None, 3, "mesh 0 4 4"),
            ("a folder that may not be written", ["track", "mesh.obj", "steps.txt", "shut/t"], None, 3, "mesh 0 4 4"),
            ("a folder in place of a mesh to be stored", ["track", "mesh.obj", "steps.txt", "taken"], None, 3, "mesh 0 4 4"),
            ("a full device for the first mesh", ["track", "mesh.obj", "steps.txt", "full"], None, 3, "mesh 0 4 4"),
            ("a full device for the second mesh", ["track", "mesh.obj", "steps.txt", "open/late"], None, 3, "mesh 1 4 4"),
            ("a name longer than names may be", ["track", "mesh.obj", "steps.txt", "open/" + 300 * "t"], None, 3, "mesh 0 4 4"),
            ("a name as long as names may be", ["track", "mesh.obj", "steps.txt", "open/" + 244 * "n"], None, 0, "end",
             {"open/" + 244 * "n" + "-000000.obj": MESH}),
            ("a pipe in place of a mesh to be stored", ["track", "mesh.obj", "steps.txt", "open/pipe"], None, 3, "mesh 0 4 4"),
            ("the input's own name", ["track", "open/own-000000.obj", "steps.txt", "open/own"], None, 0, "end",
             {"open/own-000000.obj": MESH, "open/own-000000.obj.0.part": "of someone else"}),
            ("the input's own name in a folder that may not be written", ["track", "shut/own-000000.obj", "steps.txt", "shut/own"], None, 3, "mesh 0 4 4",
             {"shut/own-000000.obj": COMMENTED}),
            ("the input's own name, which may not be written", ["track", "open/locked-000000.obj", "steps.txt", "open/locked"], None, 3, "mesh 0 4 4",
             {"open/locked-000000.obj": COMMENTED}),
            ("a link to a file that may not be written", ["track", "mesh.obj", "steps.txt", "open/through"], None, 3, "mesh 0 4 4",
             {"open/locked-000000.obj": COMMENTED}),
            ("a link to a file in a folder that may not be written", ["track", "mesh.obj", "steps.txt", "open/into"], None, 3, "mesh 0 4 4",
             {"shut/own-000000.obj": COMMENTED}),
            ("the input's own name, which is a link", ["track", "open/link-000000.obj", "steps.txt", "open/link"], None, 0, "end",
             {"open/behind.obj": MESH}),
            ("the input's own name on a full device", ["track", "device/t-000000.obj", "steps.txt", "device/t"], None, 3, "mesh 0 4 4",
             {"device/t-000000.obj": MESH, "device/steps.txt": STEPS}),
            ("a new name on a full device", ["track", "device/t-000000.obj", "steps.txt", "device/new"], None, 3, "mesh 0 4 4",
             {"device/t-000000.obj": MESH, "device/new-000000.obj": None}),
            ("a full device for the log", JOB, lambda: os.open("/dev/full", os.O_WRONLY), 4, None),
            ("a closed pipe", JOB, closed_pipe, 4, None),
            ("help to a full device", ["--help"], lambda: os.open("/dev/full", os.O_WRONLY), 4, None),
        ]
        if not device:
            print("skipped: the cases on a full device, since nothing can be mounted here")
            cases = [case for case in cases if not any("device/" in str(word) for word in case[1])]
        beside = parts(folder)
        for what, words, to, status, end, *files in cases:
            words = [f"open/{it}" if it == "t" else it for it in words]
            out = to() if to else subprocess.PIPE
            ended = subprocess.run([at("topo"), *words], cwd=folder, stdout=out, stderr=subprocess.PIPE, timeout=60, **NOBODY)
            if to:
                os.close(out)
            last = ended.stderr.decode(errors="replace").split("\n")[-2:-1]
            told = last == [f"topo: status {status}"] if status else all(line.startswith("topo: warning: ") for line in last)
            wrote = (ended.stdout or b"").decode(errors="replace")
            front, _, tail = wrote.removesuffix("\n").rpartition("\n")
            # what stands before a refusal, and the whole output
            before, whole = ("", WHOLE[words[0]]) if words and words[0] in WHOLE else ("topo log 2", LOG)
            if end is None:
                is_due = status == 0 or wrote == ""
            elif end.startswith("refused"):
                is_due = front == before and tail.startswith(end) and wrote.endswith("\n")
            else:
                is_due = tail == end and whole.startswith(wrote)
            holds = all((open(at(name)).read() if os.path.isfile(at(name)) else None) == text for name, text in (files[0] if files else {}).items())
            good = ended.returncode == status and told and is_due and holds and parts(folder) == beside
            failed += not good
            print(("ok     " if good else "FAILED ") + f"{what}: status {ended.returncode}" + ("" if good else f", {status} was due; {last}; {wrote[-200:]!r}; {'files as due' if holds else 'other files'}; {parts(folder)}"))
        job = [at("topo"), "track", "mesh.obj", "steps.txt", "open/t"]
        status, wrote, told = on_terminal(job, folder, False)
        shown = status == 0 and wrote == LOG and told.startswith("\rstep 1 of 1, 3 lines of the log") and told.endswith("\r\x1b[K")
        print(("ok     " if shown else "FAILED ") + "a terminal for standard error alone: it tells how far the log has come, and is wiped" + ("" if shown else f"; {told!r}"))
        status, _, told = on_terminal(job, folder, True)
        alone = status == 0 and told == LOG
        print(("ok     " if alone else "FAILED ") + "a terminal for both: it has the log alone" + ("" if alone else f"; {told!r}"))
        failed += (not shown) + (not alone)
        job = [at("topo"), "prove", "mesh.obj", "long_log.txt"]
        status, proof, told = on_terminal(job, folder, False)
        shown = status == 0 and proof.endswith("\nend\n") and told.startswith("\r256 of 310 lines of the log are taken (82 %)") and told.endswith("\r\x1b[K")
        print(("ok     " if shown else "FAILED ") + "a terminal for standard error alone: it tells how much of a log is proved, and is wiped" + ("" if shown else f"; {told!r}"))
        failed += not shown
        pieces = pieces_of([at("topo"), "track", "mesh.obj", "steps.txt", "open/t"], folder)
        apart = pieces == LOG.splitlines(keepends=True)
        print(("ok     " if apart else "FAILED ") + "a pipe that keeps calls apart: each line of the log is written by one" + ("" if apart else f"; {pieces!r}"))
        failed += not apart
        further = [(it[0], said_as_due(at("topo"), it)) for it in TOLD + LINKS]
        further.append(("jobs that may take long", told_while_waiting(at("topo"), folder)))
        further.append(("what the system said where standard output could not be written", named_at_status_4(at("topo"), folder)))
        further.append(("a pipe that does not block", slow_reader(at("topo"), folder)))
        further.append(("a text that is spared in vain", spared_in_vain(at("topo"))))
        further.append(("files that other runs left or are writing", left_behind(at("topo"))))
        further.append(("a file past the limit of the system", past_the_limit(at("topo"))))
        further.append(("outputs and the input closed", ends_closed(at("topo"))))
        for what, wrong in further:
            print(f"FAILED {what}: {wrong}" if wrong else f"ok     {what}")
            failed += wrong is not None
    print(f"{len(cases) + 4 + len(further) - failed} as they should be, {failed} not")
    sys.exit(1 if failed else 0)


if __name__ == "__main__":
    main()
