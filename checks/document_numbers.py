"""What `documents.py` asks of numbers in the documents: each is compared with the code, or is of a kind told here."""

import math
import os
import re

ROOT = os.path.dirname(os.path.dirname(os.path.abspath(__file__)))

# The pages whose subject is what was measured or tried; docs/CRATES.md is compared with the crates as a whole.
MEASURED = ("docs/SPEED.md", "docs/HARDENING.md", "docs/SIMULATIONS.md", "bench/README.md", "CHANGELOG.md")
WHOLE = ("docs/CRATES.md",)
# The pages of examples: a number stands in the text that its section shows, or in a file that it names.
EXAMPLES = ("docs/EXAMPLES.md", "examples/droplet/README.md")

# Numbers of the code that are no public constants: the file, and the text before and after each.
PLACES = {
    "depth_at_first": ("crates/step_choose/src/settings.rt", r"depth: (\d+),"),
    "passes_at_first": ("crates/step_choose/src/settings.rt", r"passes: (\d+),"),
    "halvings_at_first": ("crates/step_choose/src/settings.rt", r"halvings: (\d+),"),
    "low": ("crates/topo/src/band.rt", r"low: (\d+) \+"),
    "low_part": ("crates/topo/src/band.rt", r"low: \d+ \+ size / (\d+)"),
    "high": ("crates/topo/src/band.rt", r"high: (\d+) \+"),
    "high_part": ("crates/topo/src/band.rt", r"high: \d+ \+ size / (\d+)"),
    "part": ("crates/topo/src/shipped.rt", r"\bc / (\d+)"),
    "word_most": ("crates/line_text/src/decimal.rt", r"word\.len\(\) > (\d+)"),
    "cube_apart": ("crates/mesh_make/src/lists.rt", r"(\d+) \* \(cube % n\)"),
    "cube_side": ("crates/mesh_make/src/lists.rt", r"cube, \(([1-9]\d*), 0, 0\)"),
    "by_step": ("crates/mesh_make/src/steps.rt", r"(\d+) \* step"),
    "by_cube": ("crates/mesh_make/src/steps.rt", r"(\d+) \* number"),
    "by_axis": ("crates/mesh_make/src/steps.rt", r"(\d+) \* axis"),
    "modulus": ("crates/mesh_make/src/steps.rt", r"sum % (\d+)"),
    "swept": ("crates/outside_io/src/beside.rt", r"const SWEPT: u32 = (\d+);"),
    "unbuilt": ("topo", r"exit (125)"),
    "directions": ("crates/grid_base/specs/Separation.antt", r"the (\d+) directions over an interval"),
}


def text_of(name):
    with open(os.path.join(ROOT, name), encoding="utf-8") as it:
        return it.read()


def constants():
    """The public constants of the crates, the numbers of `PLACES`, and what follows from both."""
    known, waiting = {"u32::MAX": 2**32 - 1, "u64::MAX": 2**64 - 1}, {}
    for crate in sorted(os.listdir(os.path.join(ROOT, "crates"))):
        for folder, _, files in os.walk(os.path.join(ROOT, "crates", crate, "src")):
            for file in sorted(files):
                found = re.findall(r"(?m)^pub const ([A-Z_]+): \w+ = (.+?);$", text_of(os.path.join(folder, file))) if file.endswith(".rt") else []
                waiting.update(found)
    for _ in range(5):
        for name, value in waiting.items():
            sum_ = re.sub(r" as \w+|_(?=\d)", "", value)
            sum_ = re.sub(r"\bu(32|64)::MAX\b", lambda it: str(known[it[0]]), sum_)
            sum_ = re.sub(r"\b[A-Z_]+\b", lambda it: str(known.get(it[0], it[0])), sum_)
            if re.fullmatch(r"[\d()*+<> -]+", sum_):
                known[name] = eval(sum_)  # digits, brackets and signs alone
    for name, (path, around) in PLACES.items():
        found = re.search(around, text_of(path))
        known[name] = int(found.group(1)) if found else None
    known.update(number_most=known["u32::MAX"], seen_most=known["u64::MAX"])
    known["calls"] = len(re.findall(r"(?m)^(?:uint32_t|void) topo_\w+\(", text_of("library/topo.h")))
    known["volume_bits"] = (known["FACES_MAX"] * known["DETERMINANT_MAX"]).bit_length()
    whole = [top for top, _, files in os.walk(os.path.join(ROOT, "crates")) if "Proof.antt" in files and "/proofs/" in top and "/out/" not in top]
    known["proofs_for_c"] = sum("/topo_library/" in it for it in whole)
    known["other_proofs"] = len(whole) - known["proofs_for_c"]
    known["metres"] = known["BOX"] // 10**3
    known["owed"] = len(re.findall(r"(?m)^ \* +\d+\. ", text_of("library/topo.h")))
    known["dots"] = 6 * known["DIRECTION_MAX"] * known["WIDE_MAX"]
    return known


# What stands in a page, with the numbers of the code: `{NAME}` is its value, `{NAME-1}` one less, `{NAME:d}` without commas, `{NAME:w}` a word,
# `{#NAME}` how many digits it has, `{^NAME}` of which power of two it is, `{<NAME}` below which, `{status:WORDS}` the status that `--help` tells so.
WORDS = dict(enumerate("none one two three four five six seven eight nine ten eleven twelve thirteen fourteen fifteen sixteen".split()))
SAID = {
    "README.md": [
        "| groups | {GROUPS_MAX:w} deep |",
        "N = 3 counts millimetres, up to {metres} m.",
        "| vertices, faces | {STANDARD_VERTICES}, {STANDARD_FACES} | {VERTICES_MAX}, {FACES_MAX} |",
        "| bytes of a file that is read | {STANDARD_TEXT} | {TEXT_MAX} |",
        "| ids of each kind | {ID_MAX} |",
        "| coordinates, displacements | {BOX}, {SHIFT_MAX} units |",
    ],
    "docs/FORMATS.md": [
        "| vertices, faces of a mesh | {STANDARD_VERTICES}, {STANDARD_FACES} | {VERTICES_MAX}, {FACES_MAX} |",
        "(a card: {STANDARD_TEXT} at both) | {STANDARD_TEXT} | {TEXT_MAX} |",
        "from 0 to {DECIMALS_MAX}, 0 if left out. The N of `try` is 1 to {CUBES_MAX}; KEY and K are 0 to {number_most},",
        "at most {FAULTS_MAX} of these lines",
        "where M is {FAULTS_MAX} there may be more faults",
        "no pair of its motion fails, tested to depth {DEPTH_MAX}; it ends",
        "where the edit, tested to depth {DEPTH_MAX}, is done",
        "fewer than {GROUPS_MAX} groups are open",
        "at most {word_most} bytes. With N decimals",
        "its size is at most {BOX}. A **written coordinate**",
        "A positive `i` (at most {number_most})",
        "so is a **corner**, at most {number_most-1};",
        "to D halvings of time (0 to {DEPTH_MAX}; {depth_at_first} at first)",
        "displacements are tried (0 to {HALVINGS_MAX}; {halvings_at_first} at first)",
        "passes of impulses are tried (0 to {PASSES_MAX}; {passes_at_first} at first)",
        "V is 1 to {ID_MAX}, a component's size at most {SHIFT_MAX} |",
        "of this name (1 to {FIELD_NAME_MAX} bytes)",
        "each shorter (0 to {LENGTH_MAX}) |",
        "at most D apart (0 to {LENGTH_MAX}) by",
        "a NAME of more than {FIELD_NAME_MAX} bytes",
        "`swirl` answers (-y/{part}, x/{part}, 0), `swell` (x/{part}, y/{part}, z/{part}), `shrink` (-x/{part}, -y/{part}, -z/{part})",
        "from {low} + d/{low_part} to {high} + d/{high_part}, divided",
        "both counted round from 0 to {TURN_MAX}. In turn k, 0 to {TURN_MAX}, the faces",
        "are made for i from 0 to {TURN_MAX}.",
        "The job of N (1 to {CUBES_MAX}) and KEY (below 2^{^number_most+1}) has N * N * N cubes of side {cube_side}.",
        "Its least corner is at ({cube_apart} ix, {cube_apart} iy, {cube_apart} iz)",
        "1 + ((KEY + {by_step} step + {by_cube} c + {by_axis} k) mod {modulus})",
        "would have a size above {SHIFT_MAX};",
        "with a coordinate of a size above {BOX};",
        "and from version {VERSION} on `log` and `proof` as FILE",
        "is read by that version, any other by version {OLD_VERSION}",
        "Before version {IDS_VERSION} `vertices` and `faces` are",
        "| version {IDS_VERSION}: the live vertices,",
        "**Logs of version {IDS_VERSION}** begin",
        "Version {OLD_VERSION} has no fixed vertices",
        "| ids; NEXT | 1 to {ID_MAX}, the second",
        "new ids rising; 1 to {ID_MAX+1}, above the new ids |",
        "| 0, and 1, to {number_most}; 0 to {TURN_MAX} |",
        "| P, M; L and D | 1 to {PASSES_MAX}, 1 to {HALVINGS_MAX}; 0 to {LENGTH_MAX} |",
        "| R | 1 to {STANDARD_VERTICES-1}, large to {VERTICES_MAX-1}:",
        "| a size of at most {BOX}; {SHIFT_MAX} |",
        "| 1 to {COUNT_MAX}; 1 to {CORNER_MAX} |",
        "| 0 to {SEEN_MAX} |",
        "| `shape corner FACE CORNER` | each corner, 1 to {CORNER_MAX},",
        "those of the job, 0 to {DECIMALS_MAX}",
        "ends with {unbuilt} where it cannot build",
        "a `group` when {GROUPS_MAX:w} are open",
        # statuses, by the words of --help
        "end with status {status:the words}, nothing read",
        "else {status:the mesh is not} for faults of shape and {status:an edge of the mesh} for pairs that meet",
        "with status {status:done} or {status:a line of the mesh} to {status:a directive}.",
        "and the status is {status:the card}. A card",
        "Where it is {status:a file is too} to {status:a motion} the last line",
        "where it is {status:the mesh is not} or {status:an edge of the mesh}, the first does",
        "(`ulimit -f`) is refused (status {status:a file could}); a log",
        "two files of a job (status {status:a file could}).",
        "| refused (status {status:a file could}), and it stays",
        "Where either can not be done the status is {status:a file could},",
        "Nothing is read, written or stored, and the status is {status:a file could},",
        "Where a write to standard output fails the status is {status:standard output}.",
    ],
    "docs/CERTIFICATES.md": [
        "at most {DEPTH_MAX} halves deep, and no number of it has a size above 2 to the power {^DIRECTION_MAX}.",
        "is the first of the {directions} directions",
        "at most {#NUMBER_MAX} digits,",
        "stands below {DEPTH_MAX:w} others",
        "A, B and F are 1 to {ID_MAX} with A below B, and LINE is 1 to {COUNT_MAX}.",
        "has a size above 2 to the power {^DIRECTION_MAX} = {DIRECTION_MAX:d} |",
        "(status {status:a line of the proof}) and `refused motion LINE VERDICT` ({status:a motion}),",
        "`refused replay LINE` ({status:a line of the log does}) are of",
        "of one line {status:a line of the log does} comes first",
        "tested anew to depth {DEPTH_MAX} with the {directions} directions",
    ],
    "docs/DEFINITIONS.md": ["The **{directions} directions** are"],
    "docs/ARCHITECTURE.md": ["the written test: {directions} directions over"],
    "docs/PROOFS.md": ["of {proofs_for_c:w} functions that hand pointers to C, and {other_proofs:w} that make a ghost value"],
    "docs/DECISIONS.md": ["Version {IDS_VERSION} is written only", "takes away up to {swept:w} such files", "Texts stay below 2^{^TEXT_MAX+1} bytes"],
    "docs/EXAMPLES.md": [
        "and how far, 0 to {TURN_MAX}, the second",
        "longer than {high} + d/{high_part}, and collapses it where it is shorter than {low} + d/{low_part}.",
        "The status is {status:an edge of the mesh}.",
        "Where the status is {status:no memory}, {status:a file could} or {status:standard output}, the job",
    ],
    "docs/LIBRARY.md": [
        "take the file, of at most {TEXT_MAX} bytes,",
        "`low` is 0, or `high` 2^{^LENGTH_MAX}.",
        "or `high` is above 2^{^LENGTH_MAX};",
        "the depth above {DEPTH_MAX}.",
        "| 2^{^number_most+1} - 1 steps were taken, or meshes saved |",
        "the version of a log that tells no ids, {VERSION};",
        "Each of the {calls} functions",
        "up to {volume_bits} bits",
        "the {owed:w} points at the head of `library/topo.h`",
        "no more than {GROUPS_MAX:w} groups open",
    ],
    "docs/PROVED.md": [
        "(status {status:a file is too} to {status:a file is missing}),",
        "(at most {GROUPS_MAX:w} groups open, fewer than 2^{^number_most+1} calls)",
        "stands at 2^{^seen_most+1} - 1",
        "at most 2^{^WIDE_MAX} in size, cross products 2^{^DIRECTION_MAX},",
        "is below 2^{<dots}:",
        "at most {FAULTS_MAX}; then `checked",
    ],
}

# Numbers that need no comparison: the pages, the text around one, and why.
FREE = [
    (r".", r"(?<![\w^.,-])-?[01](?![\d/]|[.,]\d)", "none, one, the first: the ends of ranges and of counts"),
    (r".", r"(?m)^\d+\. ", "the places of a list"),
    (r".", r"x86-64|glibc 2\.\d+|UTF-8|C\+\+17|C99|SHA-256|Python 3\.9|Debian 12|\bDebian \d+", "names of machines, languages and texts"),
    (r".", r"\b(?:19|20)\d\d\)|Nekhayev \d+|\b2026-\d\d-\d\d", "years of papers, and dates"),
    (r"README", r"10 to the power -N|N =\s+3 counts|4\.17 mm|0\.17|each vertex moved by 1 2 3|vertex 5 too|the log, 2 holds", "the grid by an example; the shown job; a promise by its place"),
    (r"ARCHITECTURE", r"\d+ files\.|longer than 5,|of 16 lines at most", "counted by documents.py"),
    (r"CONNECT", r"L / 2|version \d+|\d\.\d+\.0|\d\.\d\.\d|PREFIX-000000", "half a length; versions that were tried; the name of a file"),
    (r"DECISIONS", r"\b(?:64|32|128) bits|at most 2\^32|below 256|cuts 262 to 6", "the widths of types"),
    (r"PROVED|DEFINITIONS", r"\"3 and 4\"|^## \d+(?: and \d+)?:|of 1/q, at", "headings, which are README.md's promises; a fraction"),
    (r"FORMATS", r"(?:times|divided by) 10 to the power N|with N = 3, -5 is|k - 2|2G = 2C|divided by 2 to the power M", "formulas"),
    (r"FORMATS", r"(?s)and its vertices 8\(c - 1\).*?cut as in OBJ|steps 1, 2 and 3|1 for y, 2 for z", "the job of cubes, which documents.py computes"),
    (r"FORMATS", r"its rows are the vertices .* the faces 31 to 34", "the example of new ids"),
    (r"FORMATS", r"at most 64 bits|64 small hex digits|HASH is 16 digits", "the widths of types, and of a digest"),
    (r"FORMATS", r"^\| \d+ \| [a-z]", "the statuses, compared as a table"),
    (r"CERTIFICATES", r"\(-?\d+,-?\d+,-?\d+\)|2·(?:start|end)|(?s:Faces 1 \(1,3,2\).*?are dropped, and 5.*?made\.|In half units 1 is at.*?to \(4,0,0\)|The first entry: .*?`missing`)", "the example, whose proof is that of a worked case"),
        (r"LIBRARY", r"\b[0-8]\b", "codes, which are those of library/topo.h"),
    (r"flows", r"[0-4] (?:whole|impulse|zones|halved|zero)|below 5 degrees|below -0\.9", "ways as numbers; the bounds of a figure"),
    (r"checks/README", r"512 faces|version 3 of one of version 2", "the heads of scripts"),
    (r"CONTRIBUTING", r"33 minutes, and 120 of processors", "how long the gate takes, by docs/HARDENING.md"),
]
NUMBER = r"(?<![\w.])-?\d[\d,]*\d(?:\.\d+)*(?!\w)|(?<![\w.,])-?\d(?:\.\d+)*(?![\w,]*\d)|(?<![\w.])\d(?!\w)"

# What is measured may not stand on other pages; these may, with the reason.
UNITS = r"\b\d[\d.,]*\s?(?:s|ms|µs|ns|seconds?|minutes?|hours?|[KMG]i?B|times|percent|%)(?!\w)|\b(?:half an|an|a quarter of an) hour\b|\b(?:some|few|two) (?:minutes|seconds)\b"
EXCEPTIONS = {
    "takes 33 minutes": "CONTRIBUTING.md tells who changes something how long the gate takes",
}


def value_of(asked, known, statuses):
    """What stands for a name in braces."""
    if asked.startswith("status:"):
        found = [number for number, words in statuses if words.startswith(asked[7:])]
        return found[0] if len(found) == 1 else "none"
    name, more = re.fullmatch(r"[#^<]?(\w+)((?:[+-]1)?(?::[dw])?)", asked).groups()
    value = known[name] + (1 if "+1" in more else -1 if "-1" in more else 0)
    if asked[0] == "#":
        return str(len(str(value)))
    if asked[0] == "<":
        return str(value.bit_length())
    if asked[0] == "^":
        return str(value.bit_length() - 1) if value.bit_count() == 1 else "none"
    return str(value) if more.endswith(":d") else WORDS[value] if more.endswith(":w") else f"{value:,}"


def parts_of(text):
    """The paragraphs and rows of a page, each in one line, without blocks of code."""
    parts, is_code, is_open = [], False, False
    for line in text.splitlines():
        is_code = line.startswith("    ") and (is_code or not is_open)
        if is_code or not line.strip():
            is_open = False
        elif line.startswith(("#", "|", "![")):
            parts.append(line)
            is_open = False
        elif is_open and not re.match(r"- |\d+\. ", line):
            parts[-1] += " " + line.strip()
        else:
            parts.append(line)
            is_open = True
    return parts


def shown_numbers(section, folder):
    """The numbers of an example: of what a section shows as code, of the files that it names, and the distances of points of these, rounded down."""
    code = re.findall(r"(?m)^    .*$", section) + re.findall(r"`[^`]*`", section)
    for name in re.findall(r"`?((?:examples|worked|crates/topo/data)/[\w/]+\.(?:obj|txt|case)|run\.py)\b", section):
        text = text_of(os.path.join(folder, name) if name == "run.py" else name)
        code.append(text)
        points = [tuple(map(int, row)) for row in re.findall(r"(?m)^v (-?\d+) (-?\d+) (-?\d+)$", text)]
        code += [str(math.isqrt(sum((a - b) ** 2 for a, b in zip(p, q)))) for p in points for q in points]
    return set(re.findall(r"-?\d+", " ".join(code)))


def spans(pattern, text):
    return [range(*found.span()) for found in re.finditer(pattern, text)]


def said_spans(page, part, known, statuses):
    """Where a part of a page says what `SAID` has of it, and which of these that is."""
    for words in SAID.get(page, []):
        line = re.sub(r"\{(.*?)\}", lambda it: value_of(it[1], known, statuses), words)
        for found in re.finditer(re.escape(line), part):
            yield words, range(*found.span())


def unchecked_numbers(page, text, statuses):
    """The numbers of a page that are neither compared nor of a kind, and what `SAID` has of it and it has not."""
    known, said = constants(), set()
    sections = re.split(r"(?m)^(?=## )", text) if page in EXAMPLES else [text]
    for section, part in ((section, part) for section in sections for part in parts_of(section)):
        shown = shown_numbers(section, os.path.dirname(page)) if page in EXAMPLES else ()
        taken = spans(r"`[^`]*`|\]\([^)]*\)", part)
        for words, span in said_spans(page, part, known, statuses):
            said.add(words)
            taken.append(span)
        for where, kind, _ in FREE:
            if re.search(where, page):
                taken += spans(kind, part)
        for found in re.finditer(NUMBER, part):
            is_taken = any(found.start() in span and found.end() - 1 in span for span in taken)
            if not is_taken and found.group(0).strip(",") not in shown:
                yield f"{found.group(0)} in {part[max(0, found.start() - 40) : found.end() + 25]!r}"
    yield from (f"it does not say {words!r}" for words in SAID.get(page, []) if words not in said)


def measured(text):
    """What looks measured on a page where nothing measured may stand."""
    for part in parts_of(text):
        for found in re.finditer(UNITS, part):
            if not any(found.group(0) in words and words in part for words in EXCEPTIONS):
                yield f"{found.group(0)} in {part[max(0, found.start() - 40) : found.end() + 25]!r}"


def words_in(text):
    """How many words a page has, without blocks of code, rules of tables and the marks of code in a line."""
    return sum(bool(re.search(r"\w", word)) for part in parts_of(text) for word in re.split(r"[\s|]+", part.replace("`", "")))


def job_of_cubes_faults(formats, summary):
    """What is wrong with the job of cubes as docs/FORMATS.md has it: whether its squares close a cube, and where the summary of a try puts vertex 1."""
    told = " ".join(parts_of(formats.partition("## The generated job")[2].partition("\n## ")[0]))
    corners = re.findall(r"\d+,\d+,\d+", told)
    squares = [[int(it) for it in row.split()] for row in re.findall(r"\b\d \d \d \d\b", told)]
    sides = sorted((square[at], square[(at + 1) % 4]) for square in squares for at in range(4))
    if len(corners) != 8 or len(squares) != 6 or sides != sorted((b, a) for a, b in sides) or len(set(sides)) != 24:
        yield "its squares close no cube"
    known = constants()
    n, key = (int(it) for it in re.search(r"(?m)^try (\d+) (\d+)$", summary).groups())
    by_step, by_cube, by_axis, modulus = (known[it] for it in ("by_step", "by_cube", "by_axis", "modulus"))
    moved = [sum(1 + (key + by_step * step + by_cube + by_axis * axis) % modulus for step in (1, 2, 3)) for axis in range(3)]
    if f"writes {WORDS[len(summary.splitlines())]} lines on its log" not in formats:
        yield "a try writes another number of lines"
    for line in (f"cubes {n**3}", "steps 3 whole 3", f"splits {6 * n**3}", f"corner {' '.join(map(str, moved))}"):
        if line not in summary.splitlines():
            yield f"the summary has no line {line!r}"
