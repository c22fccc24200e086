#!/usr/bin/env python3
"""Looks whether the documents are true of the built program and of the repository.

The statuses of docs/FORMATS.md are those of `topo --help`, word for word, which is told without a build too; README.md has each form of
its words, of which the help of its command names each; each log that README.md and docs/EXAMPLES.md show is a part of that of the command
before it, run anew; the proof in docs/CERTIFICATES.md is that of a worked case; docs/CRATES.md has each crate, as docs/crates.py makes it;
each name that docs/PROVED.md cites stands in the crates; each public definition has a comment in the line before it; each file that a
document names or links is there; what docs/ARCHITECTURE.md and docs/CRATES.md count, files on a way and wrong edits, is as many;
checks/README.md and bench/README.md have a line for each script, with the first line of its head. Each crate but those of tests has a
README.md: the names that it hands up are public in its sources, and its example stands, line by line, in the file that it names; where it
has no code, the page names its definitions.

Each number in a page is compared with the code, or is of a kind that checks/document_numbers.py tells; what is measured stands on the pages
whose subject it is. All pages but the crates' have at most 35,000 words (`--words` prints them by page, and each sentence of more than forty),
and no line of text has more than 139 columns.
"""

import ast
import os
import re
import shutil
import subprocess
import sys
import tempfile
import textwrap

import document_numbers
from calling import reader_of, words_of
from worked_cases import Case

ROOT = os.path.dirname(os.path.dirname(os.path.abspath(__file__)))
sys.path.insert(0, os.path.join(ROOT, "docs"))
from crates import page as crates_page  # noqa: E402

TOPO = os.path.join(ROOT, "topo")
WORDS_MOST, COLUMNS_MOST = 35_000, 139


def text_of(name):
    with open(os.path.join(ROOT, name)) as it:
        return it.read()


def log_of(words):
    """The log of a command that a document shows, as lines. Its files are taken from the repository; what it stores is dropped."""
    with tempfile.TemporaryDirectory() as folder:
        files = [os.path.join(ROOT, word) for word in words[:2]]
        ran = subprocess.run([TOPO, "track", *files, *words[2:]], cwd=folder, stdout=subprocess.PIPE, check=True, timeout=60)
    return ran.stdout.decode().splitlines()


def help_without_build():
    """What the script says of itself in a folder where nothing is built."""
    with tempfile.TemporaryDirectory() as folder:
        for name in ("topo", "crates.txt", "crates/topo/src/command_line.rt"):
            os.makedirs(os.path.dirname(os.path.join(folder, name)), exist_ok=True)
            shutil.copy(os.path.join(ROOT, name), os.path.join(folder, name))
        return subprocess.run([os.path.join(folder, "topo"), "--help"], stdout=subprocess.PIPE, timeout=60).stdout.decode()


def statuses_in(text):
    """The statuses of a table with two columns."""
    return [(number, words) for number, words in re.findall(r"(?m)^\| (\d+) \| (.+?) \|$", text)]


def is_helped(form):
    """Whether a command tells its help, by either word for it, which has the command's name and each word in capitals of its form."""
    name, wanted = form.split()[0], re.findall(r"[A-Z]+", form)
    ran = [subprocess.run([TOPO, name, asked], stdout=subprocess.PIPE, timeout=60) for asked in ("--help", "-h")]
    texts = [one.stdout.decode() for one in ran if one.returncode == 0]
    return len(texts) == 2 and all(f"topo {name}" in text and all(re.search(rf"\b{word}\b", text) for word in wanted) for text in texts)


def shown_logs(text):
    """Each command that a document shows, with the log that it shows next."""
    blocks = [[line.strip() for line in block.splitlines()] for block in re.findall(r"(?m)(?:^    .*\n)+", text)]
    shown, command = [], None
    for lines in blocks:
        if lines[0].startswith("./topo track ") and "MESH" not in lines[0]:
            command = lines[0]
        elif re.match(r"(topo log|step|pass) ", lines[0]):
            shown.append((command, lines))
            command = None
    return shown


def pages():
    """Each page of the repository but those of crates and the notices, which are others' texts."""
    for folder, folders, files in os.walk(ROOT):
        folders[:] = sorted(it for it in folders if it not in ("crates", ".git", "out"))
        for name in sorted(it for it in files if it.endswith(".md") and it != "NOTICES.md"):
            yield os.path.relpath(os.path.join(folder, name), ROOT)


def long_sentences(text, most=40):
    """The sentences of a page with more words than that."""
    for part in document_numbers.parts_of(text):
        plain = re.sub(r"`[^`]*`", lambda code: re.sub("[.?!]", "", code[0]), re.sub(r"\]\([^)]*\)", "]", part))
        for cell in plain.strip("|").split("|"):
            for sentence in re.split(r"(?<=[.?!])[)\"*]*\s+", cell):
                if sum(bool(re.search(r"\w", word)) for word in sentence.split()) > most:
                    yield sentence.strip()


def print_words():
    """The words of each page, all of them, and the sentences that are long."""
    counts = {page: document_numbers.words_in(text_of(page)) for page in pages()}
    for page, count in counts.items():
        print(f"{count:6} {page}")
    print(f"{sum(counts.values()):6} words of at most {WORDS_MOST}")
    for page in counts:
        for sentence in long_sentences(text_of(page)):
            print(f"long: {page}: {sentence[:100]}")


def code_faults(library):
    """The codes that docs/LIBRARY.md has otherwise than library/topo.h, and calls that its table has not, or has twice."""
    header = text_of("library/topo.h")
    codes = re.findall(r"(?m)^    (TOPO_\w+) = (\d+),?\s", header.partition("/* What a call answers.")[2].partition("};")[0])
    told = [(name, number) for number, name in re.findall(r"(?m)^\| (\d+) `(TOPO_\w+)` \|", library)]
    if told != codes:
        yield "its codes are others"
    calls = re.findall(r"(?m)^(?:uint32_t|void) (topo_\w+)\(", header)
    table = library.partition("## Use it")[2].partition("\n\nDirectives,")[0]
    named = [name for row in re.findall(r"(?m)^\| (`topo_.*?) \|", table) for name in re.findall(r"`(topo_\w+)`", row)]
    if sorted(named) != sorted(calls):
        yield f"its calls are others: {' '.join(sorted(set(named) ^ set(calls)))}"


def glibc_of(program):
    """The version of the C library that a program needs, of which its versions of symbols tell."""
    built = os.path.join(ROOT, "crates/topo/out/topo")
    for path in (program, built):
        with open(path, "rb") as it:
            found = re.findall(rb"GLIBC_2\.(\d+)", it.read())
        if found:
            return f"2.{max(map(int, found))}"
    return None


def droplet_faults():
    """What examples/droplet/README.md shows that its run does not give."""
    with tempfile.TemporaryDirectory() as folder:
        for part in ("examples/droplet", "docs/pictures"):
            shutil.copytree(os.path.join(ROOT, part), os.path.join(folder, part))
        shutil.copy(os.path.join(ROOT, "examples/replay.py"), os.path.join(folder, "examples"))
        words = [sys.executable, os.path.join(folder, "examples/droplet/run.py"), TOPO]
        told = subprocess.run(words, stdout=subprocess.PIPE, stderr=subprocess.DEVNULL, timeout=600).stdout.decode()
        log = open(os.path.join(folder, "examples/droplet/log.txt")).read()
    there = set(told.splitlines()) | set(log.splitlines())
    for block in re.findall(r"(?m)(?:^    .*\n)+", text_of("examples/droplet/README.md"))[1:]:
        yield from (line.strip() for line in block.splitlines() if line.strip() not in there | {".."})


def is_part(part, whole):
    return any(whole[at : at + len(part)] == part for at in range(len(whole) - len(part) + 1))


def edits_of(crate, folder):
    """How many wrong edits stand in a folder of a crate."""
    path = os.path.join(ROOT, "crates", crate, folder)
    return sum(name.endswith(".edit") for name in os.listdir(path)) if os.path.isdir(path) else 0


def ways_in(text):
    """Each table of ways that is followed by how many files it names: the whose, that number, and those files in their order, as pairs of a crate and a file."""
    ways = []
    for table, whose, count in re.findall(r"((?:^\|.*\n)+)\n.*?the way of (.*?), (\d+) files\.", text, re.M):
        files = []
        for part in re.findall(r"`\w+`: `\w+\.rt`[^;|]*", table):
            crate = re.match(r"`(\w+)`", part).group(1)
            files += [(crate, file) for file in re.findall(r"`(\w+\.rt)`", part)]
        ways.append((whose, int(count), files))
    return ways


def is_in_src(crate, file):
    return any(file in files for _, _, files in os.walk(os.path.join(ROOT, "crates", crate, "src")))


def sources_of(crate):
    """The sources of a crate: each file of its `src` with its text."""
    top = os.path.join(ROOT, "crates", crate, "src")
    return {os.path.join(folder, file): open(os.path.join(folder, file)).read() for folder, _, files in os.walk(top) for file in files if file.endswith(".rt")}


def is_public(name, crate):
    """Whether a crate has a public item, method or call of a trait of this name. An item at the left edge is named by the head of the crate, or stands in a public module."""
    sources = sources_of(crate)
    head = next(text for path, text in sources.items() if os.path.basename(path) in ("lib.rt", "main.rt") and os.path.dirname(path).endswith("src"))
    for path, text in sources.items():
        module = os.path.splitext(os.path.basename(path))[0]
        is_open = module == "lib" or re.search(rf"(?m)^pub mod {module};", head) or re.search(rf"(?ms)^pub use [^;]*\b{name}\b", head)
        found = re.search(rf'(?m)^( *)pub (?:const |unsafe |extern "C" )*(?:fn|struct|enum|trait|type|const) {name}\b', text)
        if found and (found.group(1) or is_open):
            return True
        if any(re.search(rf"(?m)^    fn {name}\b", part) for part in re.findall(r"(?ms)^pub trait .*?^}", text)):
            return True
    return False


def stands_in(lines, path):
    """Whether the lines stand in the file in one piece, wherever they begin in their lines."""
    if not re.fullmatch(r"crates/\w+/src/[\w/]+\.rt|library/\w+\.c", path) or not os.path.exists(os.path.join(ROOT, path)):
        return False
    whole = text_of(path).splitlines()
    return any(textwrap.dedent("\n".join(whole[at : at + len(lines)])).split("\n") == lines for at in range(len(whole) - len(lines) + 1))


def has_code(crate):
    return any(re.search(r"(?m)^(?!\s*//)\s*\S", text) for text in sources_of(crate).values())


def unnamed_words(crate):
    """The public definitions of a crate that its README.md does not name."""
    page = text_of(f"crates/{crate}/README.md")
    files = [os.path.join(top, file) for top, _, names in os.walk(os.path.join(ROOT, "crates", crate, "specs")) for file in names if file != "Lib.antt"]
    words = [word for path in files for word in re.findall(r"(?m)^(?:abbrev |unfoldable )?pub (?:record |data )?(\w+) ", open(path).read())]
    return [word for word in words if not re.search(rf"`[^`]*\b{word}\b[^`]*`", page)]


def readme_faults(crate):
    """What is wrong with the README.md of a crate."""
    path = os.path.join("crates", crate, "README.md")
    if not os.path.exists(os.path.join(ROOT, path)):
        return ["is not there"]
    lines = text_of(path).splitlines()
    faults = []
    if lines[0] != f"# `{crate}`":
        faults.append("has another title")
    if len(lines) > 16 or max(len(line) for line in lines) > 139:
        faults.append("is long or wide")
    if not has_code(crate):
        return faults + [f"does not name `{word}`" for word in unnamed_words(crate)]
    parts = dict(re.findall(r"(?ms)^- \*\*(.*?):?\*\*(.*?)(?=^- |^$)", "\n".join(lines) + "\n"))
    if not parts.get("Proved"):
        faults.append("does not say what is proved")
    names = re.findall(r"`(.*?)`", parts.get("Hands up", ""))
    if not names and not os.path.exists(os.path.join(ROOT, "crates", crate, "src", "main.rt")):
        faults.append("hands nothing up")
    faults += [f"hands up `{name}`" for name in names if not re.fullmatch(r"\w+", name) or not is_public(name, crate)]
    shown = re.search(r"(?s)\n[^\n]*, from `([^`]*)`:\n\n((?:    [^\n]*\n)+)$", "\n".join(lines) + "\n")
    if not shown:
        return faults + ["has no example at its end"]
    example = textwrap.dedent(shown.group(2)).splitlines()
    if not stands_in(example, shown.group(1)):
        faults.append(f"has an example that does not stand in {shown.group(1)}")
    if names and not any(re.search(rf"\b{name}\b", line) for name in names for line in example):
        faults.append("has an example without a name that it hands up")
    return faults


def anchors_in(text):
    """The headings of a page as links name them."""
    return {re.sub(r"[^\w -]", "", title.lower()).replace(" ", "-") for title in re.findall(r"(?m)^#+ (.+)$", text)}


def lost_links(name):
    """The links of a document to files of the repository, and to headings in them, that are not there."""
    for path, anchor in re.findall(r"\]\(([^)#:\s]+)(?:#([^)]*))?\)", text_of(name)):
        whole = os.path.join(os.path.dirname(name), path)
        if not os.path.exists(os.path.join(ROOT, whole)):
            yield path
        elif anchor and anchor not in anchors_in(text_of(whole)):
            yield f"{path}#{anchor}"


def lost_titles(name):
    """The headings and bold beginnings that a page names in quotes after the page, and that are not there."""
    flat = re.sub(r"\s+", " ", text_of(name))
    for path, title in re.findall(r"`?((?:docs/|examples/\w+/)?[A-Z]\w+\.md)`?(?:, | \()\"([^\"]+)\"", flat):
        found = next((it for it in (path, os.path.join(os.path.dirname(name), path)) if os.path.exists(os.path.join(ROOT, it))), None)
        if not found or not re.search(rf"(?m)^#+ {re.escape(title)}(?!\w)|\*\*{re.escape(title)}\.?\*\*", text_of(found)):
            yield f"{path}: {title}"


def unknown_names(text):
    """The names of definitions, laws and calls, and of files of `specs` and `src`, that a document cites and no crate has."""
    folders = [os.path.join(ROOT, "crates", crate, part) for crate in os.listdir(os.path.join(ROOT, "crates")) for part in ("src", "specs")]
    files = [os.path.join(top, file) for folder in folders for top, _, files in os.walk(folder) for file in files]
    words = {word for path in files for word in re.findall(r"\w+", open(path).read())} | set(os.listdir(os.path.join(ROOT, "crates")))
    cited = {it for it in re.findall(r"`([A-Za-z_]\w*(?:::\w+)?)`", text) if re.search(r"_|::|[a-z][A-Z]", it)}
    return sorted(it for it in cited if not set(it.split("::")) <= words)


def without_comment():
    """The public definitions of the crates' specs that have no comment in the line before them."""
    for crate in sorted(os.listdir(os.path.join(ROOT, "crates"))):
        for top, _, files in sorted(os.walk(os.path.join(ROOT, "crates", crate, "specs"))):
            for file in sorted(it for it in files if it.endswith(".antt") and it != "Lib.antt"):
                lines = open(os.path.join(top, file)).read().splitlines()
                for before, line in zip([""] + lines, lines):
                    found = re.match(r"(?:(?:abbrev|unfoldable) pub|pub (?:record |data )?)(?!\s*(?:use|mod|ruleset)\b)\s*(\S+)", line)
                    if found and not before.lstrip().startswith("--"):
                        yield f"{crate}/{file}: {found.group(1)}"


def heads_of(folder):
    """Each script of a folder with the first line of its head, as a README has them."""
    for name in sorted(os.listdir(os.path.join(ROOT, folder))):
        if name.endswith(".py"):
            yield f"- `{name}`: {ast.get_docstring(ast.parse(text_of(f'{folder}/{name}'))).splitlines()[0]}"


def readers_of_their_own(folder):
    """The scripts of a folder that are not called by a reader of words which has their help."""
    for name in sorted(it for it in os.listdir(os.path.join(ROOT, folder)) if it.endswith(".py")):
        text = text_of(f"{folder}/{name}")
        if "__main__" in text and (re.search(r"sys\.argv\[\d", text) or not re.search(r"\b(reader_of|library_of|words_of\w*|ArgumentParser)\(", text)):
            yield name


def main():
    global TOPO
    reader = reader_of(__doc__)
    reader.add_argument("--words", action="store_true", help="print how many words each page has, and which sentences are long, and check nothing")
    if reader.parse_args().words:
        return print_words()
    TOPO = words_of(reader).program
    readme, formats = text_of("README.md"), text_of("docs/FORMATS.md")
    steps = text_of("crates/topo/data/steps.txt")
    checks = []
    helped = subprocess.run([TOPO, "--help"], stdout=subprocess.PIPE, check=True, timeout=60).stdout.decode()
    told = re.findall(r"(?m)^ +(\d+)  (.+)$", helped)
    checks.append(("--help tells the statuses 0 to 16", [int(number) for number, _ in told] == list(range(17))))
    checks.append(("docs/FORMATS.md has the statuses of --help", statuses_in(formats) == told))
    forms = re.findall(r"(?m)^(?:usage:|      ) topo (\w+ [A-Z].*)$", helped)
    lacking = [form for form in forms if f"./topo {form}" not in readme]
    checks.append((f"README.md has each of {len(forms)} forms of words {'; '.join(lacking)}".rstrip(), len(forms) > 1 and not lacking))
    for form in forms:
        checks.append((f"the help of a command names the words of `{form}`", is_helped(form)))
    checks.append(("./topo tells how it is called without a build", help_without_build() == helped))
    for name, text in (("README.md", readme), ("docs/EXAMPLES.md", text_of("docs/EXAMPLES.md"))):
        shown = shown_logs(text)
        checks.append((f"{name} shows logs, each behind its command", len(shown) > 0 and all(command for command, _ in shown)))
        for command, lines in shown:
            if command:
                checks.append((f"what {name} shows of `{command}` is its log", is_part(lines, log_of(command.split()[2:]))))
    checks.append(("README.md shows the steps of the example", is_part(steps.splitlines(), [line.strip() for line in readme.splitlines()])))
    proof = Case(text_of("worked/a_split_is_proved.case")).log.splitlines()
    explained = [line.strip() for line in text_of("docs/CERTIFICATES.md").splitlines()]
    checks.append(("docs/CERTIFICATES.md shows the proof of a worked case", is_part(proof, explained)))
    crates = [line.partition(":")[0].split()[0] for line in text_of("crates.txt").splitlines() if ":" in line and not line.startswith("#")]
    table = text_of("docs/CRATES.md")
    lacking = [crate for crate in crates if f"`{crate}`" not in table]
    checks.append((f"docs/CRATES.md names each crate {' '.join(lacking)}".rstrip(), not lacking))
    checks.append(("docs/CRATES.md is what docs/crates.py makes of the crates", table == crates_page()))
    lacking = unknown_names(text_of("docs/PROVED.md"))
    checks.append((f"each name that docs/PROVED.md cites stands in the crates {' '.join(lacking)}".rstrip(), not lacking))
    checks.append(("no row of docs/PROVED.md has more than 300 characters", all(len(line) <= 300 for line in text_of("docs/PROVED.md").splitlines())))
    lacking = list(without_comment())
    checks.append((f"each public definition has a comment {'; '.join(lacking)}".rstrip(), not lacking))
    for crate in crates:
        if not crate.endswith("_tests"):
            faults = readme_faults(crate)
            checks.append((f"crates/{crate}/README.md is true {'; '.join(faults)}".rstrip(), not faults))
    for folder in ("bench", "checks"):
        heads, listed = list(heads_of(folder)), text_of(f"{folder}/README.md").splitlines()
        others = list(readers_of_their_own(folder))
        checks.append((f"each script of {folder} has its words by argparse {' '.join(others)}".rstrip(), not others))
        checks.append((f"{folder}/README.md has each script", heads == [line for line in listed if line.startswith("- `")]))
    for name in pages():
        named = re.findall(r"`((?:crates|docs|checks|bench|examples|\.ci)/[\w./*-]+)`", text_of(name))
        lost = [it for it in named if "*" not in it and not os.path.exists(os.path.join(ROOT, it))]
        checks.append((f"each file that {name} names is there {' '.join(lost)}".rstrip(), not lost))
        lost = [*lost_links(name), *lost_titles(name)]
        checks.append((f"each link of {name} leads to a file, and each heading that it names is there {'; '.join(lost)}".rstrip(), not lost))
    ways = ways_in(text_of("docs/ARCHITECTURE.md"))
    checks.append(("docs/ARCHITECTURE.md has three ways", [whose for whose, _, _ in ways] == ["each vertex", "each pair of a step", "`split 5`"]))
    for whose, count, files in ways:
        lost = [f"{crate}/{file}" for crate, file in files if not is_in_src(crate, file)]
        twice = [f"{crate}/{file} twice" for crate, file in sorted(set(files)) if files.count((crate, file)) > 1]
        good = len(files) == count and not lost and not twice
        checks.append((f"docs/ARCHITECTURE.md names {count} files on the way of {whose}, all there, none twice {' '.join(lost + twice)}".rstrip(), good))
    checks.append(("a vertex goes through 30 files at most", all(count <= 30 for whose, count, _ in ways if whose == "each vertex")))
    for crate, edits, further in re.findall(r"(?m)^\| \[`(\w+)`\].*\| (\d+) \| (\d+) \|$", table):
        there = tuple(edits_of(crate, folder) for folder in ("must-fail", "must-fail-more"))
        checks.append((f"docs/CRATES.md counts the edits of {crate}", there == (int(edits), int(further))))
    for name in pages():
        faults = list(document_numbers.measured(text_of(name))) if name not in document_numbers.MEASURED else []
        if name not in document_numbers.MEASURED + document_numbers.WHOLE:
            faults += document_numbers.unchecked_numbers(name, text_of(name), told)
        checks.append((f"the numbers of {name} are those of the code {'; '.join(faults)}".rstrip(), not faults))
        wide = [line[:40] for line in text_of(name).splitlines() if len(line) > COLUMNS_MOST and not line.startswith(("|", "    "))]
        checks.append((f"no line of text of {name} has more than {COLUMNS_MOST} columns {'; '.join(wide)}".rstrip(), not wide))
    count = sum(document_numbers.words_in(text_of(name)) for name in pages())
    checks.append((f"all pages have {count} words, at most {WORDS_MOST}", count <= WORDS_MOST))
    faults = list(code_faults(text_of("docs/LIBRARY.md")))
    checks.append((f"docs/LIBRARY.md has the codes and calls of library/topo.h {'; '.join(faults)}".rstrip(), not faults))
    summary = re.search(r"(?m)^    try \d+ \d+\n(?:    .*\n)+", text_of("docs/EXAMPLES.md"))[0]
    words = ["try", *summary.split()[1:3]]
    ran = subprocess.run([TOPO, *words], stdout=subprocess.PIPE, timeout=60).stdout.decode()
    checks.append(("docs/EXAMPLES.md shows a summary of a try", textwrap.dedent(summary) == ran))
    faults = list(document_numbers.job_of_cubes_faults(formats, ran))
    checks.append((f"docs/FORMATS.md has the job of cubes {'; '.join(faults)}".rstrip(), not faults))
    faults = list(droplet_faults())
    checks.append((f"examples/droplet/README.md shows lines of its run {'; '.join(faults)}".rstrip(), not faults))
    glibc = glibc_of(TOPO)
    checks.append((f"README.md names the C library that the program needs, glibc {glibc}", f"with glibc {glibc} or later" in readme))
    tried = {crate: edits_of(crate, "must-fail") for crate in crates if edits_of(crate, "must-fail")}
    beside = re.search(r"Beside these stands one of each of three crates [^:]*: `(\w+)`, `(\w+)` and `(\w+)`", " ".join(text_of("docs/HARDENING.md").split()))
    slips = f"{sum(tried.values()) - 3} in {len(tried) - 3} crates:"
    good = beside and all(tried.get(crate) == 1 for crate in beside.groups()) and slips in " ".join(text_of("docs/HARDENING.md").split())
    checks.append((f"docs/HARDENING.md counts the edits in the gate: {slips[:-1]}, and three beside", bool(good)))
    failed = sum(not good for _, good in checks)
    for what, good in checks:
        print(("ok     " if good else "FAILED ") + what)
    print(f"{len(checks) - failed} passed, {failed} failed")
    return 1 if failed else 0


if __name__ == "__main__":
    sys.exit(main())
