"""The manual page topo.1, made of what the program says of how it is called."""

import re


def plain(text):
    """Lines of text as lines of a manual page that say just that."""
    lines = (line.replace("\\", "\\e").replace("-", "\\-") for line in text.split("\n"))
    return "\n".join("\\&" + line if line[:1] in (".", "'") else line for line in lines)


def as_it_stands(text):
    """Lines that are not filled."""
    return f".nf\n{plain(text)}\n.fi"


def entry(name, text):
    return f".TP\n.B {plain(name)}\n{plain(text)}"


def command_part(command):
    rows = [entry(it.word, it.about) for it in command.arguments]
    for it in command.options:
        values = f" (one of {', '.join(it.values)})" if it.values else ""
        rows.append(entry(" ".join([", ".join(it.names), it.word]).strip(), it.about + values))
    return [f".SS {command.name}", plain(command.about) + ".", ".PP", as_it_stands(command.usage), *rows, ".PP", as_it_stands(command.notes)]


EXAMPLES = (
    ("Move and edit a mesh in millimetres: the log goes to a name of its own, and the meshes are stored as t-000000.obj and so on.",
     "topo track mesh.obj steps.txt t --decimals 3 > log.txt"),
    ("A text of steps: vertex 7 is to go up by 5 units, what is longer than 60 is split, and the mesh is stored.", "shift 7 0 0 5\nstep\nsplit 60\nsave"),
    ("What the log did to volume and shape; and a proof of its motions, which is then checked.",
     "topo measure mesh.obj log.txt --decimals 3\ntopo prove mesh.obj log.txt --decimals 3 > proof.txt\ntopo verify mesh.obj log.txt proof.txt --decimals 3"),
    ("What is wrong with a mesh; and a mesh in another format.", "topo check mesh.ply\ntopo convert mesh.obj mesh.ply"),
)
FILES = (
    ("PREFIX-000000.obj", "Mesh 0, as it was read; the further ones have the numbers of the lines `mesh` of the log. A file that is there is replaced. A log "
     "that is sent to the name of such a mesh is lost, and nothing says so."),
    ("NAME.before", "A file that was read, as it was before something was stored under its name, unless that was the same, byte for byte."),
    (".topo-HASH-N.part", "What a run that was killed may leave; the next one that stores under that name takes it away."),
)


def example(it):
    about, words = it
    return f".PP\n{plain(about)}\n.PP\n.RS\n{as_it_stands(words)}\n.RE"


def page(program):
    """The page, as a text for man."""
    about = program.commands[0].about
    parts = [
        f'.TH TOPO 1 "" "topo {program.version}" "User commands"',
        ".SH NAME",
        f"topo \\- {plain(about[:1].lower() + about[1:])}",
        ".SH SYNOPSIS",
        as_it_stands("\n".join(f"topo {form}" for form in program.forms) + "\ntopo COMMAND --help\ntopo --help | --version"),
        ".SH DESCRIPTION",
        plain(re.sub(r"`([^`]+)`", r"\1", program.about)),
        ".SH OPTIONS",
        *(entry(name, text) for name, text in program.options),
        ".SH COMMANDS",
        *(line for command in program.commands for line in command_part(command)),
        ".SH EXIT STATUS",
        *(entry(number, words) for number, words in program.statuses),
        ".SH FILES",
        *(entry(name, about) for name, about in FILES),
        ".SH EXAMPLES",
        *(example(it) for it in EXAMPLES),
        ".SH SEE ALSO",
        plain("The folder share/doc/topo beside this page's has what is named docs/ here: the texts that are read and written (FORMATS.md), the library (LIBRARY.md), "
              "the ways into other programs (CONNECT.md). The folder share/topo/examples has examples."),
    ]
    return "\n".join(parts) + "\n"
