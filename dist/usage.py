"""How the built program is called, by what it says itself: `topo --help`, and `topo COMMAND --help` of each command."""

import collections
import re
import subprocess

Program = collections.namedtuple("Program", "version forms about options statuses commands")
Command = collections.namedtuple("Command", "name about usage arguments options notes")
# a word in capitals that stands for a file or a number, and what it is
Argument = collections.namedtuple("Argument", "word about")
# its names, the word for its value ("" where it has none), the values that it may have (none where these are not listed), and what it is
Option = collections.namedtuple("Option", "names word values about")


class OtherHelp(Exception):
    """The program's help is not laid out as is read here."""


def said(program, *words):
    """What the program writes to standard output."""
    return subprocess.run([program, *words], stdout=subprocess.PIPE, check=True, timeout=60).stdout.decode()


def part_of(text, title):
    """The lines below a title, up to the next empty one."""
    found = re.search(rf"(?ms)^{title}:\n(.+?)(?:\n\n|\n?\Z)", text)
    return found.group(1).split("\n") if found else []


def argument_of(line):
    found = re.fullmatch(r" +<(\w+)> +(.+)", line)
    if not found:
        raise OtherHelp(f"an argument is told as {line!r}")
    return Argument(*found.groups())


def option_of(line):
    found = re.fullmatch(r" +((?:-\w, )?--[\w-]+)(?: <(\w+)>)? +(.+?)(?: \[possible values: (.+)\])?", line)
    if not found:
        raise OtherHelp(f"an option is told as {line!r}")
    names, word, about, values = found.groups()
    return Option(names.split(", "), word or "", values.split(", ") if values else [], about)


def command_of(name, text):
    usage = re.search(r"(?m)^Usage: (topo .+)$", text)
    arguments, options = [argument_of(line) for line in part_of(text, "Arguments")], [option_of(line) for line in part_of(text, "Options")]
    if not usage or not arguments or not options:
        raise OtherHelp(f"`topo {name} --help` has no usage, no arguments or no options")
    notes = text[text.index(text.split("Options:\n")[1]) :].partition("\n\n")[2]
    return Command(name, text.split("\n")[0], usage.group(1), arguments, options, notes.strip("\n"))


def program_of(path):
    """All that the program at a path says of how it is called."""
    version, text = said(path, "--version"), said(path, "--help")
    forms = re.findall(r"(?m)^(?:usage:|      ) topo (\w+ [A-Z].*)$", text)
    statuses = re.findall(r"(?m)^ +(\d+)  (.+)$", text.partition("Exit status:\n")[2])
    options = re.findall(r"(?m)^(--\w+(?: [A-Z]+)?)  +(.+)$", text)
    about = re.search(r"(?ms)^Reads .+?(?=\n\n)", text)
    if not re.fullmatch(r"topo \d+\.\d+\.\d+\n", version) or not forms or not statuses or not options or not about:
        raise OtherHelp("`topo --version` or `topo --help` is laid out in another way")
    commands = [command_of(name, said(path, name, "--help")) for name in (form.split()[0] for form in forms)]
    return Program(version.split()[1], forms, about.group(0), options, statuses, commands)
