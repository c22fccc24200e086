"""Completions for bash, zsh and fish, made of what the program says of how it is called."""

# words of arguments that are numbers, for which no file is offered
NUMBERS = ("N", "KEY")


def quoted(text):
    """A text in single quotes of sh and zsh."""
    return "'" + text.replace("'", "'\\''") + "'"


def names_of(command):
    return [name for option in command.options for name in option.names]


# ---- bash: where a list is empty, names of files are offered (`-o default`)


def bash_case(command):
    values = [(name, option.values) for option in command.options if option.word for name in option.names]
    rows = [f'        {name}) COMPREPLY=($(compgen -W "{" ".join(listed)}" -- "$word")); compopt +o default; return ;;' for name, listed in values]
    files = "" if any(it.word not in NUMBERS for it in command.arguments) else "\n        compopt +o default"
    cases = '        case $before in\n{}\n        esac\n'.format("\n".join(rows)) if rows else ""
    return f'    {command.name})\n{cases}        options="{" ".join(names_of(command))}"{files}\n        ;;'


def bash(program):
    names = " ".join(command.name for command in program.commands)
    return f"""# completion of bash for topo {program.version}
_topo() {{
    local word=${{COMP_WORDS[COMP_CWORD]}} before=${{COMP_WORDS[COMP_CWORD - 1]}} options=
    COMPREPLY=()
    if [ "$COMP_CWORD" -eq 1 ]; then
        COMPREPLY=($(compgen -W "{names} --help --version" -- "$word"))
        return
    fi
    case ${{COMP_WORDS[1]}} in
{chr(10).join(bash_case(command) for command in program.commands)}
    esac
    case $word in
    -*) COMPREPLY=($(compgen -W "$options" -- "$word")) ;;
    esac
}}
complete -o default -F _topo topo
"""


# ---- zsh


def zsh_text(text):
    """A text within brackets or behind a colon of `_arguments`."""
    return "".join("\\" + c if c in "[]:\\" else c for c in text)


def zsh_case(command):
    rows = []
    for option in command.options:
        others = "({})".format(" ".join(option.names))
        value = f":{option.word}:({' '.join(option.values)})" if option.values else f":{option.word}:" if option.word else ""
        rows += [quoted(f"{others}{name}[{zsh_text(option.about)}]{value}") for name in option.names]
    for place, it in enumerate(command.arguments, 1):
        rows.append(quoted(f"{place}:{it.word}, {zsh_text(it.about)}:{'' if it.word in NUMBERS else '_files'}"))
    return f"{command.name})\n    _arguments " + " \\\n        ".join(rows) + "\n    ;;"


def zsh(program):
    commands = "\n".join("    " + quoted(f"{zsh_text(command.name)}:{command.about}") for command in program.commands)
    return f"""#compdef topo
# completion of zsh for topo {program.version}
local -a listed
listed=(
{commands}
    '--help:how it is called'
    '--version:which version it is'
)
if (( CURRENT == 2 )); then
    _describe command listed
    return
fi
local command=$words[2]
shift words
(( CURRENT-- ))
case $command in
{chr(10).join(zsh_case(command) for command in program.commands)}
esac
"""


# ---- fish


def fish_text(text):
    return "'" + text.replace("\\", "\\\\").replace("'", "\\'") + "'"


def fish_lines(command):
    lines = [f"complete -c topo -n __fish_use_subcommand -f -a {command.name} -d {fish_text(command.about)}"]
    seen = f"complete -c topo -n '__fish_seen_subcommand_from {command.name}'"
    if all(it.word in NUMBERS for it in command.arguments):
        lines.append(f"{seen} -f")
    for option in command.options:
        names = " ".join(f"-l {name[2:]}" if name.startswith("--") else f"-s {name[1:]}" for name in option.names)
        value = f" -x -a '{' '.join(option.values)}'" if option.word else ""
        lines.append(f"{seen} {names}{value} -d {fish_text(option.about)}")
    return lines


def fish(program):
    lines = [line for command in program.commands for line in fish_lines(command)]
    whole = "complete -c topo -n __fish_use_subcommand -f -l {} -d '{}'"
    return "\n".join([f"# completion of fish for topo {program.version}", *lines, whole.format("help", "how it is called"), whole.format("version", "which version it is"), ""])
