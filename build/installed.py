#!/usr/bin/env python3
"""Writes the manual page of rpg2 and its completions for bash, zsh and fish, from the program's own help.

usage: build/installed.py [PROGRAM [FOLDER]]

PROGRAM is a build of rpg2, by default crates/rpg2/out/rpg2, and FOLDER where the files go, by default install/. tests/run.py compares the
files in install/ with those that each build gives, so run this after a change to a command's words.
"""

import re
import subprocess
import sys
from dataclasses import dataclass
from pathlib import Path

TOP = Path(__file__).resolve().parent.parent

PLACED = re.compile(r"  (?P<name>[<\[][A-Z=]+[>\]](?:\.\.\.)?) +(?P<help>\S.*)")
OPTION = re.compile(r"  (?:-(?P<short>\w), |    )--(?P<name>[\w-]+)(?: <(?P<value>[\w=-]+)>|\[=<(?P<maybe>[\w=]+)>\])?(?:\.\.\.)? +(?P<help>\S.*)")
COMMAND = re.compile(r"  (?P<name>[a-z]+) +\S.*")
CHOICES = re.compile(r"\[possible values: ([^\]]+)\]")
CODE = re.compile(r"^## ([A-Z]\d+):", re.MULTILINE)

# What the values of options and arguments that aren't here are: names of files.
NOT_FILES = {"N", "XX", "A-B", "CODE", "DATE", "WHEN", "FORMAT", "FORM", "NAME", "NAMES", "C", "NAME=FILE", "00000000"}
# Options that may be given several times.
MANY = {"allow", "deny", "table"}
# The words of --date that aren't digits.
DATES = "today today-dmy today-ymd"


@dataclass(frozen=True)
class Option:
    name: str
    short: str | None
    value: str | None
    help: str
    # Whether its value may be missing: it then follows `=`.
    may_be_bare: bool = False

    def takes_file(self) -> bool:
        return self.value is not None and self.value not in NOT_FILES

    def choices(self) -> list[str]:
        """The values that it takes, where the help lists them."""
        found = CHOICES.search(self.help)
        return found[1].split(", ") if found else []

    def written(self) -> list[str]:
        return [*([f"-{self.short}"] if self.short else []), f"--{self.name}"]


@dataclass(frozen=True)
class Command:
    name: str
    about: str
    usage: str
    placed: list[tuple[str, str]]
    options: list[Option]

    def takes_file(self) -> bool:
        return any(name.strip("<[]>.") not in NOT_FILES for name, _ in self.placed)


@dataclass(frozen=True)
class Help:
    commands: list[Command]
    statuses: list[tuple[str, str]]
    codes: list[str]
    version: str


def printed_by(program: Path, *words: str) -> str:
    ran = subprocess.run(["rpg2", *words], executable=program, capture_output=True, text=True, check=True)
    return ran.stdout


def option_of(line: str) -> Option | None:
    found = OPTION.fullmatch(line)
    return Option(found["name"], found["short"], found["value"] or found["maybe"], found["help"], bool(found["maybe"])) if found else None


def command_of(program: Path, name: str) -> Command:
    lines = printed_by(program, "help", name).splitlines()
    usage = next(it for it in lines if it.startswith("Usage: "))
    placed = [(it["name"], it["help"]) for line in lines if (it := PLACED.fullmatch(line))]
    options = [it for line in lines if (it := option_of(line))]
    return Command(name, lines[0], usage.removeprefix("Usage: "), placed, options)


def help_of(program: Path) -> Help:
    """What the program prints of its commands and codes."""
    head, _, statuses = printed_by(program, "--help").partition("Exit statuses:\n")
    names = [it["name"] for line in head.splitlines() if (it := COMMAND.fullmatch(line))]
    rows = [(line.split()[0], line.split(maxsplit=1)[1]) for line in statuses.splitlines() if line.strip()]
    codes = CODE.findall(printed_by(program, "explain"))
    version = printed_by(program, "--version").removeprefix("rpg2 ").partition(",")[0]
    return Help([command_of(program, it) for it in names if it != "help"], rows, codes, version)


# ---- the manual page

BEFORE = """\
.TH RPG2 1 "" "Melguda {version}" "User Commands"
.SH NAME
rpg2 \\- compile, verify and run RPG II reports
.SH SYNOPSIS
.B rpg2
.I COMMAND
.RI [ WORDS ]
"""

DESCRIPTION = """\
.SH DESCRIPTION
.B rpg2
compiles column-sheet RPG II sources to object programs, verifies object programs from any origin, and runs them over files of records.
A record is a line of text. Each command but help ends with one line, its answer: on standard output, or on standard error if standard
output has the print. With \\-q there is none if the exit status is 0. Diagnostics go to standard error.
"""

AFTER = """\
.SH ENVIRONMENT
.TP
\\fBNO_COLOR\\fR
If it is set and not empty, marks in diagnostics have no colour.
.TP
\\fBTZ\\fR
The time zone of the days that \\-\\-date today names.
.SH EXAMPLES
.nf
rpg2 compile stock.rpg stock.obj
rpg2 run stock.obj stock.txt stock.print --date today
rpg2 paper stock.print stock.pdf
sort stock.txt | rpg2 run stock.obj - - --date 112376 | lp
rpg2 explain F16
.fi
.SH SEE ALSO
The pages in share/doc/rpg2/docs: START, TUTORIAL, LANGUAGE, EDITING, COMMANDS, MESSAGES, OPERATING, FITS, OLD_PROGRAMS, TRUST, UNTRUSTED.
"""


def escaped(text: str) -> str:
    text = text.replace("\\", "\\e").replace("-", "\\-").replace("'", "\\(aq")
    return f"\\&{text}" if text.startswith((".", "\\(aq")) else text


def entry(head: str, text: str) -> str:
    return f".TP\n\\fB{escaped(head)}\\fR\n{escaped(text)}\n"


def placed_name(name: str) -> str:
    """A word as the manual has it: SRC, or SRC ... where it may stand several times."""
    return name.strip("<[]>.") + (" ..." if name.endswith("...") else "")


def option_head(option: Option) -> str:
    value = f"[={option.value}]" if option.may_be_bare else f" {option.value}" if option.value else ""
    return ", ".join(option.written()) + value


def command_part(command: Command) -> str:
    parts = [f".SS \"{escaped(command.usage)}\"\n{escaped(command.about)}.\n"]
    parts += [entry(placed_name(name), text) for name, text in command.placed]
    parts += [entry(option_head(it), it.help) for it in command.options if it.name != "help"]
    return "".join(parts)


def manual(shown: Help) -> str:
    statuses = "".join(entry(status, text) for status, text in shown.statuses)
    commands = "".join(command_part(it) for it in shown.commands)
    return f"{BEFORE.format(version=shown.version)}{DESCRIPTION}.SH COMMANDS\n{commands}.SH EXIT STATUS\n{statuses}{AFTER}"


# ---- completions

BASH = """\
# Completion of rpg2 for bash: install it as bash-completion/completions/rpg2.
_rpg2() {{
    local cur=${{COMP_WORDS[COMP_CWORD]}} prev=${{COMP_WORDS[COMP_CWORD-1]}} command="" i IFS=$' \\t\\n'
    if [ "$cur" = = ]; then cur=""; elif [ "$prev" = = ]; then prev=${{COMP_WORDS[COMP_CWORD-2]}}; fi
    for ((i = 1; i < COMP_CWORD; i++)); do
        case ${{COMP_WORDS[i]}} in {commands}|help) command=${{COMP_WORDS[i]}}; break;; esac
    done
    if [ -z "$command" ]; then
        COMPREPLY=($(compgen -W '{words} help --help --version' -- "$cur")); return
    fi
    case $prev in
{choices}
        --date) COMPREPLY=($(compgen -W '{dates}' -- "$cur")); return;;
        {plain}) return;;
        {files}) IFS=$'\\n'; COMPREPLY=($(compgen -f -- "$cur")); return;;
    esac
    local options=""
    case $command in
{options}
        explain)
            if [ "$prev" = halt ]; then COMPREPLY=($(compgen -W '1 2 3 4 5 6 7 8' -- "$cur")); return; fi
            case $cur in
                -*) options='{explains}';;
                *) COMPREPLY=($(compgen -W '{codes}' -- "${{cur^^}}") $(compgen -W halt -- "$cur")); return;;
            esac;;
        help) COMPREPLY=($(compgen -W '{words}' -- "$cur")); return;;
    esac
    case $cur in -*) COMPREPLY=($(compgen -W "$options" -- "$cur"));; *) IFS=$'\\n'; COMPREPLY=($(compgen -f -- "$cur"));; esac
}}
complete -o filenames -F _rpg2 rpg2
"""


def written(options: list[Option]) -> str:
    return " ".join(word for it in options for word in it.written())


def all_options(shown: Help) -> list[Option]:
    return [option for command in shown.commands for option in command.options]


def bash_choices(option: Option) -> str:
    """The values of an option. Where it may have none, a word that begins no value is the next argument."""
    found = f"COMPREPLY=($(compgen -W '{' '.join(option.choices())}' -- \"$cur\"))"
    end = '[ -n "$cur" ] && [ ${#COMPREPLY[@]} -gt 0 ] && return' if option.may_be_bare else "return"
    return f"        --{option.name}) {found}; {end};;"


def bash(shown: Help) -> str:
    names = [it.name for it in shown.commands]
    chosen = {it.name: it for it in all_options(shown) if it.choices()}
    plain = sorted({f"--{it.name}" for it in all_options(shown) if it.value and not it.takes_file() and not it.choices()})
    files = sorted({f"--{it.name}" for it in all_options(shown) if it.takes_file()})
    rows = [f"        {it.name}) options='{written(it.options)}';;" for it in shown.commands if it.name != "explain"]
    return BASH.format(
        commands="|".join(names),
        words=" ".join(names),
        choices="\n".join(bash_choices(option) for _, option in sorted(chosen.items())),
        plain="|".join(plain),
        files="|".join(files),
        options="\n".join(rows),
        codes=" ".join(shown.codes),
        dates=DATES,
        explains=written(next(it.options for it in shown.commands if it.name == "explain")),
    )


def quoted(text: str) -> str:
    return text.replace("'", "'\\''")


def zsh_text(text: str) -> str:
    return re.sub(r"([\[\]:])", r"\\\1", quoted(text))


def zsh_option(option: Option) -> str:
    values = "_files" if option.takes_file() else f"({' '.join(option.choices())})" if option.choices() else ""
    values = f"({DATES})" if option.name == "date" else values
    value = "" if option.value is None else f":{option.value}:{values}"
    if option.may_be_bare:
        return f"'*--{option.name}=-[{zsh_text(option.help)}]:{value}'"
    many = "*" if option.name in MANY else ""
    joined = {it: "=" if value and it.startswith("--") else "" for it in option.written()}
    return " ".join(f"'{many}{it}{joined[it]}[{zsh_text(option.help)}]{value}'" for it in option.written())


def zsh_placed(command: Command, name: str, text: str, codes: list[str]) -> str:
    mark = "*:" if name.endswith("...") else ":" if name.startswith("<") else "::"
    if name.strip("<[]>.") == "CODE":
        return f"'{mark}{zsh_text(text)}:({' '.join(codes)} halt)'"
    return f"'{mark}{zsh_text(text)}:{'_files' if command.takes_file() else ''}'"


def zsh_command(command: Command, codes: list[str]) -> str:
    words = [zsh_option(it) for it in command.options] + [zsh_placed(command, *it, codes) for it in command.placed]
    lines = " \\\n                ".join(words)
    return f"        {command.name})\n            _arguments \\\n                {lines}\n            ;;"


def zsh(shown: Help) -> str:
    names = "\n".join(f"        '{it.name}:{zsh_text(it.about)}'" for it in shown.commands)
    cases = "\n".join(zsh_command(it, shown.codes) for it in shown.commands)
    return (
        "#compdef rpg2\n# Completion of rpg2 for zsh: install it as site-functions/_rpg2.\n_rpg2() {\n    local -a commands\n    commands=(\n"
        f"{names}\n    )\n    if ((CURRENT == 2)); then\n        _describe command commands\n        return\n    fi\n"
        "    local command=${words[2]}\n    shift words\n    ((CURRENT--))\n    case $command in\n"
        f"{cases}\n        help) _describe command commands;;\n    esac\n}}\n_rpg2 \"$@\"\n"
    )


def fish_option(command: str, option: Option) -> str:
    short = f" -s {option.short}" if option.short else ""
    values = f" -a '{DATES if option.name == 'date' else ' '.join(option.choices())}'" if option.choices() or option.name == "date" else ""
    takes = "" if option.value is None else values if option.may_be_bare else " -r -F" if option.takes_file() else f" -x{values}"
    return f"complete -c rpg2 -n '__fish_seen_subcommand_from {command}'{short} -l {option.name}{takes} -d '{quoted(option.help)}'"


def fish(shown: Help) -> str:
    lines = ["# Completion of rpg2 for fish: install it as vendor_completions.d/rpg2.fish."]
    lines += [f"complete -c rpg2 -n __fish_use_subcommand -f -a {it.name} -d '{quoted(it.about)}'" for it in shown.commands]
    lines += [fish_option(it.name, option) for it in shown.commands for option in it.options]
    lines.append(f"complete -c rpg2 -n '__fish_seen_subcommand_from explain' -f -a '{' '.join(shown.codes)} halt'")
    lines.append("complete -c rpg2 -n '__fish_seen_subcommand_from explain; and __fish_prev_arg_in halt' -f -a '1 2 3 4 5 6 7 8'")
    return "\n".join(lines) + "\n"


def files_of(program: Path) -> dict[str, str]:
    """Each file of install/ that comes of the program's help, by its place there."""
    shown = help_of(program)
    return {
        "man/rpg2.1": manual(shown),
        "completions/rpg2.bash": bash(shown),
        "completions/_rpg2": zsh(shown),
        "completions/rpg2.fish": fish(shown),
    }


def main() -> None:
    program = Path(sys.argv[1] if len(sys.argv) > 1 else TOP / "crates/rpg2/out/rpg2").resolve()
    folder = Path(sys.argv[2]) if len(sys.argv) > 2 else TOP / "install"
    for name, text in files_of(program).items():
        (folder / name).parent.mkdir(parents=True, exist_ok=True)
        (folder / name).write_text(text, encoding="utf-8")


if __name__ == "__main__":
    main()
