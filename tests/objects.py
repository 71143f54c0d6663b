"""All sessions once more with `--format json`: each line that rpg2 then prints must be an object of docs/diagnostics.schema.json, as Python's json reads it."""

import json
import os
import re
import subprocess
import tempfile
from dataclasses import dataclass
from pathlib import Path

import sessions
from outcome import Outcome
from program import SECONDS, Program

# The commands that have --format.
COMMANDS = ("compile", "check", "list", "records", "fit", "verify", "show", "run", "go")

# How an answer begins.
ANSWER = b'{"answer":'

# How the text of clap begins, which is none of rpg2's own.
CLAP = (b"error: ", b"\x1b")

TYPES = {"string": str, "integer": int, "object": dict, "array": list, "null": type(None)}


@dataclass(frozen=True)
class Printed:
    out: bytes
    error: bytes
    status: int


def has_format(command: sessions.Command) -> bool:
    words = command.words.split()
    return words[0] in ("rpg2", "told") and any(it in COMMANDS for it in words[1:3]) and "help" not in words and "--help" not in words


def words_of(command: sessions.Command) -> list[bytes]:
    words = command.words.split()
    begin = words.index("rpg2") + 1 if "rpg2" in words else 2
    return [sessions.unescaped(it) for it in [*words[begin:], "--format", "json"]]


def printed(session: sessions.Session, command: sessions.Command) -> Printed:
    ended = subprocess.run(
        ["rpg2", *words_of(command)],
        executable=session.program.path,
        cwd=session.folder,
        stdin=session.given,
        capture_output=True,
        timeout=SECONDS,
        check=False,
    )
    return Printed(ended.stdout, ended.stderr, ended.returncode)


def is_of(value: object, kind: str) -> bool:
    return isinstance(value, TYPES[kind]) and not isinstance(value, bool)


def fault_of_number_or_text(name: str, value: object, rule: dict) -> str | None:
    """What is wrong with a value that has no parts."""
    if "enum" in rule and value not in rule["enum"]:
        return f"{name} is {value}"
    if isinstance(value, int) and not rule.get("minimum", value) <= value <= rule.get("maximum", value):
        return f"{name} is {value}"
    if isinstance(value, str) and (not re.search(rule.get("pattern", ""), value) or len(value) < rule.get("minLength", 0)):
        return f"{name} is {value!r}"
    return None


def faults_of_members(name: str, value: dict, rule: dict, rules: dict) -> list[str]:
    """What is wrong with the members of an object."""
    known = rule.get("properties", {})
    wanted = rule.get("required", []) + [it for first, needed in rule.get("dependentRequired", {}).items() if first in value for it in needed]
    faults = [f"{name} has no {it}" for it in wanted if it not in value]
    faults += [f"{name} has {it}" for it in value if it not in known]
    for member, part in value.items():
        faults += faults_of_value(member, part, known.get(member, {}), rules)
    return faults


def faults_of_value(name: str, value: object, rule: dict, rules: dict) -> list[str]:
    """What is wrong with a value, by a rule of the schema."""
    if "$ref" in rule:
        rule = rules[rule["$ref"].rsplit("/", 1)[-1]]
    kinds = rule.get("type", [])
    if kinds and not any(is_of(value, it) for it in ([kinds] if isinstance(kinds, str) else kinds)):
        return [f"{name} is no {kinds}"]
    if isinstance(value, dict):
        return faults_of_members(name, value, rule, rules)
    if isinstance(value, list):
        faults = [f"{name} has {len(value)} parts"] if len(value) > rule.get("maxItems", len(value)) else []
        return faults + [it for part in value for it in faults_of_value(name, part, rule.get("items", {}), rules)]
    fault = fault_of_number_or_text(name, value, rule)
    return [fault] if fault else []


def fault_of_object(line: bytes, name: str, rules: dict) -> str | None:
    """What is wrong with a line that should be an object by these rules."""
    try:
        found = json.loads(line)
    except ValueError as why:
        return f"{why}: {line!r}"
    return next((f"{it}: {line!r}" for it in faults_of_value(name, found, rules[name], rules)), None)


def fault_of_answer(line: bytes, status: int, rules: dict) -> str | None:
    fault = fault_of_object(line, "answer", rules)
    if fault:
        return fault
    given = json.loads(line)["status"]
    return None if given == status else f"status {given} in the answer, and {status} of the command"


def answers_in(came: Printed) -> list[bytes]:
    """The answer: a line of standard error if the job writes to standard output, else the last of that. None of a good end that is quiet."""
    told = [it for it in came.error.splitlines() if it.startswith(ANSWER)]
    shown = came.out.splitlines()[-1:]
    return told or [it for it in shown if it.startswith(ANSWER)]


def fault_of(came: Printed, rules: dict) -> str | None:
    if came.error.startswith(CLAP):
        return None
    told = [it for it in came.error.splitlines() if not it.startswith(ANSWER)]
    answers = answers_in(came)
    if not answers and came.status != 0:
        return "no answer"
    faults = [fault_of_object(it, "diagnostic", rules) for it in told]
    faults += [fault_of_answer(it, came.status, rules) for it in answers]
    return next(filter(None, faults), None)


def show(program: Program, path: Path, top: Path) -> list[Outcome]:
    """Obeys the commands of a session, those that have --format with json."""
    if path.name == sessions.OF_ROOT and os.geteuid() != 0:
        return []
    rules = json.loads((top / "docs/diagnostics.schema.json").read_text(encoding="utf-8"))["$defs"]
    outcomes = []
    with tempfile.TemporaryDirectory() as name, open(path.with_name("stdin"), "rb", buffering=0) as given:
        folder = Path(name)
        sessions.furnish(folder, top)
        session = sessions.Session(program, folder, given)
        for command in sessions.commands_in(path):
            if has_format(command):
                fault = fault_of(printed(session, command), rules)
                place = f"{path.name}:{command.number}"
                outcomes.append(Outcome(place, f"objects: {command.words}", f"\n{fault}" if fault else None))
            else:
                session.seen(command)
    return outcomes
