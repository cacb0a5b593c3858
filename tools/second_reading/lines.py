"""The lines of a source: values, commands with their codes, and their printed form."""

from __future__ import annotations

import re
from dataclasses import dataclass
from typing import Any, Optional

from .clock import print_moment, read_moment
from .values import NUMBER_TEXT, Num, Value, is_entity, read_number

DEPTH = 32
LONGEST = 65_536
ESCAPES = {'"': '"', "\\": "\\", "/": "/", "b": "\b", "f": "\f", "n": "\n", "r": "\r", "t": "\t"}
SHORT = {'"': '\\"', "\\": "\\\\", "\n": "\\n", "\r": "\\r", "\t": "\\t"}


class BadValue(Exception):
    """A text that is no value."""


def print_text(text: str) -> str:
    """A string in double quotes."""
    return '"' + "".join(SHORT.get(char) or (f"\\u{ord(char):04x}" if ord(char) < 32 else char) for char in text) + '"'


def print_value(value: Value) -> str:
    """A value without blanks, its order kept."""
    if isinstance(value, list):
        return "[" + ",".join(print_value(one) for one in value) + "]"
    if isinstance(value, dict):
        return "{" + ",".join(f"{print_text(key)}:{print_value(one)}" for key, one in value.items()) + "}"
    if isinstance(value, str):
        return print_text(value)
    if isinstance(value, Num):
        return value.text()
    return "null" if value is None else "true" if value else "false"


class Reader:
    """A value read from the front of a text."""

    def __init__(self, text: str) -> None:
        self.text = text
        self.at = 0

    def blanks(self) -> None:
        """Blanks between tokens."""
        while self.at < len(self.text) and self.text[self.at] in " \t":
            self.at += 1

    def eat(self, token: str) -> bool:
        """Takes a token, if it stands here."""
        if not self.text.startswith(token, self.at):
            return False
        self.at += len(token)
        return True

    def need(self, token: str) -> None:
        """Takes a token that has to stand here."""
        if not self.eat(token):
            raise BadValue

    def value(self, depth: int) -> Value:
        """Any value, inside so many brackets."""
        for word, constant in (("null", None), ("true", True), ("false", False)):
            if self.eat(word):
                return constant
        if self.text.startswith('"', self.at):
            return self.string()
        if self.text.startswith("[", self.at) or self.text.startswith("{", self.at):
            if depth >= DEPTH:
                raise BadValue
            return self.items(depth + 1) if self.eat("[") else self.pairs(depth + 1)
        return self.number()

    def number(self) -> Num:
        """A number in range."""
        found = NUMBER_TEXT.match(self.text, self.at)
        number = read_number(found.group()) if found else None
        if found is None or number is None:
            raise BadValue
        self.at = found.end()
        return number

    def string(self) -> str:
        """A string with its escapes."""
        self.need('"')
        out: list[str] = []
        while not self.eat('"'):
            char = self.text[self.at:self.at + 1]
            if not char or ord(char) < 32:
                raise BadValue
            self.at += 1
            out.append(self.escape() if char == "\\" else char)
        return "".join(out)

    def hexes(self) -> int:
        """Four hexadecimal digits."""
        digits = self.text[self.at:self.at + 4]
        if not re.fullmatch("[0-9a-fA-F]{4}", digits):
            raise BadValue
        self.at += 4
        return int(digits, 16)

    def escape(self) -> str:
        """What stands behind a backslash."""
        char = self.text[self.at:self.at + 1]
        self.at += 1
        if char in ESCAPES and char:
            return ESCAPES[char]
        if char != "u":
            raise BadValue
        code = self.hexes()
        if 0xDC00 <= code < 0xE000:
            raise BadValue
        if 0xD800 <= code < 0xDC00:
            self.need("\\u")
            low = self.hexes()
            if not 0xDC00 <= low < 0xE000:
                raise BadValue
            code = 0x10000 + (code - 0xD800) * 0x400 + (low - 0xDC00)
        return chr(code)

    def items(self, depth: int) -> list[Value]:
        """The items of a list, whose bracket was taken."""
        out: list[Value] = []
        self.blanks()
        while not self.eat("]"):
            if out:
                self.need(",")
                self.blanks()
            out.append(self.value(depth))
            self.blanks()
        return out

    def pairs(self, depth: int) -> dict[str, Value]:
        """The pairs of a map with distinct keys."""
        self.need("{")
        out: dict[str, Value] = {}
        self.blanks()
        while not self.eat("}"):
            if out:
                self.need(",")
                self.blanks()
            key = self.string()
            if key in out:
                raise BadValue
            self.blanks()
            self.need(":")
            self.blanks()
            out[key] = self.value(depth)
            self.blanks()
        return out


def read_value(text: str) -> Value:
    """The value that is all of a text."""
    reader = Reader(text)
    value = reader.value(0)
    if reader.at != len(text):
        raise BadValue
    return value


@dataclass(frozen=True)
class Kind:
    """A command's further keys: those it needs, and those that may be missing with what they then are."""

    needed: tuple[str, ...] = ()
    other: tuple[tuple[str, Any], ...] = ()


KINDS = {
    "report": Kind(("state",), (("attributes", {}),)),
    "gone": Kind(),
    "event": Kind((), (("data", {}),)),
    "moment": Kind(),
    "switch": Kind(("to",), (("stop_actions", True),)),
    "trigger": Kind((), (("skip_condition", True),)),
    "restart": Kind(),
    "reload": Kind(),
}

Command = dict[str, Any]


def refused(code: int) -> Command:
    """A refused line."""
    return {"refused": f"L{code}"}


def right_kinds(command: Command) -> bool:
    """Whether each value is of its key's kind."""
    kinds: dict[str, Any] = {"report": str, "gone": str, "event": str, "moment": str, "switch": str, "trigger": str,
                             "restart": bool, "state": str, "attributes": dict, "data": dict, "to": str,
                             "stop_actions": bool, "skip_condition": bool, "reload": str}
    right = all(isinstance(value, kinds[key]) for key, value in command.items())
    return right and command.get("to", "on") in ("on", "off") and command.get("restart", True) is True


def right_entity(kind: str, command: Command) -> bool:
    """Whether the command's entity is one, of a domain that the command takes."""
    if kind not in ("report", "gone", "switch", "trigger"):
        return True
    entity = command[kind]
    return is_entity(entity) and (entity.split(".")[0] == "automation") == (kind in ("switch", "trigger"))


def ordered(kind: str, found: Command) -> Command:
    """A command with its keys in the table's order and its defaults."""
    out = {kind: found[kind]} | {key: found[key] for key in KINDS[kind].needed}
    return out | {key: found.get(key, usual) for key, usual in KINDS[kind].other}


def command_of(found: Value) -> Command:
    """The command of a line's value, or its refusal."""
    if not isinstance(found, dict):
        return refused(2)
    named = [key for key in found if key in KINDS]
    if len(named) != 1:
        return refused(3)
    kind = named[0]
    allowed = {kind, *KINDS[kind].needed, *(key for key, _ in KINDS[kind].other)}
    if not set(found) <= allowed or not set(KINDS[kind].needed) <= set(found):
        return refused(4)
    if not right_kinds(found):
        return refused(5)
    if not right_entity(kind, found):
        return refused(6)
    if kind == "report" and len(found["state"]) > 255:
        return refused(7)
    if kind == "moment":
        at = read_moment(found["moment"])
        return refused(8) if at is None else {"moment": at}
    return ordered(kind, found)


def read_command(line: bytes) -> Command:
    """The command of a line, or its refusal by the first code that applies."""
    if len(line) > LONGEST:
        return refused(10)
    try:
        return command_of(read_value(line.decode()))
    except UnicodeDecodeError:
        return refused(1)
    except BadValue:
        return refused(2)


def commands_of(source: bytes) -> list[Command]:
    """The commands of a source's lines; a line of only blanks is none."""
    lines = source.split(b"\n")
    whole = [line[:-1] if line.endswith(b"\r") else line for line in lines[:-1]] + lines[-1:]
    return [read_command(line) for line in whole if line.strip(b" \t")]


def print_command(command: Command) -> str:
    """A command as a trace has it."""
    if "moment" in command:
        return print_value({"moment": print_moment(command["moment"])})
    return print_value(command)


def target_automation(command: Command) -> Optional[str]:
    """The automation that a switch or trigger names."""
    entity = command.get("switch") or command.get("trigger")
    return entity.split(".")[1] if entity else None
