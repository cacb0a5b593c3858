"""The tree of a YAML text, the faults of its notation, and the lines that it is cut into."""

from __future__ import annotations

import re
from dataclasses import dataclass, field

FORBIDDEN = set(",[]{}#|>'\"")
SIGNS = set("&*!%@`")
TAB = re.compile(r" *\t[ \t]*")
BLANK = re.compile(r" *(#.*)?")
MARK = re.compile(r"(---|\.\.\.)[ \t]*( #.*)?")


@dataclass(frozen=True)
class Fault:
    """A fault at a line: its code, what it is about, and the word that it is about; of a template also its text, the
    character at which it is none, and the line on which that stands."""

    line: int
    code: str
    what: str = ""
    word: str = ""
    text: str = ""
    at: int = 0
    place: int = 0

    def rank(self) -> tuple[int, int]:
        """The least line comes first, and on it the least code."""
        return self.line, int(self.code[1:])


class Stop(Exception):
    """A fault with which nothing can be read on."""

    def __init__(self, fault: Fault) -> None:
        super().__init__(fault)
        self.fault = fault


@dataclass(frozen=True)
class Key:
    """A key with its line."""

    text: str
    line: int


@dataclass
class Node:
    """A node: `plain`, `quoted`, `null`, `list`, `map`, or `open` where its value is not known.

    The marks of a text tell at which of its characters each line of the file begins.
    """

    line: int
    kind: str
    text: str = ""
    items: list["Node"] = field(default_factory=list)
    pairs: list[tuple[Key, "Node"]] = field(default_factory=list)
    marks: list[tuple[int, int]] = field(default_factory=list)

    def is_scalar(self) -> bool:
        """Whether it is a text, null apart."""
        return self.kind in ("plain", "quoted", "open")

    def get(self, *keys: str) -> "Node | None":
        """The value of the first of these keys that a map has."""
        return next((node for wanted in keys for key, node in self.pairs if key.text == wanted), None)

    def line_of(self, at: int) -> int:
        """The line of the file on which a character of the text stands."""
        return max((line for start, line in self.marks if start <= at), default=self.line)


class Lines:
    """The lines of a text, from 0; each without its line's end."""

    def __init__(self, text: str) -> None:
        self.lines = [line[:-1] if line.endswith("\r") else line for line in text.split("\n")]
        last = text.split("\n")[-1]
        self.lines[-1] = last
        if last == "":
            self.lines.pop()
        self.first = next((row for row, line in enumerate(self.lines) if not self.is_blank(row)), len(self.lines))

    def __len__(self) -> int:
        return len(self.lines)

    def is_blank(self, row: int) -> bool:
        """Whether a line has only spaces, or spaces and a comment."""
        return BLANK.fullmatch(self.lines[row]) is not None

    def is_empty(self, row: int) -> bool:
        """Whether a line has only spaces."""
        return not self.lines[row].strip(" ")

    def indent(self, row: int) -> int:
        """How many spaces lead."""
        line = self.lines[row]
        return len(line) - len(line.lstrip(" "))

    def look(self, row: int) -> None:
        """What a line may not begin with, wherever it stands."""
        if TAB.match(self.lines[row]):
            raise Stop(Fault(row + 1, "C1"))
        if row > self.first and (self.lines[row].startswith("%") or MARK.fullmatch(self.lines[row])):
            raise Stop(Fault(row + 1, "C3", "document"))

    def next(self, row: int) -> int:
        """The first row from here on that is not blank, or the number of lines."""
        while row < len(self.lines) and self.is_blank(row):
            row += 1
        if row < len(self.lines):
            self.look(row)
        return row


def without_comment(text: str) -> tuple[str, bool]:
    """A text up to a comment behind a space, without blanks at its ends; and whether there was one."""
    found = text.find(" #")
    return (text if found < 0 else text[:found]).strip(" \t"), found >= 0
