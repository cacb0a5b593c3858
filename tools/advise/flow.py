"""Flow: lists in brackets and maps in braces, on one line."""

from __future__ import annotations

import re
from typing import Callable, Protocol

from .notation import FORBIDDEN, SIGNS, Fault, Key, Lines, Node, Stop
from .scalars import NULLS, escape, quote_end


class Notes(Protocol):
    """Takes what does not stop a flow."""

    def note(self, fault: Fault) -> None:
        """A fault with which the reading goes on."""

    def deeper(self, line: int, depth: int) -> None:
        """A node at a depth."""

    def sign(self, flow: "Flow", char: str) -> Node:
        """A sign of what is left out: the node that stands there, or a stop."""


class Flow:
    """One pass over a flow that begins at a column of a line."""

    def __init__(self, lines: Lines, row: int, at: int, depth: int, notes: Notes) -> None:
        self.lines = lines
        self.row = row
        self.line = lines.lines[row]
        self.at = at
        self.depth = depth
        self.notes = notes

    def fault(self, code: str, what: str = "", word: str = "") -> Stop:
        """A fault on this line."""
        return Stop(Fault(self.row + 1, code, what, word))

    def skip(self) -> str:
        """Goes over blanks; the character that stands behind them."""
        while self.line[self.at:self.at + 1] in (" ", "\t") and self.at < len(self.line):
            if self.line.startswith(" #", self.at):
                raise self.fault("C3", "flow")
            self.at += 1
        if self.at >= len(self.line):
            raise self.fault("C3", "flow")
        return self.line[self.at]

    def node(self) -> Node:
        """One node."""
        self.notes.deeper(self.row + 1, self.depth)
        char = self.skip()
        if char == "[":
            return self.inside(self.items)
        if char == "{":
            return self.inside(self.pairs)
        return self.scalar()

    def inside(self, part: Callable[[], Node]) -> Node:
        """A list or map, one level deeper."""
        self.at += 1
        self.depth += 1
        found = part()
        self.depth -= 1
        return found

    def items(self) -> Node:
        """list := "[" [ node { "," node } [ "," ] ] "]" """
        out = Node(self.row + 1, "list")
        while self.skip() != "]":
            out.items.append(self.node())
            if self.skip() == ",":
                self.at += 1
            elif self.line[self.at] != "]":
                raise self.fault("C2", "flow")
        self.at += 1
        return out

    def pairs(self) -> Node:
        """map := "{" [ key [ ":" node ] { "," .. } [ "," ] ] "}" """
        out = Node(self.row + 1, "map")
        while self.skip() != "}":
            key = self.key(out)
            has_colon = self.skip() == ":"
            if has_colon:
                self.at += 1
            if has_colon and self.skip() not in ",}":
                value = self.node()
            else:
                self.notes.deeper(self.row + 1, self.depth)
                value = Node(self.row + 1, "null")
            out.pairs.append((key, value))
            if self.skip() == ",":
                self.at += 1
            elif self.line[self.at] != "}":
                raise self.fault("C2", "flow")
        self.at += 1
        return out

    def key(self, held: Node) -> Key:
        """A key, plain or in quotes, which no earlier one of the map is."""
        start, char = self.at, self.skip()
        if char in "[{":
            raise self.fault("C2", "braces")
        found = self.scalar(is_key=True)
        if found.text == "":
            raise self.fault("C2", "key")
        if found.kind != "quoted" and found.text == "<<":
            raise self.fault("C3", "merge")
        quoted = self.line[start:].lstrip(" \t")[:1] in ("'", '"')
        if quoted and self.line[self.at:self.at + 1] == ":" and self.line[self.at + 1:self.at + 2] not in ("", " ", "\t", *",[]{}"):
            raise self.fault("C2", "colon")
        key = Key(found.text, self.row + 1)
        if any(other.text == key.text for other, _ in held.pairs):
            self.notes.note(Fault(self.row + 1, "C4", "twice", key.text))
        return key

    def scalar(self, is_key: bool = False) -> Node:
        """A scalar of flow."""
        char = self.line[self.at]
        if char in ("'", '"'):
            return self.quoted(char)
        if char in FORBIDDEN or re.match(r"- |: ", self.line[self.at:]):
            raise self.fault("C2", "flow", char)
        if char in SIGNS or re.match(r"\? ", self.line[self.at:]):
            return self.notes.sign(self, char)
        end = self.at
        while end < len(self.line) and not self.ends(end, is_key):
            end += 1
        text = self.line[self.at:end].strip(" \t")
        self.at = end
        return Node(self.row + 1, "null" if text.lower() in NULLS else "plain", text, marks=[(0, self.row + 1)])

    def ends(self, at: int, is_key: bool) -> bool:
        """Whether a plain scalar ends at a column."""
        line = self.line
        if line[at] in ",[]{}" or line.startswith(" #", at):
            return True
        if line[at] != ":" or line[at + 1:at + 2] not in ("", " ", *",[]{}"):
            return False
        if is_key and line[at + 1:at + 2]:
            return True
        raise self.fault("C2", "colon", line[self.at:])

    def quoted(self, quote: str) -> Node:
        """A scalar in quotes, closed on this line."""
        end = quote_end(self.line, self.at + 1, quote)
        if end < 0:
            raise self.fault("C2", "quote")
        text, at = "", self.at + 1
        while at < end:
            if self.line[at] == "\\" and quote == '"':
                char, at = escape(self.lines, self.row, at + 1)
                text += char
            else:
                text += self.line[at]
                at += 2 if quote == "'" and self.line[at] == "'" else 1
        self.at = end + 1
        return Node(self.row + 1, "quoted", text, marks=[(0, self.row + 1)])
