"""The tree of a YAML text in the profile of docs/FORMATS.md, read by indents."""

from __future__ import annotations

import re
from typing import Optional

from .flow import Flow
from .notation import FORBIDDEN, SIGNS, Fault, Key, Lines, Node, Stop, without_comment
from .scalars import block, plain, quote_end, quoted

DEEPEST = 64


class Reader:
    """One pass over the lines.

    A strict reader stops at the first sign of what the profile leaves out. Another one notes it, and goes on
    with a node whose value is open.
    """

    def __init__(self, text: str, strict: bool) -> None:
        self.lines = Lines(text)
        self.strict = strict
        self.faults: list[Fault] = []
        self.row = 0

    # What is noted

    def note(self, fault: Fault) -> None:
        """A fault with which the reading goes on."""
        self.faults.append(fault)

    def deeper(self, line: int, depth: int) -> None:
        """A node at a depth, from 1."""
        if depth > DEEPEST:
            self.note(Fault(line, "C12", "depth"))
            if depth > 2 * DEEPEST:
                raise Stop(Fault(line, "C12", "depth"))

    def left_out(self, row: int, what: str, word: str = "") -> None:
        """What the profile leaves out."""
        fault = Fault(row + 1, "C3", what, word)
        if self.strict:
            raise Stop(fault)
        self.note(fault)

    def sign(self, flow: Flow, char: str) -> Node:
        """A sign of what is left out, in flow: what stands there is open."""
        self.left_out(flow.row, "sign", flow.line[flow.at:].split(",")[0].rstrip("]} "))
        while flow.line[flow.at:flow.at + 1] not in ("", *",]}"):
            flow.at += 1
        return Node(flow.row + 1, "open")

    # Nodes

    def document(self) -> Node:
        """The one node of the text; null where it has none."""
        self.row = self.lines.next(0)
        if self.row < len(self.lines) and re.fullmatch(r"---[ \t]*( #.*)?", self.lines.lines[self.row]):
            self.row = self.lines.next(self.row + 1)
        if self.row >= len(self.lines):
            return Node(1, "null")
        found = self.node(self.lines.indent(self.row), -1, 1)
        self.row = self.lines.next(self.row)
        if self.row < len(self.lines):
            raise self.misplaced()
        return found

    def misplaced(self) -> Stop:
        """The fault of a line that fits no open node."""
        return Stop(Fault(self.row + 1, "C2", "indent", self.lines.lines[self.row].strip()))

    def node(self, col: int, holder: int, depth: int) -> Node:
        """A node that begins on this row at a column, and may open a list or a map there."""
        self.deeper(self.row + 1, depth)
        line = self.lines.lines[self.row]
        if self.is_dash(col):
            return self.list(col, depth)
        if self.key_end(col) is not None:
            return self.map(col, depth)
        return self.value(line, col, holder, depth)

    def is_dash(self, col: int) -> bool:
        """Whether an item of a list begins at a column."""
        return re.match(r"-( |$)", self.lines.lines[self.row][col:]) is not None

    def value(self, line: str, col: int, holder: int, depth: int) -> Node:
        """A scalar or a flow, which begins on this row at a column."""
        char = line[col]
        if char in SIGNS or re.match(r"\? ", line[col:]):
            return self.signed(line, col, holder, depth)
        if char in "|>":
            if not re.fullmatch(r"[|>]-?[ \t]*( #.*)?", line[col:]):
                self.left_out(self.row, "block", line[col:])
            found, self.row = block(self.lines, self.row, col, holder)
            return found
        if char in "[{":
            return self.flow(col, depth)
        if char in ("'", '"'):
            found, row, at = quoted(self.lines, self.row, col, holder)
            self.row = row
            self.nothing_behind(at)
            return found
        if char in FORBIDDEN or re.match(r"- |: ", line[col:]):
            raise Stop(Fault(self.row + 1, "C2", "sign", char))
        found, self.row = plain(self.lines, self.row, col, holder)
        return found

    def nothing_behind(self, at: int) -> None:
        """The rest of the line has to be blank, or a comment."""
        rest = self.lines.lines[self.row][at:]
        if not re.fullmatch(r"[ \t]*( #.*)?", rest):
            raise Stop(Fault(self.row + 1, "C2", "behind", rest.strip()))
        self.row += 1

    def signed(self, line: str, col: int, holder: int, depth: int) -> Node:
        """What begins with a sign of what is left out. Behind an anchor the node goes on."""
        self.left_out(self.row, "sign", line[col:].strip())
        rest = re.match(r"&[^ ]*( +|$)", line[col:])
        if rest is None:
            self.row += 1
            self.skip_deeper(holder)
            return Node(self.row, "open")
        if col + rest.end() < len(line):
            return self.node(col + rest.end(), holder, depth)
        return self.below(holder, depth)

    def skip_deeper(self, holder: int) -> None:
        """Goes over the lines that belong to what is open."""
        while self.row < len(self.lines) and (self.lines.is_blank(self.row) or self.lines.indent(self.row) > holder):
            self.row += 1

    def flow(self, col: int, depth: int) -> Node:
        """A flow on one line; where another reader goes on, its further lines are joined."""
        found = Flow(self.lines, self.row, col, depth, self)
        try:
            node = found.inside(found.items if found.line[col] == "[" else found.pairs)
        except Stop as stop:
            if self.strict or stop.fault.what != "flow" or stop.fault.code != "C3" or self.row + 1 >= len(self.lines):
                raise
            return self.joined_flow(stop.fault, col, depth)
        rest = found.line[found.at:]
        if re.match(r"[ \t]*:( |$)", rest):
            self.left_out(self.row, "key")
        self.nothing_behind(found.at)
        return node

    def joined_flow(self, fault: Fault, col: int, depth: int) -> Node:
        """A flow with the next line that is not blank put behind it; what stands there counts as of its first line."""
        if fault not in self.faults:
            self.note(fault)
        row, lines = self.row, self.lines.lines
        after = next((one for one in range(row + 1, len(lines)) if not self.lines.is_blank(one)), None)
        if after is None:
            raise Stop(fault)
        lines[row] = lines[row].split(" #")[0].rstrip() + " " + lines[after].strip()
        lines[after] = ""
        return self.flow(col, depth)

    # Lists and maps

    def list(self, indent: int, depth: int) -> Node:
        """The items at an indent."""
        out = Node(self.row + 1, "list")
        while True:
            out.items.append(self.item(indent, depth + 1))
            self.row = self.lines.next(self.row)
            if self.row >= len(self.lines) or self.lines.indent(self.row) != indent or not self.is_dash(indent):
                return out

    def item(self, indent: int, depth: int) -> Node:
        """What stands behind a dash."""
        line, row = self.lines.lines[self.row], self.row
        behind = re.match(r"-( [ \t]*|$)", line[indent:])
        assert behind is not None
        col = indent + behind.end()
        if not without_comment(" " + line[col:])[0]:
            self.row += 1
            return self.below(indent, depth, row + 1)
        return self.node(col, indent, depth)

    def below(self, holder: int, depth: int, line: Optional[int] = None) -> Node:
        """The node on the next lines, right of what holds it; else null."""
        if line is None:
            line = self.row + 1
            self.row += 1
        after = self.lines.next(self.row)
        if after < len(self.lines) and self.lines.indent(after) > holder:
            self.row = after
            return self.node(self.lines.indent(after), holder, depth)
        self.deeper(line, depth)
        return Node(line, "null")

    def key_end(self, col: int) -> Optional[int]:
        """The column behind a key's colon, where a key begins at a column."""
        line = self.lines.lines[self.row]
        if line[col] in ("'", '"'):
            end = quote_end(line, col + 1, line[col])
            found = re.match(r":( |$)", line[end + 1:]) if end >= 0 else None
            return end + 2 if found else None
        if line[col] in FORBIDDEN or line[col] in SIGNS or re.match(r"\? |: |:$", line[col:]):
            return None
        text = line[:col] + line[col:].split(" #")[0]
        found = re.compile(r":( |[ \t]*$)").search(text, col)
        return found.start() + 1 if found else None

    def map(self, indent: int, depth: int) -> Node:
        """The pairs at an indent."""
        out = Node(self.row + 1, "map")
        while True:
            out.pairs.append(self.pair(out, indent, depth + 1))
            self.row = self.lines.next(self.row)
            if self.row >= len(self.lines) or self.lines.indent(self.row) < indent:
                return out
            if self.lines.indent(self.row) > indent or self.is_dash(indent):
                raise self.misplaced()
            if self.key_end(indent) is None:
                raise self.no_key(indent)

    def no_key(self, col: int) -> Stop:
        """The fault of a line of a map that is no pair."""
        line = self.lines.lines[self.row]
        if line[col] in SIGNS or re.match(r"\? ", line[col:]):
            return Stop(Fault(self.row + 1, "C3", "sign", line[col:].strip()))
        if line[col] in "[{":
            return self.flow_key(col)
        if line[col] in ("'", '"'):
            try:
                quoted(self.lines, self.row, col, col - 1)
            except Stop as stop:
                return stop
        return Stop(Fault(self.row + 1, "C2", "no key", line.strip()))

    def flow_key(self, col: int) -> Stop:
        """The fault of a flow that stands where a key is wanted."""
        found = Flow(Lines("\n" * self.row + self.lines.lines[self.row]), self.row, col, 1, self)
        try:
            found.inside(found.items if found.line[col] == "[" else found.pairs)
        except Stop:
            return Stop(Fault(self.row + 1, "C2", "no key"))
        is_key = re.match(r"[ \t]*:( |$)", found.line[found.at:])
        return Stop(Fault(self.row + 1, "C3" if is_key else "C2", "key" if is_key else "no key"))

    def pair(self, held: Node, indent: int, depth: int) -> tuple[Key, Node]:
        """A key and its value."""
        line, row = self.lines.lines[self.row], self.row
        behind = self.key_end(indent)
        assert behind is not None
        if line[indent] in ("'", '"'):
            text = quoted(self.lines, row, indent, -1)[0].text
        else:
            text = line[indent:behind - 1].strip(" \t")
        if text == "":
            raise Stop(Fault(row + 1, "C2", "key"))
        if text == "<<" and line[indent] == "<":
            self.left_out(row, "merge")
        if any(other.text == text for other, _ in held.pairs):
            self.note(Fault(row + 1, "C4", "twice", text))
        return Key(text, row + 1), self.pair_value(indent, behind, depth)

    def pair_value(self, indent: int, behind: int, depth: int) -> Node:
        """The value behind a key's colon, or below it."""
        line, row = self.lines.lines[self.row], self.row
        rest = line[behind:]
        if without_comment(rest)[0]:
            col = behind + len(rest) - len(rest.lstrip(" \t"))
            self.deeper(row + 1, depth)
            return self.value(line, col, indent, depth)
        self.row += 1
        after = self.lines.next(self.row)
        if after < len(self.lines) and self.lines.indent(after) == indent:
            self.row = after
            if self.is_dash(indent):
                self.deeper(after + 1, depth)
                return self.list(indent, depth)
        return self.below(indent, depth, row + 1)


def read_tree(text: str, strict: bool = True) -> tuple[Optional[Node], list[Fault]]:
    """The tree of a text, as far as it could be read, and the faults of its notation."""
    reader = Reader(text, strict)
    try:
        return reader.document(), reader.faults
    except Stop as stop:
        return None, reader.faults + [stop.fault]
