"""Scalars over lines: plain ones, ones in quotes, and block texts."""

from __future__ import annotations

import re

from .notation import Fault, Lines, Node, Stop, without_comment

ESCAPES = {"\\": "\\", '"': '"', "/": "/", "n": "\n", "r": "\r", "t": "\t", "0": "\0", "e": "\x1b", " ": " ", "_": "\xa0"}
NUMBERS = {"x": 2, "u": 4, "U": 8}
NULLS = ("", "~", "null")


def folded(breaks: int) -> str:
    """What stands for the breaks between two lines of a scalar."""
    return " " if breaks == 1 else "\n" * (breaks - 1)


def plain(lines: Lines, row: int, col: int, holder: int) -> tuple[Node, int]:
    """A plain scalar that begins at a column, and the row behind it."""
    first = row
    text, ended = "", False
    marks: list[tuple[int, int]] = []
    breaks = 0
    while True:
        part, commented = without_comment(lines.lines[row][col:])
        if re.search(r": |:$", part):
            raise Stop(Fault(row + 1, "C2", "colon", part))
        text += (folded(breaks) if marks else "") + part
        marks.append((len(text) - len(part), row + 1))
        after = row + 1
        while after < len(lines) and lines.is_empty(after):
            after += 1
        ended = commented or after >= len(lines) or lines.is_blank(after) or lines.indent(after) <= holder
        if ended:
            return Node(first + 1, "null" if text.lower() in NULLS else "plain", text, marks=marks), row + 1
        lines.look(after)
        breaks = after - row
        row, col = after, lines.indent(after)


def escape(lines: Lines, row: int, at: int) -> tuple[str, int]:
    """The character of an escape whose sign stands at a column, and the column behind it."""
    line = lines.lines[row]
    sign = line[at:at + 1]
    if sign in ESCAPES and sign:
        return ESCAPES[sign], at + 1
    width = NUMBERS.get(sign, 0)
    digits = line[at + 1:at + 1 + width]
    if not width or not re.fullmatch(f"[0-9a-fA-F]{{{width}}}", digits):
        raise Stop(Fault(row + 1, "C2", "escape", sign))
    number = int(digits, 16)
    if number > 0x10FFFF or 0xD800 <= number < 0xE000:
        raise Stop(Fault(row + 1, "C2", "escape", sign))
    return chr(number), at + 1 + width


def quote_end(line: str, at: int, quote: str) -> int:
    """Where a quote is closed on a line from a column on, or -1."""
    while at < len(line):
        if line[at] == "\\" and quote == '"':
            at += 2
        elif line[at] != quote:
            at += 1
        elif quote == "'" and line[at + 1:at + 2] == "'":
            at += 2
        else:
            return at
    return -1


def closing_row(lines: Lines, row: int, col: int, holder: int) -> int:
    """The row on which the quote that stands at a column is closed."""
    quote = lines.lines[row][col]
    at, first = col + 1, row
    while quote_end(lines.lines[row], at, quote) < 0:
        row, at = row + 1, 0
        while row < len(lines) and lines.is_empty(row):
            row += 1
        if row >= len(lines) or lines.indent(row) <= holder:
            raise Stop(Fault(first + 1, "C2", "quote"))
    return row


def quoted_part(lines: Lines, row: int, at: int, quote: str, last: bool) -> tuple[str, bool, int]:
    """A quoted scalar's part on one line: its text, whether a backslash joins it to the next, and the column behind."""
    line, out = lines.lines[row], ""
    end = quote_end(line, at, quote) if last else len(line)
    kept = 0
    while at < end:
        if line[at] == "\\" and quote == '"':
            if at + 1 >= len(line):
                return out, True, len(line)
            char, at = escape(lines, row, at + 1)
            out, kept = out + char, len(out) + len(char)
        else:
            out += line[at]
            at += 2 if quote == "'" and line[at] == "'" else 1
    if not last:
        out = out[:kept] + out[kept:].rstrip(" \t")
    return out, False, end + 1


def quoted(lines: Lines, row: int, col: int, holder: int) -> tuple[Node, int, int]:
    """A scalar in quotes that begins at a column; the row on which it ends, and the column behind it."""
    first, quote = row, lines.lines[row][col]
    end = closing_row(lines, row, col, holder)
    text, joined, at = quoted_part(lines, row, col + 1, quote, row == end)
    marks = [(0, row + 1)]
    while row < end:
        after = row + 1
        lines.look(after)
        while after < end and lines.is_empty(after):
            after += 1
            lines.look(after)
        breaks = after - row
        text += "" if joined and breaks == 1 else "\n" * (breaks - 1) if joined else folded(breaks)
        row = after
        marks.append((len(text), row + 1))
        start = len(lines.lines[row]) - len(lines.lines[row].lstrip(" \t"))
        part, joined, at = quoted_part(lines, row, start, quote, row == end)
        text += part
    return Node(first + 1, "quoted", text, marks=marks), row, at


def block_rows(lines: Lines, row: int, holder: int) -> tuple[list[int], int, int]:
    """The rows of a block text whose sign stands on the row before, its indent, and the row behind it."""
    rows: list[int] = []
    indent = -1
    while row < len(lines):
        if lines.is_empty(row):
            rows.append(row)
        elif indent < 0:
            lines.look(row)
            if lines.indent(row) <= holder:
                break
            indent = lines.indent(row)
            rows.append(row)
        elif lines.indent(row) >= indent:
            lines.look(row)
            rows.append(row)
        else:
            break
        row += 1
    return rows, indent, row


def block(lines: Lines, row: int, col: int, holder: int) -> tuple[Node, int]:
    """A block text whose sign stands at a column, and the row behind it."""
    head = lines.lines[row][col:]
    rows, indent, after = block_rows(lines, row + 1, holder)
    while rows and (lines.is_empty(rows[-1]) and (indent < 0 or len(lines.lines[rows[-1]]) <= indent)):
        rows.pop()
    contents = [lines.lines[one][indent:] if indent >= 0 else "" for one in rows]
    text, marks = "", []
    for place, content in enumerate(contents):
        if place:
            text += break_between(head[0], contents, place)
        marks.append((len(text), rows[place] + 1))
        text += content
    if text.strip("\n") == "" and not any(contents):
        text = ""
    elif not re.match(r"[|>]-", head):
        text += "\n"
    return Node(row + 1, "quoted", text, marks=marks), after


def break_between(sign: str, contents: list[str], place: int) -> str:
    """The break before a line of a block text: `>` folds it where neither line is empty or begins with a space."""
    before, here = contents[place - 1], contents[place]
    if sign == "|" or here == "" or here.startswith(" ") or before.startswith(" "):
        return "\n"
    if before != "":
        return " "
    earlier = next((one for one in reversed(contents[:place]) if one != ""), None)
    return "\n" if earlier is None or earlier.startswith(" ") else ""
