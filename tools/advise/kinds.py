"""The kinds of values of a configuration, each with the faults that a node of another form has."""

from __future__ import annotations

import re
from typing import Callable, Optional

from second_reading.clock import read_span
from second_reading.config import FLAGS, PLAIN_NUMBER
from second_reading.template import GrammarError, holds_template, parse
from second_reading.values import is_entity, read_number

from .notation import Fault, Node

LONGEST_TEMPLATE = 16_384
LONGEST_SPAN = 31_622_400_000
PARTS = {"days": 86_400_000, "hours": 3_600_000, "minutes": 60_000, "seconds": 1000, "milliseconds": 1}
TIME = re.compile(r"([0-9]{1,2}):([0-9]{2})(?::([0-9]{2}))?")
DAYS = ("mon", "tue", "wed", "thu", "fri", "sat", "sun")
DIGITS = re.compile(r"[0-9]+")
SIGNED = re.compile(r"-?[0-9]+")


class Judge:
    """Takes the faults of a configuration as they are found."""

    def __init__(self) -> None:
        self.faults: list[Fault] = []

    def say(self, line: int, code: str, what: str, word: str = "") -> None:
        """A fault at a line."""
        self.faults.append(Fault(line, code, what, word))


Kind = Callable[[Judge, Node, int], None]
"""Judges a node; the line is that of its key where it is null."""


def text(judge: Judge, node: Node, line: int) -> None:
    """A scalar other than null."""
    if not node.is_scalar():
        judge.say(line, "C7", "text")


def text_or_null(judge: Judge, node: Node, line: int) -> None:
    """A scalar."""
    if node.kind != "null":
        text(judge, node, line)


def one_or_more(kind: Kind) -> Kind:
    """A value of the kind, or a list of them."""
    def judged(judge: Judge, node: Node, line: int) -> None:
        if node.kind != "list":
            kind(judge, node, line)
        for item in node.items:
            kind(judge, item, item.line)
    return judged


texts = one_or_more(text)


def texts_or_null(judge: Judge, node: Node, line: int) -> None:
    """A text, a list of texts, or null."""
    if node.kind != "null":
        texts(judge, node, line)


def entities(judge: Judge, node: Node, line: int) -> None:
    """Entity ids, at least one, parted by commas too."""
    if node.kind == "list" and not node.items:
        judge.say(line, "C8", "entity", "[]")
    for one, at in [(item, item.line) for item in node.items] if node.kind == "list" else [(node, line)]:
        if not one.is_scalar():
            judge.say(at, "C8", "entity kind", one.kind)
        elif one.kind != "open":
            ids(judge, one.text, at)


def ids(judge: Judge, found: str, line: int) -> None:
    """The entity ids of one text."""
    wrong = [part.strip(" \t") for part in found.split(",") if not is_entity(part.strip(" \t"))]
    if wrong:
        judge.say(line, "C8", "entity", wrong[0])


def flag(judge: Judge, node: Node, line: int) -> None:
    """A word for yes or no."""
    if node.kind != "open" and not (node.is_scalar() and node.text.lower() in FLAGS):
        judge.say(line, "C7", "flag", node.text)


def whole(judge: Judge, node: Node, line: int, least: int = 0, most: Optional[int] = None) -> None:
    """Digits, in bounds."""
    if node.kind == "open":
        return
    if not (node.is_scalar() and DIGITS.fullmatch(node.text)) or not (least <= int(node.text) and (most is None or int(node.text) <= most)):
        judge.say(line, "C10", "whole", node.text)


def counted(written: re.Pattern[str], least: int) -> Kind:
    """A whole number of a counter, from `least` on and in the range of numbers."""
    def judged(judge: Judge, node: Node, line: int) -> None:
        if node.kind != "open" and not (node.is_scalar() and written.fullmatch(node.text) and least <= int(node.text) <= 10**12):
            judge.say(line, "C10", "counted", node.text)
    return judged


first, step, bound = counted(DIGITS, 0), counted(DIGITS, 1), counted(SIGNED, -10**12)


def max_runs(judge: Judge, node: Node, line: int) -> None:
    """A whole number from 1 to 1,000."""
    whole(judge, node, line, 1, 1000)


def number(judge: Judge, node: Node, line: int) -> None:
    """Number text in range."""
    if node.kind != "open" and not (node.is_scalar() and read_number(node.text) is not None):
        judge.say(line, "C10", "number", node.text)


def duration(judge: Judge, node: Node, line: int) -> None:
    """A span of time: a text, or a map of parts in digits."""
    if node.kind == "map":
        parts(judge, node, line, False)
    elif node.kind != "open" and not (node.is_scalar() and read_span(node.text) is not None):
        judge.say(line, "C9", "duration", node.text)


def span(judge: Judge, node: Node, line: int) -> None:
    """A duration in which templates may stand."""
    if node.kind == "map":
        parts(judge, node, line, True)
    elif node.is_scalar() and holds_template(node.text):
        template(judge, node, line)
    else:
        duration(judge, node, line)


def parts(judge: Judge, node: Node, line: int, templates: bool) -> None:
    """The parts of a duration's map, with their sum."""
    total, known = 0, bool(node.pairs)
    for key, value in node.pairs:
        at = key.line if value.kind == "null" else value.line
        if key.text not in PARTS:
            judge.say(key.line, "C5", "duration", key.text)
        elif templates and value.is_scalar() and holds_template(value.text):
            template(judge, value, at)
        elif value.kind != "open" and not (value.is_scalar() and DIGITS.fullmatch(value.text)):
            judge.say(at, "C10", "part", value.text)
        elif value.kind != "open":
            total += PARTS[key.text] * int(value.text)
    if not known or total > LONGEST_SPAN:
        judge.say(line, "C9", "duration", "{}" if not known else "")


def is_time(found: str) -> bool:
    """Whether a text is a time of day."""
    match = TIME.fullmatch(found)
    return match is not None and int(match[1]) < 24 and int(match[2]) < 60 and int(match[3] or 0) < 60


def time(judge: Judge, node: Node, line: int) -> None:
    """A time of day."""
    if node.kind != "open" and not (node.is_scalar() and is_time(node.text)):
        judge.say(line, "C9", "time", node.text or node.kind)


times = one_or_more(time)


def unit(bound: int) -> Kind:
    """A unit of a time pattern: `*`, a number under the bound, or `/n`."""
    def judged(judge: Judge, node: Node, line: int) -> None:
        found = re.fullmatch(r"\*|0|[1-9][0-9]?|/([1-9][0-9]*)", node.text) if node.is_scalar() else None
        fits = found is not None and (node.text[0] in "*/" or int(node.text) < bound) and int(found[1] or 1) < 2**32
        if node.kind != "open" and not fits:
            judge.say(line, "C9", "pattern", node.text)
    return judged


def template(judge: Judge, node: Node, line: int) -> None:
    """A text in the grammar of templates."""
    if node.kind == "open":
        return
    if not node.is_scalar():
        judge.say(line, "C11", "kind", node.kind)
        return
    try:
        parse(node.text)
    except GrammarError as error:
        judge.faults.append(Fault(line, "C11", error.what, error.word, node.text, error.at, node.line_of(error.at)))
        return
    if len(node.text.encode("utf-8", "surrogatepass")) > LONGEST_TEMPLATE:
        judge.say(line, "C12", "template")


def form(judge: Judge, node: Node, line: int) -> None:
    """A value of data, in which templates may stand."""
    if node.kind in ("list", "map"):
        for item in node.items:
            form(judge, item, item.line)
        for key, value in node.pairs:
            form(judge, value, key.line if value.kind == "null" else value.line)
    elif node.is_scalar() and holds_template(node.text):
        template(judge, node, line)
    elif node.kind == "plain" and PLAIN_NUMBER.fullmatch(node.text) and read_number(node.text) is None:
        judge.say(line, "C10", "number", node.text)


def data(judge: Judge, node: Node, line: int) -> None:
    """A map of forms, or null for none."""
    if node.kind not in ("map", "null", "open"):
        judge.say(line, "C7", "data", node.text)
    elif node.kind == "map":
        form(judge, node, line)


def fixed_data(judge: Judge, node: Node, line: int) -> None:
    """A map of values without templates, or null for none."""
    data(judge, without_templates(judge, node), line)


def without_templates(judge: Judge, node: Node) -> Node:
    """The node with each template in it told, and left open."""
    if node.is_scalar() and holds_template(node.text):
        judge.say(node.line, "C11", "fixed", node.text)
        return Node(node.line, "open")
    return Node(node.line, node.kind, node.text, [without_templates(judge, item) for item in node.items],
                [(key, without_templates(judge, value)) for key, value in node.pairs])
