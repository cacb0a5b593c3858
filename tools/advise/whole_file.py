"""A file's automations with the faults of each, also where the notation of one hides the others."""

from __future__ import annotations

import re
from dataclasses import dataclass, field
from typing import Optional

from second_reading.config import free_name, slug

from .judged import Config
from .keys import HELPERS, MOST_AUTOMATIONS
from .notation import Fault, Key, Lines, Node
from .yaml import read_tree

LONGEST = 1_048_576
OTHERS = re.compile(r"(?:script|input_boolean|counter|timer):(?:[ \t]|$)")


@dataclass
class Automation:
    """An automation, or a script: its name, its tree where it could be read, and its faults (a script's are the file's)."""

    name: str
    node: Node
    faults: list[Fault] = field(default_factory=list)
    kind: str = "automation"


@dataclass
class File:
    """What was read of a file: its automations, scripts and helpers (of counters the bounds), the faults outside them, and what the program
    answers of it."""

    automations: list[Automation] = field(default_factory=list)
    scripts: list[Automation] = field(default_factory=list)
    helpers: dict[str, tuple[int, int]] = field(default_factory=dict)
    faults: list[Fault] = field(default_factory=list)
    refusal: Optional[Fault] = None
    is_cut: bool = False


def least(faults: list[Fault]) -> Optional[Fault]:
    """The fault that the program tells: of the least line, and there of the least code."""
    return min(faults, key=Fault.rank, default=None)


def read_file(raw: bytes) -> File:
    """What stands in a file."""
    if len(raw) > LONGEST:
        fault = Fault(1, "C12", "file")
        return File(faults=[fault], refusal=fault)
    text, wrong = decoded(raw)
    tree, faults = read_tree(text)
    if wrong:
        faults = [fault for fault in faults if fault.line <= wrong] + [Fault(wrong, "C13")]
    if faults:
        return cut_file(text, faults)
    assert tree is not None
    file = of_tree(tree)
    file.refusal = least(file.faults + [fault for one in file.automations for fault in one.faults])
    return file


def decoded(raw: bytes) -> tuple[str, int]:
    """The text, and the first line that is not UTF-8, or 0."""
    text = raw.removeprefix(b"\xef\xbb\xbf").decode("utf-8", "surrogateescape")
    found = re.search("[\udc80-\udcff]", text)
    return text, text.count("\n", 0, found.start()) + 1 if found else 0


def of_tree(tree: Node) -> File:
    """The automations and scripts of a tree."""
    judge = Config()
    held = tree
    scripts: list[Automation] = []
    if tree.kind == "map":
        for key, value in tree.pairs:
            if key.text == "script":
                judge.scripts(key, value)
                scripts = [Automation(name.text, one, kind="script") for name, one in value.pairs]
            elif key.text not in ("automation", *HELPERS):
                judge.say(key.line, "C5", "file", key.text)
        judge.helpers([(key, value) for key, value in tree.pairs if key.text in HELPERS])
        held = tree.get("automation") or Node(tree.line, "null")
        if tree.get("automation") is None:
            judge.say(tree.line, "C6", "file", "automation")
    elif tree.is_scalar():
        judge.say(tree.line, "C7", "file", tree.text)
        held = Node(tree.line, "null")
    items = held.items if held.kind == "list" else [held] if held.kind != "null" else []
    for over in items[MOST_AUTOMATIONS:MOST_AUTOMATIONS + 1]:
        judge.say(over.line, "C12", "automations")
    return File([judged(item) for item in named(items)], scripts, judge.bounds, judge.faults)


def judged(found: Automation) -> Automation:
    """An automation with the faults that it has."""
    config = Config()
    config.automation(found.node, found.node.line)
    found.faults += config.faults
    return found


def named(items: list[Node]) -> list[Automation]:
    """The automations with their names, each free of those before it."""
    out: list[Automation] = []
    for item in items:
        title = item.get("alias") or item.get("id")
        text = title.text if title is not None and title.is_scalar() else ""
        out.append(Automation(free_name(slug(text or "unnamed"), {one.name for one in out}), item))
    return out


# Where the notation of the whole is none, each automation is read alone.

def cut_file(text: str, faults: list[Fault]) -> File:
    """The automations of a text whose notation has faults, each read with the others' lines left empty."""
    file = File(refusal=least(faults), is_cut=True)
    items = [read_alone(part) for part in cut(text)]
    for found in named([node for node, _ in items]):
        file.automations.append(found)
    for found, (node, own) in zip(file.automations, items):
        found.faults += own
        if not own or all(fault.code == "C3" for fault in own):
            judged(found)
    told = {(fault.line, fault.code) for one in file.automations for fault in one.faults}
    file.faults = [fault for fault in faults if (fault.line, fault.code) not in told]
    return file


def cut(text: str) -> list[str]:
    """For each item of the list of automations the text with the lines of all others empty."""
    lines = Lines(text)
    head = lines.first
    if head < len(lines) and lines.lines[head].startswith("---"):
        head += 1
        while head < len(lines) and lines.is_blank(head):
            head += 1
    key = next((row for row in range(head, len(lines)) if re.match(r"automation:[ \t]*(#.*)?$", lines.lines[row])), None)
    head = head if key is None else key + 1
    starts = [row for row in range(head, len(lines)) if not lines.is_blank(row)]
    end = next((row for row in starts if OTHERS.match(lines.lines[row])), len(lines))
    starts = [row for row in starts if row < end]
    if not starts or not re.match(r" *-( |$)", lines.lines[starts[0]]):
        return []
    indent = lines.indent(starts[0])
    fronts = [row for row in starts if lines.indent(row) == indent and re.match(r"-( |$)", lines.lines[row][indent:])]
    ends = fronts[1:] + [end]
    return ["\n" * front + "\n".join(lines.lines[front:end]) for front, end in zip(fronts, ends)]


def read_alone(part: str) -> tuple[Node, list[Fault]]:
    """The one automation of a list, read as far as it can be; and the faults of its notation."""
    tree, faults = read_tree(part, strict=False)
    if tree is not None and tree.kind == "list" and len(tree.items) == 1:
        return tree.items[0], faults
    found = re.search(r"^[ -]*(?:alias|id):[ \t]*(.*)$", part, re.MULTILINE)
    title = found[1].strip(" \t'\"") if found else ""
    line = part.count("\n", 0, len(part) - len(part.lstrip())) + 1
    pairs = [(Key("alias", line), Node(line, "plain", title))] if title else []
    return Node(line, "open", pairs=pairs), faults
