"""A configuration's tree judged by the tables of keys: all faults that it has."""

from __future__ import annotations

import re
from typing import Callable, Optional

from second_reading.template import holds_template
from second_reading.values import is_entity

from . import kinds
from .keys import (ACTION_KINDS, ACTIONS, AUTOMATION, CONDITIONS, GROUPS, HELPERS, MODES, MOST_HELPERS, MOST_SCRIPTS, MOST_TRIGGERS,
                   OF_ANY_ACTION, OF_ANY_TRIGGER, SCRIPT, SYNONYMS, TRIGGERS, Keys)
from .kinds import Judge, Kind
from .notation import Key, Node

Reads = Callable[[Node, int], None]


class Config(Judge):
    """Judges an automation, part by part; and helpers, whose ids and bounds it keeps."""

    def __init__(self) -> None:
        super().__init__()
        self.bounds: dict[str, tuple[int, int]] = {}

    def map(self, node: Node, where: str, keys: Keys, more: dict[str, Reads], any_keys: dict[str, Kind]) -> None:
        """The keys of a map: each by its kind, the others told; then those that are missing."""
        for key, value in node.pairs:
            line = key.line if value.kind == "null" else value.line
            kind = keys.kinds.get(key.text) or any_keys.get(key.text)
            if key.text in more:
                if value.kind != "open":
                    more[key.text](value, line)
            elif kind is not None:
                kind(self, value, line)
            elif key.text not in keys.ignored and not (any_keys and key.text == "alias"):
                self.say(key.line, "C5", where, key.text)
        has = {key.text for key, _ in node.pairs}
        for needed in keys.needed:
            if needed not in has:
                self.say(node.line, "C6", where, needed)
        if keys.one_of and not has & set(keys.one_of):
            self.say(node.line, "C6", where, " or ".join(keys.one_of))

    def each(self, node: Node, line: int, one: Reads) -> None:
        """A list, one item alone, or null for none."""
        if node.kind == "list":
            for item in node.items:
                one(item, item.line)
        elif node.kind not in ("null", "open"):
            one(node, line)

    def twice(self, node: Node, *words: str) -> list[Key]:
        """The keys of a map that are among the words; a later one is told."""
        found = [key for key, _ in node.pairs if key.text in words]
        for key in found[1:]:
            if key.text != found[0].text:
                self.say(key.line, "C4", "synonyms", f"{found[0].text} {key.text}")
        return found

    # Automations

    def automation(self, node: Node, line: int) -> None:
        """One automation."""
        if node.kind == "open":
            return
        if node.kind != "map":
            self.say(line, "C7", "automation", node.text)
            return
        for short, long in SYNONYMS.items():
            if not self.twice(node, short, long) and short != "condition":
                self.say(node.line, "C6", "automation", long)
        reads: dict[str, Reads] = {"mode": self.mode}
        for part, read in (("trigger", self.triggers), ("condition", self.conditions), ("action", self.actions)):
            reads[part] = reads[SYNONYMS[part]] = read
        self.map(node, "automation", AUTOMATION, reads, {})

    # Scripts

    def scripts(self, key: Key, node: Node) -> None:
        """All scripts, by their names, or null for none."""
        if node.kind in ("null", "open"):
            return
        if node.kind != "map":
            self.say(node.line, "C7", "scripts", node.text)
            return
        for name, value in node.pairs:
            if re.fullmatch("[a-z0-9_]+", name.text) is None:
                self.say(name.line, "C8", "script name", name.text)
            self.script(value, name.line if value.kind == "null" else value.line)
        for over, value in node.pairs[MOST_SCRIPTS:MOST_SCRIPTS + 1]:
            self.say(over.line if value.kind == "null" else value.line, "C12", "scripts")

    def script(self, node: Node, line: int) -> None:
        """One script."""
        if node.kind == "open":
            return
        if node.kind != "map":
            self.say(line, "C7", "script", node.text)
            return
        self.map(node, "script", SCRIPT, {"mode": self.mode, "sequence": self.actions}, {})

    # Helpers

    def helpers(self, found: list[tuple[Key, Node]]) -> None:
        """All helpers: for each kind a map by their names, or null for none."""
        named: list[tuple[Key, Node]] = []
        for key, node in found:
            if node.kind not in ("null", "open", "map"):
                self.say(node.line, "C7", "helpers", node.text)
            for name, value in node.pairs if node.kind == "map" else []:
                if re.fullmatch("[a-z0-9_]+", name.text) is None:
                    self.say(name.line, "C8", "helper name", name.text)
                self.helper(key.text, name, value)
                named.append((name, value))
        for over, value in named[MOST_HELPERS:MOST_HELPERS + 1]:
            self.say(over.line if value.kind == "null" else value.line, "C12", "helpers")

    def helper(self, kind: str, name: Key, node: Node) -> None:
        """One helper, null or a map."""
        self.bounds[f"{kind}.{name.text}"] = -10**12, 10**12
        if node.kind in ("null", "open"):
            return
        if node.kind != "map":
            self.say(node.line, "C7", "helper", node.text)
            return
        before = len(self.faults)
        self.map(node, f"helper {kind}", HELPERS[kind], {}, {})
        if kind == "counter" and not any(fault.code == "C10" for fault in self.faults[before:]):
            first, least, most = (int(part.text) if part is not None and kinds.SIGNED.fullmatch(part.text) else usual for part, usual in (
                (node.get("initial"), 0), (node.get("minimum"), -10**12), (node.get("maximum"), 10**12)))
            self.bounds[f"counter.{name.text}"] = least, most
            if not least <= first <= most:
                self.say(name.line, "C10", "counter", name.text)

    def mode(self, node: Node, line: int) -> None:
        """The mode of an automation or a script."""
        if not node.is_scalar():
            self.say(line, "C7", "text")
        elif node.text not in MODES:
            self.say(line, "C14", "mode", node.text)

    # Triggers

    def triggers(self, node: Node, line: int) -> None:
        """A list of triggers."""
        for over in node.items[MOST_TRIGGERS:MOST_TRIGGERS + 1]:
            self.say(over.line, "C12", "triggers")
        self.each(node, line, self.trigger)

    def trigger(self, node: Node, line: int) -> None:
        """One trigger."""
        if node.kind == "open":
            return
        if node.kind != "map":
            self.say(line, "C7", "trigger", node.text)
            return
        found = self.twice(node, "trigger", "platform")
        kind = self.kind_of(node, found, "trigger")
        if kind is None:
            return
        if kind not in TRIGGERS:
            self.say(self.line_of_kind(node, found[0]), "C14", "trigger", kind)
            return
        ignored: dict[str, Reads] = {"trigger": self.nothing, "platform": self.nothing}
        if kind == "homeassistant":
            ignored["event"] = self.start
        self.one_side(node, "from", "not_from")
        self.one_side(node, "to", "not_to")
        self.map(node, f"trigger {kind}", TRIGGERS[kind], ignored, OF_ANY_TRIGGER)

    def kind_of(self, node: Node, found: list[Key], where: str) -> Optional[str]:
        """The word of a map's kind key, or none where it is missing or no text, which is told."""
        if not found:
            self.say(node.line, "C14", f"no {where}", " ".join(key.text for key, _ in node.pairs))
            return None
        value = node.get(found[0].text)
        assert value is not None
        if value.kind == "open":
            return None
        if not value.is_scalar():
            self.say(self.line_of_kind(node, found[0]), "C14", where, "")
            return None
        return value.text

    def line_of_kind(self, node: Node, key: Key) -> int:
        """The line of a kind's value, or of its key where it is null."""
        value = node.get(key.text)
        return key.line if value is None or value.kind == "null" else value.line

    def one_side(self, node: Node, one: str, none: str) -> None:
        """`from` beside `not_from` is told at the later one, and so are `to` and `not_to`."""
        found = [key for key, _ in node.pairs if key.text in (one, none)]
        if len({key.text for key in found}) == 2 and node.get("entity_id") is not None:
            self.say(found[1].line, "C5", "side", found[1].text)

    def start(self, node: Node, line: int) -> None:
        """The event of a `homeassistant` trigger."""
        if node.kind == "list" or node.text != "start":
            self.say(line, "C14", "event", node.text)

    def nothing(self, node: Node, line: int) -> None:
        """What is not looked at."""

    # Conditions

    def conditions(self, node: Node, line: int) -> None:
        """A list of conditions."""
        self.each(node, line, self.condition)

    def condition(self, node: Node, line: int) -> None:
        """One condition that is no action."""
        self.any_condition(node, line, {"enabled": kinds.flag}, "condition")

    def any_condition(self, node: Node, line: int, any_keys: dict[str, Kind], where: str) -> None:
        """One condition; as an action it has more keys."""
        if node.is_scalar():
            kinds.template(self, node, line)
            return
        if node.kind != "map":
            self.say(line, "C7", where, node.kind)
            return
        found = [key for key, _ in node.pairs if key.text in ("condition", *GROUPS)]
        if found and found[0].text in GROUPS:
            self.group(node, found[0].text, {found[0].text: self.conditions}, any_keys)
            return
        kind = self.kind_of(node, found, "condition")
        if kind is None:
            return
        if kind in GROUPS:
            self.group(node, kind, {"condition": self.nothing, "conditions": self.conditions}, any_keys, ("conditions",))
        elif kind not in CONDITIONS:
            self.say(self.line_of_kind(node, found[0]), "C14", "condition", kind)
        else:
            reads: dict[str, Reads] = {"condition": self.nothing}
            if kind == "time":
                reads["weekday"] = lambda value, at: self.each_day(value, at)
            self.map(node, f"condition {kind}", CONDITIONS[kind], reads, any_keys)

    def group(self, node: Node, kind: str, reads: dict[str, Reads], any_keys: dict[str, Kind],
              needed: tuple[str, ...] = ()) -> None:
        """`and`, `or` and `not`."""
        self.map(node, f"condition {kind}", Keys(needed=needed), reads, any_keys)

    def each_day(self, node: Node, line: int) -> None:
        """The days of a time condition."""
        for one, at in [(item, item.line) for item in node.items] if node.kind == "list" else [(node, line)]:
            if not one.is_scalar():
                self.say(at, "C7", "text")
            elif one.kind != "open" and one.text not in kinds.DAYS:
                self.say(at, "C14", "weekday", one.text)

    # Actions

    def actions(self, node: Node, line: int) -> None:
        """A list of actions."""
        self.each(node, line, self.action)

    def action(self, node: Node, line: int) -> None:
        """One action: a condition's template, or a map with a kind key."""
        if node.kind == "open":
            return
        if node.is_scalar():
            kinds.template(self, node, line)
            return
        if node.kind != "map":
            self.say(line, "C7", "action", node.kind)
            return
        found = next((key.text for key, _ in node.pairs if key.text in ACTION_KINDS), None)
        if found is None:
            self.say(node.line, "C14", "no action", " ".join(key.text for key, _ in node.pairs))
        elif found in ("condition", *GROUPS):
            self.any_condition(node, line, OF_ANY_ACTION, "action")
        else:
            if found in ("action", "service"):
                self.twice(node, "action", "service")
            self.map(node, f"action {found}", ACTIONS["action" if found == "service" else found], self.parts_of(found), OF_ANY_ACTION)

    def parts_of(self, kind: str) -> dict[str, Reads]:
        """What reads the keys of an action that hold more than a value."""
        if kind in ("action", "service"):
            return {"action": self.service, "service": self.service, "target": self.target, "entity_id": self.targets}
        return {
            "wait_for_trigger": {"wait_for_trigger": self.triggers},
            "choose": {"choose": self.options, "default": self.actions},
            "if": {"if": self.conditions, "then": self.actions, "else": self.actions},
            "repeat": {"repeat": self.repeat},
            "parallel": {"parallel": self.branches},
            "sequence": {"sequence": self.actions},
        }.get(kind, {})

    def service(self, node: Node, line: int) -> None:
        """A service's name, or a template."""
        if not node.is_scalar():
            self.say(line, "C7", "service")
        elif holds_template(node.text):
            kinds.template(self, node, line)
        elif not is_entity(node.text):
            self.say(line, "C8", "service", node.text)

    def target(self, node: Node, line: int) -> None:
        """The map of a target."""
        if node.kind != "map":
            self.say(line, "C7", "target", node.text)
        else:
            self.map(node, "target", Keys(), {"entity_id": self.targets}, {})

    def targets(self, node: Node, line: int) -> None:
        """The entity ids of a call, each perhaps a template."""
        for one, at in [(item, item.line) for item in node.items] if node.kind == "list" else [(node, line)]:
            if not one.is_scalar():
                self.say(at, "C7", "target ids", one.kind)
            elif holds_template(one.text):
                kinds.template(self, one, at)
            elif one.kind != "open":
                kinds.ids(self, one.text, at)

    def options(self, node: Node, line: int) -> None:
        """The options of a choice."""
        if node.kind == "null":
            self.say(line, "C7", "choose")
        self.each(node, line, self.option)

    def option(self, node: Node, line: int) -> None:
        """One option of a choice."""
        if node.kind != "map":
            self.say(line, "C7", "option", node.text)
        else:
            self.map(node, "option", Keys(needed=("conditions", "sequence"), ignored=("alias",)),
                     {"conditions": self.conditions, "sequence": self.actions}, {})

    def repeat(self, node: Node, line: int) -> None:
        """A repeat."""
        if node.kind != "map":
            self.say(line, "C7", "repeat", node.text)
            return
        reads: dict[str, Reads] = {"count": self.count, "while": self.conditions, "until": self.conditions, "for_each": self.items}
        found = [key for key, _ in node.pairs if key.text in reads]
        for key in found[1:]:
            self.say(key.line, "C5", "repeat", key.text)
            reads[key.text] = self.nothing
        self.map(node, "repeat", Keys(needed=("sequence",), one_of=tuple(reads)), {**reads, "sequence": self.actions}, {})

    def count(self, node: Node, line: int) -> None:
        """How often: a template, or digits."""
        if node.is_scalar() and holds_template(node.text):
            kinds.template(self, node, line)
        else:
            kinds.whole(self, node, line)

    def items(self, node: Node, line: int) -> None:
        """The list of a `for_each`."""
        if node.kind != "list":
            self.say(line, "C7", "for_each", node.text)
        else:
            kinds.form(self, node, line)

    def branches(self, node: Node, line: int) -> None:
        """The lists of a parallel block."""
        self.each(node, line, lambda one, at: self.actions(one, at) if one.kind == "list" else self.action(one, at))
