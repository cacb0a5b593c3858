"""Automations as data: a list of maps with the keys and values of the YAML file.

A str is a quoted scalar there, and every other scalar a plain one. What is read here is
taken by Hearth: faults of a configuration are no part of this reading.
"""

from __future__ import annotations

import re
from dataclasses import dataclass, field
from typing import Any, Optional, Union

from .clock import read_span, second_of_day
from .template import holds_template
from .values import Num, Value, is_entity, read_number, whole

PARTS = {"days": 86_400_000, "hours": 3_600_000, "minutes": 60_000, "seconds": 1000, "milliseconds": 1}
DAYS = ("mon", "tue", "wed", "thu", "fri", "sat", "sun")


@dataclass(frozen=True)
class Template:
    """A template's text."""

    text: str


class Plain(str):
    """A plain scalar, as it is written."""


FLAGS = {"true": True, "yes": True, "on": True, "false": False, "no": False, "off": False}
PLAIN_NUMBER = re.compile(r"-?(0|[1-9][0-9]*)(\.[0-9]+)?")

Form = Any
Data = list[tuple[str, Form]]


@dataclass(frozen=True)
class Side:
    """What a state trigger asks of the old or the new text."""

    kind: str
    texts: tuple[str, ...] = ()

    def matches(self, text: Optional[str]) -> bool:
        """Whether a text fits; None where there is none."""
        if self.kind in ("absent", "any"):
            return True
        return (text in self.texts) == (self.kind == "one")


@dataclass(frozen=True)
class StateRule:
    """A change of an entity's text, or of an attribute."""

    entities: list[str]
    attribute: Optional[str]
    old: Side
    new: Side


@dataclass(frozen=True)
class NumericRule:
    """A number that comes into bounds."""

    entities: list[str]
    attribute: Optional[str]
    above: Optional[Num]
    below: Optional[Num]

    def holds(self, number: Num) -> bool:
        """Whether a number is in the strict bounds."""
        over = self.above is None or number.micros > self.above.micros
        return over and (self.below is None or number.micros < self.below.micros)


@dataclass(frozen=True)
class EventRule:
    """An event of a listed type with these pairs."""

    kinds: list[str]
    pairs: list[tuple[str, Value]]


@dataclass(frozen=True)
class TimeRule:
    """Seconds of the day."""

    seconds: list[int]


@dataclass(frozen=True)
class PatternRule:
    """Units of hours, minutes and seconds: `*`, a number or `/n`."""

    units: tuple[str, str, str]


@dataclass(frozen=True)
class TemplateRule:
    """A template that becomes true."""

    text: str


@dataclass(frozen=True)
class StartRule:
    """The beginning of a segment."""


Rule = Union[StateRule, NumericRule, EventRule, TimeRule, PatternRule, TemplateRule, StartRule]


@dataclass(frozen=True, eq=False)
class Trigger:
    """A trigger; its hold is in milliseconds."""

    platform: str
    id: str
    idx: int
    rule: Rule
    hold: Optional[int]


@dataclass
class Condition:
    """A condition by its kind, with its fields."""

    kind: str
    inner: list["Condition"] = field(default_factory=list)
    fields: dict[str, Any] = field(default_factory=dict)


@dataclass
class Action:
    """An action by its kind key, with its fields."""

    kind: str
    fields: dict[str, Any] = field(default_factory=dict)


@dataclass
class Automation:
    """An automation as it was read."""

    name: str
    triggers: list[Trigger]
    tests: list[Condition]
    actions: list[Action]
    mode: str
    max: int
    initial: Optional[bool]


@dataclass
class Config:
    """A whole configuration: its automations, and its scripts, each in the order of the file."""

    automations: list[Automation]
    scripts: list[Automation]

    def units(self) -> list[Automation]:
        """All that has runs: the automations, then the scripts."""
        return self.automations + self.scripts


def written(value: Any) -> str:
    """A scalar as it is written."""
    if isinstance(value, bool):
        return "true" if value else "false"
    return value.text() if isinstance(value, Num) else "".join(value) if isinstance(value, str) else str(value)


def flag(value: Any) -> bool:
    """A flag, plain or quoted."""
    return FLAGS[written(value).lower()]


def several(value: Any) -> list[Any]:
    """A list, one item alone, or null for none."""
    if value is None:
        return []
    return value if isinstance(value, list) else [value]


def texts(value: Any) -> list[str]:
    """A text or a list of texts."""
    return [written(one) for one in several(value)]


def entities(value: Any) -> list[str]:
    """Entity ids, split at commas, each entry as it stands."""
    found = [part.strip(" \t") for text in texts(value) for part in text.split(",")]
    assert found and all(is_entity(one) for one in found), found
    return found


def number(fields: dict[str, Any], key: str) -> Optional[Num]:
    """A number, if the key is there."""
    return read_number(written(fields[key])) if key in fields else None


def span(value: Any) -> int:
    """A duration in milliseconds."""
    if isinstance(value, dict):
        return sum(PARTS[key] * int(written(part)) for key, part in value.items())
    found = read_span(written(value))
    assert found is not None, value
    return found


def form(value: Any) -> Form:
    """A value that may hold templates."""
    if isinstance(value, str):
        return Template(value) if holds_template(value) else plain_form(value) if isinstance(value, Plain) else value
    if isinstance(value, list):
        return [form(one) for one in value]
    if isinstance(value, dict):
        return {key: form(one) for key, one in value.items()}
    return whole(value) if isinstance(value, int) and not isinstance(value, bool) else value


def plain_form(text: str) -> Value:
    """A plain scalar in data: a flag, null, a number or a text."""
    if text.lower() in FLAGS:
        return FLAGS[text.lower()]
    if text.lower() in ("", "~", "null"):
        return None
    return read_number(text) if PLAIN_NUMBER.fullmatch(text) else str(text)


def data(value: Any) -> Data:
    """A map of forms, or null for none."""
    return [(key, form(one)) for key, one in (value or {}).items()]


def enabled(items: Any) -> list[Any]:
    """The items that aren't disabled."""
    return [one for one in several(items) if not (isinstance(one, dict) and not flag(one.get("enabled", True)))]


def either(fields: dict[str, Any], *keys: str) -> Any:
    """The value of the first of some synonyms that is there."""
    return next((fields[key] for key in keys if key in fields), None)


def side(fields: dict[str, Any], one: str, none: str) -> Side:
    """`from` or `not_from`, and alike for `to`."""
    if one in fields:
        return Side("any") if fields[one] is None else Side("one", tuple(texts(fields[one])))
    return Side("none", tuple(texts(fields[none]))) if none in fields else Side("absent")


def unit(fields: dict[str, Any], key: str, larger: tuple[str, ...]) -> str:
    """A unit of a time pattern: a missing one is 0 where a larger one is given, else every."""
    if key in fields:
        return written(fields[key])
    return "0" if any(other in fields for other in larger) else "*"


def pattern(fields: dict[str, Any]) -> PatternRule:
    """The units of a time pattern."""
    return PatternRule((unit(fields, "hours", ()), unit(fields, "minutes", ("hours",)),
                        unit(fields, "seconds", ("hours", "minutes"))))


def rule(kind: str, fields: dict[str, Any]) -> Rule:
    """What moves a trigger of this kind."""
    attribute = written(fields["attribute"]) if "attribute" in fields else None
    if kind == "state":
        return StateRule(entities(fields["entity_id"]), attribute, side(fields, "from", "not_from"),
                         side(fields, "to", "not_to"))
    if kind == "numeric_state":
        return NumericRule(entities(fields["entity_id"]), attribute, number(fields, "above"), number(fields, "below"))
    if kind == "event":
        return EventRule(texts(fields["event_type"]), data(fields.get("event_data")))
    if kind == "time":
        return TimeRule([second_of_day(one) for one in texts(fields["at"])])
    if kind == "time_pattern":
        return pattern(fields)
    return TemplateRule(fields["value_template"]) if kind == "template" else StartRule()


def trigger(idx: int, fields: dict[str, Any]) -> Trigger:
    """A trigger; `for: 0` is no hold."""
    kind = either(fields, "trigger", "platform")
    name = written(fields["id"]) if "id" in fields else str(idx)
    return Trigger(kind, name, idx, rule(kind, fields), span(fields.get("for", 0)) or None)


def triggers(value: Any) -> list[Trigger]:
    """Triggers; disabled ones are counted and go."""
    kept = [(idx, one) for idx, one in enumerate(several(value)) if enabled([one])]
    return [trigger(idx, one) for idx, one in kept]


def condition(value: Any) -> Condition:
    """A condition: a template's text or a map."""
    if not isinstance(value, dict):
        return Condition("template", fields={"value_template": written(value)})
    short = next((key for key in value if key in ("and", "or", "not", "condition")), None)
    if short in ("and", "or", "not"):
        return Condition(short, conditions(value[short]))
    kind = value["condition"]
    if kind in ("and", "or", "not"):
        return Condition(kind, conditions(value["conditions"]))
    return Condition(kind, fields=condition_fields(kind, value))


def condition_fields(kind: str, value: dict[str, Any]) -> dict[str, Any]:
    """The fields of a condition that isn't made of others."""
    if kind == "state":
        return {"rule": StateRule(entities(value["entity_id"]), value.get("attribute"), Side("any"),
                                  Side("one", tuple(texts(value["state"])))),
                "hold": span(value["for"]) if "for" in value else None}
    if kind == "numeric_state":
        return {"rule": rule(kind, value)}
    if kind == "time":
        return {"after": second_of_day(value["after"]) if "after" in value else None,
                "before": second_of_day(value["before"]) if "before" in value else None,
                "weekdays": [DAYS.index(day) for day in texts(value["weekday"])] if "weekday" in value else None}
    return {"ids": texts(value["id"])} if kind == "trigger" else {"value_template": written(value["value_template"])}


def conditions(value: Any) -> list[Condition]:
    """Conditions that aren't disabled."""
    return [condition(one) for one in enabled(value)]


def span_form(value: Any) -> Any:
    """A delay: milliseconds, a template, or the texts of its five parts."""
    if isinstance(value, dict) and any(holds_template(written(one)) for one in value.values()):
        return [written(value.get(part, "0")) for part in PARTS]
    if isinstance(value, str) and holds_template(value):
        return Template(value)
    return span(value)


def targets(*values: Any) -> list[str]:
    """Target texts: those with a template whole, the others split at commas."""
    out: list[str] = []
    for text in [one for value in values for one in texts(value)]:
        out += [text] if holds_template(text) else [part.strip(" \t") for part in text.split(",")]
    return out


def call(value: dict[str, Any]) -> Action:
    """The call of a service."""
    held = value.get("target", {}).get("entity_id")
    return Action("call", {"service": either(value, "action", "service"),
                           "targets": targets(held, value.get("entity_id")), "data": data(value.get("data"))})


def wait(kind: str, value: dict[str, Any]) -> Action:
    """A wait for a template or triggers."""
    fields: dict[str, Any] = {"timeout": span_form(value["timeout"]) if "timeout" in value else None,
                              "go_on": flag(value.get("continue_on_timeout", True)),
                              "template": None, "triggers": []}
    if kind == "wait_template":
        fields["template"] = written(value[kind])
    else:
        fields["triggers"] = triggers(value[kind])
    return Action("wait", fields)


def repeat(value: dict[str, Any]) -> Action:
    """A repeat by its kind."""
    kind = next(key for key in value if key in ("count", "while", "until", "for_each"))
    held = value[kind]
    if kind == "count":
        given: Any = written(held)
    else:
        given = form(several(held)) if kind == "for_each" else conditions(held)
    return Action("repeat", {"kind": kind, "given": given, "body": actions(value["sequence"])})


def choose(value: dict[str, Any]) -> Action:
    """A choice among options."""
    options = [(conditions(one["conditions"]), actions(one["sequence"])) for one in several(value["choose"])]
    return Action("choose", {"options": options, "default": actions(value.get("default"))})


def branch(value: Any) -> list[Action]:
    """A branch of a parallel block: a list of actions, or one action, which a `sequence` map is too."""
    return actions(value if isinstance(value, list) else [value])


def action(value: Any) -> Action:
    """An action: a template's text or a map with its kind key."""
    if not isinstance(value, dict) or {"condition", "and", "or", "not"} & value.keys():
        return Action("test", {"condition": condition(value)})
    if {"action", "service"} & value.keys():
        return call(value)
    for kind in ("wait_template", "wait_for_trigger"):
        if kind in value:
            return wait(kind, value)
    if "delay" in value:
        return Action("delay", {"span": span_form(value["delay"])})
    if "choose" in value:
        return choose(value)
    if "if" in value:
        return Action("if", {"options": [(conditions(value["if"]), actions(value["then"]))],
                             "default": actions(value.get("else"))})
    return simple_action(value)


def simple_action(value: dict[str, Any]) -> Action:
    """The actions whose fields are read in one line."""
    if "repeat" in value:
        return repeat(value["repeat"])
    if "parallel" in value:
        return Action("parallel", {"branches": [branch(one) for one in enabled(value["parallel"])]})
    if "sequence" in value:
        return Action("block", {"body": actions(value["sequence"])})
    if "variables" in value:
        return Action("variables", {"data": data(value["variables"])})
    if "event" in value:
        return Action("event", {"event": written(value["event"]), "data": data(value.get("event_data"))})
    assert "stop" in value, value
    return Action("stop")


def actions(value: Any) -> list[Action]:
    """Actions that aren't disabled."""
    return [action(one) for one in enabled(value)]


def slug(text: str) -> str:
    """ASCII letters in lower case and digits; every other run of bytes is one `_`, none at the ends."""
    return re.sub("[^a-z0-9]+", "_", text.translate({char: char + 32 for char in range(65, 91)})).strip("_") or "unnamed"


def free_name(wanted: str, taken: set[str]) -> str:
    """The name, or with the least number from 2 on that is free."""
    if wanted not in taken:
        return wanted
    return next(name for n in range(2, 10**6) if (name := f"{wanted}_{n}") not in taken)


def automation(value: dict[str, Any], taken: set[str]) -> Automation:
    """One automation, under a name that no earlier one has."""
    name = free_name(slug(written(value.get("alias", value.get("id", "unnamed")))), taken)
    body = actions(either(value, "actions", "action")) or [Action("block", {"body": []})]
    initial = flag(value["initial_state"]) if "initial_state" in value else None
    return Automation(name, triggers(either(value, "triggers", "trigger")),
                      conditions(either(value, "conditions", "condition")), body,
                      value.get("mode", "single"), int(written(value.get("max", 10))), initial)


def read_config(value: list[dict[str, Any]]) -> list[Automation]:
    """All automations, in order."""
    out: list[Automation] = []
    for one in value:
        out.append(automation(one, {earlier.name for earlier in out}))
    return out


def read_scripts(value: dict[str, Any]) -> list[Automation]:
    """All scripts, in order, each as an automation that nothing triggers, under the id that it has as an entity."""
    return [Automation(f"script.{name}", [], [], actions(one["sequence"]) or [Action("block", {"body": []})],
                       one.get("mode", "single"), int(written(one.get("max", 10))), None) for name, one in value.items()]


def read_whole(automations: list[dict[str, Any]], scripts: Optional[dict[str, Any]]) -> Config:
    """A configuration, without scripts where it has none."""
    return Config(read_config(automations), read_scripts(scripts or {}))
