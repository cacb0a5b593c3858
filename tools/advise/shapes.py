"""What is known of a value before a run: its kind, or the parts of a map."""

from __future__ import annotations

from dataclasses import dataclass, field
from typing import Mapping, Union

from second_reading.config import FLAGS, PLAIN_NUMBER
from second_reading.template import holds_template

from .notation import Node


@dataclass(frozen=True)
class Fields:
    """A map whose keys are all known. What it is called stands in its name."""

    name: str
    parts: Mapping[str, "Shape"] = field(default_factory=dict)


Shape = Union[str, Fields]
"""`text`, `decimal` (a text that is a number with a point), `whole`, `fixed`, `flag`, `none`, `list`, `map`, `any`, or the parts of a map."""

TEXTS = ("text", "decimal")
NUMBERS = ("whole", "fixed")
STATE = Fields("state", {"entity_id": "text", "domain": "text", "object_id": "text", "state": "text", "attributes": "map"})
OF_ANY = {"platform": "text", "id": "text", "idx": "text"}
OF_STATES = {"entity_id": "text", "from_state": STATE, "to_state": STATE}
OF_KIND: dict[str, dict[str, Shape]] = {
    "state": {**OF_STATES, "attribute": "any"},
    "numeric_state": {**OF_STATES, "attribute": "any", "above": "any", "below": "any"},
    "event": {"event": Fields("event", {"event_type": "text", "data": "map"})},
}


def joined(one: Shape, other: Shape) -> Shape:
    """What is known of a value that is one or the other."""
    if one == other:
        return one
    if isinstance(one, Fields) and isinstance(other, Fields):
        both = {key: joined(shape, other.parts[key]) if key in other.parts else shape for key, shape in one.parts.items()}
        return Fields(one.name, {**other.parts, **both})
    return "any"


def kind_of(trigger: Node) -> str:
    """The kind of a trigger."""
    found = trigger.get("trigger", "platform")
    return found.text if found is not None else ""


def of_triggers(triggers: list[Node]) -> Fields:
    """The variable `trigger`, for the triggers that may give it."""
    parts: dict[str, Shape] = dict(OF_ANY)
    for trigger in triggers:
        parts.update(OF_KIND.get(kind_of(trigger), {}))
    return Fields("trigger", parts)


def of_data(node: Node) -> Shape:
    """A value of data, as it is written."""
    if node.kind == "map":
        return Fields("map", {key.text: of_data(value) for key, value in node.pairs})
    if node.kind == "list":
        return "list"
    if node.kind == "null":
        return "none"
    if holds_template(node.text):
        return "any"
    if node.kind == "plain" and node.text.lower() in FLAGS:
        return "flag"
    if node.kind == "plain" and PLAIN_NUMBER.fullmatch(node.text):
        return "fixed" if "." in node.text else "whole"
    return "text"


def is_list(shape: Shape) -> bool:
    """Whether it is a list or map, which has no text."""
    return isinstance(shape, Fields) or shape in ("list", "map")


def is_no_number(shape: Shape) -> bool:
    """Whether it is known to be none."""
    return shape not in (*NUMBERS, "any")


def is_text(shape: Shape) -> bool:
    """Whether it is known to be a text."""
    return shape in TEXTS
