"""Calls of the services of helpers of the file, which Hearth does itself."""

from __future__ import annotations

from difflib import get_close_matches
from typing import Callable, Mapping, Optional

from second_reading.clock import SPAN_BOUND, read_span
from second_reading.config import PLAIN_NUMBER
from second_reading.helpers import KINDS, SERVICES
from second_reading.template import holds_template
from second_reading.values import read_number

from .notation import Node
from .services import WRITTEN, ids, targets_of

Say = Callable[[int, str], None]
Helpers = Mapping[str, tuple[int, int]]
INSTEAD = {"timer.change": "`timer.start` with `duration`", "counter.configure": "`counter.set_value`, and other bounds in the file"}


def helper_doubts(node: Node, say: Say, helpers: Helpers) -> None:
    """What is told of a call that is meant for a helper of the file."""
    service = node.get("action", "service")
    assert service is not None
    domain, _, name = service.text.partition(".")
    known = [one for one in helpers if one.split(".")[0] == domain]
    if known and name in SERVICES.get(domain, ()):
        target_doubts(node, service, say, known)
        data_doubts(node, service, say, helpers)
    elif service.text in WRITTEN or known and domain in KINDS:
        written_doubts(node, service, say, helpers)


def target_doubts(node: Node, service: Node, say: Say, known: list[str]) -> None:
    """What is told of the targets of a service of helpers."""
    data, targets = node.get("data"), targets_of(node)
    inside = data.get("entity_id") if data is not None else None
    if inside is not None:
        say(inside.line, f"`entity_id` in the data of `{service.text}` names no helper: `target: {{entity_id: ..}}`")
    elif not targets:
        say(service.line, f"`{service.text}` without a target does nothing: `target: {{entity_id: {known[0]}}}`")
    for held in targets:
        for entity, line in ids(held):
            if entity not in known:
                close = get_close_matches(entity, known, 1, 0.7)
                say(line, f"no helper of the file is `{entity}`, and `{service.text}` reaches no other" + (f": `{close[0]}`" if close else ""))


def written_doubts(node: Node, service: Node, say: Say, helpers: Helpers) -> None:
    """What is told of a call that is written, with a helper of the file as its target."""
    for held in targets_of(node):
        for entity, line in ids(held):
            if entity in helpers:
                domain, name = entity.split(".")[0], service.text.split(".")[1]
                usual = f"`{domain}.{name}`" if name in SERVICES[domain] else " ".join(f"`{domain}.{one}`" for one in SERVICES[domain])
                say(line, f"`{service.text}` of a helper is written as a call, and changes nothing: {INSTEAD.get(service.text, usual)}")


def data_doubts(node: Node, service: Node, say: Say, helpers: Helpers) -> None:
    """What is told of the data of a service of helpers."""
    data = node.get("data")
    if service.text == "counter.set_value":
        value = data.get("value") if data is not None else None
        wrong = "" if value is not None and is_open(value) else of_value(value, node, helpers)
        if wrong:
            say(service.line if value is None else value.line, f"{wrong}: the run ends there (F7)")
    elif service.text == "timer.start" and data is not None:
        span = data.get("duration")
        if span is not None and not is_open(span) and not is_span(span):
            say(span.line, f"`duration` of `{service.text}` is a text, as `'00:05:00'`, or whole seconds: the run ends there (F4)")


def is_open(node: Node) -> bool:
    """Whether a value is known at the run alone."""
    return node.kind == "open" or node.is_scalar() and holds_template(node.text)


def whole(node: Optional[Node]) -> Optional[int]:
    """The whole number that a plain scalar is."""
    if node is None or node.kind != "plain" or not PLAIN_NUMBER.fullmatch(node.text):
        return None
    found = read_number(node.text)
    return found.micros // 10**6 if found is not None and found.whole else None


def of_value(value: Optional[Node], node: Node, helpers: Helpers) -> str:
    """What is wrong with the value that a counter is to have."""
    number = whole(value)
    if value is None:
        return "`counter.set_value` without `value`"
    if number is None:
        return f"`value: {value.text}` is no whole number" + (", but a text: leave out the quotes" if value.kind not in ("plain", "list", "map") else "")
    for held in targets_of(node):
        for entity, _ in ids(held):
            least, most = helpers.get(entity, (number, number))
            if not least <= number <= most:
                return f"`value: {number}` is out of the bounds of `{entity}`"
    return ""


def is_span(node: Node) -> bool:
    """Whether a timer takes this duration."""
    if not node.is_scalar() or node.kind == "null":
        return False
    if node.kind == "plain" and PLAIN_NUMBER.fullmatch(node.text):
        number = whole(node)
        return number is not None and 0 <= number * 1000 <= SPAN_BOUND
    return read_span(node.text) is not None
