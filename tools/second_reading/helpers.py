"""Flags, counters and timers: what a configuration says of them, and what a call of one of their services changes."""

from __future__ import annotations

from dataclasses import dataclass
from typing import Any, Mapping, Optional

from .clock import SPAN_BOUND, read_span
from .config import flag, span, written
from .values import Num, Value

Change = dict[str, Any]
KINDS = ("input_boolean", "counter", "timer")
FARTHEST = 10**12
SERVICES = {
    "input_boolean": ("turn_on", "turn_off", "toggle"),
    "counter": ("increment", "decrement", "reset", "set_value"),
    "timer": ("start", "pause", "cancel", "finish"),
}


class Unfit(Exception):
    """Data that a service does not take, with the number of its code."""


@dataclass(frozen=True)
class Helper:
    """A helper with its text at the begin of a segment; of a counter its step and bounds, of a timer its span."""

    entity: str
    first: str
    step: int = 1
    least: int = 0
    greatest: int = 0
    span: int = 0


@dataclass(frozen=True)
class Known:
    """The last change of a helper: its text, its span and Now after it."""

    text: str
    span: Optional[int]
    at: int

    def over(self, now: int) -> bool:
        """Whether a timer that it made active is over."""
        return self.text == "active" and self.span is not None and now >= self.at + self.span

    def rest(self, now: int) -> int:
        """What is left of an active timer's span."""
        return max(self.at + (self.span or 0) - now, 0)


def read_helper(kind: str, name: str, fields: dict[str, Any]) -> Helper:
    """One helper."""
    entity = f"{kind}.{name}"
    if kind == "input_boolean":
        return Helper(entity, "on" if flag(fields.get("initial", False)) else "off")
    if kind == "timer":
        return Helper(entity, "idle", span=span(fields.get("duration", 0)))
    number = {key: int(written(fields.get(key, usual))) for key, usual in
              (("initial", 0), ("step", 1), ("minimum", -FARTHEST), ("maximum", FARTHEST))}
    return Helper(entity, str(number["initial"]), number["step"], number["minimum"], number["maximum"])


def read_helpers(value: Mapping[str, Any]) -> dict[str, Helper]:
    """All helpers, in the order of their kinds, then as they are written."""
    found = [read_helper(kind, name, fields or {}) for kind in KINDS for name, fields in (value.get(kind) or {}).items()]
    return {one.entity: one for one in found}


def is_service(helpers: Mapping[str, Helper], domain: str, name: str) -> bool:
    """Whether the engine does this service itself."""
    return name in SERVICES.get(domain, ()) and any(one.split(".")[0] == domain for one in helpers)


def wanted_number(data: Mapping[str, Value]) -> int:
    """The whole number that a counter is set to."""
    value = data.get("value")
    if not isinstance(value, Num) or not value.whole:
        raise Unfit(7)
    return value.micros // 10**6


def wanted_span(data: Mapping[str, Value]) -> Optional[int]:
    """How long a timer is to be active, if the data say so."""
    if "duration" not in data:
        return None
    value = data["duration"]
    if isinstance(value, Num) and value.whole and 0 <= value.micros // 10**6 * 1000 <= SPAN_BOUND:
        return value.micros // 10**6 * 1000
    found = read_span(value) if isinstance(value, str) else None
    if found is None:
        raise Unfit(4)
    return found


def told(entity: str, text: str, lasts: Optional[int] = None, event: Optional[str] = None) -> Change:
    """A change."""
    return {"entity": entity, "text": text, "span": lasts, "event": event}


def of_counter(helper: Helper, name: str, text: str, number: int) -> Change:
    """What a service makes of a counter."""
    if name == "set_value":
        if not helper.least <= number <= helper.greatest:
            raise Unfit(7)
        return told(helper.entity, str(number))
    if name == "reset":
        return told(helper.entity, helper.first)
    moved = int(text) + (helper.step if name == "increment" else -helper.step)
    return told(helper.entity, str(max(helper.least, min(helper.greatest, moved))))


def of_timer(helper: Helper, name: str, text: str, last: Optional[Known], now: int, lasts: Optional[int]) -> Optional[Change]:
    """What a service makes of a timer, if it changes it."""
    if name == "start":
        own = last.span if text == "paused" and last is not None else helper.span
        return told(helper.entity, "active", own if lasts is None else lasts,
                    "timer.started" if text == "idle" else "timer.restarted")
    if name == "cancel":
        return None if text == "idle" else told(helper.entity, "idle", event="timer.cancelled")
    if text != "active":
        return None
    if name == "finish":
        return told(helper.entity, "idle", event="timer.finished")
    assert last is not None
    return told(helper.entity, "paused", last.rest(now), "timer.paused")


def of_flag(helper: Helper, name: str, text: str) -> Change:
    """What a service makes of a flag."""
    on = text != "on" if name == "toggle" else name == "turn_on"
    return told(helper.entity, "on" if on else "off")


def changes(helpers: Mapping[str, Helper], service: str, target: list[str], data: Mapping[str, Value],
            texts: Mapping[str, str], known: Mapping[str, Known], now: int) -> list[Change]:
    """The changes of a call, one per target that is such a helper, each once, in order."""
    domain, name = service.split(".")
    number = wanted_number(data) if name == "set_value" else 0
    lasts = wanted_span(data) if service == "timer.start" else None
    found = []
    for entity in dict.fromkeys(target):
        if entity not in helpers or entity.split(".")[0] != domain:
            continue
        helper, text = helpers[entity], texts[entity]
        if domain == "counter":
            found.append(of_counter(helper, name, text, number))
        elif domain == "timer":
            found.append(of_timer(helper, name, text, known.get(entity), now, lasts))
        else:
            found.append(of_flag(helper, name, text))
    return [one for one in found if one is not None]
