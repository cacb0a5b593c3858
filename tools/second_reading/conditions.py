"""The truth of conditions on what one place sees."""

from __future__ import annotations

from .clock import Zone, second_of, weekday_of
from .config import Condition, NumericRule, StateRule
from .journal import Sight
from .template import render
from .values import Fault, Value, ascii_lower, read_number

Pairs = list[tuple[str, Value]]


def test_all(conditions: list[Condition], sight: Sight, zone: Zone, pairs: Pairs) -> bool:
    """Whether all conditions hold."""
    return all(test(one, sight, zone, pairs) for one in conditions)


def test(condition: Condition, sight: Sight, zone: Zone, pairs: Pairs) -> bool:
    """Whether a condition holds."""
    kind, fields = condition.kind, condition.fields
    if kind == "and":
        return test_all(condition.inner, sight, zone, pairs)
    if kind == "or":
        return any(test(one, sight, zone, pairs) for one in condition.inner)
    if kind == "not":
        return not any(test(one, sight, zone, pairs) for one in condition.inner)
    if kind == "state":
        return all(state_holds(fields["rule"], fields["hold"], sight, one) for one in fields["rule"].entities)
    if kind == "numeric_state":
        return all(number_holds(fields["rule"], sight, one) for one in fields["rule"].entities)
    if kind == "time":
        return time_holds(fields["after"], fields["before"], second_of(zone, sight.now)) and (
            fields["weekdays"] is None or weekday_of(zone, sight.now) in fields["weekdays"])
    if kind == "trigger":
        return own_trigger(pairs) in fields["ids"]
    return template_holds(fields["value_template"], sight, pairs)


def own_trigger(pairs: Pairs) -> object:
    """The id of the run's own trigger, which is the first pair."""
    return pairs[0][1].get("id") if pairs and isinstance(pairs[0][1], dict) else None


def state_holds(rule: StateRule, hold: int | None, sight: Sight, entity: str) -> bool:
    """The entity is there, with one of the texts, for long enough."""
    held = sight.states.get(entity)
    if held is None:
        return False
    text = held.watched(rule.attribute)
    return text is not None and rule.new.matches(text) and (hold is None or sight.now - held.changed >= hold)


def number_holds(rule: NumericRule, sight: Sight, entity: str) -> bool:
    """The entity has a number in the bounds."""
    held = sight.states.get(entity)
    text = None if held is None else held.watched(rule.attribute)
    number = None if text is None else read_number(text)
    return number is not None and rule.holds(number)


def time_holds(after: int | None, before: int | None, second: int) -> bool:
    """The second of the day is in the window, which may go over midnight."""
    late, early = after is None or second >= after, before is None or second < before
    if after is not None and before is not None and after >= before:
        return late or early
    return late and early


def template_holds(text: str, sight: Sight, pairs: Pairs) -> bool:
    """The rendered text is `true` without case; a template that fails is false."""
    try:
        return ascii_lower(render(text, sight, dict(pairs))) == "true"
    except Fault:
        return False
