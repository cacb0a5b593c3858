"""Where a trigger moves, where it fires, and with which variables."""

from __future__ import annotations

from typing import Any, Iterator, Optional

from .clock import passed_local
from .config import EventRule, NumericRule, PatternRule, StartRule, StateRule, TemplateRule, TimeRule, Trigger
from .journal import Event, Journal, StateObject, reported_number
from .template import render
from .values import Fault, Value, equal, same, says_yes


def entities_of(trigger: Trigger) -> list[Optional[str]]:
    """The entities of a trigger, of one that stands twice the first; None alone where it has none."""
    if isinstance(trigger.rule, (StateRule, NumericRule)):
        return list(dict.fromkeys(trigger.rule.entities))
    return [None]


def template_true(journal: Journal, text: str, place: int, names: dict[str, Value]) -> bool:
    """Whether a trigger's or wait's template is true after a place."""
    try:
        return says_yes(render(text, journal.after[place], names))
    except Fault:
        return False


def moves(journal: Journal, trigger: Trigger, entity: Optional[str], place: int) -> bool:
    """Whether a trigger, without its `for`, holds at a place."""
    rule, entry = trigger.rule, journal.entries[place]
    if entry.opens():
        return isinstance(rule, StartRule)
    if entry.restarts():
        return False
    if isinstance(rule, StateRule):
        return state_moves(journal, rule, trigger.hold, str(entity), place)
    if isinstance(rule, NumericRule):
        return numeric_moves(journal, rule, str(entity), place)
    if isinstance(rule, EventRule):
        return bool(events_of(journal, rule, place))
    if isinstance(rule, TemplateRule):
        return template_true(journal, rule.text, place, {}) and not template_true(journal, rule.text, place - 1, {})
    return not isinstance(rule, StartRule) and time_moves(journal, rule, place)


def state_moves(journal: Journal, rule: StateRule, hold: Optional[int], entity: str, place: int) -> bool:
    """The state rule."""
    old, new = journal.after[place - 1].states.get(entity), journal.after[place].states.get(entity)
    if new is None or not looked_at(rule, hold, old, new):
        return False
    return rule.old.matches(old and old.watched(rule.attribute)) and rule.new.matches(new.watched(rule.attribute))


def looked_at(rule: StateRule, hold: Optional[int], old: Optional[StateObject], new: StateObject) -> bool:
    """Whether a change is one that a state trigger looks at."""
    if rule.attribute is not None:
        return not same_attribute(old, new, rule.attribute)
    if old is None or old.text != new.text:
        return True
    bare = rule.old.kind == "absent" and rule.new.kind == "absent" and hold is None
    return bare and not same(old.attributes, new.attributes)


def same_attribute(old: Optional[StateObject], new: Optional[StateObject], attribute: str) -> bool:
    """Whether an attribute is as it was; absent is the same as absent."""
    before, after = ({} if one is None else one.attributes for one in (old, new))
    if attribute not in before or attribute not in after:
        return (attribute in before) == (attribute in after)
    return same(before[attribute], after[attribute])


def numeric_moves(journal: Journal, rule: NumericRule, entity: str, place: int) -> bool:
    """The entry reports a number in range, and the latest earlier one was out of it, or there is none."""
    number = reported_number(journal.entries[place], entity, rule.attribute)
    if number is None or not rule.holds(number):
        return False
    earlier = journal.latest_number(entity, rule.attribute, place)
    return earlier is None or not rule.holds(earlier)


def events_of(journal: Journal, rule: EventRule, place: int) -> list[Event]:
    """The events of an entry that are of a listed type and whose data has each listed pair."""
    return [(kind, data) for kind, data in journal.events(place)
            if kind in rule.kinds and all(key in data and equal(data[key], value) for key, value in rule.pairs)]


def fits(unit: str, value: int) -> bool:
    """Whether an hour, minute or second fits a unit of a pattern."""
    if unit == "*":
        return True
    return value % int(unit[1:]) == 0 if unit.startswith("/") else value == int(unit)


def time_moves(journal: Journal, rule: TimeRule | PatternRule, place: int) -> bool:
    """A moment passes a whole second that matches."""
    before, after = journal.after[place - 1].now, journal.after[place].now
    return any(second_matches(rule, second) for second in passed_local(journal.zone, before, after))


def second_matches(rule: TimeRule | PatternRule, second: int) -> bool:
    """Whether a second of the day is one of the rule."""
    if isinstance(rule, TimeRule):
        return second in rule.seconds
    parts = (second // 3600, second // 60 % 60, second % 60)
    return all(fits(unit, part) for unit, part in zip(rule.units, parts))


def watched(journal: Journal, trigger: Trigger, entity: Optional[str], place: int) -> Any:
    """What a hold watches, after a place."""
    rule = trigger.rule
    if isinstance(rule, TemplateRule):
        return template_true(journal, rule.text, place, {})
    if isinstance(rule, NumericRule):
        number = journal.latest_number(str(entity), rule.attribute, place + 1)
        return number is not None and rule.holds(number)
    assert isinstance(rule, StateRule)
    held = journal.after[place].states.get(str(entity))
    if rule.attribute is None:
        return None if held is None else held.text
    return [] if held is None or rule.attribute not in held.attributes else [held.attributes[rule.attribute]]


def fires(journal: Journal, trigger: Trigger, entity: Optional[str], since: int, place: int) -> Optional[int]:
    """The place where a trigger moved that fires at a place, if it does."""
    if trigger.hold is None:
        late = place > since or isinstance(trigger.rule, StartRule)
        return place if late and moves(journal, trigger, entity, place) else None
    now, before = journal.after[place].now, journal.after[place - 1].now if place else 0
    if now == before:
        return None
    for moved in range(place - 1, since, -1):
        if not same(watched(journal, trigger, entity, moved), watched(journal, trigger, entity, place)):
            return None
        due = journal.after[moved].now + trigger.hold
        if before < due <= now and moves(journal, trigger, entity, moved):
            return moved
    return None


def state_map(journal: Journal, entity: str, place: int) -> Value:
    """A state as a template sees it."""
    held = journal.after[place].states.get(entity)
    if held is None:
        return None
    domain, object_id = entity.split(".")
    return {"entity_id": entity, "domain": domain, "object_id": object_id, "state": held.text,
            "attributes": held.attributes}


def variables(journal: Journal, trigger: Trigger, entity: Optional[str], moved: int, event: Optional[Event] = None) -> dict[str, Value]:
    """The map `trigger` of a trigger that moved at a place, perhaps by an event."""
    out: dict[str, Value] = {"platform": trigger.platform, "id": trigger.id, "idx": str(trigger.idx)}
    rule = trigger.rule
    if isinstance(rule, (StateRule, NumericRule)):
        out |= {"entity_id": entity, "from_state": state_map(journal, str(entity), moved - 1),
                "to_state": state_map(journal, str(entity), moved)}
    if isinstance(rule, StateRule):
        out["attribute"] = rule.attribute
    if isinstance(rule, NumericRule):
        out |= {"above": rule.above, "below": rule.below}
    if event is not None:
        out["event"] = {"event_type": event[0], "data": event[1]}
    return out


def firings(journal: Journal, triggers: list[Trigger], since: int, place: int) -> Iterator[dict[str, Value]]:
    """The variables of all triggers of a list that fire at a place, in order; by events a trigger fires once for each of them."""
    for trigger in triggers:
        if isinstance(trigger.rule, EventRule):
            for event in events_of(journal, trigger.rule, place) if place > since else []:
                yield variables(journal, trigger, None, place, event)
            continue
        for entity in entities_of(trigger):
            moved = fires(journal, trigger, entity, since, place)
            if moved is not None:
                yield variables(journal, trigger, entity, moved)
