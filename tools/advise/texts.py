"""What is told of names and parts that are never there."""

from __future__ import annotations

from difflib import get_close_matches

CLOCK = "a clock that is reported: `states('sensor.time')`"
OF_THIS = {
    "entity_id": "`'{entity}'`", "state": "`states('{entity}')`", "name": "the name itself", "last_changed": CLOCK,
    "attributes": "a limit on how often is `mode: single` with a `delay` at the end", "context": "leave it out", "object_id": "`'{name}'`",
}
# Parts that Home Assistant has and Hearth never.
NEVER = {
    ("state", "name"): "`trigger.to_state.object_id`, or `trigger.to_state.attributes.friendly_name` where your bridge reports that",
    ("state", "last_changed"): CLOCK, ("state", "last_updated"): CLOCK, ("state", "last_reported"): CLOCK,
    ("state", "context"): "leave it out", ("state", "state_with_unit"): "`trigger.to_state.state ~ ' °C'`",
    ("trigger", "description"): "`trigger.entity_id` or `trigger.id`", ("trigger", "for"): "the duration itself",
    ("trigger", "now"): CLOCK, ("trigger", "alias"): "`trigger.id`", ("trigger", "context"): "leave it out",
    ("event", "context"): "leave it out", ("event", "time_fired"): CLOCK, ("event", "origin"): "leave it out",
}
OF_KIND = {
    "entity_id": "of state and numeric triggers alone: give the triggers an `id`, and ask `trigger.id`",
    "from_state": "of state and numeric triggers alone: `states('sensor.a')`", "to_state": "of state and numeric triggers alone: `states('sensor.a')`",
    "event": "of event triggers alone", "above": "of numeric triggers alone", "below": "of numeric triggers alone",
    "attribute": "of state and numeric triggers alone", "payload": "`trigger: event`, and `trigger.event.data.payload`",
    "payload_json": "`trigger: event`, and `trigger.event.data`", "json": "`trigger: event`, and `trigger.event.data`",
    "item": "of `for_each` alone", "last": "of `count` and `for_each` alone",
}


def unknown_text(name: str, key: str, known: list[str], entity: str) -> str:
    """What is told of a name that nothing sets, in an automation or script."""
    if name == "this":
        cure = OF_THIS.get(key, "write the value itself").format(entity=entity, name=entity.split(".")[1])
        if key == "state" and entity.startswith("script."):
            cure = "a script has no state"
        return f"`this{'.' + key if key else ''}` is never there, and is none: {cure}"
    if name == "context":
        return f"`context{'.' + key if key else ''}` is never there, and is none: leave it out, or a fixed text"
    if name in ("trigger", "repeat", "wait"):
        where = {"trigger": "a template trigger sees no variables", "repeat": "`repeat` is there in the turns of a repeat",
                 "wait": "`wait` is there behind a wait, in its block"}[name]
        return f"`{name}` is not there, and is none: {where}"
    close = get_close_matches(name, [one for one in known if one not in ("trigger", "repeat", "wait")], 1)
    cure = f"`{close[0]}`" if close else "set it by `variables` before, in this block or one round it"
    return f"`{name}` is set by nothing before here, and is none: {cure}"


def part_text(held: str, key: str, known: list[str]) -> tuple[str, bool]:
    """What is told of a part that a map never has; and whether Hearth has it of nothing."""
    whole = {"state": "to_state", "event": "trigger.event", "map": "this map"}.get(held, held)
    shown = f"`{key}` of {whole}" if held in ("map", "state") else f"`{whole}.{key}`"
    if (held, key) in NEVER:
        return f"{shown} is never there, and is none: {NEVER[held, key]}", True
    if held in ("trigger", "repeat") and key in OF_KIND:
        return f"{shown} is not there with these kinds, and is none: {OF_KIND[key]}", False
    close = get_close_matches(key, known, 1)
    return f"{shown} is never there, and is none: {f'`{close[0]}`' if close else 'it has ' + ', '.join(f'`{one}`' for one in known)}", False


def nearest(entity: str, automations: set[str]) -> str:
    """The automations that a name may mean."""
    close = get_close_matches(entity.split(".")[1], sorted(automations), 1, 0.7)
    return f"`automation.{close[0]}`" if close else "the names are those that `check` tells"
