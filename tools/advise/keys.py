"""The keys of triggers, conditions, actions, automations, scripts and helpers, by kind, with what their values are."""

from __future__ import annotations

from dataclasses import dataclass, field

from . import kinds
from .kinds import Kind


@dataclass(frozen=True)
class Keys:
    """The keys of a map: those with a kind, those that have to be there, groups of which one has to be, and ignored ones."""

    kinds: dict[str, Kind] = field(default_factory=dict)
    needed: tuple[str, ...] = ()
    one_of: tuple[str, ...] = ()
    ignored: tuple[str, ...] = ()


HOLD = {"for": kinds.duration}
BOUNDS = {"above": kinds.number, "below": kinds.number}
WATCHED = {"entity_id": kinds.entities, "attribute": kinds.text}

TRIGGERS = {
    "state": Keys({**WATCHED, **HOLD, "from": kinds.texts_or_null, "to": kinds.texts_or_null, "not_from": kinds.texts,
                   "not_to": kinds.texts}, needed=("entity_id",)),
    "numeric_state": Keys({**WATCHED, **HOLD, **BOUNDS}, needed=("entity_id",), one_of=("above", "below")),
    "event": Keys({"event_type": kinds.texts, "event_data": kinds.fixed_data}, needed=("event_type",)),
    "time": Keys({"at": kinds.times}, needed=("at",)),
    "time_pattern": Keys({"hours": kinds.unit(24), "minutes": kinds.unit(60), "seconds": kinds.unit(60)},
                         one_of=("hours", "minutes", "seconds")),
    "template": Keys({"value_template": kinds.template, **HOLD}, needed=("value_template",)),
    "homeassistant": Keys({"event": kinds.text}, needed=("event",)),
}
OF_ANY_TRIGGER = {"id": kinds.text, "enabled": kinds.flag}

GROUPS = ("and", "or", "not")
CONDITIONS = {
    "state": Keys({**WATCHED, **HOLD, "state": kinds.texts}, needed=("entity_id", "state")),
    "numeric_state": Keys({**WATCHED, **BOUNDS}, needed=("entity_id",), one_of=("above", "below")),
    "template": Keys({"value_template": kinds.template}, needed=("value_template",)),
    "time": Keys({"after": kinds.time, "before": kinds.time}, one_of=("after", "before", "weekday")),
    "trigger": Keys({"id": kinds.texts}, needed=("id",)),
}

WAIT = {"timeout": kinds.span, "continue_on_timeout": kinds.flag}
ACTIONS = {
    "action": Keys({"data": kinds.data}, ignored=("metadata",)),
    "delay": Keys({"delay": kinds.span}),
    "wait_template": Keys({"wait_template": kinds.template, **WAIT}),
    "wait_for_trigger": Keys(WAIT),
    "choose": Keys(),
    "if": Keys(needed=("then",)),
    "repeat": Keys(),
    "parallel": Keys(),
    "sequence": Keys(),
    "variables": Keys({"variables": kinds.data}),
    "event": Keys({"event": kinds.text, "event_data": kinds.data}),
    "stop": Keys({"stop": kinds.text_or_null, "error": kinds.flag}),
}
ACTION_KINDS = ("action", "service", *list(ACTIONS)[1:], "condition", *GROUPS)
OF_ANY_ACTION = {"enabled": kinds.flag, "continue_on_error": kinds.flag}

AUTOMATION = Keys({"alias": kinds.text, "id": kinds.text, "initial_state": kinds.flag, "max": kinds.max_runs},
                  ignored=("description", "max_exceeded", "trace"))
SCRIPT = Keys({"max": kinds.max_runs}, needed=("sequence",),
              ignored=("alias", "description", "icon", "fields", "max_exceeded"))
HELPERS = {
    "input_boolean": Keys({"initial": kinds.flag}, ignored=("name", "icon")),
    "counter": Keys({"initial": kinds.first, "step": kinds.step, "minimum": kinds.bound, "maximum": kinds.bound},
                    ignored=("name", "icon", "restore")),
    "timer": Keys({"duration": kinds.duration}, ignored=("name", "icon", "restore")),
}
MODES = ("single", "restart", "queued", "parallel")
SYNONYMS = {"trigger": "triggers", "condition": "conditions", "action": "actions"}
MOST_TRIGGERS = 64
MOST_AUTOMATIONS = 1024
MOST_SCRIPTS = 1024
MOST_HELPERS = 1024
