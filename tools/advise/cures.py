"""What is told of a fault: what stands there, and how it is written instead."""

from __future__ import annotations

from difflib import get_close_matches

from . import kinds
from .families import told_template
from .keys import ACTION_KINDS, ACTIONS, AUTOMATION, CONDITIONS, GROUPS, HELPERS, MODES, SCRIPT, TRIGGERS
from .notation import Fault

# C5: keys that are not taken, by the place where they stand ("" for any).
UNKNOWN = {
    ("automation", "variables"): "the action `variables`, first in `actions`; conditions of the automation can't use them",
    ("automation", "trigger_variables"): "write the values into the triggers",
    ("automation", "hide_entity"): "leave it out",
    ("automation", "use_blueprint"): "write the blueprint's triggers and actions out, with the inputs' values in place of `!input`",
    ("automation", "sequence"): "`actions`",
    ("target", "area_id"): "`entity_id` with the ids of that area written out",
    ("target", "device_id"): "`entity_id` with the device's entity",
    ("target", "floor_id"): "`entity_id` with the ids of that floor written out",
    ("target", "label_id"): "`entity_id` with the ids of that label written out",
    ("trigger numeric_state", "value_template"):
        "a template trigger: `value_template: \"{{ state_attr('vacuum.robot', 'battery_level')|float(100) < 15 }}\"`",
    ("condition numeric_state", "value_template"):
        "a template condition: `\"{{ state_attr('vacuum.robot', 'battery_level')|float(100) < 15 }}\"`",
    ("trigger time", "weekday"): "a condition: `condition: time` with `weekday`",
    ("condition state", "match"): "`condition: or` with a state condition for each entity",
    ("action action", "data_template"): "`data`, which may hold templates",
    ("action action", "response_variable"): "`wait_for_trigger` on an event that your bridge sends with the answer, and `wait.trigger.event.data`",
    ("action action", "service_template"): "`action`, which may be a template",
    ("script", "actions"): "`sequence`",
    ("script", "triggers"): "leave it out: nothing but a call starts a script",
    ("script", "variables"): "the action `variables`, first in `sequence`",
    ("file", "homeassistant"): "leave it out: the file has `automation`, `script` and helpers alone",
}

# C14: kinds that are not there, by the place where they stand.
KINDS = {
    ("trigger", "sun"): "a numeric trigger on the elevation, where someone reports it: `trigger: numeric_state`, `entity_id: sun.sun`, "
                        "`attribute: elevation`, `below: 0`",
    ("trigger", "zone"): "a state trigger on the person: `trigger: state`, `entity_id: person.anna`, `to: home`",
    ("trigger", "device"): "a state trigger on the device's entity, or `trigger: event` with the `event_type` and `event_data` that its button sends",
    ("trigger", "mqtt"): "a state trigger on the entity that your bridge reports, or `trigger: event` on an event that it sends",
    ("trigger", "homeassistant shutdown"): "leave it out",
    ("condition", "sun"): "a numeric condition on the elevation, where someone reports it: `condition: numeric_state`, `entity_id: sun.sun`, "
                          "`attribute: elevation`, `below: 0`",
    ("condition", "zone"): "a state condition on the person: `state: home`",
    ("condition", "device"): "a state or numeric condition on the device's entity",
}
BY_EVENT = ("calendar", "conversation", "event_entity", "geo_location", "persistent_notification", "sentence", "tag", "webhook")

# C7: another kind of value.
KIND_OF_VALUE = {
    "text": "one text", "flag": "`true` or `false`; what depends on a state is a condition",
    "data": "a map, with a template in each value that needs one: `data: {brightness: \"{{ b }}\"}`",
    "for_each": "a YAML list, with templates in its items: `for_each: [a, \"{{ b }}\"]`",
    "target": "`target: {entity_id: \"{{ x }}\"}`",
    "target ids": "a text or a list of texts: `entity_id: [light.hall, light.porch]`",
    "choose": "a list of maps with `conditions` and `sequence`", "option": "a map with `conditions` and `sequence`",
    "repeat": "a map with `sequence`, and `count`, `while`, `until` or `for_each`",
    "helper": "a map, or nothing: `visits: {initial: 0}`, `visits:`", "helpers": "a map from names to helpers: `visits: {initial: 0}`",
    "script": "a map with `sequence`", "scripts": "a map from names to scripts: `morning: {sequence: []}`",
    "automation": "a map with `triggers` and `actions`", "file": "`automation:` with a list below it",
    "trigger": "a map: `trigger: state` and its keys", "condition": "a condition: a template or a map",
    "action": "an action: `action: light.turn_on` and its keys", "service": "one name: `light.turn_on`",
}

# Faults of the notation.
NOTATION = {
    ("C1", ""): "a tab in the indent: spaces",
    ("C2", "colon"): "a text that holds `: `: put it in quotes",
    ("C2", "quote"): "a quote that is not closed: close it; its further lines stand right of its key",
    ("C2", "escape"): "an escape that is none: double the backslash, or use single quotes",
    ("C2", "indent"): "a line at an indent that fits no list or map above it: mend the indent",
    ("C2", "braces"): "a template without quotes: `\"{{ x }}\"`",
    ("C2", "no key"): "a line without `key:` among the keys of a map: mend the indent, or put the text in quotes",
    ("C2", "key"): "an empty key: write it",
    ("C2", "flow"): "a list or map on one line that is none: mend its commas and brackets, or put quotes round a text in it",
    ("C2", "behind"): "something behind the end of a value: put all of it in quotes",
    ("C2", "sign"): "a text that begins with a sign of the notation: put it in quotes",
    ("C3", "flow"): "a list or map in brackets over several lines: put it on one line, or use a block",
    ("C3", "block"): "a sign behind `|` or `>` other than `-`: leave it out",
    ("C3", "document"): "a second document or a directive: one document, without it",
    ("C3", "merge"): "a merge key: write the keys out",
    ("C3", "key"): "a list or map as a key: a text",
    ("C4", "twice"): "the key stands twice in one map: leave one of them out",
    ("C12", "depth"): "more than 64 nodes in one another: less nesting",
    ("C13", ""): "no UTF-8: save the file as UTF-8",
}
SIGN = {"!": "a tag: write the value itself, in this file", "&": "an anchor: write the value out at each place",
        "*": "an alias: write the value out", "@": "put quotes round it", "`": "put quotes round it", "%": "put quotes round it",
        "?": "a key that is no scalar: `key: value`"}
LIMITS = {"file": "over 1,048,576 bytes: fewer automations in the file", "automations": "the 1,025th automation: fewer of them", "scripts": "the 1,025th script: fewer of them",
          "helpers": "the 1,025th helper: fewer of them",
          "triggers": "the 65th trigger: a second automation", "template": "a template over 16,384 bytes: a shorter one"}


def told(fault: Fault) -> str:
    """What is told of a fault, its code first."""
    return f"{fault.code}: {BY_CODE[fault.code](fault)}"


def notation(fault: Fault) -> str:
    """A fault of the notation."""
    if (fault.code, fault.what) in NOTATION:
        text = NOTATION[fault.code, fault.what]
        return f"`{fault.word}`: {text}" if fault.code == "C4" else text
    return f"`{fault.word}`, {SIGN.get(fault.word[:1], 'left out of the notation: write it out')}"


def synonyms(fault: Fault) -> str:
    """Two keys of one text, or of one meaning."""
    if fault.what != "synonyms":
        return notation(fault)
    first, second = fault.word.split(" ")
    return f"`{second}` beside `{first}`: leave one of them out"


def keys_at(where: str) -> list[str]:
    """The keys that are taken at a place."""
    place, _, kind = where.partition(" ")
    table = {"trigger": TRIGGERS, "condition": CONDITIONS, "action": ACTIONS, "helper": HELPERS}.get(place, {}).get("action" if kind == "service" else kind)
    own = list(table.kinds) if table else []
    more = {"automation": ["triggers", "conditions", "actions", "mode", *AUTOMATION.kinds], "target": ["entity_id"],
            "script": ["sequence", "mode", *SCRIPT.kinds], "file": ["automation", "script", *HELPERS], "duration": list(kinds.PARTS), "option": ["conditions", "sequence"],
            "repeat": ["count", "while", "until", "for_each", "sequence"], "trigger": ["id", "enabled"], "condition": ["enabled", "weekday"],
            "action": ["enabled", "continue_on_error", "entity_id", "target", "then", "else", "default"]}
    return own + more.get(place, [])


def unknown_key(fault: Fault) -> str:
    """A key that is not taken at its place."""
    where = fault.what.replace("action service", "action action")
    cure = UNKNOWN.get((where, fault.word))
    if cure is None and fault.word in ACTION_KINDS and where.startswith("action "):
        cure = "an item of its own: two actions are two items of the list"
    if cure is None and where == "file":
        cure = "the file has the keys `automation`, `script`, `input_boolean`, `counter` and `timer` alone, each once; lists of several files are put below it by hand"
    if cure is None and where == "side":
        return f"`{fault.word}` beside its opposite: keep one of them"
    if cure is None:
        close = get_close_matches(fault.word, keys_at(where), 1)
        cure = f"`{close[0]}`" if close else "leave it out"
    place = {"file": "the file", "target": "a target", "option": "an option of `choose`", "repeat": "a `repeat`",
             "automation": "an automation", "script": "a script", "helper input_boolean": "a flag",
             "helper counter": "a counter", "helper timer": "a timer", "duration": "a duration"}.get(where, "this " + where.replace(" action", "").replace("_", " "))
    return f"`{fault.word}` is no key of {place}: {cure}"


def missing(fault: Fault) -> str:
    """A key that has to be there."""
    if fault.what == "use_blueprint":
        return "`use_blueprint`: " + UNKNOWN["automation", "use_blueprint"]
    cure = {"actions": "`actions: []` is allowed", "triggers": "`triggers: []` is allowed", "conditions": "`conditions: []` is allowed",
            "above or below": "one of them, a number", "sequence": "`sequence: []` is allowed", "then": "`then: []` is allowed"}
    return f"`{fault.word}` is missing: {cure.get(fault.word, 'write it')}"


def no_span(fault: Fault) -> str:
    """No duration, time or unit of a pattern."""
    word, shown = fault.word, f"`{fault.word}`"
    if fault.what == "duration" and kinds.holds_template(word):
        return (f"{shown}, a template as `for`: `mode: restart`, a trigger without `for`, and as first actions a condition on the state and "
                "`delay` with the template")
    if fault.what == "duration":
        if "." in word:
            return f"{shown} is no duration: `{{milliseconds: 500}}` for half a second"
        return f"{shown} is no duration: seconds, `HH:MM`, `HH:MM:SS`, or a map such as `{{minutes: 5}}`"
    if fault.what == "time":
        if "." in word:
            return (f"{shown} is no time of day: a template trigger over a clock that is reported: "
                    f"`\"{{{{ states('sensor.time') ~ ':00' == states('{word}') }}}}\"`")
        if word in ("map", "list"):
            return "no time of day: `at: '07:00'`, one time or a list of them"
        return f"{shown} is no time of day: `'19:00'`, 24 hours, in quotes"
    if "," in word:
        return f"{shown} is no unit of a pattern: a trigger for each number"
    return f"{shown} is no unit of a pattern: a number without a zero in front, `/5` or `*`"


def no_id(fault: Fault) -> str:
    """No entity id, or no service."""
    if fault.what == "service":
        return f"`{fault.word}` is no service: `light.turn_on`"
    if fault.what == "script name":
        return f"`{fault.word}` is no name of a script: small letters, digits and `_`"
    if fault.what == "helper name":
        return f"`{fault.word}` is no name of a helper: small letters, digits and `_`"
    if fault.what == "entity kind":
        return "no entity id: a text or a list of texts"
    if fault.word.lower() == "all":
        return "`all` is no entity id: the ids written out, `light.hall, light.porch`"
    return f"`{fault.word}` is no entity id: `{kinds_of_id(fault.word)}`"


def kinds_of_id(word: str) -> str:
    """An id like a word."""
    lower = word.lower()
    return lower if kinds.is_entity(lower) else "light.hall"


def kind_of_value(fault: Fault) -> str:
    """Another kind of value."""
    return f"another kind of value is wanted: {KIND_OF_VALUE[fault.what]}"


def no_number(fault: Fault) -> str:
    """No number, or one out of range."""
    if fault.what == "counter":
        return f"`{fault.word}`: `initial` (0 where it is not given) has to be from `minimum` to `maximum`"
    word = f"`{fault.word}` "
    if fault.what == "number" and kinds.is_entity(fault.word):
        return (word + "is no number: a template trigger or condition: "
                f"`\"{{{{ states('sensor.a')|float(0) > states('{fault.word}')|float(0) }}}}\"`")
    if fault.what == "part" and "." in fault.word:
        return word + "is no whole number: `{milliseconds: 500}` for half a second"
    if fault.what == "part":
        return word + "is no whole number: digits"
    return word + "is no number that fits here: digits" + (", or a template in quotes" if fault.what == "whole" else "")


def no_kind(fault: Fault) -> str:
    """A kind that is not there."""
    words = fault.word.split(" ")
    if fault.what == "no action":
        return no_action(words)
    if fault.what == "no trigger":
        if "triggers" in words:
            return "a list of triggers inside a trigger: put its items into the list itself"
        return "a trigger without its kind: `trigger: state`, say"
    if fault.what == "no condition":
        return "a condition without its kind: `condition: state`, say"
    if fault.what == "mode":
        return f"`{fault.word}` is no mode: {' '.join(f'`{mode}`' for mode in get_close_matches(fault.word, MODES, 1) or MODES)}"
    if fault.what == "weekday":
        return f"`{fault.word}` is no weekday: `{next((day for day in kinds.DAYS if fault.word.lower().startswith(day)), 'mon')}`"
    if fault.what == "event":
        return f"there is no event `{fault.word}` of `homeassistant`: leave the trigger out; `start` alone is there"
    return unknown_kind(fault)


def no_action(words: list[str]) -> str:
    """A map of the list of actions that has no kind key."""
    if "scene" in words:
        return "`scene`: `action: scene.turn_on` with `target: {entity_id: scene.evening}`"
    if "device_id" in words:
        return "an action on a device: `action: light.turn_on` with `target: {entity_id: light.bed}`"
    if "service_template" in words:
        return "`service_template`: `action`, which may be a template"
    return "an action without its kind: `action: light.turn_on`, say; the kinds are " + ", ".join(f"`{kind}`" for kind in ACTION_KINDS)


def unknown_kind(fault: Fault) -> str:
    """A kind of triggers or conditions that is not there."""
    if kinds.holds_template(fault.word):
        return f"`{fault.what}: \"{{{{ .. }}}}\"`: the template alone as the item: `- \"{{{{ .. }}}}\"`"
    cure = KINDS.get((fault.what, fault.word))
    table = [*TRIGGERS] if fault.what == "trigger" else [*CONDITIONS, *GROUPS]
    close = get_close_matches(fault.word, table, 1)
    if cure is None and fault.word in BY_EVENT and fault.what == "trigger":
        cure = "`trigger: event` on an event that your bridge sends"
    if cure is None:
        cure = f"`{close[0]}`" if close else "one of " + ", ".join(f"`{kind}`" for kind in table)
    return f"there is no {fault.what} of the kind `{fault.word}`: {cure}"


def limit(fault: Fault) -> str:
    """A limit."""
    return LIMITS.get(fault.what) or notation(fault)


BY_CODE = {"C1": notation, "C2": notation, "C3": notation, "C4": synonyms, "C5": unknown_key, "C6": missing, "C7": kind_of_value,
           "C8": no_id, "C9": no_span, "C10": no_number, "C11": told_template, "C12": limit, "C13": notation, "C14": no_kind}
