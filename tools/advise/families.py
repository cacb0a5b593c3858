"""What of a text is no template, by families of what people write, each with how it is written instead."""

from __future__ import annotations

import re

from second_reading.filters import FILTERS, FUNCTIONS

from .notation import Fault

CLOCK = "a clock that is reported as `sensor.time`: `states('sensor.time')`; for the time alone a `time` trigger or condition"
STAMP = "a reported `sensor.stamp`; a limit on how often is `mode: single` with a `delay: 300` at the end"
BY_HAND = "`repeat` with `for_each` over the names, or the names written out in `[states('sensor.a'), states('sensor.b')]`"

FUNCTION = {
    "now": CLOCK, "utcnow": CLOCK, "today_at": CLOCK, "as_local": CLOCK, "time_since": STAMP, "time_until": STAMP, "relative_time": STAMP,
    "as_timestamp": STAMP, "as_datetime": STAMP, "strptime": STAMP, "timedelta": STAMP,
    "expand": BY_HAND, "area_entities": BY_HAND, "device_entities": BY_HAND, "integration_entities": BY_HAND, "label_entities": BY_HAND,
    "closest": BY_HAND, "namespace": "the action `variables` before and inside a `repeat`", "range": "`repeat` with `count`",
    "bool": "`x in ['on', 'true']`", "average": "`(a + b) / 2`", "sum": "`a + b`", "iif": "`iif(c, a, b)`, all three",
}
FILTER = {
    "title": "leave it out, or the text as the bridge reports it", "capitalize": "leave it out, or the text as the bridge reports it",
    "join": "`a ~ ', ' ~ b`; in a `repeat`, `{{ low ~ (', ' if low else '') ~ repeat.item }}`",
    "list": "leave it out", "count": "`length`", "map": BY_HAND, "select": BY_HAND, "selectattr": BY_HAND, "reject": BY_HAND,
    "rejectattr": BY_HAND, "sort": BY_HAND, "unique": BY_HAND, "sum": "`a + b`", "average": "`(a + b) / 2`",
    "min": "the function: `min(a, b)`", "max": "the function: `max(a, b)`", "iif": "the function: `iif(c, a, b)`",
    "default": "`default('')`, with its argument", "d": "`default('')`", "float": "`float(0)`, the number alone", "int": "`int(0)`, the number alone",
    "round": "`round(1)`, the places alone; down is `x // 1`",
    "bool": "`x in ['on', 'true']`", "multiply": "`x * 2`", "add": "`x + 2`", "log": "a value that is reported", "sqrt": "a value that is reported",
    "timestamp_custom": CLOCK, "timestamp_local": CLOCK, "as_timestamp": STAMP, "as_datetime": STAMP, "as_local": CLOCK, "strftime": CLOCK,
    "regex_match": "`'part' in x`", "regex_search": "`'part' in x`", "regex_replace": "`replace('a', 'b')`", "regex_findall": "a value that is reported",
    "split": "a value that is reported in parts", "from_json": "attributes that are reported", "to_json": "YAML below `data`",
    "is_defined": "`x is defined`", "e": "leave it out", "escape": "leave it out", "wordcount": "a value that is reported", "truncate": "leave it out",
    "format": "`a ~ ' ' ~ b`", "ordinal": "a value that is reported", "urlencode": "a value that is reported", "tojson": "YAML below `data`",
}
METHOD = {
    "upper": "the filter `|upper`", "lower": "the filter `|lower`", "strip": "the filter `|trim`", "replace": "the filter `|replace('a', 'b')`",
    "startswith": "`'part' in x`", "endswith": "`'part' in x`", "split": "a value that is reported in parts",
    "format": "`a ~ ' ' ~ b`", "join": "`a ~ ', ' ~ b`", "title": "leave it out", "get": "`x.name|default(1)`", "strftime": CLOCK, "timestamp": STAMP,
    "append": "`l + 'x'` as a text", "items": BY_HAND, "keys": BY_HAND, "values": BY_HAND,
}
TAG = {
    "for": "the action `repeat` with `for_each`", "macro": "the action `variables`", "import": "the text itself", "from": "the text itself",
    "raw": "leave it out", "endfor": "the action `repeat` with `for_each`", "do": "the action `variables`", "include": "the text itself",
}
TEST = {
    "number": "`x|is_number`", "string": "leave it out: `states(..)` is a text", "mapping": "`x is defined`", "iterable": "`x is defined`",
    "true": "`x == true`", "false": "`x == false`", "match": "`'part' in x`", "search": "`'part' in x`", "eq": "`x == y`", "in": "`x in y`",
    "even": "`x % 2 == 0`", "odd": "`x % 2 == 1`", "undefined": "`x is not defined`", "sameas": "`x == y`", "list": "`x is defined`",
    "True": "`x == true`", "False": "`x == false`", "divisibleby": "`x % 3 == 0`", "boolean": "`x in [true, false]`",
}

# What stands before and at the place where no template goes on.
SHAPES = (
    (r"\.([a-z_]+)\s*$", r"\(", "`.{0}()`", METHOD, "a filter, or a value that is reported"),
    (r"\b[a-z_]+\s*\([^()]*?([a-z_]+)\s*$", r"=", "an argument by name, `{0}=`",
     {"rounded": "`states('sensor.a')|float(0)|round(1)`", "items": "the action `variables` before and inside a `repeat`"},
     "the argument alone: `float(0)`"),
    (r"(\[[^][]*)$", r":", "a part of a list or text, `{0}:`", {}, "a part of it that is reported; of a list also `x[0]`"),
    (r"(\*)$", r"\*", "`**`", {}, "`x * x`"),
    (r"set\s+([a-z_]+)\s*$", r",", "`set` of two names", {}, "a `set` for each"),
    (r"set\s+([a-z_]+)\s*$", r"\.", "`set` of a part, `{0}.`", {}, "the action `variables` before and inside a `repeat`"),
    (r"set\s+([a-z_]+)\s*$", r"-?%", "`set` of a block", {}, "`{{% set x = .. %}}`"),
    (r"((?:==|!=|<=?|>=?)[^=<>]*)$", r"[=<>!]", "two comparisons in a row", {}, "`a < b and b < c`"),
    (r"()$", r"\{", "a map in braces", {}, "the action `variables`, with the map in YAML"),
)


def told_template(fault: Fault) -> str:
    """What is told of a text that is no template."""
    if fault.what == "fixed":
        return f"`{fault.word}`, a template in the `event_data` of a trigger: a fixed text; test the rest in a condition"
    if fault.what == "kind":
        return "no text: a template is a text in quotes"
    inside = f" in line {fault.place}" if fault.place not in (0, fault.line) else ""
    what, cure = family(fault)
    return f"{what}{inside}: {cure}"


def family(fault: Fault) -> tuple[str, str]:
    """What stands at the fault, and what is written instead."""
    word = fault.word
    if fault.what == "no filter":
        return filter_of(fault)
    if fault.what == "no function":
        if word in FILTERS and word not in FUNCTIONS:
            return f"`{word}(..)`", f"the filter: `x|{word}`"
        if word in FUNCTIONS:
            return f"`{word}(..)` with other arguments", "those of docs/FORMATS.md"
        return f"`{word}()`", FUNCTION.get(word, "a value that is reported; docs/FORMATS.md has the functions")
    if fault.what == "states alone":
        found = re.match(r"states\.([a-z0-9_]+)\.([a-z0-9_]+)(\.attributes\.([a-z0-9_]+))?", fault.text[fault.at:])
        if found is None:
            return "`states` without a call", BY_HAND
        entity = f"{found[1]}.{found[2]}"
        return f"`{found[0]}`", f"`state_attr('{entity}', '{found[4]}')`" if found[4] else f"`states('{entity}')`"
    if fault.what == "no tag":
        return f"`{{% {word} .. %}}`", TAG.get(word, "`set` and `if` alone are there")
    if fault.what == "no test":
        return f"`is {word}`", TEST.get(word, "`is none` and `is defined` alone are there")
    return shape(fault)


def filter_of(fault: Fault) -> tuple[str, str]:
    """A filter that is not there, or has other arguments."""
    word = fault.word
    other = " with these arguments" if word in FILTERS else ""
    if word in FUNCTIONS and word not in FILTERS and word not in FILTER:
        return f"the filter `{word}`", f"the function: `{word}(x)`"
    return f"the filter `{word}`{other}", FILTER.get(word, "a value that is reported; docs/FORMATS.md has the filters")


def shape(fault: Fault) -> tuple[str, str]:
    """What is told by the signs round the fault."""
    before, here = fault.text[:fault.at], fault.text[fault.at:]
    for front, back, what, table, other in SHAPES:
        found = re.search(front, before)
        if found and re.match(back, here):
            word = found[1]
            return what.format(word), table.get(word, other).replace("{{%", "{%").replace("%}}", "%}")
    texts = {"open string": ("a text that is not closed", "close its quote"), "open comment": ("a comment that is not closed", "`#}`"),
             "depth": ("over 64 expressions in one another", "`set` for a part of it"), "number": (f"`{fault.word}`, a number out of range", "a text"),
             "no if": (f"`{fault.word}` without an `if`", "`{% if .. %}` before it")}
    if fault.what in texts:
        return texts[fault.what]
    shown = here.split("\n")[0][:20].strip() or "the end"
    return f"`{shown}` where no template goes on", "docs/FORMATS.md has the grammar" if fault.what != "wanted" else f"`{fault.word}` is wanted there"
