"""Homes at the bounds, made by hand, for the comparison alone."""

from __future__ import annotations

from typing import Any

from .both import BOTH
from .called import CALLED, halting
from .generate import Home
from .helped import HELPED
from .reloaded import RELOADED
from .reloads import Reload
from .rows import GO, SAME_STATE, call, event, go, moment, on, report

START = "2024-05-01T20:00:00Z"
LAST = "2999-12-31T23:59:5"


def home(automations: list[dict[str, Any]], lines: list[str], start: str = START, **more: Any) -> Home:
    """A home in UTC."""
    return Home(automations, lines, start, "UTC", **more)


def deep(levels: int) -> str:
    """A report with an attribute nested in so many lists."""
    return '{"report":"light.x","state":"on","attributes":{"b":' + "[" * levels + "]" * levels + "}}"


def long_line(size: int) -> str:
    """An event's line of so many bytes."""
    front = '{"event":"go","data":{"n":"'
    return front + "x" * (size - len(front) - 3) + '"}}'


def doubled(times: int, tail: str) -> list[dict[str, Any]]:
    """A text that is doubled, then seen."""
    return [go([{"variables": {"v": "x"}}, {"repeat": {"count": times, "sequence": [{"variables": {"v": "{{ v ~ v }}"}}]}},
                call(n="{{ v|length }}"), call(n=tail)])]


def lists(rows: int, more: str = "") -> list[dict[str, Any]]:
    """A list of lists with many values."""
    row = "[" + ", ".join("1" for _ in range(255)) + "]"
    whole = "{% set a = " + row + " %}{% set b = [" + ", ".join("a" for _ in range(rows)) + more + "] %}{{ b|length }}"
    return [go([call(n=whole)])]


def attributes(*numbers: str) -> list[str]:
    """Reports with numbers as they are written."""
    return ['{"report":"light.x","state":"on","attributes":{"b":%s}}' % number for number in numbers]


NUMBERS = ("1000000000000", "1000000000000.0", "1000000000000.0000004", "1000000000000.0000005", "1000000000000.0000006", "1000000000001",
           "-1000000000000.0000005", "00012", "-0", "-0.0", "+5", "0.0000005", "0.0000015", "0.00000050000000000000001", "1.", ".5",
           "1e3", "99999999999999999999999", "0.1234567", "2.50", "-0.0000001")

LIGHTS = [f"light.m{n}" for n in range(40)]

HOMES = {
    "while without end": home([go([{"repeat": {"while": "{{ true }}", "sequence": []}}, call()])], [event("go"), event("go")]),
    "until without end in a branch": home([go([{"parallel": [[{"repeat": {"until": "{{ false }}", "sequence": []}}],
                                                             [{"delay": 5}, call()]]}, call("notify.y")])],
                                          [event("go"), moment("20:00:05")]),
    "turns of turns": home([go([{"repeat": {"count": 30, "sequence": [{"repeat": {"for_each": [1, 2, 3], "sequence": [
        call(n="{{ repeat.item }}")]}}, call(n="{{ repeat.index ~ repeat.last }}")]}}])], [event("go")]),
    "text of 65,536": home(doubled(16, "{{ v ~ '' }}"), [event("go")]),
    "text of 131,072": home(doubled(17, "{{ v }}"), [event("go")]),
    "joined pieces": home(doubled(16, "{{ v }} "), [event("go")]),
    "joined pieces, then more": home(doubled(16, " {{ v|length }}"), [event("go")]),
    "upper of 65,536": home(doubled(16, "{{ (v|upper)|length }}"), [event("go")]),
    "replace makes it longer": home(doubled(15, "{{ v|replace('x', 'yyy')|length }}"), [event("go")]),
    "list of 65,280": home(lists(255), [event("go")]),
    "list of 65,536": home(lists(256), [event("go")]),
    "list of 65,537": home(lists(256, ", 1"), [event("go")]),
    "list of 65,538": home(lists(256, ", [1]"), [event("go")]),
    "list with a list that is too long": home([go([call(n="{{ ['" + "é" * 4000 + "', [], ['']]|length }}")])], [event("go")]),
    "string of a long text": home(doubled(16, "{{ (v|string)|length ~ (v ~ '' == v) }}"), [event("go")]),
    "twice what is at the bound": home(doubled(15, "{{ (v ~ v)|length }} {{ (v + v)|trim|length }}"), [event("go")]),
    "three times": home(doubled(15, "{{ (v ~ v ~ v)|length }}"), [event("go")]),
    "arms": home(doubled(15, "{% if true %}{{ v }}{{ v }}{% endif %}{{ '' }}"), [event("go")]),
    "arms, and one more": home(doubled(15, "{% if true %}{{ v }}{{ v }}{% endif %}{{ ' ' }}"), [event("go")]),
    "list of 66,000": home(lists(258), [event("go")]),
    "numbers of attributes": home([on({"trigger": "state", "entity_id": "light.x", "attribute": "b"}, mode="parallel", actions=[
        call(n="{{ trigger.to_state.attributes.b }}")])], attributes(*NUMBERS)),
    "numbers of states": home([on({"trigger": "numeric_state", "entity_id": "light.x", "above": 0}, mode="parallel", actions=[
        call(n="{{ states('light.x')|float(-1) }}")])], [report("light.x", text) for number in NUMBERS for text in ("-1", number)]),
    "depth": home([], [deep(30), deep(31), deep(32), deep(64)]),
    "long lines": home([go([call(n="{{ trigger.event.data.n|length }}")], mode="parallel")],
                       [long_line(65_535), long_line(65_536), long_line(65_537), " " * 70_000, " " * 65_536 + "x"]),
    "long states": home([on({"trigger": "state", "entity_id": "light.x"}, mode="parallel", actions=[
        call(n="{{ states('light.x')|length }}")])],
        [report("light.x", "é" * 255), report("light.x", "é" * 256), report("light.x", "😀" * 255),
         report("light.x", "\n\t\u0000" * 85)]),
    "line ends": home([go([call()], mode="parallel")], [event("go") + "\r", "\r", "  \t\r", event("go") + "\r\r", "", event("go") + "\r"]),
    "end of time": home([go([{"delay": 5}, call()]), on({"trigger": "state", "entity_id": "light.x", "for": 5}, alias="b"),
                         go([{"wait_template": "{{ false }}", "timeout": "24:00"}, call()], alias="c"),
                         go([{"wait_template": "{{ false }}", "timeout": 1}, call(n="{{ wait.remaining }}")], alias="d")],
                        [report("light.x", "on"), event("go"), moment(LAST + "9Z"), '{"moment":"2999-12-31T23:59:59.999Z"}',
                         '{"moment":"3000-01-01T00:00:00Z"}', event("go")], start=LAST + "8Z"),
    "days": home([go([{"delay": {"days": 366}}, call()]),
                  on({"trigger": "state", "entity_id": "light.x", "for": {"days": 365}}, alias="b")],
                 [report("light.x", "on"), event("go"), moment("2025-05-01T19:59:59Z"), moment("2025-05-01T20:00:00Z"),
                  moment("2025-05-02T20:00:00Z")]),
    "stored names": home([go([call()])], [event("go")], stored={"a": False, "none": True, "zz": False}),
    "stored moments": home([go([call()]), go([call()], alias="b", triggers=[]), go([call()], alias="c")], [moment("20:00:01"), event("go")],
                           stored={"c": False}, last={"a": 0, "b": 32_503_679_999_999, "c": 1_714_593_600_000, "none": 1}),
    "many branches": home([go([{"parallel": [[{"delay": n % 3}, call(n=n)] for n in range(40)]}, call("notify.end")])],
                          [event("go"), moment("20:00:01"), moment("20:00:02")]),
    "many runs": home([go([{"wait_for_trigger": {"trigger": "event", "event_type": "pong"}, "timeout": 3}, call(n="{{ wait.remaining }}")],
                          mode="parallel", max=50)],
                          [event("go")] * 60 + [moment("20:00:01.5"), event("pong"), event("go"), moment("20:00:05")]),
    "long queue": home([go([{"delay": 1}, call(n="{{ trigger.event.data.n }}")], mode="queued", max=8)],
                       [event("go", n=n) for n in range(12)] + [moment(f"20:00:0{n}") for n in range(1, 10)]),
    "queue is stopped": home([go([{"delay": 1}, call(n="{{ trigger.event.data.n }}")], mode="queued", max=8)],
                             [event("go", n=n) for n in range(4)] + ['{"switch":"automation.a","to":"off"}', moment("20:00:09"),
                              '{"switch":"automation.a","to":"on"}', event("go", n=9), moment("20:00:10")]),
    "queue turns itself off": home([go([call(n="{{ trigger.event.data.n }}"), {"delay": 1}, {
        "action": "automation.turn_off", "target": {"entity_id": "automation.a"}, "data": {"stop_actions": False}}, call("notify.y")],
        mode="queued")], [event("go", n=n) for n in range(3)] + [moment(f"20:00:0{n}") for n in range(1, 6)]),
    "starts": home([on({"trigger": "homeassistant", "event": "start"}, mode=mode, alias=mode,
                       actions=[call(n="{{ trigger.platform }}"), {"delay": 2}, call()]) for mode in ("single", "restart", "queued")],
                   ['{"restart":true}', moment("20:00:01"), '{"restart":true}', '{"restart":true}', moment("20:00:03")]),
    "what a restart ends": home([
        go([{"delay": 5}, call("notify.delayed")]),
        on(SAME_STATE | {"for": 5}, alias="held"),
        go([{"wait_for_trigger": {"trigger": "event", "event_type": "pong"}, "timeout": 5}, call("notify.waited")], alias="waits"),
        go([{"delay": 1}, call("notify.queued")], alias="queue", mode="queued", max=3),
        on({"trigger": "homeassistant", "event": "start"}, alias="again", conditions=["{{ is_state('automation.again', 'on') }}"])],
        [report("light.x", "on"), event("go"), event("go"), '{"restart":true}', event("pong"), moment("20:00:06"),
         '{"switch":"automation.again","to":"off"}', '{"restart":true}', report("light.x", "on"), event("go"), moment("20:00:20")]),
    "starts without lines": home([on({"trigger": "homeassistant", "event": "start"}, actions=[call(), {"event": "go"}]),
                                  {"alias": "b"} | GO | {"actions": [call("notify.b")]}], []),
    "many entities": home([
        {"alias": "a", "mode": "parallel", "max": 50, "triggers": [
            {"trigger": "state", "entity_id": LIGHTS, "to": "on", "for": 5}, {"trigger": "event", "event_type": "go"},
            {"trigger": "template", "value_template": "{{ states('light.m3') == 'on' }}"}, {"trigger": "time", "at": "20:00:03"},
            {"trigger": "numeric_state", "entity_id": LIGHTS, "above": 20}, {"trigger": "numeric_state", "entity_id": LIGHTS, "below": 9, "for": 2}],
         "actions": [call(n="{{ trigger.platform }} {{ trigger.idx }}")]},
        on({"trigger": "state", "entity_id": LIGHTS}, alias="b", mode="parallel", max=50, actions=[
            call(n="{{ trigger.entity_id }} {{ trigger.to_state.state }}")]),
        go([{"wait_for_trigger": {"trigger": "state", "entity_id": LIGHTS, "to": "off"}, "timeout": 4},
            call(n="{{ wait.trigger.entity_id }}")], alias="c", mode="parallel", max=50)],
        [report("light.m3", "on"), report("light.m39", "on"), event("go"), moment("20:00:01"), report("light.m17", "21"),
         report("light.m17", "22"), report("light.m18", "8"), report("light.m0", "on"), moment("20:00:02"), report("light.m39", "off"),
         report("light.m39", "off"), event("go"), moment("20:00:03"), report("light.m18", "9"), report("light.m18", "7"),
         report("light.x", "on"), moment("20:00:05"), '{"gone":"light.m0"}', moment("20:00:06"), report("light.m3", "off"),
         report("light.m3", "on"), '{"switch":"automation.a","to":"off"}', moment("20:00:12"), '{"switch":"automation.a","to":"on"}',
         report("light.m4", "on"), report("light.m5", "on"), moment("20:00:14"), '{"restart":true}', moment("20:00:20"),
         report("light.m4", "on"), report("light.m6", "30"), event("go"), moment("20:00:30")]),
    "keys in a line": home([go([call(n="{{ trigger.event.data.n }}")], mode="parallel")],
                           ['{ "data" : { "n" : 1 } , "event" : "go" }', '{"\\u0065vent":"go"}', '{"event":"go","event":"go"}',
                            '{"event":"go","data":{"a":1,"\\u0061":2}}', '{"event":"go","gone":"light.x"}', '{"event":"go","x":1}',
                            '{"event":5}', '{"event":null}', "[]", '"x"', "5", '{"event":"go"}x', ' {"event":"go"}', '{"event":"go"} ',
                            '{"event":"go","data":[]}', '{"restart":false}', '{"restart":1}', '{"moment":5}', '{"switch":"automation.a"}',
                            '{"switch":"automation.a","to":"x"}', '{"switch":"light.x","to":"on"}', '{"trigger":"automation.A"}',
                            '{"report":"automation.a","state":"on"}', '{"gone":"automation.a"}', '{"report":"light.x.y","state":"on"}',
                            '{"switch":"automation.none","to":"on","stop_actions":5}',
                            '{"event":"\\ud83d\\ude00","data":{"n":"\\/\\b\\f"}}',
                            '{"event":"\\ud83d"}', '{"event":"\\udc00"}', '{"event":"go\\u0000"}', '{"event":"go","data":{"n":1,}}',
                            '{"moment":"2024-02-30T00:00:00Z"}', '{"moment":"2024-05-01T24:00:00Z"}', '{"moment":"2024-05-01T20:00:60Z"}',
                            '{"moment":"2024-05-01T20:00:01.Z"}', '{"moment":"2024-05-01T20:00:01.1234Z"}',
                            '{"moment":"2024-05-01t20:00:01Z"}', '{"moment":"1969-12-31T23:59:59Z"}',
                            '{"moment":"2024-05-01T20:00:01.5Z"}']),
}

CHAIN = {f"s{n}": {"sequence": [call(f"script.s{n + 1}"), call(n=n)]} for n in range(60)}

HOMES |= {row.name: Home(row.home, row.lines, row.start, row.zone, row.stored, row.last, row.scripts, helpers=row.helpers)
          for row in CALLED + HELPED + RELOADED + BOTH}

HOMES |= {
    "a chain of calls": home([go([call("script.s0"), call("notify.end")], mode="parallel")], [event("go"), event("go"), moment("20:00:05")],
                             scripts=CHAIN | {"s60": {"sequence": [{"delay": 5}, call(n=60)]}}),
    "many callers": home([go([call("script.s"), call(n="{{ trigger.event.data.n }}")], mode="parallel", max=40), halting("s")],
                         [event("go", n=n) for n in range(45)] + [event("off"), event("go", n=50), moment("20:00:05")],
                         scripts={"s": {"mode": "parallel", "max": 30, "sequence": [{"delay": 5}, call("notify.s")]}}),
    "a script that calls itself in turns": home([go([call("script.s", n=20), call("notify.end")])], [event("go")], scripts={"s": {
        "mode": "parallel", "max": 15, "sequence": [{"if": "{{ n > 0 }}", "then": [call("script.s", n="{{ n - 1 }}")]}, call(n="{{ n }}")]}}),
    "a script that restarts itself without end": home(
        [go([call("script.s"), call("notify.after")])], [event("go"), moment("20:00:01"), moment("20:00:02")],
        scripts={"s": {"mode": "restart", "sequence": [call("notify.s"), {"delay": 1}, call("script.s")]}}),
}
