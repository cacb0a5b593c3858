"""Worked homes whose configuration is another one after some of their lines."""

from __future__ import annotations

from typing import Any, Optional

from .called import OFF, RESTART, step
from .config import Plain
from .reloads import Reload
from .rows import GO, Row, call, call_line, event, go, moment, on, report

Made = dict[str, Any]


def store(switches: str, last: str = "") -> str:
    """A store's text."""
    return f'{{"last":{{{last}}},"switches":{{{switches}}},"version":2}}'


def at(name: str, second: int) -> str:
    """When an automation last triggered."""
    return f'"{name}":"2024-05-01T20:00:{second:02}.000Z"'


def delayed(seconds: int, service: str, name: str = "a", **more: Any) -> Made:
    """An automation that calls a service so long after the event go."""
    return go([{"delay": seconds}, call(service)], alias=name, **more)


def tells(name: str, service: Optional[str] = None, **more: Any) -> Made:
    """An automation that calls a service at the event go."""
    return go([call(service or f"notify.{name}")], alias=name, **more)


def seen(state: str) -> Made:
    """An automation that tells at the event see whether automation.a has had a switch for five seconds."""
    return on({"trigger": "event", "event_type": "see"}, alias="see", actions=[call("notify.see")],
              conditions=[{"condition": "state", "entity_id": "automation.a", "state": state, "for": 5}])


A, A2, B, C, X = tells("a"), tells("a", "notify.a2"), tells("b"), tells("c"), tells("x")
A5, B5, B6 = delayed(5, "notify.a"), delayed(5, "notify.b", "b"), delayed(6, "notify.b", "b")
QUIET_X = on(alias="x", actions=[])
ON_X = {"trigger": "state", "entity_id": "automation.x"}
IS_X = {"trigger": "template", "value_template": "{{ is_state('automation.x', 'on') }}"}
OF_X = on(ON_X, alias="w", actions=[call("notify.w", old="{{ trigger.from_state is none }}", new="{{ trigger.to_state.state }}")])
HELD = on({"trigger": "state", "entity_id": "light.x", "to": "on", "for": 5}, alias="h", actions=[call("notify.h")])
OVER = on({"trigger": "numeric_state", "entity_id": "sensor.t", "above": 20}, alias="n",
          actions=[call("notify.n", v="{{ trigger.to_state.state }}")])
CALLS = go([call("script.s", n=1), call("notify.after")])
SLOW = {"s": {"sequence": [{"delay": 5}, call("notify.s", n="{{ n }}")]}}
SLOWER = {"s": {"sequence": [{"delay": 6}, call("notify.s", n="{{ n }}")]}}
WAITS = go([{"wait_for_trigger": ON_X}, call(s="{{ wait.trigger.to_state.state }}"),
            {"wait_template": "{{ is_state('automation.x', 'on') }}"}, call("notify.y")])
REPLACED = go([{"delay": 5}, call(p="{{ trigger.platform }}")], mode="restart", triggers=GO["triggers"] + [ON_X])
TURNS_OFF = go([{"action": "automation.turn_off", "target": {"entity_id": ["automation.b", "automation.c"]}}, call("notify.after")])
BY_NUMBER = go([{"delay": 5}, call("notify.q", n="{{ trigger.event.data.n }}")], mode="queued")
BECOMES = on(IS_X, alias="t", actions=[call("notify.t")])
BOTH = on(IS_X, alias="t", conditions=["{{ is_state('automation.b', 'on') }}"])
TURNED_ON = on({"trigger": "state", "entity_id": "automation.a", "to": "on"}, alias="w", actions=[call("notify.w")])
START = {"trigger": "homeassistant", "event": "start"}
AFTER = call_line("a", "1/1", "notify.after")
REFUSED = Reload(refused="automation: 5\n")
NOTHING_IN_FORCE = Reload([])


def several(changed: bool) -> list[Made]:
    """Automations that are written in one of two ways, which only of the last is the same when it is read."""
    light = {"trigger": "state", "entity_id": ["light.x", "light.x"] if changed else "light.x"}
    chosen: Made = {"conditions": "{{ true }}", "sequence": [call()]}
    pairs = {"one": 1, "two": 2}
    return [
        tells("p") | {"actions": [call(n=Plain("3.0" if changed else "3"))]},
        on(light, alias="q"),
        go([{"choose": [chosen]} if changed else {"if": "{{ true }}", "then": [call()]}], alias="r"),
        go([call(m=dict(reversed(pairs.items())) if changed else pairs)], alias="s"),
        on(*([START, IS_X] if changed else [IS_X, START]), alias="t"),
        on(*([START | {"enabled": False}] if changed else []), IS_X, alias="u"),
        go([{"delay": {"seconds": 5}} if changed else {"delay": 5}], alias="V" if changed else "v", id="2" if changed else "1")]


ONE_WAY = on({"trigger": "event", "event_type": "go"}, {"trigger": "state", "entity_id": "light.x", "for": 5, "to": "on"},
             description="one", conditions="{{ true }}", actions=[{"delay": {"seconds": 5}}, call(v="{{ 1+1 }}")])
OTHER_WAY = {"alias": "A", "id": "17", "description": "two", "mode": "single", "max": 10, "condition": ["{{true}}"],
             "trigger": [{"platform": "event", "event_type": ["go"], "id": "0"},
                         {"platform": "state", "entity_id": ["light.x"], "to": ["on"], "for": "00:00:05", "enabled": True}],
             "action": [{"delay": "00:00:05"}, {"delay": 1, "enabled": False},
                        {"service": "notify.x", "data": {"v": "{{ (1 + 1) }}"}, "continue_on_error": True, "alias": "tell"}]}

RELOADED = [
    Row("a run of what is kept goes on, and one of what changed ends", [A5, B5],
        [event("go"), Reload([A5, B6]), moment("20:00:05"), moment("20:00:06")], [call_line("a", "1/1", "notify.a")],
        entries=9, numbers={"a": 0, "b": 2}, store=store('"a":true,"b":true', f'{at("a", 0)},{at("b", 0)}')),
    Row("a text that is refused", [], [Reload(refused="\tx")], errors=["source 0 line 0: L12"], entries=2, store=store("")),
    Row("a text that is refused ends nothing", [A5], [event("go"), REFUSED, moment("20:00:05")], [call_line("a", "1/1", "notify.a")],
        errors=["source 0 line 1: L12"], numbers={"a": 0}),
    Row("the same text again changes nothing", [A5, HELD],
        [report("light.x", "on"), event("go"), moment("20:00:02"), Reload([A5, HELD]), moment("20:00:05")],
        [call_line("a", "1/1", "notify.a"), call_line("h", "1/1", "notify.h")], entries=10, numbers={"a": 0, "h": 1},
        store=store('"a":true,"h":true', f'{at("a", 0)},{at("h", 5)}')),
    Row("what is changed, and changed back, is new each time, and its runs are counted on", [A],
        [event("go"), Reload([A2]), event("go"), Reload([A]), event("go")],
        [call_line("a", "1/1", "notify.a"), call_line("a", "2/1", "notify.a2"), call_line("a", "3/1", "notify.a")],
        entries=9, numbers={"a": 2}),
    Row("two that change their order are asked in the new one", [A, B], [event("go"), Reload([B, A]), event("go")],
        [call_line("a", "1/1", "notify.a"), call_line("b", "1/1", "notify.b"), call_line("b", "2/1", "notify.b"),
         call_line("a", "2/1", "notify.a")], numbers={"b": 1, "a": 0}),
    Row("a new one in front of one that is kept is asked first", [A], [Reload([C, A]), event("go")],
        [call_line("c", "1/1", "notify.c"), call_line("a", "1/1", "notify.a")], numbers={"c": 1, "a": 0}),
    Row("a changed one that was off stays off, as long as it has been", [A, seen("off")],
        [OFF, moment("20:00:04"), Reload([A2, seen("off")]), moment("20:00:05"), event("see"), event("go")],
        [call_line("see", "1/1", "notify.see")], store=store('"a":false,"see":true', at("see", 5))),
    Row("a name that goes and comes back is on from then, and its runs are counted on", [A, seen("on")],
        [event("go"), OFF, Reload([seen("on")]), event("go"), moment("20:00:04"), Reload([A, seen("on")]), event("go"),
         moment("20:00:08"), event("see"), moment("20:00:09"), event("see")],
        [call_line("a", "1/1", "notify.a"), call_line("a", "2/1", "notify.a"), call_line("see", "1/1", "notify.see")],
        numbers={"a": 2, "see": 1}, store=store('"a":true,"see":true', f'{at("a", 4)},{at("see", 9)}')),
    Row("a hold and a delay of what is kept go on", [HELD, A5],
        [report("light.x", "on"), event("go"), moment("20:00:03"), Reload([C, A5, HELD]), moment("20:00:05")],
        [call_line("a", "1/1", "notify.a"), call_line("h", "1/1", "notify.h")], entries=10, numbers={"c": 2, "a": 1, "h": 0}),
    Row("a hold of what changed is lost, and begins anew", [HELD],
        [report("light.x", "on"), moment("20:00:03"), Reload([HELD | {"actions": [call("notify.h2")]}]), moment("20:00:05"),
         moment("20:00:20"), report("light.x", "off"), report("light.x", "on"), moment("20:00:25")],
        [call_line("h", "1/1", "notify.h2")]),
    Row("an automation that a reload brings appears to those that are kept", [OF_X],
        [Reload([OF_X, QUIET_X | {"initial_state": False}]), Reload([OF_X]), Reload([OF_X, QUIET_X])],
        [call_line("w", "1/1", "notify.w", '{"old":true,"new":"off"}'), call_line("w", "2/1", "notify.w", '{"old":true,"new":"on"}')]),
    Row("what a reload brings can't fire there", [OF_X],
        [Reload([OF_X | {"description": "", "max": 3}, QUIET_X]), '{"switch":"automation.x","to":"off"}'],
        [call_line("w", "1/1", "notify.w", '{"old":false,"new":"off"}')]),
    Row("a template that a reload makes true", [BECOMES],
        [Reload([BECOMES, QUIET_X]), Reload([BECOMES]), Reload([BECOMES, QUIET_X])],
        [call_line("t", "1/1", "notify.t"), call_line("t", "2/1", "notify.t")]),
    Row("a template of a new one that is true already waits until it is true again", [],
        [report("light.x", "on"), Reload([on({"trigger": "template", "value_template": "{{ is_state('light.x', 'on') }}"})]),
         report("light.y", "on"), report("light.x", "off"), report("light.x", "on")], [call_line("a", "1/1", "notify.x")]),
    Row("a number of a new one follows the numbers before it", [OVER],
        [report("sensor.t", "25"), Reload([OVER | {"mode": "queued"}]), report("sensor.t", "26"), report("sensor.t", "10"),
         report("sensor.t", "30")], [call_line("n", "1/1", "notify.n", '{"v":25}'), call_line("n", "2/1", "notify.n", '{"v":30}')]),
    Row("a queued run of what changed never begins",
        [BY_NUMBER], [event("go", n=1), event("go", n=2), Reload([BY_NUMBER | {"actions": [{"delay": 6}] + BY_NUMBER["actions"][1:]}]),
         moment("20:00:05"), moment("20:00:11"), event("go", n=3), event("go", n=4), moment("20:00:17"), moment("20:00:23")],
        [call_line("a", "3/1", "notify.q", '{"n":3}'), call_line("a", "4/1", "notify.q", '{"n":4}')]),
    Row("runs that a reload ended don't count for what may be live",
        [BY_NUMBER | {"mode": "parallel", "max": 1}],
        [event("go", n=1), Reload([BY_NUMBER | {"mode": "parallel", "max": 2}]), event("go", n=2), event("go", n=3), event("go", n=4),
         moment("20:00:05")], [call_line("a", "2/1", "notify.q", '{"n":2}'), call_line("a", "3/1", "notify.q", '{"n":3}')]),
    Row("64 reloads are taken, over restarts too, and a text is read before they are counted", [],
        [NOTHING_IN_FORCE] * 40 + [RESTART] + [NOTHING_IN_FORCE] * 25 + [REFUSED],
        errors=["source 0 line 65: L13", "source 0 line 66: L12"], entries=69),
    Row("what is refused is no reload that counts", [A5], [REFUSED] * 70 + [event("go"), NOTHING_IN_FORCE, moment("20:00:05")],
        errors=[f"source 0 line {n}: L12" for n in range(70)], entries=75),
    Row("start triggers wait for the next start", [on(START, actions=[call("notify.one")])],
        [Reload([on(START, actions=[call("notify.two")])]), moment("20:00:01"), RESTART, moment("20:00:02")],
        [call_line("a", "2/1", "notify.two")], entries=7, numbers={"a": 0}),
    Row("behind a restart what was reloaded stays in force, under numbers of its own", [A, B],
        [Reload([C, B, A]), RESTART, event("go")],
        [call_line("c", "1/1", "notify.c"), call_line("b", "1/1", "notify.b"), call_line("a", "1/1", "notify.a")],
        numbers={"c": 0, "b": 1, "a": 2}),
    Row("the runs of a name that was gone at a restart are counted on", [A],
        [event("go"), NOTHING_IN_FORCE, RESTART, Reload([A]), event("go")],
        [call_line("a", "1/1", "notify.a"), call_line("a", "2/1", "notify.a")], numbers={"a": 0}),
    Row("the store has what is in force", [A, B], [event("go"), Reload([B])],
        [call_line("a", "1/1", "notify.a"), call_line("b", "1/1", "notify.b")], store=store('"b":true', at("b", 0))),
    Row("when a name last triggered is known as long as its segment goes", [A],
        [event("go"), NOTHING_IN_FORCE, moment("20:00:05"), Reload([A])], [call_line("a", "1/1", "notify.a")],
        store=store('"a":true', at("a", 0))),
    Row("when a name last triggered is not known behind a restart at which it was gone", [A],
        [event("go"), NOTHING_IN_FORCE, RESTART, Reload([A])], [call_line("a", "1/1", "notify.a")], store=store('"a":true')),
    Row("what is stored of a name counts at the start alone", [A], [Reload([A, X])], stored={"x": False}, last={"a": 0, "x": 0},
        store=store('"a":true,"x":true', '"a":"1970-01-01T00:00:00.000Z"')),
    Row("a changed one has its initial state rather than the switch before",
        [A, TURNED_ON], [OFF, Reload([A | {"initial_state": True}, TURNED_ON]), event("go")],
        [call_line("w", "1/1", "notify.w"), call_line("a", "1/1", "notify.a")]),
    Row("a kept one has the switch before rather than its initial state", [A | {"initial_state": True}],
        [OFF, Reload([A | {"initial_state": True}, B]), event("go")], [call_line("b", "1/1", "notify.b")], numbers={"a": 0, "b": 1}),
    Row("a changed initial state is a change", [A5], [event("go"), Reload([A5 | {"initial_state": False}]), moment("20:00:05"), event("go")],
        numbers={"a": 1}, store=store('"a":false', at("a", 0))),
    Row("conditions at a reload see what it brings", [BOTH], [Reload([BOTH, QUIET_X]), Reload([BOTH]), Reload([BOTH, QUIET_X, B])],
        [call_line("t", "1/1", "notify.x")]),
    Row("a run of what is kept is replaced at a reload",
        [REPLACED], [event("go"), moment("20:00:03"), Reload([REPLACED, QUIET_X]), moment("20:00:05"), moment("20:00:08")],
        [call_line("a", "2/1", "notify.x", '{"p":"state"}')]),
    Row("waits of what is kept end at a reload",
        [WAITS], [event("go"), Reload([WAITS, QUIET_X])],
        [call_line("a", "1/1", "notify.x", '{"s":"on"}'), call_line("a", "1/2", "notify.y")]),
    Row("lines name what is in force", [A, B],
        [Reload([A, C]), '{"switch":"automation.b","to":"off"}', '{"trigger":"automation.b"}', '{"trigger":"automation.c"}'],
        [call_line("c", "1/1", "notify.c")], errors=["source 0 line 1: L9", "source 0 line 2: L9"]),
    Row("calls name what is in force",
        [TURNS_OFF, B], [Reload([TURNS_OFF, C]), event("go")], [AFTER], store=store('"a":true,"c":false', f'{at("a", 0)},{at("c", 0)}'),
        trace=[step(1, '{"switched":[{"automation":"c","on":false,"stop":true}]}'),
               step(1, '{"call":{"service":"notify.after","target":[],"data":{}}}')]),
    Row("what is read alike is kept, however it is written", [ONE_WAY], [event("go"), Reload([OTHER_WAY]), moment("20:00:05")],
        [call_line("a", "1/1", "notify.x", '{"v":2}')], numbers={"a": 0}),
    Row("what is read otherwise is not kept", several(False), [Reload(several(True))],
        numbers={"p": 7, "q": 8, "r": 9, "s": 10, "t": 11, "u": 12, "v": 6}),
    Row("a run that was called goes on over a reload that keeps its script", [CALLS],
        [event("go"), Reload([go([call("script.s", n=1), call("notify.other")])], SLOW), moment("20:00:05")],
        [call_line("script.s", "1/1", "notify.s", '{"n":1}')], scripts=SLOW, numbers={"a": 2, "script.s": 1}),
    Row("a run goes on when a reload ends the run that it called", [CALLS],
        [event("go"), Reload([CALLS], SLOWER), event("go"), moment("20:00:05"), moment("20:00:06")],
        [AFTER, call_line("script.s", "2/1", "notify.s", '{"n":1}'), call_line("a", "2/1", "notify.after")], scripts=SLOW,
        numbers={"a": 0, "script.s": 2}),
    Row("scripts come and go", [CALLS], [Reload([CALLS]), event("go"), Reload([CALLS], {"s": {"sequence": [call("notify.s")]}}), event("go")],
        [call_line("a", "1/1", "script.s", '{"n":1}'), call_line("a", "1/2", "notify.after"), call_line("script.s", "1/1", "notify.s"),
         call_line("a", "2/1", "notify.after")], scripts=SLOW),
    Row("a script with the name of an automation is another unit", [delayed(5, "notify.after", "s")],
        [event("go"), Reload([delayed(5, "notify.after", "s")], SLOWER), moment("20:00:05")], [call_line("s", "1/1", "notify.after")],
        scripts=SLOW, numbers={"s": 0, "script.s": 2}),
    Row("of two with one alias the second takes the name of the first that goes", [A5, delayed(5, "notify.second")],
        [event("go"), Reload([delayed(5, "notify.second")]), moment("20:00:05"), event("go"), moment("20:00:10")],
        [call_line("a", "2/1", "notify.second")], numbers={"a": 2}),
    Row("to ask for a reload by a call is a call", [go([call("automation.reload"), call("notify.a")])], [event("go")],
        [call_line("a", "1/1", "automation.reload"), call_line("a", "1/2", "notify.a")]),
    Row("lines that are no reloads", [],
        ['{"reload":5}', '{"reload":null}', '{"reload":["[]"]}', '{"reload":"[]","x":1}', '{"reload":"[]","restart":true}',
         '{"reload":"[]"', '{"reload":"' + "x" * 65_530 + '"}'],
        errors=[f"source 0 line {at}: L{code}" for at, code in enumerate((5, 5, 5, 4, 3, 2, 10))]),
]
