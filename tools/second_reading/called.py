"""Worked homes with scripts that are called by name."""

from __future__ import annotations

from typing import Any

from .rows import Row, call, call_line, event, go, moment

OFF = '{"switch":"automation.a","to":"off"}'
RESTART = '{"restart":true}'


def turn(service: str, *names: str, **more: Any) -> dict[str, Any]:
    """The call of a service of scripts, with these as its targets."""
    return {"action": f"script.{service}", "target": {"entity_id": [f"script.{name}" for name in names]}} | more


def step(run: int, item: str) -> str:
    """The trace's line of a step."""
    return f'{{"worker":0,"run":{run},"branch":[],"item":{item}}}'


def halting(*names: str) -> dict[str, Any]:
    """Automation b, which ends the runs of scripts at the event off."""
    return go([turn("turn_off", *names)], alias="b", triggers=[{"trigger": "event", "event_type": "off"}])


CALLS_S = go([call("script.s", n=1), call("notify.after")])
MANY = go([call("script.s", n="{{ trigger.event.data.n }}"), call("notify.after")], mode="parallel")
SLOW = {"s": {"sequence": [{"delay": 5}, call("notify.s", n="{{ n }}")]}}
QUEUED = {"s": SLOW["s"] | {"mode": "queued"}}
GREET = {"greet": {"sequence": [{"delay": 5}, call("notify.s", who="{{ who }}")]}}
TWICE = {"sequence": [{"if": "{{ n == 1 }}", "then": [call("script.s", n=2), call("notify.back")]}, call("notify.s", n="{{ n }}")]}
AFTER = call_line("a", "1/1", "notify.after")
S = call_line("script.s", "1/1", "notify.s", '{"n":1}')
NOTHING = '{"nothing":true}'

CALLED = [
    Row("a run goes on when the run that it called has ended",
        [go([call("script.greet", who="Ann"), call("notify.a")])], [event("go"), moment("20:00:05")],
        [call_line("script.greet", "1/1", "notify.s", '{"who":"Ann"}'), call_line("a", "1/1", "notify.a")], entries=9, scripts=GREET,
        trace=[step(1, '{"started":{"scripts":["greet"],"data":{"who":"Ann"},"waits":true}}'), step(2, NOTHING), step(2, NOTHING),
               step(2, '{"call":{"service":"notify.s","target":[],"data":{"who":"Ann"}}}'), step(1, NOTHING),
               step(1, '{"call":{"service":"notify.a","target":[],"data":{}}}')],
        store='{"last":{"a":"2024-05-01T20:00:00.000Z"},"switches":{"a":true},"version":2}'),
    Row("nobody waits for a script that is turned on",
        [go([turn("turn_on", "greet", data={"variables": {"who": "Bo"}}), call("notify.a")])], [event("go"), moment("20:00:05")],
        [call_line("a", "1/1", "notify.a"), call_line("script.greet", "1/1", "notify.s", '{"who":"Bo"}')], entries=8, scripts=GREET,
        trace=[step(1, '{"started":{"scripts":["greet"],"data":{"who":"Bo"},"waits":false}}'),
               step(1, '{"call":{"service":"notify.a","target":[],"data":{}}}'), step(2, NOTHING), step(2, NOTHING),
               step(2, '{"call":{"service":"notify.s","target":[],"data":{"who":"Bo"}}}')]),
    Row("targets that are no scripts, and one twice",
        [go([turn("turn_on", "s", "no", "s", data={"variables": {"n": 2}, "m": 3}), turn("turn_on", "no"), call("notify.after")])],
        [event("go"), moment("20:00:05")], [AFTER, call_line("script.s", "1/1", "notify.s", '{"n":2}')], scripts=SLOW),
    Row("a script that is named as a service of scripts is reached by turn_on alone",
        [go([call("script.turn_on"), call("script.turn_off"), call("script.toggle"), turn("turn_on", "turn_on", "toggle")])], [event("go")],
        [call_line("a", "1/1", "script.toggle"), call_line("script.turn_on", "1/1", "notify.on"),
         call_line("script.toggle", "1/1", "notify.toggle")],
        scripts={"turn_on": {"sequence": [call("notify.on")]}, "toggle": {"sequence": [call("notify.toggle")]}},
        trace=[step(1, '{"started":{"scripts":[],"data":{},"waits":false}}'), step(1, '{"halted":[]}'),
               step(1, '{"call":{"service":"script.toggle","target":[],"data":{}}}'),
               step(1, '{"started":{"scripts":["turn_on","toggle"],"data":{},"waits":false}}'),
               step(2, '{"call":{"service":"notify.on","target":[],"data":{}}}'),
               step(3, '{"call":{"service":"notify.toggle","target":[],"data":{}}}')]),
    Row("variables that are no map, and one that is named trigger",
        [go([turn("turn_on", "s", data={"variables": 5}), turn("turn_on", "t", data={"variables": {"trigger": {"id": "k"}}})])], [event("go")],
        [call_line("script.s", "1/1", "notify.s", '{"n":"None","p":"None"}'), call_line("script.t", "1/1", "notify.t", '{"id":"k"}')],
        scripts={"s": {"sequence": [call("notify.s", n="{{ n }}", p="{{ trigger.platform }}")]},
                 "t": {"sequence": [call("notify.t", id="{{ trigger.id }}"), {"condition": "trigger", "id": "k"}, call("notify.never")]}}),
    Row("a script sees what the call hands over, and nothing else of its caller",
        [go([{"variables": {"m": 1}}, call("script.s", n="{{ m + 1 }}"), call("notify.after", m="{{ m }}", w="{{ wait is none }}")])],
        [event("go")], [call_line("script.s", "1/1", "notify.s", '{"n":2,"m":"None"}'),
                        call_line("a", "1/1", "notify.after", '{"m":1,"w":true}')],
        scripts={"s": {"sequence": [call("notify.s", n="{{ n }}", m="{{ m }}"), {"variables": {"m": 7}}]}}),
    Row("defaults of fields are not looked at", [go([call("script.s")])], [event("go")],
        [call_line("script.s", "1/1", "notify.s", '{"n":"None"}')],
        scripts={"s": {"alias": "S", "icon": "mdi:sun", "description": "", "fields": {"n": {"default": 1}},
                       "sequence": [call("notify.s", n="{{ n }}")]}}),
    Row("a service that is a template", [go([call("script.{{ 's' }}", n=1), call("script.{{ 'no' }}", n=1)])], [event("go"), moment("20:00:05")],
        [S, call_line("a", "1/1", "script.no", '{"n":1}')], scripts=SLOW),
    Row("a call of what is no script is written",
        [go([call("script.no"), turn("toggle", "s")])], [event("go")],
        [call_line("a", "1/1", "script.no"), call_line("a", "1/2", "script.toggle", target='["script.s"]')], scripts=SLOW),
    Row("where no script is configured all such calls are written", [go([turn("turn_on", "s")])], [event("go")],
        [call_line("a", "1/1", "script.turn_on", target='["script.s"]')]),
    Row("a script without actions has one step",
        [go([call("script.s"), call("script.t"), call("notify.after")])], [event("go")], [AFTER], entries=9,
        scripts={"s": {"sequence": []}, "t": {"sequence": [call() | {"enabled": False}]}}),
    Row("what ends a called run makes no difference",
        [go([call("script.s"), call("script.t"), call("notify.after")])], [event("go")], [AFTER], errors=["run 2 failed F1"],
        scripts={"s": {"sequence": [call(v="{{ states('sensor.no')|int }}")]}, "t": {"sequence": [{"stop": "x"}, call("notify.never")]}}),
    Row("scripts that call each other",
        [go([call("script.s"), call("notify.a")])], [event("go"), moment("20:00:01")],
        [call_line("script.u", "1/1", "notify.u"), call_line("script.t", "1/1", "notify.t"), call_line("script.s", "1/1", "notify.s"),
         call_line("a", "1/1", "notify.a")],
        scripts={"s": {"sequence": [call("script.t"), call("notify.s")]}, "t": {"sequence": [call("script.u"), call("notify.t")]},
                 "u": {"sequence": [{"delay": 1}, call("notify.u")]}}),
    Row("a script with the name of an automation", [go([turn("turn_on", "s"), call("notify.after")], alias="s")], [event("go")],
        [call_line("s", "1/1", "notify.after"), call_line("script.s", "1/1", "notify.s")],
        scripts={"s": {"sequence": [{"action": "automation.turn_off", "target": {"entity_id": "script.s"}}, call("notify.s")]}}),
    Row("a run that was called fires what began its caller", [CALLS_S], [event("go")], [AFTER], scripts={"s": {"sequence": [{"event": "go"}]}}),
    Row("a run that was called is turned off", [CALLS_S, halting("s")], [event("go"), event("off"), moment("20:00:05")], [AFTER], scripts=SLOW),
    Row("runs that call each other are ended together",
        [go([call("script.s"), call("notify.after")]), halting("s", "t")], [event("go"), event("off"), moment("20:00:05")], [AFTER],
        scripts={"s": {"sequence": [call("script.t"), call("notify.never")]}, "t": {"sequence": [{"delay": 5}, call("notify.never")]}}),
    Row("queued runs of a script end with the one before them",
        [MANY, halting("s")], [event("go", n=1), event("go", n=2), event("off"), moment("20:00:05")],
        [AFTER, call_line("a", "2/1", "notify.after")], scripts=QUEUED),
    Row("a script that turns itself off ends the run behind it, which never begins",
        [MANY], [event("go", n=1), event("go", n=2), moment("20:00:05"), moment("20:00:10")],
        [S, AFTER, call_line("a", "2/1", "notify.after")],
        scripts={"s": {"mode": "queued", "sequence": [{"delay": 5}, call("notify.s", n="{{ n }}"), turn("turn_off", "s")]}}),
    Row("a script that turns itself off goes no further", [go([call("script.s"), call("notify.after")])], [event("go")], [AFTER],
        scripts={"s": {"sequence": [turn("turn_off", "s"), call("notify.never")]}}),
    Row("a called run that waits in a queue is waited for",
        [MANY], [event("go", n=1), event("go", n=2), moment("20:00:05"), moment("20:00:10")],
        [S, AFTER, call_line("script.s", "2/1", "notify.s", '{"n":2}'), call_line("a", "2/1", "notify.after")], scripts=QUEUED),
    Row("a call that finds the queue full goes on",
        [MANY], [event("go", n=1), event("go", n=2), moment("20:00:05")], [call_line("a", "2/1", "notify.after"), S, AFTER],
        scripts={"s": QUEUED["s"] | {"max": 1}}),
    Row("a run that was called goes on where its caller ends", [CALLS_S], [event("go"), OFF, moment("20:00:05")], [S], scripts=SLOW),
    Row("a run that was called goes on where its caller is replaced", [CALLS_S | {"mode": "restart"}],
        [event("go"), event("go"), moment("20:00:05")], [call_line("a", "2/1", "notify.after"), S], scripts=SLOW),
    Row("a restart ends who calls and who was called", [CALLS_S], [event("go"), RESTART, moment("20:00:05")], entries=7, scripts=SLOW),
    Row("the numbers of a script's runs go on over restarts",
        [go([call("script.s"), call("notify.after")])], [event("go"), RESTART, event("go")],
        [call_line("script.s", "1/1", "notify.s"), AFTER, call_line("script.s", "2/1", "notify.s"), call_line("a", "2/1", "notify.after")],
        scripts={"s": {"sequence": [call("notify.s")]}}),
    Row("a script of mode single that calls itself goes on at once", [go([call("script.s"), call("notify.after")])], [event("go")],
        [call_line("script.s", "1/1", "notify.s"), AFTER], scripts={"s": {"sequence": [call("script.s"), call("notify.s")]}}),
    Row("a queued script that calls itself waits for ever",
        [go([call("script.s"), call("notify.after")])], [event("go"), moment("20:00:05")],
        entries=5, scripts={"s": {"mode": "queued", "sequence": [call("script.s"), call("notify.s")]}}),
    Row("a queued script of one run that calls itself goes on at once", [go([call("script.s"), call("notify.after")])], [event("go")],
        [call_line("script.s", "1/1", "notify.s"), AFTER],
        scripts={"s": {"mode": "queued", "max": 1, "sequence": [call("script.s"), call("notify.s")]}}),
    Row("a script of mode restart that calls itself is replaced", [CALLS_S], [event("go")],
        [AFTER, call_line("script.s", "2/1", "notify.s", '{"n":2}')], scripts={"s": TWICE | {"mode": "restart"}}),
    Row("a parallel script that calls itself goes on behind its second run", [CALLS_S], [event("go")],
        [call_line("script.s", "2/1", "notify.s", '{"n":2}'), call_line("script.s", "1/1", "notify.back"),
         call_line("script.s", "1/2", "notify.s", '{"n":1}'), AFTER], scripts={"s": TWICE | {"mode": "parallel"}}),
    Row("lists of a block wait for runs of their own",
        [go([{"parallel": [[call("script.s", n=1), call("notify.one")], [call("script.t"), call("notify.two")]]},
        call("notify.after")])], [event("go"), moment("20:00:05")],
        [call_line("script.t", "1/1", "notify.t"), call_line("a", "1/1", "notify.two"), S,
         call_line("a", "1/2", "notify.one"), call_line("a", "1/3", "notify.after")],
        scripts=SLOW | {"t": {"sequence": [call("notify.t")]}}),
    Row("of two lists that call one script the second goes on at once",
        [go([{"parallel": [[call("script.s", n=1), call("notify.one")], [call("script.s", n=2), call("notify.two")]]},
        call("notify.after")])], [event("go"), moment("20:00:05")],
        [call_line("a", "1/1", "notify.two"), S, call_line("a", "1/2", "notify.one"), call_line("a", "1/3", "notify.after")], scripts=SLOW),
]
