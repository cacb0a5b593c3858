"""Worked homes with flags, counters and timers."""

from __future__ import annotations

from typing import Any

from .called import RESTART, step
from .rows import Row, call, call_line, event, go, moment, on, report


def helped(service: str, *targets: str, **data: Any) -> dict[str, Any]:
    """The call of a service of helpers."""
    return {"action": service, "target": {"entity_id": list(targets)}} | ({"data": data} if data else {})


def at_event(kind: str, *steps: Any, alias: str = "b", **more: Any) -> dict[str, Any]:
    """An automation that an event begins."""
    return {"alias": alias, "triggers": [{"trigger": "event", "event_type": kind}], "actions": list(steps)} | more


def change(entity: str, text: str, span: str = "null", kind: str = "null") -> str:
    """A change in a trace."""
    return f'{{"entity":"{entity}","text":"{text}","span":{span},"event":{kind}}}'


def item(*changes: str) -> str:
    """The item of a call."""
    return '{"helped":[' + ",".join(changes) + "]}"


T: dict[str, Any] = {"timer": {"t": {"duration": 5}}}
C: dict[str, Any] = {"counter": {"c": {"maximum": 2}}}
TELLS = call("notify.b", id="{{ trigger.event.data.entity_id }}", kind="{{ trigger.event.event_type }}", e="{{ trigger.entity_id }}")
SEES = call("notify.x", v="{{ states('counter.c') }}")
UP = helped("counter.increment", "counter.c")
START = helped("timer.start", "timer.t")
STATES = call("notify.s", t="{{ states('timer.t') }}")
TWENTY = [f"timer.t{n}" for n in range(20)]


def b_tells(number: str, entity: str = "timer.t", kind: str = "timer.finished") -> str:
    """The call line of an event's automation."""
    return call_line("b", number, "notify.b", f'{{"id":"{entity}","kind":"{kind}","e":"None"}}')


HELPED = [
    Row("a timer finishes", [go([START]), at_event("timer.finished", call("notify.b", id="{{ trigger.event.data.entity_id }}"))],
        [event("go"), moment("20:00:05")], [call_line("b", "1/1", "notify.b", '{"id":"timer.t"}')], entries=5, helpers=T,
        trace=[step(1, item(change("timer.t", "active", "5000", '"timer.started"'))),
               step(2, '{"call":{"service":"notify.b","target":[],"data":{"id":"timer.t"}}}')]),
    Row("a timer finishes once", [go([START]), at_event("timer.finished", TELLS)],
        [event("go"), moment("20:00:04"), moment("20:00:06"), moment("20:00:20")], [b_tells("1/1")], helpers=T),
    Row("two timers finish at one moment, as configured",
        [go([helped("timer.start", "timer.u", "timer.t", "timer.u", "timer.no")]), at_event("timer.finished", TELLS, mode="parallel")],
        [event("go"), moment("20:00:09")], [b_tells("1/1"), b_tells("2/1", "timer.u")],
        helpers={"timer": {"t": {"duration": 5}, "u": {"duration": 3}}}),
    Row("twenty timers finish at one moment, each for those who wait for it",
        [go([helped("timer.start", *TWENTY, "timer.t0")]), at_event("timer.finished", TELLS, mode="parallel", max=20),
         on({"trigger": "event", "event_type": "timer.finished", "event_data": {"entity_id": "timer.t17"}}, alias="c",
            actions=[call("notify.c")]),
         on({"trigger": "state", "entity_id": TWENTY, "to": "idle"}, alias="d", mode="parallel", max=20,
            actions=[call("notify.d", id="{{ trigger.entity_id }}")]),
         on({"trigger": "state", "entity_id": "timer.t9", "to": "idle"}, alias="e", actions=[call("notify.e")])],
        [event("go"), moment("20:00:05")],
        [b_tells(f"{at}/1", name) for at, name in enumerate(TWENTY, 1)] + [call_line("c", "1/1", "notify.c")]
        + [call_line("d", f"{at}/1", "notify.d", f'{{"id":"{name}"}}') for at, name in enumerate(TWENTY, 1)]
        + [call_line("e", "1/1", "notify.e")],
        helpers={"timer": {f"t{n}": {"duration": 5 - n % 2} for n in range(20)}}),
    Row("a timer that is started anew", [go([START]), at_event("timer.restarted", TELLS), at_event("timer.finished", TELLS, alias="c")],
        [event("go"), moment("20:00:03"), event("go"), moment("20:00:07"), moment("20:00:08")],
        [b_tells("1/1", kind="timer.restarted"), call_line("c", "1/1", "notify.b", '{"id":"timer.t","kind":"timer.finished","e":"None"}')],
        helpers=T),
    Row("a timer is paused and goes on with what is left",
        [go([START, STATES]), at_event("halt", helped("timer.pause", "timer.t"), STATES), at_event("timer.finished", TELLS, alias="c")],
        [event("go"), moment("20:00:03"), event("halt"), moment("20:01:00"), event("go"), moment("20:01:01"), moment("20:01:02")],
        [call_line("a", "1/1", "notify.s", '{"t":"active"}'), call_line("b", "1/1", "notify.s", '{"t":"paused"}'),
         call_line("a", "2/1", "notify.s", '{"t":"active"}'),
         call_line("c", "1/1", "notify.b", '{"id":"timer.t","kind":"timer.finished","e":"None"}')], helpers=T,
        trace=[step(1, item(change("timer.t", "active", "5000", '"timer.started"'))),
               step(1, '{"call":{"service":"notify.s","target":[],"data":{"t":"active"}}}'),
               step(2, item(change("timer.t", "paused", "2000", '"timer.paused"'))),
               step(2, '{"call":{"service":"notify.s","target":[],"data":{"t":"paused"}}}'),
               step(3, item(change("timer.t", "active", "2000", '"timer.restarted"'))),
               step(3, '{"call":{"service":"notify.s","target":[],"data":{"t":"active"}}}'),
               step(4, '{"call":{"service":"notify.b","target":[],"data":{"id":"timer.t","kind":"timer.finished","e":"None"}}}')]),
    Row("timers that are not active", [go([helped(f"timer.{name}", "timer.t") for name in ("pause", "cancel", "finish")])], [event("go")],
        helpers=T, trace=[step(1, item())] * 3),
    Row("a timer is cancelled, and one is finished",
        [go([START, helped("timer.cancel", "timer.t"), START, helped("timer.finish", "timer.t")]),
         {"alias": "b", "mode": "parallel", "triggers": [{"trigger": "event", "event_type": ["timer.cancelled", "timer.finished"]}],
          "actions": [TELLS]}], [event("go"), moment("20:00:09")], [b_tells("1/1", kind="timer.cancelled"), b_tells("2/1")], helpers=T),
    Row("how long a timer is active", [go([helped("timer.start", "timer.t", duration=one) for one in (7, "00:01", "9", "{{ 3 }}", 0)])],
        [event("go"), moment("20:00:00")], helpers=T,
        trace=[step(1, item(change("timer.t", "active", span, '"timer.started"' if at == 0 else '"timer.restarted"')))
               for at, span in enumerate(("7000", "60000", "9000", "3000", "0"))]),
    Row("a counter stays within its bounds",
        [go([{"repeat": {"count": 3, "sequence": [UP]}}, SEES]), on({"trigger": "state", "entity_id": "counter.c"}, alias="b",
                                                                    actions=[call("notify.b")])],
        [event("go")], [call_line("a", "1/1", "notify.x", '{"v":2}'), call_line("b", "1/1", "notify.b")], helpers=C),
    Row("a report of a helper is refused", [go([SEES])], [report("counter.c", "7"), '{"gone":"counter.c"}', event("go")],
        [call_line("a", "1/1", "notify.x", '{"v":0}')], errors=["source 0 line 0: L14", "source 0 line 1: L14"], helpers=C),
    Row("a counter is set to no value outside its bounds", [go([helped("counter.set_value", "counter.c", value=3), SEES])], [event("go")],
        errors=["run 1 failed F7"], helpers=C),
    Row("the steps and bounds of a counter",
        [go([UP, helped("counter.decrement", "counter.c", "counter.c"), helped("counter.decrement", "counter.c"),
             helped("counter.decrement", "counter.c"), helped("counter.set_value", "counter.c", value=6), helped("counter.reset", "counter.c")])],
        [event("go")], helpers={"counter": {"c": {"initial": 2, "step": 3, "minimum": -2, "maximum": 7, "restore": True}}},
        trace=[step(1, item(change("counter.c", text))) for text in ("5", "2", "-1", "-2", "6", "2")]),
    Row("a flag", [go([helped(f"input_boolean.{name}", "input_boolean.f", "light.x") for name in ("turn_on", "toggle", "turn_off", "toggle")])],
        [event("go")], helpers={"input_boolean": {"f": None}},
        trace=[step(1, item(change("input_boolean.f", text))) for text in ("on", "off", "off", "on")]),
    Row("each segment begins with the first texts", [go([UP, helped("input_boolean.toggle", "input_boolean.f"), START, call(
        v="{{ states('counter.c') ~ states('input_boolean.f') }}")]), at_event("timer.finished", TELLS)],
        [event("go"), event("go"), RESTART, moment("20:00:09"), event("go")],
        [call_line("a", "1/1", "notify.x", '{"v":"4off"}'), call_line("a", "2/1", "notify.x", '{"v":"5on"}'),
         call_line("a", "3/1", "notify.x", '{"v":"4off"}')],
        helpers=T | {"input_boolean": {"f": {"initial": True}}, "counter": {"c": {"initial": 3}}}),
    Row("a changed number comes into its bounds", [go([UP]), on({"trigger": "numeric_state", "entity_id": "counter.c", "above": 1}, alias="b",
                                                                actions=[call("notify.b")])],
        [event("go"), event("go"), event("go")], [call_line("b", "1/1", "notify.b")], helpers={"counter": {"c": None}}),
    Row("a changed number comes into its bounds again behind a restart",
        [go([UP]), on({"trigger": "numeric_state", "entity_id": "counter.c", "above": 0}, alias="b", actions=[call("notify.b")])],
        [event("go"), event("go"), RESTART, event("go")], [call_line("b", "1/1", "notify.b"), call_line("b", "2/1", "notify.b")],
        helpers={"counter": {"c": None}}),
    Row("where no helper of the kind is configured the call is written", [go([helped("counter.increment", "counter.c"), helped("timer.start")])],
        [event("go")], [call_line("a", "1/1", "counter.increment", target='["counter.c"]')], helpers=T),
    Row("services that are none of helpers", [go([call("timer.change"), call("input_boolean.reload")])], [event("go")],
        [call_line("a", "1/1", "timer.change"), call_line("a", "1/2", "input_boolean.reload")],
        helpers=T | {"input_boolean": {"f": None}}),
    Row("a wait for a timer", [go([START, {"wait_for_trigger": [{"trigger": "event", "event_type": "timer.finished"}], "timeout": 9},
                                   call(id="{{ wait.trigger.event.data.entity_id }}", left="{{ wait.remaining }}")])],
        [event("go"), moment("20:00:05")], [call_line("a", "1/1", "notify.x", '{"id":"timer.t","left":4.0}')], helpers=T),
    Row("targets of other kinds are passed over",
        [go([helped("counter.increment", "timer.t", "counter.c", "counter.c", "counter.no"), helped("timer.start", "counter.c"),
             helped("input_boolean.turn_on", "counter.c", "automation.a"), SEES])], [event("go")],
        [call_line("a", "1/1", "notify.x", '{"v":1}')], helpers=T | C | {"input_boolean": {"f": None}},
        trace=[step(1, item(change("counter.c", "1"))), step(1, item()), step(1, item()),
               step(1, '{"call":{"service":"notify.x","target":[],"data":{"v":1}}}')]),
    Row("a value out of the bounds of one target changes none",
        [go([helped("counter.set_value", "counter.d", "counter.c", value=3)]), at_event("see", SEES, call(v="{{ states('counter.d') }}"))],
        [event("go"), event("see")], [call_line("b", "1/1", "notify.x", '{"v":0}'), call_line("b", "1/2", "notify.x", '{"v":0}')],
        errors=["run 1 failed F7"], helpers={"counter": {"c": {"maximum": 2}, "d": None}}),
    Row("a value is looked at before the targets", [go([helped("counter.set_value"), SEES])], [event("go")], errors=["run 1 failed F7"], helpers=C),
    Row("a timer without a duration finishes at the next moment, whenever that is",
        [go([START, STATES]), at_event("timer.finished", TELLS, START)],
        [event("go"), event("go"), moment("19:00:00"), moment("20:00:01")],
        [call_line("a", "1/1", "notify.s", '{"t":"active"}'), call_line("a", "2/1", "notify.s", '{"t":"active"}'), b_tells("1/1"), b_tells("2/1")],
        helpers={"timer": {"t": None}}),
    Row("a hold of a timer's state, and a timer that is paused at its due",
        [go([START]), on({"trigger": "state", "entity_id": "timer.t", "to": "active", "for": 5}, alias="b", actions=[call("notify.five")]),
         on({"trigger": "state", "entity_id": "timer.t", "to": "active", "for": 4}, alias="c", actions=[call("notify.four")]),
         on({"trigger": "state", "entity_id": "timer.t", "to": "idle", "for": 3}, alias="d", actions=[call("notify.three")]),
         on({"trigger": "time", "at": "20:00:05"}, alias="e", actions=[helped("timer.pause", "timer.t"), STATES])],
        [event("go"), moment("20:00:04"), moment("20:00:05"), moment("20:00:08")],
        [call_line("c", "1/1", "notify.four"), call_line("e", "1/1", "notify.s", '{"t":"idle"}'), call_line("d", "1/1", "notify.three")], helpers=T),
    Row("a loop moves the triggers of a counter at each turn",
        [go([{"repeat": {"count": 4, "sequence": [UP]}}]),
         on({"trigger": "state", "entity_id": "counter.c"}, {"trigger": "numeric_state", "entity_id": "counter.c", "above": 1}, alias="b",
            mode="parallel", actions=[call(k="{{ trigger.platform }}", v="{{ trigger.to_state.state }}")])], [event("go")],
        [call_line("b", f"{at}/1", "notify.x", f'{{"k":"{kind}","v":{number}}}') for at, (kind, number) in enumerate(
            (("state", 1), ("state", 2), ("numeric_state", 2)), 1)], helpers=C),
] + [Row(f"a timer takes no such duration: {one}", [go([helped("timer.start", "timer.t", duration=one)])], [event("go")],
         errors=["run 1 failed F4"], helpers=T) for one in (True, None, -1, "{{ 1.5 }}", "1:2:3:4", [1], 31_622_401)]
