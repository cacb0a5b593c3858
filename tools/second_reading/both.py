"""Worked homes with helpers that are reloaded: a reload brings no helpers, and those that there are go on."""

from __future__ import annotations

from typing import Any

from .called import RESTART
from .helped import C, START, T, UP, at_event, helped
from .reloads import Reload
from .rows import Row, call, call_line, event, go, moment, on, report

BOTH_KINDS: dict[str, Any] = T | C
OTHERS: dict[str, Any] = {"timer": {"t": {"duration": 1}, "u": None}, "counter": {"c": {"initial": 7}, "d": None}}
BEGINS = go([START, UP])
SEES = call("notify.s", c="{{ states('counter.c') }}", t="{{ states('timer.t') }}", d="{{ states('counter.d') }}")
ENDS = at_event("timer.finished", call("notify.b"))
LOOKS = at_event("look", SEES, alias="s")


def looked(at: str, counter: str, timer: str, other: str = "unknown") -> str:
    """What the automation s tells."""
    return call_line("s", at, "notify.s", f'{{"c":{counter},"t":"{timer}","d":{other}}}')


BOTH = [
    Row("a timer and a counter go on over a reload", [BEGINS, ENDS],
        [event("go"), moment("20:00:03"), Reload([BEGINS, ENDS, LOOKS], helpers=OTHERS), event("look"), moment("20:00:05"), event("look")],
        [looked("1/1", "1", "active", '"unknown"'), call_line("b", "1/1", "notify.b"), looked("2/1", "1", "idle", '"unknown"')],
        helpers=BOTH_KINDS, numbers={"a": 0, "b": 1, "s": 2}),
    Row("a reload in which other helpers stand keeps all that is equal", [go([{"delay": 5}, call()])],
        [event("go"), Reload([go([{"delay": 5}, call()])], helpers=OTHERS), moment("20:00:05")], [call_line("a", "1/1", "notify.x")],
        helpers=BOTH_KINDS, numbers={"a": 0}, entries=7),
    Row("what is reported is refused by the helpers of the start", [LOOKS],
        [Reload([LOOKS], helpers=OTHERS), report("counter.c", "9"), report("counter.d", "4"), '{"gone":"timer.t"}', event("look")],
        [looked("1/1", "0", "idle", "4")], errors=["source 0 line 1: L14", "source 0 line 3: L14"], helpers=BOTH_KINDS),
    Row("behind a restart that follows a reload the helpers are those of the start", [BEGINS],
        [event("go"), Reload([LOOKS], helpers=OTHERS), event("look"), RESTART, event("look"), report("counter.c", "9"), report("counter.d", "4"),
         event("look"), moment("20:00:09"), event("look")],
        [looked("1/1", "1", "active", '"unknown"'), looked("2/1", "0", "idle", '"unknown"'), looked("3/1", "0", "idle", "4"),
         looked("4/1", "0", "idle", "4")],
        errors=["source 0 line 5: L14"], helpers=BOTH_KINDS),
    Row("a timer of a segment that a reload and a restart closed never finishes", [BEGINS, ENDS],
        [event("go"), Reload([ENDS]), RESTART, Reload([BEGINS, ENDS]), moment("20:00:09"), event("go"), moment("20:00:14")],
        [call_line("b", "1/1", "notify.b")], helpers=BOTH_KINDS),
    Row("helpers that a reload brings make nothing of their calls", [],
        [Reload([go([helped("counter.increment", "counter.d"), helped("timer.start", "timer.t")])], helpers=OTHERS), event("go")],
        [call_line("a", "1/1", "counter.increment", target='["counter.d"]'), call_line("a", "1/2", "timer.start", target='["timer.t"]')]),
    Row("nor do they behind a restart", [],
        [Reload([go([helped("counter.increment", "counter.d")])], helpers=OTHERS), RESTART, report("counter.d", "4"), event("go")],
        [call_line("a", "1/1", "counter.increment", target='["counter.d"]')]),
    Row("where the start has counters, one that a reload brings is left alone by their services", [],
        [Reload([go([helped("counter.increment", "counter.d", "counter.c"), SEES])], helpers=OTHERS), event("go")],
        [call_line("a", "1/1", "notify.s", '{"c":1,"t":"idle","d":"unknown"}')], helpers=BOTH_KINDS),
    Row("a text whose helpers are wrong is refused", [LOOKS],
        [Reload(refused="automation: []\ncounter:\n  c:\n    step: 0\n"), event("look")], [looked("1/1", "0", "idle", '"unknown"')],
        errors=["source 0 line 0: L12"], helpers=BOTH_KINDS),
    Row("a new automation sees the number that a change gave before the reload", [BEGINS],
        [event("go"), Reload([BEGINS, on({"trigger": "numeric_state", "entity_id": "counter.c", "above": 0}, alias="n")]), event("go")],
        [], helpers=BOTH_KINDS),
    Row("and it fires where that one was out of bounds", [BEGINS],
        [event("go"), Reload([BEGINS, on({"trigger": "numeric_state", "entity_id": "counter.c", "above": 1}, alias="n")]), event("go")],
        [call_line("n", "1/1", "notify.x")], helpers=BOTH_KINDS),
    Row("a hold on a counter goes on where its automation is kept, and begins anew where it changed",
        [BEGINS] + [on({"trigger": "state", "entity_id": "counter.c", "for": 5}, alias=name, actions=[call(f"notify.{name}")]) for name in "kl"],
        [event("go"), moment("20:00:03"),
         Reload([BEGINS, on({"trigger": "state", "entity_id": "counter.c", "for": 5}, alias="k", actions=[call("notify.k")])]),
         moment("20:00:05")],
        [call_line("k", "1/1", "notify.k")], helpers=BOTH_KINDS),
    Row("a run that waits for a timer waits on", [BEGINS, on({"trigger": "event", "event_type": "go"}, alias="w", actions=[
        {"wait_for_trigger": [{"trigger": "event", "event_type": "timer.finished"}]}, call("notify.w")])],
        [event("go"), Reload([on({"trigger": "event", "event_type": "go"}, alias="w", actions=[
            {"wait_for_trigger": [{"trigger": "event", "event_type": "timer.finished"}]}, call("notify.w")])]), moment("20:00:05")],
        [call_line("w", "1/1", "notify.w")], helpers=BOTH_KINDS),
]
