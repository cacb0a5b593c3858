"""Worked homes whose calls and errors are known: the second reading's own test."""

from __future__ import annotations

import json
from dataclasses import dataclass, field
from typing import Any, Optional

from .engine import Outcome, run_home
from .reloads import Line, source_of, texts_of
from .template import render
from .values import Fault

GO: dict[str, Any] = {"triggers": [{"trigger": "event", "event_type": "go"}]}


def report(entity: str, state: str, **attributes: Any) -> str:
    """A report's line."""
    return json.dumps({"report": entity, "state": state} | ({"attributes": attributes} if attributes else {}))


def moment(at: str) -> str:
    """A moment's line, of the first day or in full."""
    return json.dumps({"moment": at if "T" in at else f"2024-05-01T{at}Z"})


def event(kind: str, **data: Any) -> str:
    """An event's line."""
    return json.dumps({"event": kind} | ({"data": data} if data else {}))


def call(service: str = "notify.x", **data: Any) -> dict[str, Any]:
    """The call of a service."""
    return {"action": service} | ({"data": data} if data else {})


def call_line(run: str, at: str, service: str, data: str = "{}", target: str = "[]") -> str:
    """A call line."""
    number, place = at.split("/")
    return f'{{"run":"{run}","number":{number},"call":{place},"service":"{service}","target":{target},"data":{data}}}'


def go(actions: list[Any], **more: Any) -> dict[str, Any]:
    """Automation a, begun by the event go."""
    return {"alias": "a"} | GO | {"actions": actions} | more


def on(*triggers: dict[str, Any], **more: Any) -> dict[str, Any]:
    """Automation a with these triggers and one call."""
    return {"alias": "a", "triggers": list(triggers), "actions": [call()]} | more


@dataclass
class Row:
    """A home, its lines, and what comes of them."""

    name: str
    home: list[dict[str, Any]]
    lines: list[Line]
    calls: list[str] = field(default_factory=list)
    errors: list[str] = field(default_factory=list)
    entries: Optional[int] = None
    store: Optional[str] = None
    status: int = 0
    start: str = "2024-05-01T20:00:00Z"
    zone: str = "UTC"
    limit: int = 20_000
    scripts: Optional[dict[str, Any]] = None
    helpers: Optional[dict[str, Any]] = None
    trace: Optional[list[str]] = None
    stored: Optional[dict[str, bool]] = None
    last: Optional[dict[str, int]] = None
    numbers: Optional[dict[str, int]] = None

    def run(self) -> Outcome:
        """What the second reading makes of it."""
        return run_home(self.home, source_of(self.lines), self.start, self.zone, stored=self.stored, last=self.last, limit=self.limit,
                        scripts=self.scripts, helpers=self.helpers, texts=texts_of(self.lines))

    def faults(self) -> list[str]:
        """Where the second reading departs from the row."""
        out = self.run()
        found: list[tuple[str, Any, Any]] = [
            ("calls", out.calls, self.calls), ("errors", out.errors, self.errors), ("status", out.status, self.status)]
        if self.entries is not None:
            found.append(("entries", len(out.engine.journal.entries), self.entries))
        if self.numbers is not None:
            found.append(("numbers", {unit.name: unit.number for unit in out.engine.journal.units()}, self.numbers))
        if self.store is not None:
            found.append(("store", out.store, self.store))
        if self.trace is not None:
            found.append(("steps", [line for line in out.trace if '"worker"' in line], self.trace))
        return [f"{self.name}: {what} are {here!r}, wanted {wanted!r}" for what, here, wanted in found if here != wanted]


HALL = [{"id": "1700000000001", "alias": "Hall light", "description": "",
         "triggers": [{"trigger": "state", "entity_id": ["binary_sensor.hall"], "from": None, "to": "on"}],
         "conditions": [],
         "actions": [{"action": "light.turn_on", "metadata": {}, "data": {"brightness": 128},
                      "target": {"entity_id": "light.hall"}},
                     {"delay": {"hours": 0, "minutes": 2, "seconds": 0, "milliseconds": 0}},
                     {"action": "light.turn_off", "target": {"entity_id": "light.hall"}}],
         "mode": "restart"}]
HALL_SENSOR = "binary_sensor.hall"
DOOR_SENSOR = "binary_sensor.d"
LIGHT = '["light.hall"]'
ZONE = "CET-1CEST,M3.5.0,M10.5.0/3"
AT_HALF_PAST_TWO = on({"trigger": "time", "at": "02:30:00"})
SAME_STATE = {"trigger": "state", "entity_id": "light.x"}
WAIT_ROW = [
    {"alias": "z", "triggers": [], "actions": []},
    go([{"delay": 5}, {"action": "automation.turn_off", "target": {"entity_id": "automation.z"}},
        {"action": "automation.turn_on", "target": {"entity_id": "automation.z"}}]),
    go([{"wait_template": "{{ is_state('automation.z', 'off') }}", "timeout": 10},
        call("notify.b", done="{{ wait.completed }}", left="{{ wait.remaining }}")], alias="b")]
DOOR = [{"alias": "Door", "triggers": [{"trigger": "state", "entity_id": "binary_sensor.door", "to": "on"}],
         "actions": [{"action": "light.turn_on", "target": {"entity_id": "light.porch"}}]}]

ROWS = [
    Row("a light goes off after a delay", HALL, [report(HALL_SENSOR, "off"), report(HALL_SENSOR, "on"), moment("20:02:00")],
        [call_line("hall_light", "1/1", "light.turn_on", '{"brightness":128}', LIGHT),
         call_line("hall_light", "1/2", "light.turn_off", target=LIGHT)], entries=8,
        store='{"last":{"hall_light":"2024-05-01T20:00:00.000Z"},"switches":{"hall_light":true},"version":2}'),
    Row("a run is replaced", HALL,
        [report(HALL_SENSOR, "off"), report(HALL_SENSOR, "on"), moment("20:01:00"), report(HALL_SENSOR, "off"),
         report(HALL_SENSOR, "on"), moment("20:02:00"), moment("20:03:00")],
        [call_line("hall_light", "1/1", "light.turn_on", '{"brightness":128}', LIGHT),
         call_line("hall_light", "2/1", "light.turn_on", '{"brightness":128}', LIGHT),
         call_line("hall_light", "2/2", "light.turn_off", target=LIGHT)]),
    Row("no automation", [], [], entries=1, store='{"last":{},"switches":{},"version":2}'),
    Row("null allows each text", [on({"trigger": "state", "entity_id": "sensor.t", "to": None})],
        [report("sensor.t", "5"), moment("20:00:10"), report("sensor.t", "5"), moment("20:00:20"), report("sensor.t", "5", u=1)],
        [call_line("a", "1/1", "notify.x")]),
    Row("a change of attributes alone",
        [{"alias": "a", "triggers": [SAME_STATE], "actions": [call("notify.a")]},
         {"alias": "b", "triggers": [SAME_STATE | {"to": None}], "actions": [call("notify.b")]}],
        [report("light.x", "on"), report("light.x", "on", b=1)],
        [call_line("a", "1/1", "notify.a"), call_line("b", "1/1", "notify.b"), call_line("a", "2/1", "notify.a")]),
    Row("a hold is left and met again", [on({"trigger": "state", "entity_id": DOOR_SENSOR, "to": "on", "for": 5})],
        [report(DOOR_SENSOR, "on"), moment("20:00:03"), report(DOOR_SENSOR, "off"), report(DOOR_SENSOR, "on"), moment("20:00:05"),
         moment("20:00:08")], [call_line("a", "1/1", "notify.x")]),
    Row("a number comes into bounds", [on({"trigger": "numeric_state", "entity_id": "sensor.t", "above": 20})],
        [report("sensor.t", text) for text in ("20", "20.000001", "21", "unavailable", "22")], [call_line("a", "1/1", "notify.x")]),
    Row("a time that the clock skips", [AT_HALF_PAST_TWO], [moment("2024-03-31T01:10:00Z")], start="2024-03-31T00:50:00Z", zone=ZONE),
    Row("a time that comes twice", [AT_HALF_PAST_TWO], [moment("2024-10-27T00:45:00Z"), moment("2024-10-27T01:45:00Z")],
        [call_line("a", "1/1", "notify.x"), call_line("a", "2/1", "notify.x")], start="2024-10-27T00:00:00Z", zone=ZONE),
    Row("a pattern that a long moment passes", [on({"trigger": "time_pattern", "minutes": "/5"})], [moment("2024-05-03T20:00:00Z")],
        [call_line("a", "1/1", "notify.x")]),
    Row("a template's hold", [on({"trigger": "template", "value_template": "{{ states('sensor.t')|int > 20 }}", "for": 5})],
        [report("sensor.t", "21"), report("sensor.t", "20"), report("sensor.t", "22"), moment("20:00:05"), report("sensor.t", "23"),
         moment("20:00:10")], [call_line("a", "1/1", "notify.x")]),
    Row("a window over midnight", [go([call()], conditions=[{"condition": "time", "after": "22:00", "before": "06:00"}])],
        [moment("22:00:00"), event("go"), moment("2024-05-02T06:00:00Z"), event("go")], [call_line("a", "1/1", "notify.x")]),
    Row("wait ends at its entry", WAIT_ROW, [event("go"), moment("20:00:05")],
        [call_line("b", "1/1", "notify.b", '{"done":true,"left":5.0}')]),
    Row("timeout in a repeat", [go([{"repeat": {"count": 3, "sequence": [
        {"wait_template": "{{ false }}", "timeout": 5, "continue_on_timeout": False}, call("notify.in")]}},
        call("notify.after")])], [event("go"), moment("20:00:05")]),
    Row("runs wait in a queue", [go([{"delay": 5}, call("notify.q", n="{{ trigger.event.data.n }}")], mode="queued", max=2)],
        [event("go", n=1), event("go", n=2), event("go", n=3), moment("20:00:05"), moment("20:00:10")],
        [call_line("a", "1/1", "notify.q", '{"n":1}'), call_line("a", "2/1", "notify.q", '{"n":2}')]),
    Row("a false condition ends its branch",
        [go([{"parallel": [{"sequence": [{"delay": 5}, call()]},
                           {"sequence": ["{{ false }}", call("notify.y")]}]}, call("notify.z")])],
        [event("go"), moment("20:00:05")], [call_line("a", "1/1", "notify.x"), call_line("a", "1/2", "notify.z")]),
    Row("an automation turns itself off",
        [go([{"action": "automation.turn_off", "target": {"entity_id": "automation.a"}}, call()],
            initial_state=True)], [event("go"), '{"restart":true}'],
        store='{"last":{"a":"2024-05-01T20:00:00.000Z"},"switches":{"a":true},"version":2}'),
    Row("a run refused by its mode triggers nothing", [go([{"delay": 90}, call()], mode="single")],
        [event("go"), moment("20:01:00"), event("go")],
        store='{"last":{"a":"2024-05-01T20:00:00.000Z"},"switches":{"a":true},"version":2}'),
    Row("when an automation last triggered goes on over a restart", [go([]), on({"trigger": "homeassistant", "event": "start"}, alias="b")],
        [event("go"), moment("20:00:01"), '{"restart":true}', moment("20:00:02")],
        [call_line("b", "1/1", "notify.x"), call_line("b", "2/1", "notify.x")],
        store='{"last":{"a":"2024-05-01T20:00:00.000Z","b":"2024-05-01T20:00:01.000Z"},"switches":{"a":true,"b":true},"version":2}'),
    Row("a restart opens a segment", [], ['{"restart":true}', moment("20:00:01")], entries=4),
    Row("a start trigger fires where a segment begins", [on({"trigger": "homeassistant", "event": "start"})],
        ['{"restart":true}', event("go")], [call_line("a", "2/1", "notify.x")], entries=5),
    Row("the numbers of runs go on over restarts", [go([{"delay": 5}, call()])],
        [event("go"), '{"restart":true}', event("go"), '{"restart":true}', event("go"), moment("20:00:05")],
        [call_line("a", "3/1", "notify.x")], entries=14),
    Row("a repeat without end", [go([{"repeat": {"while": "{{ true }}", "sequence": []}}])], [event("go")],
        errors=["run 1 failed F6"], entries=10_003),
    Row("two automations without end",
        [on({"trigger": "event", "event_type": "ping"}, actions=[{"event": "pong"}]),
         on({"trigger": "event", "event_type": "pong"}, actions=[{"event": "ping"}], alias="b")],
        [event("ping")], errors=["hearth: journal full"], status=7, limit=1000, entries=1000),
    Row("refused lines",
        [], ['{"report":"light.x"}', '{"dim":"light.x"}', '{"report":"Light","state":"on"}',
             '{"report":"light.x","state":5}', '{"moment":"yesterday"}',
             '{"trigger":"automation.none"}', '{"report":"light.x"', "\udcff",
             report("light.x", "x" * 256), "x" * 65_537],
        errors=[f"source 0 line {at}: L{code}" for at, code in enumerate((4, 3, 6, 5, 8, 9, 2, 1, 7, 10))]),
    Row("two attempts of one entry", [on(SAME_STATE, SAME_STATE | {"to": "on"}, mode="restart")], [report("light.x", "on")],
        [call_line("a", "2/1", "notify.x")]),
    Row("a door turns a light on", DOOR, [report("binary_sensor.door", "off"), report("binary_sensor.door", "on")],
        [call_line("door", "1/1", "light.turn_on", target='["light.porch"]')]),
    Row("a run asked for by name", [{"alias": "b", "triggers": [], "conditions": ["{{ false }}"], "actions": [call("notify.b")]}],
        ['{"trigger":"automation.b"}', '{"trigger":"automation.b","skip_condition":false}'],
        [call_line("b", "1/1", "notify.b")]),
    Row("choices and a repeat over items",
        [go([{"variables": {"v": "{{ trigger.event.data.n + 1 }}"}},
             {"choose": [{"conditions": "{{ v > 5 }}", "sequence": [call("notify.big")]}],
              "default": [call("notify.small")]},
             {"repeat": {"for_each": ["red", "green"], "sequence": [
                 call("notify.c", c="{{ repeat.item }}", last="{{ repeat.last }}")]}}])], [event("go", n=5)],
        [call_line("a", "1/1", "notify.big"), call_line("a", "1/2", "notify.c", '{"c":"red","last":false}'),
         call_line("a", "1/3", "notify.c", '{"c":"green","last":true}')]),
    Row("a fault ends the run",
        [go([call(v="{{ states('sensor.no')|int }}") | {"continue_on_error": True},
             call("notify.y")])], [event("go")], errors=["run 1 failed F1"]),
    Row("runs wait for a trigger",
        [go([{"if": [{"condition": "state", "entity_id": "light.x", "state": ["on", "dim"]}],
              "then": [{"stop": "done"}],
              "else": [{"wait_for_trigger": [SAME_STATE | {"to": "on"}]}]}, call()],
            mode="parallel", max=2)],
        [event("go"), event("go"), event("go"), report("light.x", "on"), event("go")],
        [call_line("a", "1/1", "notify.x"), call_line("a", "2/1", "notify.x")]),
    Row("a variable of the block outside", [go([{"variables": {"n": 0}}, {"repeat": {
        "until": "{{ n == 3 }}", "sequence": [{"variables": {"n": "{{ n + 1 }}"}}]}}, call(n="{{ n }}")])], [event("go")],
        [call_line("a", "1/1", "notify.x", '{"n":3}')], entries=11),
    Row("branches have their own", [go([
        {"variables": {"n": 1}},
        {"parallel": [[{"variables": {"n": 2}}, call("notify.a", n="{{ n }}")], call("notify.b", n="{{ n }}")]},
        call("notify.c", n="{{ n }}")])], [event("go")],
        [call_line("a", "1/1", "notify.a", '{"n":2}'), call_line("a", "1/2", "notify.b", '{"n":1}'),
         call_line("a", "1/3", "notify.c", '{"n":1}')]),
]

TEMPLATES = [
    ("{{ -7 // 2 }}", "-4"), ("{{ -7 % 3 }}", "2"), ("{{ 7 / 2 }}", "3.5"), ("{{ 10 / 3 }}", "3.333333"),
    ("{{ 2.5|round }}", "2"), ("{{ -7|abs }}", "7"), ("{{ 6 / 2 }}", "3.0"), ("{{ states('sensor.no')|int }}", None),
    ("{{ states('sensor.no')|int(0) }}", "0"), ("{{ 1000000000000 + 1 }}", None), ("{{ 1 // 0 }}", None),
    ("a {%- if 1 %} b {% else %} c {% endif -%} d", "a b d"), ("{% set x = 2 %}{{ x }}{# c #}", "2"),
    ("{{ [1, 2][-1] ~ 'a' if none is none else 3 }}", "2a"), ("{{ not 1 == 1 or 'x' in 'xy' }}", "True")]


def template_faults() -> list[str]:
    """Where the second reading departs from the table of templates."""
    nothing = run_home([], b"").engine.journal.after[0]
    out = []
    for text, wanted in TEMPLATES:
        try:
            found: Optional[str] = render(text, nothing, {})
        except Fault:
            found = None
        if found != wanted:
            out.append(f"{text}: {found!r}, wanted {wanted!r}")
    return out


def row_faults(rows: list[Row]) -> list[str]:
    """Where the second reading departs from the templates and from some worked homes."""
    return template_faults() + [fault for row in rows for fault in row.faults()]
