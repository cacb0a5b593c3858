"""Homes of several styles: whole ones, and ones that ask much of a single part."""

from __future__ import annotations

import json
from dataclasses import replace
from typing import Any, Callable

from .clock import print_moment, read_moment
from .config import Plain
from .expressions import Expressions
from .generate import DAYS, ENTITIES, STARTS, ZONES, Home, Maker, make_home
from .reloads import Reload

CALLED = ("s", "t", "u")
FIRED = {"id": "{{ trigger.id ~ '/' ~ trigger.idx ~ '/' ~ trigger.entity_id }}", "old": "{{ trigger.from_state.state }}",
         "new": "{{ trigger.to_state.state }}", "n": "{{ trigger.event.data.n }}", "b": "{{ trigger.attribute }}"}


def of_triggers(seed: int) -> Home:
    """Many automations of a few triggers each, whose runs tell what fired."""
    maker = Maker(seed)
    maker.names = list("abcdefgh")
    start = maker.one(*STARTS)
    automations = [{"alias": name, "triggers": maker.triggers(2), "mode": "parallel", "max": 100,
                    "actions": [{"action": "notify.fired", "data": FIRED}]} for name in maker.names]
    return Home(automations, maker.lines(start), start, maker.one(*ZONES))


def of_holds(seed: int) -> Home:
    """Holds on one entity that are left, met again, or whose automation is switched meanwhile."""
    maker = Maker(seed)
    maker.known, maker.words = ("light.x",), ("on", "on", "off", "2", "3")
    maker.held = (1, 1.0, "1", [1], None, 3, {"k": 1})
    maker.weights = {"report": 7, "moment": 9, "own": 4, "gone": 1.5, "restart": 0.6, "event": 1}
    automations = []
    for name in maker.names:
        trigger = maker.one(maker.state_trigger, maker.numeric_trigger, maker.template_trigger)() | {"for": maker.span()}
        if maker.maybe(0.3) and trigger["trigger"] == "state":
            trigger["attribute"] = "b"
        made = {"alias": name, "triggers": [trigger], "actions": [{"action": "notify.fired", "data": FIRED}]}
        if maker.maybe(0.5):
            made["actions"].append(maker.one(maker.own_call, maker.wait)())
        automations.append(made | {"mode": maker.one("single", "parallel")})
    return Home(automations, maker.lines(STARTS[0]), STARTS[0], "UTC")


def of_modes(seed: int) -> Home:
    """Runs that meet: short scripts of delays and switches, in all modes, at few events."""
    maker = Maker(seed)
    maker.known, maker.words = ("light.x",), ("on", "off")
    maker.weights = {"report": 3, "moment": 7, "own": 4, "event": 6, "restart": 0.5}
    automations = []
    for name in maker.names:
        steps = [maker.one(maker.call, maker.call, lambda: {"delay": maker.one(1, 2, 3)}, maker.own_call, maker.wait)()
                 for _ in range(maker.one(2, 3, 4))]
        made = {"alias": name, "actions": [maker.call()] + steps, "max": maker.one(1, 2, 3),
                "triggers": [maker.simple_trigger() for _ in range(maker.one(1, 1, 2))],
                "mode": maker.one("single", "restart", "queued", "queued", "parallel")}
        automations.append(made | ({"conditions": maker.conditions()} if maker.maybe(0.3) else {})
                           | ({"initial_state": maker.maybe(0.7)} if maker.maybe(0.2) else {}))
    return Home(automations, maker.lines(STARTS[0]), STARTS[0], "UTC")


class Waits(Maker):
    """Runs that wait for what other runs do from step to step."""

    def act(self) -> Any:
        """A step that changes what others wait for."""
        return self.pick([
            (4, lambda: {"action": f"automation.{self.one('turn_on', 'turn_off', 'toggle', 'toggle')}",
                         "target": {"entity_id": "automation.z"}}),
            (2, lambda: {"event": self.one("ping", "pong"), "event_data": {"n": self.one(1, 2)}}),
            (2, lambda: {"delay": self.one(0, 1, 2, 2)}), (1, self.call), (2, self.await_it)])

    def awaited(self) -> dict[str, Any]:
        """A trigger that is waited for."""
        hold = {"for": self.one(1, 2, 2, 3)} if self.maybe(0.4) else {}
        return self.pick([
            (2, lambda: {"trigger": "state", "entity_id": self.one("automation.z", "light.x", ["light.x", "automation.z"])}
             | self.side("from", "not_from") | self.side("to", "not_to") | hold),
            (2, lambda: {"trigger": "event", "event_type": self.one("ping", "pong", ["ping", "go"])}
             | self.one({}, {"event_data": {"n": 1}})),
            (1, lambda: {"trigger": "numeric_state", "entity_id": "light.x"} | self.bounds() | hold),
            (1, lambda: {"trigger": "template", "value_template": "{{ is_state('automation.z', 'off') }}"} | hold),
            (0.5, self.time_trigger)])

    def await_it(self) -> dict[str, Any]:
        """A wait, and what it left is told by the call behind it."""
        tests = ("{{ is_state('automation.z', 'off') }}", "{{ is_state('automation.z', 'on') }}",
                 "{{ is_state('light.x', ['on', '2']) }}", "{{ states('light.x')|int > 1 }}", "{{ wait.completed }}")
        made = {"wait_template": self.one(*tests)} if self.maybe(0.5) else {
            "wait_for_trigger": [self.awaited() for _ in range(self.one(1, 1, 2))]}
        if self.maybe(0.7):
            made["timeout"] = self.one(0, 1, 2, 2, 3, {"milliseconds": 1500})
        return made | self.one({}, {}, {}, {"continue_on_timeout": False})

    def body(self) -> list[Any]:
        """Steps, with waits and what is seen behind them."""
        out: list[Any] = []
        for _ in range(self.one(2, 3, 4)):
            out.append(self.act())
            if self.maybe(0.6):
                self.marks += 1
                out.append({"action": "notify.w", "data": {"mark": self.marks} | WAITED})
        return out

    def whole(self) -> list[Any]:
        """A script, at times of two branches."""
        return [{"parallel": [self.body(), self.body()]}] if self.maybe(0.3) else self.body()


WAITED = {"c": "{{ wait.completed }}", "r": "{{ wait.remaining }}", "p": "{{ wait.trigger.platform }}",
          "s": "{{ wait.trigger.to_state.state }}", "f": "{{ wait.trigger.from_state.state }}",
          "e": "{{ wait.trigger.event.data.n }}", "i": "{{ wait.trigger.idx }}"}


def of_waits(seed: int) -> Home:
    """Runs that wait for each other's steps."""
    maker = Waits(seed)
    maker.known, maker.words = ("light.x",), ("on", "off", "2", "2.5")
    maker.weights = {"report": 5, "moment": 8, "event": 4, "own": 0.7, "restart": 0.2, "gone": 0.4}
    go: list[Any] = [{"trigger": "event", "event_type": "go"}]
    automations = [{"alias": "z", "triggers": [], "actions": []}]
    automations += [{"alias": name, "triggers": go, "actions": maker.whole(), "mode": maker.one("single", "parallel")}
                    for name in ("a", "b", "c")]
    return Home(automations, [json.dumps({"event": "go"})] + maker.lines(STARTS[0]), STARTS[0], "UTC")


class Blocks(Maker):
    """Nested blocks and variables, with calls that tell what is seen in each."""

    SEEN = {"n": "{{ n }}", "v": "{{ v }}", "i": "{{ repeat.index }}", "w": "{{ wait.completed }}",
            "l": "{{ wait.remaining }}", "t": "{{ trigger.platform }}", "e": "{{ repeat.item }}"}

    def seen(self) -> dict[str, Any]:
        """A call that tells what is seen."""
        self.marks += 1
        return {"action": "notify.seen", "data": {"mark": self.marks} | self.SEEN}

    def put(self) -> dict[str, Any]:
        """A `variables` action, whose value is mostly a mark of its own."""
        self.marks += 1
        name = self.one("n", "n", "n", "v", "v", self.one("wait", "repeat", "trigger", "w"))
        value = self.one(self.marks, "{{ n|int(0) + 1 }}", "{{ v|int(0) + 1 }}")
        if name in ("wait", "repeat", "trigger") and self.maybe(0.5):
            value = {"id": self.one("k", "0"), "index": 7, "completed": 1}
        return {"variables": {name: value}}

    def block(self, depth: int) -> Any:
        """A block, with what is seen behind it."""
        kind = self.one("parallel", "repeat", "repeat", "sequence", "if", "choose")
        if kind == "parallel":
            return {"parallel": [self.body(depth - 1) for _ in range(self.one(0, 1, 2, 2, 3))]}
        if kind == "repeat":
            turns = self.one({"count": 2}, {"for_each": [1, "{{ n }}"]},
                             {"while": "{{ repeat.index|int(9) < 3 and n|int(0) < 50 }}"},
                             {"until": "{{ repeat.index|int(9) > 2 or n|int(0) > 30 or v == 1 }}"})
            return {"repeat": turns | {"sequence": self.body(depth - 1)}}
        if kind == "sequence":
            return {"sequence": self.body(depth - 1)}
        if kind == "if":
            return {"if": "{{ n|int(0) < 5 }}", "then": self.body(depth - 1), "else": self.body(depth - 1)}
        return {"choose": [{"conditions": {"condition": "trigger", "id": self.one("0", "1", "k")},
                            "sequence": self.body(depth - 1)}], "default": self.body(depth - 1)}

    def body(self, depth: int) -> list[Any]:
        """A list of actions."""
        out: list[Any] = []
        for _ in range(self.one(1, 2, 2, 3)):
            deep = depth > 0 and self.maybe(0.5)
            out.append(self.block(depth) if deep else self.pick([
                (3, self.put), (2, self.seen), (1, lambda: {"delay": self.one(0, 1, 2)}), (1, self.wait),
                (0.2, lambda: {"stop": None}), (0.3, lambda: "{{ n|int(0) < 3 }}"), (0.2, self.call)]))
            if self.maybe(0.6):
                out.append(self.seen())
        return out


def of_blocks(seed: int) -> Home:
    """One script of nested blocks and variables."""
    maker = Blocks(seed)
    maker.known = ("light.x",)
    maker.weights = {"report": 4, "moment": 9, "event": 2}
    triggers = [{"trigger": "event", "event_type": "go"}, {"trigger": "state", "entity_id": "light.x", "to": "on"}]
    front = [{"variables": {"n": 0}}] if maker.maybe(0.7) else [maker.seen()]
    automation = {"alias": "a", "triggers": triggers, "actions": front + maker.body(3) + [maker.seen()],
                  "mode": maker.one("single", "parallel", "restart")}
    return Home([automation], [json.dumps({"event": "go"})] + maker.lines(STARTS[0]), STARTS[0], "UTC")


class Odd(Maker):
    """Configurations and lines in unusual spellings."""

    PLAIN = ("on", "Yes", "OFF", "no", "True", "~", "Null", "007", "+5", "-0", "-0.0", "1.50", "2.5000005", "1e3", ".5", "5.",
             "text", "two words", "a-b", "-7", "999999999999.9999995", "0.0000004", "a#b", "x:y", "10:30")
    KEYS = ("k", "two words", "Ä", "on", "1", "k\n2", 'q"q', "it's", "~", "#", "- x")
    ALIASES = ("Hall light", "hall-LIGHT", "A", "a", "!", "Küche 2", "unnamed", "a 2", "a_2", "  b  ", "ÄÖ", "9")

    def plain(self) -> Plain:
        """A plain scalar."""
        return Plain(self.one(*self.PLAIN))

    def odd_data(self, depth: int = 2) -> Any:
        """Data of any kind."""
        if depth == 0 or self.maybe(0.5):
            return self.one(self.plain(), self.plain(), self.plain(), self.value(), "", "007", "~", "true", "a\tb\\", "é😀")
        if self.maybe(0.5):
            return [self.odd_data(depth - 1) for _ in range(self.dice.randint(0, 3))]
        return {self.one(*self.KEYS): self.odd_data(depth - 1) for _ in range(self.dice.randint(0, 3))}

    def odd_call(self) -> dict[str, Any]:
        """A call with odd data and targets."""
        made: dict[str, Any] = {"action": Plain("notify.x"), "data": {"v": self.odd_data(), self.one(*self.KEYS): self.odd_data()}}
        return made | self.one({}, {"target": {}}, {"target": {"entity_id": Plain("light.x , light.y")}, "entity_id": "light.z"},
                               {"entity_id": ["light.a, light.b", "{{ 'light.c , light.a' }}"]}, {"data": None},
                               {"target": {"entity_id": "{{ ' ' }}"}}, {"entity_id": "{{ 'light.x,' }}"}, {"metadata": {"a": 1}},
                               {"continue_on_error": Plain("YES"), "enabled": Plain("On")}, {"alias": "x"})

    def odd_delay(self) -> dict[str, Any]:
        """A delay in one of the ways of writing it."""
        return {"delay": self.one(Plain("0:00:02"), Plain("00:00"), "002", Plain("2"), {"days": 0, "seconds": Plain("02")},
                                  {"milliseconds": "1500"}, {"seconds": "{{ '+2' }}"}, {"seconds": "{{ 2.0 }}"}, "{{ '00:00:2' }}",
                                  {"seconds": "{{ '-0' }}"}, {"days": "{{ 366 }}"}, {"days": "{{ 366 }}", "seconds": 1},
                                  "{{ 31622400 }}", "{{ 31622401 }}", "{{ '0:60' }}", "{{ '+2' }}", {"hours": "{{ '' }}"})}

    def odd_repeat(self) -> dict[str, Any]:
        """A count in one of the ways of writing it."""
        count = self.one(Plain("02"), "2", "{{ '+2' }}", "{{ 2.0 }}", "{{ '-3' }}", "{{ '' }}", Plain("99999999999999"), "{{ ' 1 ' }}",
                         "{{ true }}")
        return {"repeat": {"sequence": [self.call()], "count": count}}

    def home(self) -> Home:
        """A home of a few automations."""
        automations = []
        for _ in range(self.dice.randint(1, 4)):
            steps = [self.pick([(3, self.odd_call), (1, self.odd_delay), (0.6, self.odd_repeat), (0.5, self.wait),
                                (0.5, lambda: {"event": Plain("ping"), "event_data": self.one(None, {"n": self.odd_data()})}),
                                (0.3, lambda: {"variables": self.one(None, {"n": self.odd_data()})})])
                     for _ in range(self.dice.randint(1, 4))]
            name = self.one({"alias": self.one(*self.ALIASES)}, {"id": Plain(self.one("17", "a", "Hall light"))}, {},
                            {"id": "x", "alias": Plain(self.one("a", "Hall light"))})
            event = {"platform": "event", "event_type": Plain("go"), "id": Plain(self.one("on", "007", "-0", "x:y", "k"))} | self.one(
                {}, {}, {"event_data": {"n": self.one(Plain("1"), Plain("1.0"), "1", Plain("on"), [Plain("1")])}}, {"event_data": None})
            made = name | {"trigger": self.one([event, self.simple_trigger()], [event, event], event),
                           "action": self.one(steps, steps, steps[0], None), "condition": self.one(None, None, self.condition()),
                           "mode": Plain(self.one("single", "parallel", "queued")), "max": Plain(self.one("03", "10")),
                           "initial_state": Plain(self.one("ON", "yes", "true", "on", "no")), "description": ""}
            automations.append(made)
        return Home(automations, [json.dumps({"event": "go", "data": {"n": 1}})] + self.lines(STARTS[0]), STARTS[0], "UTC")


def of_odds(seed: int) -> Home:
    """Unusual spellings."""
    return Odd(seed).home()


def of_times(seed: int) -> Home:
    """Times, patterns and time conditions in several zones, at moments near and far."""
    maker = Maker(seed)
    start = maker.one("2024-05-01T20:00:00Z", "2024-03-31T00:59:50Z", "2024-10-27T00:30:00.001Z", "1970-01-01T00:00:00Z",
                      "2999-12-31T23:00:00Z", "2024-03-10T06:59:00Z", "2024-11-03T05:59:59.999Z", "2024-02-28T23:59:59.5Z")
    at = read_moment(start) or 0
    zones = ("UTC", "+05:30", "+23:59", "+00:00", "EST5EDT,M3.2.0,M11.1.0", "CET-1CEST,M3.5.0,M10.5.0/3", "<-03>3", "<+1245>-12:45")
    automations = []
    for name in "abcdef":
        hour, minute, second = (maker.dice.randrange(24), maker.dice.randrange(60), maker.dice.randrange(60))
        trigger = maker.one(
            maker.time_trigger(), {"trigger": "time", "at": [f"{hour}:{minute:02d}", f"{hour:02d}:{minute:02d}:{second:02d}"]},
            {"trigger": "time_pattern", "hours": maker.one("*", "/2", "/5", str(hour)), "minutes": maker.one("*", "/7", str(minute))},
            {"trigger": "time_pattern", "minutes": "/15"}, {"trigger": "time_pattern", "seconds": f"/{maker.dice.randint(1, 70)}"},
            {"trigger": "time", "at": ["02:30", "01:30", "03:00"]}, {"trigger": "time_pattern", "hours": "2"})
        tests = [{"if": maker.time_condition(), "then": [{"action": "notify.y", "data": {"at": name}}]},
                 {"if": {"condition": "time", "after": f"{hour}:{minute:02d}", "weekday": maker.some(DAYS, 4)}, "then": [maker.call()]}]
        automations.append({"alias": name, "triggers": trigger, "mode": "parallel",
                            "actions": [{"action": "notify.x", "data": {"at": name}}] + tests})
    lines = []
    for _ in range(maker.dice.randint(5, 25)):
        at += maker.one(0, 1, 500, 999, 1000, 1001, 5000, 60_000, 60_000, 599_999, 1_800_000, 3_600_000, 3_600_000, 7_200_000,
                        86_399_000, 86_400_000, 86_400_001, 90_000_000)
        at = min(at, (read_moment("2999-12-31T23:59:59.999Z") or 0))
        lines.append(json.dumps({"moment": print_moment(at)}))
    return Home(automations, lines, start, maker.one(*zones))


def of_conditions(seed: int) -> Home:
    """Conditions side by side, asked at each event and change of a light."""
    maker = Maker(seed)
    maker.known, maker.words = ("light.x", "sensor.t"), ("on", "on", "on", "2", "3")
    start = maker.one(*STARTS)
    branches = [[{"if": maker.conditions(3), "then": [{"action": "notify.yes", "data": {"at": at}}],
                  "else": [{"action": "notify.no", "data": {"at": at}}]}] for at in range(10)]
    automation = {"alias": "a", "actions": [{"variables": {"n": 1}}, {"parallel": branches}], "mode": "parallel",
                  "triggers": [{"trigger": "event", "event_type": "go"}, {"trigger": "state", "entity_id": "light.x"},
                               {"trigger": "time_pattern", "seconds": "/3", "id": "k"}]}
    return Home([automation], maker.lines(start), start, maker.one(*ZONES))


def of_scripts(seed: int) -> Home:
    """One or two automations with long scripts, begun at once and given time."""
    maker = Maker(seed)
    maker.names = maker.names[:2]
    automations = []
    for name in maker.names:
        made = maker.automation(name)
        made |= {"triggers": [{"trigger": "event", "event_type": "go"}, maker.trigger()],
                 "actions": [maker.call()] + maker.actions(3, 6)}
        made.pop("conditions", None)
        automations.append(made)
    lines = maker.lines(STARTS[0])
    go = json.dumps({"event": "go", "data": {"n": maker.one(1, 2, "x")}})
    return Home(automations, [go] + lines, STARTS[0], "UTC")


def of_templates(seed: int) -> Home:
    """Templates side by side, each in a branch of its own."""
    maker = Maker(seed)
    expressions = Expressions(maker.dice)
    branches = [[{"action": "notify.x", "data": {"at": at, "v": expressions.template()}}] for at in range(25)]
    names = {"n": maker.one(1, 2, "x"), "t": maker.one("on", "3", "{{ 2.5 }}", True)}
    automation = {"alias": "a", "triggers": [{"trigger": "event", "event_type": "go"}],
                  "actions": [{"variables": names}, {"parallel": branches}]}
    data: dict[str, Any] = {"k": maker.one(1, None, "k"), "l": maker.one([1, "on"], [], {"k": 1}), "n": {"o": 1}}
    lines = [json.dumps({"report": entity, "state": maker.one("on", "3", " 2", "2.5", ""),
                         "attributes": {"b": maker.one(1, 1.0, "on", [1], None)}}) for entity in ENTITIES[:2]]
    return Home([automation], lines + [json.dumps({"event": "go", "data": data})], STARTS[0], "UTC")


def of_lines(seed: int) -> Home:
    """Lines, most of which have something wrong in them."""
    maker = Maker(seed)
    maker.names = ["a"]
    lines = [maker.broken() if maker.maybe(0.8) else maker.broken_twice() for _ in range(200)]
    automation = {"alias": "a", "triggers": [{"trigger": "state", "entity_id": list(ENTITIES)}], "mode": "parallel",
                  "actions": [{"action": "notify.x", "data": {"v": "{{ trigger.to_state.state }}"}}]}
    return Home([automation], lines, STARTS[0], "UTC")


class Called(Maker):
    """Automations and scripts that call scripts, hand over how deep they are, wait for them, and end their runs."""

    def seen(self) -> dict[str, Any]:
        """A call that tells where a run is, and what is seen there."""
        self.marks += 1
        sees = {"n": "{{ n }}", "w": "{{ wait.completed }}", "t": "{{ trigger.platform }}"}
        return {"action": "notify.seen", "data": {"mark": self.marks} | sees}

    def by_name(self) -> dict[str, Any]:
        """A call that waits, mostly of a script that is there and not too deep."""
        service = self.one(f"script.{self.one(*CALLED)}", f"script.{self.one(*CALLED)}", "script.{{ 's' if n|int(0) == 1 else 't' }}")
        made = {"action": service} | self.one({"data": {"n": "{{ n|int(0) + 1 }}"}}, {"data": {"n": 2, "trigger": {"id": "k"}}}, {})
        return made if self.maybe(0.4) else {"if": f"{{{{ n|int(0) < {self.one(1, 2, 3)} }}}}", "then": [made, self.seen()]}

    def turn(self, *services: str) -> dict[str, Any]:
        """A call of a service of scripts."""
        target = self.one([f"script.{one}" for one in self.some(CALLED + ("none",), 3)], f"script.{self.one(*CALLED)}",
                          "script.s, script.s, light.x", "{{ 'script.' ~ ('s' if n else 't') }}")
        handed = self.one({}, {"data": {"variables": {"n": self.one(1, "{{ n|int(0) + 1 }}")}}}, {"data": {"variables": 5, "n": 1}})
        return {"action": f"script.{self.one(*services)}", "target": {"entity_id": target}} | handed

    def nested(self) -> dict[str, Any]:
        """Lists of actions inside another one."""
        return self.pick([
            (3, lambda: {"parallel": [self.acts(3, 0) for _ in range(self.dice.randint(2, 3))]}),
            (1, lambda: {"repeat": {"count": 2, "sequence": self.acts(2, 0)}}),
            (1, lambda: {"if": self.run_truth(), "then": self.acts(2, 0), "else": self.acts(2, 0)})])

    def act(self, depth: int) -> dict[str, Any]:
        """An action."""
        return self.pick([
            (6, self.by_name), (2, lambda: self.turn("turn_on", "turn_on", "turn_off", "turn_off", "toggle")), (3, self.seen),
            (5, lambda: {"delay": self.one(0, 1, 1, 2, 3)}), (0.7, self.wait), (0.5, self.own_call),
            (0.5, lambda: {"event": self.one("ping", "pong"), "event_data": {"n": 1}}), (0.4, lambda: self.one({"stop": "x"}, self.call())),
            (0.5, lambda: {"action": "notify.n", "data": {"n": "{{ n|int }}"}}),
            (1.2 if depth else 0, self.nested)])

    def acts(self, most: int, depth: int = 1) -> list[Any]:
        """Some actions."""
        return [self.act(depth) for _ in range(self.dice.randint(1, most))]

    def ruled(self, made: dict[str, Any]) -> dict[str, Any]:
        """An automation or script with its mode."""
        mode = self.one("single", "queued", "queued", "parallel", "restart", "restart")
        return made | {"mode": mode} | ({"max": self.one(1, 2, 3)} if self.maybe(0.5) else {})


def of_called(seed: int) -> Home:
    """Up to two automations that call three scripts, and one that ends runs of theirs."""
    maker = Called(seed)
    maker.names = maker.names[:2] + ["z"]
    maker.weights = {"event": 7.0, "moment": 7.0, "report": 1.0, "own": 1.0, "restart": 0.3}
    go: dict[str, Any] = {"trigger": "event", "event_type": "go"}
    automations = [maker.ruled({"alias": name, "triggers": [maker.one(go, go, go | {"event_type": ["go", "ping"]})],
                                "actions": maker.acts(4) + [maker.seen()]}) for name in maker.names[:-1]]
    automations.append({"alias": "z", "triggers": [{"trigger": "event", "event_type": "pong"}], "actions": [
        maker.turn("turn_off"), maker.seen()]})
    scripts = {name: maker.ruled({"sequence": maker.acts(4)}) for name in CALLED}
    return Home(automations, maker.lines(STARTS[0]), STARTS[0], "UTC", scripts=scripts)


class Helped(Maker):
    """Automations that change flags, counters and timers, and that these begin."""

    def named(self, domain: str) -> Any:
        """Targets of a service, mostly helpers of its kind."""
        return self.one(f"{domain}.a", f"{domain}.b", [f"{domain}.b", f"{domain}.a"], [f"{domain}.a", f"{domain}.no", "light.x", f"{domain}.a"],
                        f"{{{{ '{domain}.' ~ ('a' if is_state('input_boolean.a', 'on') else 'b') }}}}")

    def given(self, service: str) -> dict[str, Any]:
        """The data of a service, seldom some that it does not take."""
        if service == "counter.set_value":
            return {"data": {"value": self.one(0, 1, 2, 3, "{{ states('counter.b')|int + 1 }}", "{{ 1 }}", "1", 2.0, 9)}}
        if service == "timer.start" and self.maybe(0.5):
            return {"data": {"duration": self.one(0, 1, 2, 3, "00:00:02", "{{ 1 + 1 }}", "4", "x")}}
        return self.one({}, {}, {}, {"data": {"value": 1, "duration": 2}})

    def change(self) -> dict[str, Any]:
        """A call of a service of helpers."""
        domain, name = self.one(("input_boolean", "turn_on"), ("input_boolean", "turn_off"), ("input_boolean", "toggle"),
                                ("counter", "increment"), ("counter", "increment"), ("counter", "decrement"), ("counter", "reset"),
                                ("counter", "set_value"), ("timer", "start"), ("timer", "start"), ("timer", "start"), ("timer", "pause"),
                                ("timer", "cancel"), ("timer", "finish"), ("timer", "change"))
        return {"action": f"{domain}.{name}", "target": {"entity_id": self.named(domain)}} | self.given(f"{domain}.{name}")

    def seen(self) -> dict[str, Any]:
        """A call that tells what is seen of helpers and of what began the run."""
        self.marks += 1
        sees = {name: f"{{{{ states('{name}') }}}}" for name in self.some(HELPERS, 3)}
        began = {"k": "{{ trigger.event.event_type }}", "d": "{{ trigger.event.data.entity_id }}", "e": "{{ trigger.entity_id }}"}
        return {"action": "notify.seen", "data": {"mark": self.marks} | sees | began}

    def begun(self) -> dict[str, Any]:
        """A trigger that helpers move, mostly."""
        return self.pick([
            (3, lambda: {"trigger": "event", "event_type": self.one(["timer.finished"], ["timer.started", "timer.restarted"], ["timer.paused"],
                                                                   ["timer.cancelled", "timer.finished"])}
             | self.one({}, {}, {"event_data": {"entity_id": self.one("timer.a", "timer.b")}})),
            (3, lambda: {"trigger": "state", "entity_id": self.some(HELPERS)} | self.one({}, {"to": None}, {"to": ["on", "active", "2"]})
             | self.hold()),
            (2, lambda: {"trigger": "numeric_state", "entity_id": self.one("counter.a", "counter.b"), "above": self.one(0, 1, 2)} | self.hold()),
            (1, lambda: {"trigger": "template", "value_template": f"{{{{ states('counter.a')|int > {self.one(0, 1)} }}}}"}),
            (3, lambda: {"trigger": "event", "event_type": "go"}), (0.5, self.simple_trigger)])

    def act(self) -> Any:
        """An action."""
        return self.pick([
            (8, self.change), (3, self.seen), (2, lambda: {"delay": self.one(0, 1, 1, 2)}), (0.5, self.own_call),
            (1, lambda: {"wait_for_trigger": [self.begun()], "timeout": self.one(1, 2, 3)}),
            (1, lambda: {"repeat": {"count": self.one(2, 3), "sequence": [self.change()]}}),
            (0.5, lambda: f"{{{{ is_state('{self.one(*HELPERS)}', '{self.one('on', 'active', 'idle', '1')}') }}}}")])


HELPERS = ("input_boolean.a", "input_boolean.b", "counter.a", "counter.b", "timer.a", "timer.b")


def of_helpers(seed: int) -> Home:
    """Up to four automations that change up to six helpers, which begin others."""
    maker = Helped(seed)
    maker.known, maker.words = ("light.x", "counter.a", "timer.a"), ("on", "off", "1")
    maker.weights = {"event": 7.0, "moment": 9.0, "report": 1.0, "gone": 0.3, "own": 1.0, "restart": 0.5}
    helpers: dict[str, Any] = {
        "timer": {"a": {"duration": maker.one(1, 2, 3)}, "b": maker.one(None, {"duration": 2, "restore": True})},
        "input_boolean": {"b": {"initial": True}, "a": None},
        "counter": {"a": {"maximum": maker.one(2, 3)}, "b": {"initial": 1, "step": maker.one(1, 2), "minimum": maker.one(0, 1)}}}
    if maker.maybe(0.15):
        del helpers[maker.one(*helpers)]
    automations = [{"alias": name, "triggers": [maker.begun() for _ in range(maker.one(1, 1, 2))],
                    "actions": [maker.act() for _ in range(maker.one(2, 3, 4))] + [maker.seen()],
                    "mode": maker.one("single", "restart", "queued", "parallel"), "max": maker.one(1, 2, 3)} for name in maker.names]
    return Home(automations, maker.lines(STARTS[0]), STARTS[0], "UTC", helpers=helpers)


class Reloading(Called):
    """Configurations that come after one another, each made from the one before it."""

    def __init__(self, seed: int) -> None:
        super().__init__(seed)
        self.names = list("abcd")
        self.weights = {"report": 6.0, "moment": 7.0, "event": 5.0, "own": 2.0, "gone": 0.3, "restart": 0.5, "reload": 4.0}
        self.whole: list[dict[str, Any]] = []
        self.scripts: dict[str, Any] = {}
        self.past: list[Reload] = []

    def entity(self) -> str:
        """An entity, often an automation."""
        return f"automation.{self.one(*self.names)}" if self.maybe(0.35) else self.one(*self.known)

    def fresh(self, name: str) -> dict[str, Any]:
        """An automation of a name."""
        if self.maybe(0.4):
            return self.automation(name)
        trigger = self.one({"trigger": "event", "event_type": self.one("go", ["go", "ping"])}, self.state_trigger(),
                           {"trigger": "state", "entity_id": [f"automation.{one}" for one in self.names]}, self.template_trigger())
        steps = [self.one(self.seen, self.by_name, lambda: {"delay": self.one(1, 2, 3)}, self.wait)() for _ in range(self.one(1, 2, 3))]
        return self.ruled({"alias": name, "triggers": [trigger], "actions": [self.call()] + steps})

    def changed(self, one: dict[str, Any]) -> dict[str, Any]:
        """An automation or script that is another one, or only written otherwise."""
        key = "actions" if "actions" in one else "sequence"
        return self.pick([
            (3, lambda: one | {key: one[key] + [self.call()]}),
            (1, lambda: one | {"mode": self.one("single", "restart", "queued", "parallel")}),
            (1, lambda: one | {"max": self.one(1, 2, 3)}), (1, lambda: one | {"description": self.one("", "x")}),
            (2, lambda: one | {"initial_state": self.maybe(0.5)} if key == "actions" else one),
            (1, lambda: self.fresh(one["alias"]) if key == "actions" else one)])

    def varied(self, one: dict[str, Any]) -> dict[str, Any]:
        """An automation or script, mostly as it was."""
        return one if self.maybe(0.75) else self.changed(one)

    def reload(self) -> Reload:
        """What is brought next: seldom what was there before, or what is refused."""
        if self.maybe(0.08):
            return Reload(refused=self.one("automation: 5\n", "\tx", "- alias: a\n", "automation: []\nscripts: {}\n", "x"))
        if self.past and self.maybe(0.2):
            brought = self.one(*self.past)
        else:
            whole = [self.varied(one) for one in self.whole if self.maybe(0.88)]
            whole += [self.fresh(name) for name in self.names if self.maybe(0.3) and name not in [one["alias"] for one in whole]]
            if self.maybe(0.2):
                self.dice.shuffle(whole)
            brought = Reload(whole, {name: self.varied(one) for name, one in self.scripts.items() if self.maybe(0.93)})
        self.past.append(brought)
        self.whole, self.scripts = brought.automations or [], brought.scripts or {}
        return brought


class Mixed(Helped, Reloading):
    """Configurations that come after one another, of automations that change helpers and that these begin."""

    def act(self, depth: int = 0) -> Any:
        """An action."""
        return Helped.act(self) if self.maybe(0.75) else Called.act(self, depth)

    def fresh(self, name: str) -> dict[str, Any]:
        """An automation of a name."""
        return self.ruled({"alias": name, "triggers": [self.begun() for _ in range(self.one(1, 1, 2))],
                           "actions": [self.act() for _ in range(self.one(1, 2, 3))] + [self.seen()]})

    def reload(self) -> Reload:
        """What is brought next, seldom with the helpers that there are."""
        brought = Reloading.reload(self)
        other = {"timer": {"a": {"duration": 1}, "c": None}, "counter": {"a": {"initial": 5}, "d": None}}
        return brought if brought.automations is None else replace(brought, helpers=self.one(None, other, {"input_boolean": {"a": {"initial": True}}}))


def of_both(seed: int) -> Home:
    """A home with helpers, whose automations and scripts change, and whose helpers stay."""
    maker = Mixed(seed)
    maker.known, maker.words = ("light.x", "counter.a", "timer.a", "counter.d"), ("on", "off", "1")
    maker.weights = {"event": 7.0, "moment": 8.0, "report": 1.2, "gone": 0.3, "own": 1.0, "restart": 0.5, "reload": 3.0}
    maker.whole = whole = [maker.fresh(name) for name in maker.names if maker.maybe(0.8)]
    maker.scripts = scripts = {name: maker.ruled({"sequence": maker.acts(2, 0)}) for name in CALLED} if maker.maybe(0.4) else {}
    helpers: dict[str, Any] = {
        "timer": {"a": {"duration": maker.one(1, 2, 3)}, "b": {"duration": 2}}, "input_boolean": {"b": {"initial": True}, "a": None},
        "counter": {"a": {"maximum": maker.one(2, 3)}, "b": {"initial": 1, "step": maker.one(1, 2), "minimum": 0}}}
    if maker.maybe(0.3):
        del helpers[maker.one(*helpers)]
    return Home(whole, maker.lines(STARTS[0]), STARTS[0], "UTC", scripts=scripts, helpers=helpers)


def of_reloads(seed: int) -> Home:
    """A home whose configuration changes, mostly in a few of its parts."""
    maker = Reloading(seed)
    maker.whole = whole = [maker.fresh(name) for name in maker.names if maker.maybe(0.8)]
    maker.scripts = scripts = {name: maker.ruled({"sequence": maker.acts(3)}) for name in CALLED} if maker.maybe(0.7) else {}
    stored = {name: maker.maybe(0.6) for name in maker.names} if maker.maybe(0.2) else None
    last = maker.moments() if stored is not None and maker.maybe(0.6) else None
    return Home(whole, maker.lines(STARTS[0]), STARTS[0], "UTC", stored, last, scripts)


STYLES: dict[str, Callable[[int], Home]] = {
    "mixed": make_home, "triggers": of_triggers, "conditions": of_conditions, "scripts": of_scripts,
    "templates": of_templates, "lines": of_lines, "holds": of_holds, "modes": of_modes, "blocks": of_blocks,
    "waits": of_waits, "odds": of_odds, "times": of_times, "called": of_called, "helpers": of_helpers, "reloads": of_reloads,
    "both": of_both}
