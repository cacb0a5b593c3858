"""Homes and lines made up from a seed: small, with few entities and numbers, so that much meets."""

from __future__ import annotations

import json
import random
from dataclasses import dataclass
from typing import Any, Callable, Optional

from .clock import print_moment, read_moment
from .reloads import Line, Reload, source_of
from .values import Num

ENTITIES = ("sensor.t", "light.x", "binary_sensor.d")
TEXTS = ("on", "off", "1", "2", "3", "2.5", "unavailable", "x")
ODD_TEXTS = ("2.0", "+3", "02", " 2", "1e3", "2.2500001", "-1", "1000000000001", "", "On", "true", "1.0", "2.500")
HELD = (1, 2, 3, 1.0, 2.5, "on", "off", None, True, [1], {"k": 1}, "2")
EVENTS = ("go", "go", "ping", "pong")
NAMES = ("a", "b", "c", "d")
SPANS = (1, 2, 2, 3, 3, 5)
WEIGHTS = {"report": 8.0, "moment": 7.0, "event": 4.0, "own": 2.0, "gone": 0.7, "restart": 0.3, "late": 0.3,
           "broken": 0.2, "far": 0.15}
STARTS = ("2024-05-01T20:00:00Z", "2024-05-01T23:59:55Z", "2024-03-31T00:59:50Z", "2024-10-27T00:59:58.500Z")
ZONES = ("UTC", "UTC", "UTC", "+05:30", "EST5EDT,M3.2.0,M11.1.0", "CET-1CEST,M3.5.0,M10.5.0/3")
DAYS = ("mon", "tue", "wed", "thu", "fri", "sat", "sun")


@dataclass
class Home:
    """A home with its lines; a line is the text as it is sent, or what it brings."""

    automations: list[dict[str, Any]]
    lines: list[Line]
    start: str
    zone: str
    stored: Optional[dict[str, bool]] = None
    last: Optional[dict[str, int]] = None
    scripts: Optional[dict[str, Any]] = None
    helpers: Optional[dict[str, Any]] = None

    def source(self) -> bytes:
        """The bytes of the source."""
        return source_of(self.lines)


class Maker:
    """Parts of homes, by chance."""

    def __init__(self, seed: int) -> None:
        self.dice = random.Random(seed)
        self.names = list(NAMES[:self.dice.choice((1, 2, 2, 3, 3, 4))])
        self.marks = 0
        self.known = ENTITIES
        self.words = TEXTS
        self.held: tuple[Any, ...] = HELD
        self.weights = WEIGHTS

    # Chance

    def maybe(self, chance: float) -> bool:
        """True with a chance."""
        return self.dice.random() < chance

    def one(self, *items: Any) -> Any:
        """One of some items."""
        return self.dice.choice(items)

    def pick(self, table: list[tuple[float, Callable[[], Any]]]) -> Any:
        """What one of the makers of a table gives, by their weights."""
        return self.dice.choices([make for _, make in table], [weight for weight, _ in table])[0]()

    def some(self, items: tuple[Any, ...], most: int = 2) -> list[Any]:
        """One or a few of some items, in any order."""
        return [self.one(*items) for _ in range(self.dice.randint(1, most))]

    def text(self) -> str:
        """A state's text, seldom an odd one."""
        return self.one(*ODD_TEXTS) if self.maybe(0.1) else self.one(*self.words)

    def entity(self) -> str:
        """An entity, seldom an automation."""
        return f"automation.{self.one(*self.names)}" if self.maybe(0.1) else self.one(*self.known)

    def entities(self) -> Any:
        """One entity, or several in one of the ways of writing them."""
        if self.maybe(0.75):
            return self.entity()
        found = [self.entity() for _ in range(self.dice.randint(1, 3))]
        return ", ".join(found) if self.maybe(0.3) else found

    def span(self) -> Any:
        """A duration."""
        seconds = self.one(*SPANS)
        return self.one(seconds, seconds, seconds, f"00:00:0{seconds}", {"seconds": seconds},
                        {"milliseconds": 500 * seconds}, 0)

    # Templates

    def truth(self) -> str:
        """A template that is mostly a flag."""
        entity = self.entity()
        number = self.one(1, 2, 3)
        return self.one(
            f"{{{{ is_state('{entity}', '{self.one(*self.words)}') }}}}",
            f"{{{{ states('{entity}')|int(0) > {number} }}}}",
            f"{{{{ states('{entity}')|float > {number} }}}}",
            f"{{{{ states('{entity}') == states('{self.entity()}') }}}}",
            f"{{{{ state_attr('{entity}', 'b') == {number} }}}}",
            f"{{{{ has_value('{entity}') and not is_state('{self.entity()}', 'on') }}}}",
            f"{{{{ state_attr('{entity}', 'b') is none }}}}",
            f"{{% if is_state('{entity}', ['on', '1']) %}}yes{{% else %}}false{{% endif %}}",
            f"{{{{ states('{entity}') }}}}",
            "{{ true }}", "{{ false }}")

    def run_truth(self) -> str:
        """A template that looks at the run's names, or at the states."""
        return self.one(
            self.truth(), self.truth(),
            f"{{{{ trigger.to_state.state == '{self.one(*self.words)}' }}}}",
            f"{{{{ trigger.id == '{self.one('0', '1', 'k')}' }}}}",
            f"{{{{ trigger.platform == '{self.one('state', 'event', 'time', 'numeric_state')}' }}}}",
            f"{{{{ n|int(0) >= {self.one(1, 2)} }}}}",
            f"{{{{ repeat.index|default(9) < {self.one(2, 3)} }}}}",
            "{{ repeat.first }}", "{{ repeat.last }}", "{{ wait.completed }}", "{{ wait.trigger is none }}",
            f"{{{{ trigger.event.data.n == {self.one(1, 2)} }}}}")

    def value(self) -> Any:
        """A value of data: plain or a template, one in eight of which may fail."""
        if self.maybe(0.12):
            return self.one(
                f"{{{{ states('{self.entity()}')|int }}}}", "{{ repeat|length }}", "{{ n + 1 }}",
                "{{ trigger.to_state.attributes.b }}", f"{{{{ state_attr('{self.entity()}', 'b') }}}}",
                "{{ wait.remaining + 1 }}", "{{ trigger.to_state.state > n }}")
        return self.one(
            "{{ trigger.to_state.state }}", "{{ trigger.from_state.state }}", "{{ trigger.id ~ '/' ~ trigger.idx }}",
            "{{ trigger.platform }}", "{{ trigger.entity_id }}", "{{ trigger.event.data.n }}", "{{ n }}", "{{ v }}",
            "{{ wait.completed }}", "{{ wait.remaining }}", "{{ wait.trigger.id }}", "{{ w }}",
            "{{ wait.trigger.to_state.state }}", "{{ wait.trigger.platform }}", "{{ repeat.index }}",
            "{{ repeat.item }}", "{{ repeat.last }}", "{{ repeat|default('')|length }}", "{{ trigger|length }}",
            "{{ trigger.above ~ trigger.below }}", "{{ trigger.attribute }}", "{{ trigger.from_state is none }}",
            f"{{{{ states('{self.entity()}') }}}}", f"{{{{ state_attr('{self.entity()}', 'u')|string }}}}",
            f"{{{{ states('{self.entity()}')|int(7) }}}}", f"{{{{ states('{self.entity()}')|float(1) / 3 }}}}",
            f"{{{{ n|int(1) + {self.one(1, 2)} }}}}",
            1, 2, Num(2_500_000, False), "text", True, None, ["{{ n }}", 1], {"k": "{{ repeat.index }}"})

    def number(self) -> Any:
        """What a variable is set to."""
        return self.one(0, 1, "{{ n|int(0) + 1 }}", "{{ n|int(0) + 1 }}", "{{ repeat.index }}",
                        f"{{{{ states('{self.one(*self.known)}') }}}}", self.value())

    # Triggers

    def bounds(self) -> dict[str, Any]:
        """Bounds of a number."""
        return self.one({"above": 1}, {"above": 2}, {"below": 3}, {"below": 2}, {"above": 1, "below": 3},
                        {"above": Num(2_250_000, False)}, {"below": "2.5"}, {"above": 2, "below": 1})

    def side(self, one: str, none: str) -> dict[str, Any]:
        """What a state trigger asks of one side."""
        return self.one({}, {}, {}, {one: self.text()}, {one: self.text()}, {one: None},
                        {one: self.some(self.words, 3)}, {none: self.one(*self.words)}, {none: self.some(self.words, 2)}, {one: []},
                        {none: []} if self.maybe(0.3) else {})

    def hold(self) -> dict[str, Any]:
        """Perhaps a `for`."""
        return {"for": self.span()} if self.maybe(0.45) else {}

    def attribute(self) -> dict[str, Any]:
        """Perhaps an attribute."""
        return {"attribute": self.one("b", "b", "u")} if self.maybe(0.25) else {}

    def state_trigger(self) -> dict[str, Any]:
        """A state trigger."""
        return ({"trigger": "state", "entity_id": self.entities()} | self.attribute() | self.side("from", "not_from")
                | self.side("to", "not_to") | self.hold())

    def numeric_trigger(self) -> dict[str, Any]:
        """A numeric trigger."""
        return {"trigger": "numeric_state", "entity_id": self.entities()} | self.bounds() | self.attribute() | self.hold()

    def event_trigger(self) -> dict[str, Any]:
        """An event trigger."""
        return {"trigger": "event", "event_type": self.one(self.one(*EVENTS), self.one(*EVENTS), ["go", "ping"])} | (
            {"event_data": self.one({"n": 1}, {"n": Num(1_000_000, False)}, {"n": "1"}, {"n": 2, "m": [1]}, {})}
            if self.maybe(0.25) else {})

    def time_trigger(self) -> dict[str, Any]:
        """A time or time pattern trigger near the start."""
        if self.maybe(0.6):
            return {"trigger": "time_pattern"} | self.one(
                {"seconds": "/5"}, {"seconds": "/2"}, {"seconds": 3}, {"minutes": "/1"}, {"seconds": "*"},
                {"hours": "*", "seconds": "/7"}, {"minutes": 0}, {"hours": 0}, {"minutes": "*", "seconds": 1})
        return {"trigger": "time", "at": self.one("20:00:03", "00:00:01", ["20:00:05", "20:00:06"], "00:00", "02:00",
                                                  "02:30", ["23:59:58", "23:59:59"], "20:00:00", "01:30:05")}

    def template_trigger(self) -> dict[str, Any]:
        """A template trigger."""
        return {"trigger": "template", "value_template": self.truth()} | self.hold()

    def trigger(self, start: bool = True) -> dict[str, Any]:
        """Any trigger."""
        made = self.pick([
            (4, self.state_trigger), (3, self.event_trigger), (2, self.numeric_trigger), (1.5, self.template_trigger),
            (1, self.time_trigger),
            (0.4 if start else 0.05, lambda: {"trigger": "homeassistant", "event": "start"})])
        if self.maybe(0.2):
            made["id"] = self.one("k", "k", "0", "1")
        if self.maybe(0.05):
            made["enabled"] = self.one(False, "off", True)
        if self.maybe(0.1):
            made = {"platform": made.pop("trigger")} | made
        return made

    def simple_trigger(self) -> dict[str, Any]:
        """A trigger that is met often."""
        return self.one({"trigger": "event", "event_type": "go"}, {"trigger": "state", "entity_id": self.one(*self.known)},
                        {"trigger": "state", "entity_id": list(self.known), "to": ["on", "2"]})

    def triggers(self, most: int, start: bool = True) -> Any:
        """Triggers, or one alone."""
        found = [self.trigger(start) for _ in range(self.dice.randint(1, most))]
        if self.maybe(0.4):
            found[-1] = self.simple_trigger()
        return found[0] if len(found) == 1 and self.maybe(0.3) else found

    # Conditions

    def simple_condition(self) -> Any:
        """A condition that isn't made of others."""
        hold = {"for": self.span()} if self.maybe(0.3) else {}
        return self.pick([
            (3, self.run_truth),
            (1, lambda: {"condition": "template", "value_template": self.run_truth()}),
            (3, lambda: {"condition": "state", "entity_id": self.entities(),
                         "state": self.one(self.one(*self.words), self.some(self.words, 3), [])} | self.attribute() | hold),
            (2, lambda: {"condition": "numeric_state", "entity_id": self.entities()} | self.bounds()
             | self.attribute()),
            (0.7, self.time_condition),
            (1.5, lambda: {"condition": "trigger", "id": self.one("0", "1", "k", ["0", "k"], [])})])

    def time_condition(self) -> dict[str, Any]:
        """A time condition."""
        found = {"condition": "time"} | self.one(
            {"after": "20:00:03"}, {"before": "20:00:05"}, {"after": "22:00", "before": "06:00"},
            {"after": "20:00:02", "before": "20:00:06"}, {"after": "00:00", "before": "00:00"}, {"before": "00:00:02"},
            {"after": "23:59:57"}, {"after": "02:00", "before": "03:00"})
        return found | ({"weekday": self.some(DAYS, 5)} if self.maybe(0.3) else {})

    def condition(self, depth: int = 2) -> Any:
        """Any condition."""
        if depth == 0 or self.maybe(0.75):
            made = self.simple_condition()
        else:
            kind = self.one("and", "or", "not")
            inner = [self.condition(depth - 1) for _ in range(self.dice.randint(0, 3))]
            made = {kind: inner} if self.maybe(0.5) else {"condition": kind, "conditions": inner}
        if isinstance(made, dict) and self.maybe(0.05):
            made["enabled"] = False
        return made

    def conditions(self, most: int = 2) -> Any:
        """Conditions, or one alone."""
        found = [self.condition() for _ in range(self.dice.randint(0, most))]
        return found[0] if len(found) == 1 and self.maybe(0.5) else found

    # Actions

    def call(self) -> dict[str, Any]:
        """The call of an outer service, with a mark of its own."""
        self.marks += 1
        made: dict[str, Any] = {self.one("action", "action", "service"): self.one("notify.x", "notify.y", "light.turn_on"),
                                "data": {"mark": self.marks}}
        for key in ("p", "q"):
            if self.maybe(0.5):
                made["data"][key] = self.value()
        if self.maybe(0.1):
            made["target"] = {"entity_id": self.one("light.x", ["light.x", "light.y"], "{{ trigger.entity_id }}",
                                                    "light.x, light.y", "{{ 'light.x, light.x' }}", [], "{{ '' }}")}
        if self.maybe(0.03):
            made["action"] = made.pop("service", None) or made["action"]
            made["action"] = self.one("{{ 'notify.z' }}", "{{ 'nothing' }}", "{{ states('sensor.t') }}.x",
                                      "automation.reload")
        return made

    def automation_target(self) -> Any:
        """A target of the engine's own services."""
        one = f"automation.{self.one(*self.names)}"
        return self.one(one, one, one, [one, f"automation.{self.one(*self.names)}"], "automation.none",
                        ["light.x", one], f"{one}, {one}", "{{ '" + one + "' }}")

    def own_call(self) -> dict[str, Any]:
        """A call of one of the engine's own services."""
        service = self.one("turn_off", "turn_off", "turn_on", "toggle", "trigger")
        made: dict[str, Any] = {"action": f"automation.{service}", "target": {"entity_id": self.automation_target()}}
        if service == "trigger":
            made |= self.one({}, {"data": {"skip_condition": self.one(False, False, True, "off", "{{ false }}")}})
        else:
            made |= self.one({}, {}, {"data": {"stop_actions": self.one(False, True, "no", "{{ 1 == 2 }}", 0)}})
        return made

    def wait(self) -> dict[str, Any]:
        """A wait, mostly with a timeout."""
        if self.maybe(0.5):
            made: dict[str, Any] = {"wait_template": self.run_truth()}
        else:
            made = {"wait_for_trigger": self.triggers(2, start=False)}
        if self.maybe(0.75):
            made["timeout"] = self.delay_span()
        if self.maybe(0.3):
            made["continue_on_timeout"] = self.one(False, False, True)
        return made

    def delay_span(self) -> Any:
        """A delay or timeout, seldom by a template."""
        if self.maybe(0.85):
            return self.span()
        return self.one("{{ 2 }}", "{{ n }}", "00:00:0{{ n|default(1) }}", {"seconds": "{{ n|default(2) }}"},
                        {"milliseconds": "{{ 500 * 3 }}", "seconds": 1}, "{{ 1.5 }}", {"seconds": "{{ -1 }}"},
                        {"minutes": "{{ states('sensor.t') }}"})

    def repeat(self, depth: int) -> dict[str, Any]:
        """A repeat."""
        limit = f"{{{{ repeat.index <= {self.dice.randint(0, 3)} }}}}"
        end = f"{{{{ repeat.index >= {self.dice.randint(1, 3)} }}}}"
        kind = self.one(
            {"count": self.one(0, 1, 2, 2, 3, "{{ n }}", "{{ trigger.event.data.n }}", "{{ 2 }}", "{{ -1 }}")},
            {"while": self.one(limit, limit, [limit, self.condition(1)], [self.condition(1), limit])},
            {"until": self.one(end, end, [end], {"or": [end, self.condition(1)]}, "{{ n|default(9) > 2 }}")},
            {"for_each": self.one(["red", 2], [], ["{{ n }}", None], [True, [1], "x"])})
        return {"repeat": kind | {"sequence": self.actions(depth - 1, 3)}}

    def choose(self, depth: int) -> dict[str, Any]:
        """A choice."""
        options = [{"conditions": self.conditions(), "sequence": self.actions(depth - 1, 2)}
                   for _ in range(self.dice.randint(1, 3))]
        return {"choose": options} | ({"default": self.actions(depth - 1, 2)} if self.maybe(0.6) else {})

    def decision(self, depth: int) -> dict[str, Any]:
        """An `if`."""
        return {"if": self.conditions(), "then": self.actions(depth - 1, 2)} | (
            {"else": self.actions(depth - 1, 2)} if self.maybe(0.6) else {})

    def parallel(self, depth: int) -> dict[str, Any]:
        """A parallel block."""
        branches = [self.one(self.actions(depth - 1, 3), {"sequence": self.actions(depth - 1, 3)},
                             self.action(depth - 1)) for _ in range(self.dice.randint(0, 3) or 2)]
        return {"parallel": branches}

    def variables(self) -> dict[str, Any]:
        """A `variables` action."""
        made = {"variables": {self.one("n", "n", "v"): self.number()}}
        if self.maybe(0.3):
            made["variables"][self.one("n", "v", "wait", "repeat", "trigger", "w")] = self.number()
        return made

    def event(self) -> dict[str, Any]:
        """An event action."""
        return {"event": self.one("ping", "pong", "ping", "go")} | (
            {"event_data": {"n": self.value()}} if self.maybe(0.6) else {})

    def action(self, depth: int) -> Any:
        """Any action."""
        deep = 1.0 if depth > 0 else 0.0
        made = self.pick([
            (4, self.call), (1.2, self.own_call), (2.5, lambda: {"delay": self.delay_span()}), (2.5, self.wait),
            (1, self.variables), (0.5, self.event), (0.3, lambda: {"stop": "done"}), (1, self.condition),
            (deep, lambda: self.repeat(depth)), (deep * 0.7, lambda: self.choose(depth)),
            (deep * 0.7, lambda: self.decision(depth)), (deep * 1.5, lambda: self.parallel(depth)),
            (deep * 0.3, lambda: {"sequence": self.actions(depth - 1, 2)})])
        if isinstance(made, dict) and "enabled" not in made and self.maybe(0.03):
            made["enabled"] = False
        return made

    def actions(self, depth: int, most: int) -> list[Any]:
        """Actions, seldom none."""
        return [self.action(depth) for _ in range(self.dice.randint(0 if self.maybe(0.1) else 1, most))]

    def automation(self, name: str) -> dict[str, Any]:
        """An automation of a name."""
        made: dict[str, Any] = {"alias": name, "triggers": self.triggers(4)}
        if self.maybe(0.25):
            made["conditions"] = self.conditions()
        made["actions"] = self.actions(2, 4)
        if self.maybe(0.4):
            made["actions"].insert(0, self.call())
        made["mode"] = self.one("single", "restart", "queued", "parallel", "queued", "restart")
        if self.maybe(0.5):
            made["max"] = self.one(1, 2, 2, 3)
        if self.maybe(0.15):
            made["initial_state"] = self.one(True, True, False)
        return made

    # Lines

    def attributes(self) -> dict[str, Any]:
        """Attributes of a report."""
        held: Any = self.one(*self.held)
        return self.one({}, {}, {"b": held}, {"b": held}, {"b": held, "u": 1}, {"u": held})

    def report(self) -> dict[str, Any]:
        """A report."""
        made: dict[str, Any] = {"report": self.one(*self.known), "state": self.text()}
        attributes = self.attributes()
        return made | ({"attributes": attributes} if attributes or self.maybe(0.2) else {})

    def own_line(self) -> dict[str, Any]:
        """A switch or trigger."""
        name = f"automation.{self.one(*self.names)}" if self.maybe(0.95) else "automation.none"
        if self.maybe(0.5):
            return {"trigger": name} | self.one({}, {"skip_condition": self.one(True, False)})
        return {"switch": name, "to": self.one("on", "off")} | self.one({}, {"stop_actions": self.one(True, False)})

    def fire(self) -> dict[str, Any]:
        """An event."""
        data = {"data": self.one({"n": 1}, {"n": 2}, {"n": 1.0}, {"n": "1", "m": [1]}, {"n": 2, "m": [1.0]}, {})}
        return {"event": self.one(*EVENTS)} | (data if self.maybe(0.7) else {})

    def broken(self) -> str:
        """A line with something wrong in it, mostly."""
        line = json.dumps(self.one(self.report(), self.own_line(), self.fire(), {"restart": True}))
        at = self.dice.randrange(len(line))
        return self.one(line[:at] + line[at + 1:], line[:at] + self.one(*'"{}[],:x0 \\') + line[at:], line[:at],
                        line.replace('"state"', '"text"'), line.replace("true", "1"), line.replace(".", "..", 1),
                        line + " ", "\t" + line, line.replace(", ", " ,\t"), "  ", "")

    def broken_twice(self) -> str:
        """A line with two things wrong in it, mostly."""
        line = self.broken()
        at = self.dice.randrange(len(line) + 1)
        return self.one(line[:at] + self.one(*'"{}[],:x0 \\u\t') + line[at:], line[:at] + line[at + 1:],
                        line[:at] + "\udcff" + line[at:], line.replace("1", "1" * 13), line.replace("1", "1.5000001"),
                        line.replace('"on"', '"\\u0041\\ud83d\\ude00"'), line.replace('"on"', '"\\ud83d"'),
                        line.replace("true", '"true"'), line[:-1] + ',"extra":1}', line[:-1] + ',"gone":"light.x"}')

    def reload(self) -> Line:
        """A line that reloads; in most styles there is none."""
        raise NotImplementedError

    def lines(self, start: str) -> list[Line]:
        """The lines of a source, with moments that hit holds and delays."""
        now, out = read_moment(start) or 0, []
        for _ in range(self.dice.randint(5, 40)):
            kind = self.dice.choices(list(self.weights), list(self.weights.values()))[0]
            if kind == "moment":
                now += self.one(1000, 1000, 2000, 3000, 500, 5000, 1500, 250)
            if kind == "far":
                now += self.one(60_000, 3_600_000, 90_000_000)
            made: Any = {
                "report": self.report, "event": self.fire, "own": self.own_line, "broken": self.broken, "reload": self.reload,
                "gone": lambda: {"gone": self.one(*self.known)}, "restart": lambda: {"restart": True},
                "late": lambda: {"moment": print_moment(now - self.one(0, 1000, 5000))},
            }.get(kind, lambda: {"moment": print_moment(now)})()
            out.append(made if isinstance(made, (str, Reload)) else json.dumps(made, separators=(",", ":")))
        return out

    def moments(self) -> dict[str, int]:
        """When some automations last triggered, and one that there is not."""
        names = [name for name in self.names if self.maybe(0.6)] + (["zz"] if self.maybe(0.3) else [])
        return {name: self.one(0, 999, 1_714_593_600_000, 32_503_679_999_999) for name in names}


def make_home(seed: int) -> Home:
    """The home of a seed."""
    maker = Maker(seed)
    start, zone = maker.one(*STARTS) if maker.maybe(0.4) else STARTS[0], maker.one(*ZONES)
    automations = [maker.automation(name) for name in maker.names]
    stored = {name: maker.maybe(0.7) for name in maker.names} if maker.maybe(0.1) else None
    last = maker.moments() if stored is not None and maker.maybe(0.6) else None
    return Home(automations, maker.lines(start), start, zone, stored, last)
