"""A run's script, as coroutines: each asks for the places that it uses, one after the other.

A body yields a gate, the test of whether a place may stand at a number of entries, and is sent the
place. To start a parallel block it yields a Fork, and is sent the statuses of the block's branches.
What a step gives is left in `item`; a body ends with its list's status.
"""

from __future__ import annotations

from dataclasses import dataclass, field
from typing import Any, Callable, Generator, Optional, Union

from .clock import SPAN_BOUND, read_span
from .conditions import Pairs, test, test_all
from .config import PARTS, Action, Condition, Form, Template, Trigger
from .helpers import Unfit, changes, is_service
from .journal import NOTHING, Item, Journal, Sight
from .template import holds_template, render
from .triggers import firings, template_true
from .values import Fault, Num, Value, as_data, is_entity, read_number, whole

Scopes = list[Pairs]
Gate = Callable[[int], bool]
Status = str
TURNS = 10_000
OWN = ("trigger", "repeat", "wait")


@dataclass
class Fork:
    """The bodies of a parallel block's branches."""

    bodies: list["Body"]


Body = Generator[Union[Gate, Fork], Any, Status]


class Failure(Exception):
    """An action whose own fields fail, with the number of its code."""


def always(count: int) -> bool:
    """The gate of a step that needs nothing."""
    return True


def flat(scopes: Scopes) -> Pairs:
    """All pairs, the outermost block's first."""
    return [pair for block in scopes for pair in block]


def with_block(scopes: Scopes, *pairs: tuple[str, Value]) -> Scopes:
    """The scopes with one block added; the others are shared."""
    return scopes + [list(pairs)]


def copied(scopes: Scopes) -> Scopes:
    """Scopes of one's own."""
    return [list(block) for block in scopes]


def assign(scopes: Scopes, name: str, value: Value) -> None:
    """Sets a name in the innermost block that has it, else in the innermost block."""
    holders = [block for block in scopes if any(name == other for other, _ in block)]
    (scopes if name in OWN or not holders else holders)[-1].append((name, value))


@dataclass
class WaitEnd:
    """How a wait ended."""

    completed: bool
    remaining: Optional[Num]
    trigger: Optional[dict[str, Value]]


@dataclass
class Wait:
    """A wait that began at a place, with its end once it is found."""

    journal: Journal
    begun: int
    template: Optional[str]
    triggers: list[Trigger]
    due: Optional[int]
    names: dict[str, Value]
    looked: int = 0
    found: Optional[WaitEnd] = None

    def ended(self, count: int) -> bool:
        """Whether the wait ends at one of the first `count` entries."""
        for place in range(max(self.begun, self.looked), count):
            if self.found is None:
                self.found = self.end_at(place)
        self.looked = max(self.looked, count)
        return self.found is not None

    def end_at(self, place: int) -> Optional[WaitEnd]:
        """The end of the wait, if it is at this place."""
        now = self.journal.after[place].now
        left = None if self.due is None else Num(max(self.due - now, 0) * 1000, False)
        if self.template is not None and template_true(self.journal, self.template, place, self.names):
            return WaitEnd(True, left, None)
        fired = next(firings(self.journal, self.triggers, self.begun, place), None) if place > self.begun else None
        if fired is not None:
            return WaitEnd(True, left, fired)
        return WaitEnd(False, left, None) if self.due is not None and now >= self.due else None


@dataclass
class Script:
    """What the bodies of one run share."""

    journal: Journal
    has_ended: Callable[[int], bool]
    item: Item = field(default_factory=lambda: NOTHING)

    def sight(self, place: int) -> Sight:
        """What a step at a place sees."""
        return self.journal.after[place - 1]

    # Values

    def text(self, template: str, scopes: Scopes, place: int) -> str:
        """A rendered template."""
        try:
            return render(template, self.sight(place), dict(flat(scopes)))
        except Fault:
            raise Failure(1) from None

    def value(self, form: Form, scopes: Scopes, place: int) -> Value:
        """The value of a form."""
        if isinstance(form, Template):
            return as_data(self.text(form.text, scopes, place))
        if isinstance(form, list):
            return [self.value(one, scopes, place) for one in form]
        if isinstance(form, dict):
            return {key: self.value(one, scopes, place) for key, one in form.items()}
        return form

    def pairs(self, data: list[tuple[str, Form]], scopes: Scopes, place: int) -> dict[str, Value]:
        """The values of a map's pairs, in order."""
        return {key: self.value(form, scopes, place) for key, form in data}

    def span(self, form: Any, scopes: Scopes, place: int) -> int:
        """The milliseconds of a delay or timeout."""
        if isinstance(form, int):
            return form
        if isinstance(form, Template):
            span = read_span(self.text(form.text, scopes, place))
            if span is None:
                raise Failure(4)
            return span
        total = sum(size * self.part(text, scopes, place) for text, size in zip(form, PARTS.values()))
        if total > SPAN_BOUND:
            raise Failure(4)
        return total

    def part(self, text: str, scopes: Scopes, place: int) -> int:
        """One part of a delay's map, a whole number from 0."""
        number = read_number(self.text(text, scopes, place))
        if number is None or not number.whole or number.micros < 0:
            raise Failure(4)
        return number.micros // 10**6

    def test(self, condition: Condition, scopes: Scopes, place: int) -> bool:
        """The truth of a condition."""
        return test(condition, self.sight(place), self.journal.zone, flat(scopes))

    def test_all(self, conditions: list[Condition], scopes: Scopes, place: int) -> bool:
        """Whether all conditions hold."""
        return test_all(conditions, self.sight(place), self.journal.zone, flat(scopes))

    # Lists and actions

    def run(self, actions: list[Action], scopes: Scopes) -> Body:
        """A list of actions; a false condition ends it."""
        for action in actions:
            place = yield always
            try:
                if action.kind == "test" and not self.test(action.fields["condition"], scopes, place):
                    return "done"
                status = yield from self.action(action, scopes, place)
            except Failure as failure:
                self.item = {"failed": f"F{failure.args[0]}"}
                return "faulted"
            if status != "done":
                return status
        return "done"

    def action(self, action: Action, scopes: Scopes, place: int) -> Body:
        """One action, whose first place is here already."""
        kind, fields = action.kind, action.fields
        if kind == "call":
            self.item = self.call(fields, scopes, place)
            if self.item.get("started", {}).get("waits"):
                yield lambda count: self.has_ended(place)
        elif kind == "event":
            self.item = {"fired": {"event": fields["event"], "data": self.pairs(fields["data"], scopes, place)}}
        elif kind == "variables":
            for key, form in fields["data"]:
                assign(scopes, key, self.value(form, scopes, place))
        elif kind == "stop":
            return "stopped"
        elif kind == "delay":
            due = self.journal.after[place - 1].now + self.span(fields["span"], scopes, place)
            yield lambda count: self.journal.after[count - 1].now >= due
        elif kind != "test":
            return (yield from self.longer(kind, fields, scopes, place))
        return "done"

    def longer(self, kind: str, fields: dict[str, Any], scopes: Scopes, place: int) -> Body:
        """The actions that wait or hold others."""
        if kind == "wait":
            return (yield from self.wait(fields, scopes, place))
        if kind == "repeat":
            return (yield from self.repeat(fields, scopes, place))
        if kind == "parallel":
            return (yield from self.parallel(fields["branches"], scopes))
        if kind == "block":
            return (yield from self.run(fields["body"], with_block(scopes)))
        chosen = next((body for tests, body in fields["options"] if self.test_all(tests, scopes, place)),
                      fields["default"])
        return (yield from self.run(chosen, with_block(scopes)))

    def wait(self, fields: dict[str, Any], scopes: Scopes, place: int) -> Body:
        """A wait, with its second place."""
        span = None if fields["timeout"] is None else self.span(fields["timeout"], scopes, place)
        due = None if span is None else self.sight(place).now + span
        wait = Wait(self.journal, place, fields["template"], fields["triggers"], due, dict(flat(scopes)))
        yield wait.ended
        end = wait.found
        assert end is not None
        if not end.completed and not fields["go_on"]:
            return "stopped"
        assign(scopes, "wait", {"completed": end.completed, "remaining": end.remaining, "trigger": end.trigger})
        return "done"

    def parallel(self, branches: list[list[Action]], scopes: Scopes) -> Body:
        """A parallel block: the status of the first branch that stopped or faulted, else done."""
        statuses = yield Fork([self.run(body, with_block(copied(scopes))) for body in branches])
        return next((one for one in statuses if one != "done"), "done")

    # Repeats

    def repeat(self, fields: dict[str, Any], scopes: Scopes, place: int) -> Body:
        """A repeat: a place after each turn."""
        kind, given = fields["kind"], fields["given"]
        items = self.turns(kind, given, scopes, place)
        turn = 0
        while self.enters(kind, given, items, turn + 1, scopes, place):
            turn += 1
            if items is None and turn > TURNS:
                raise Failure(6)
            inner = with_block(scopes, ("repeat", turn_map(kind, items, turn)))
            status = yield from self.run(fields["body"], inner)
            if status != "done":
                return status
            place = yield always
        return "done"

    def turns(self, kind: str, given: Any, scopes: Scopes, place: int) -> Optional[list[Value]]:
        """The items of all turns, where their number is known at the start."""
        if kind == "for_each":
            return self.value(given, scopes, place)
        if kind != "count":
            return None
        count = read_number(self.text(given, scopes, place) if holds_template(given) else given)
        if count is None or not count.whole:
            raise Failure(5)
        return [None] * max(count.micros // 10**6, 0)

    def enters(self, kind: str, given: Any, items: Optional[list[Value]], turn: int, scopes: Scopes,
               place: int) -> bool:
        """Whether the repeat enters a turn."""
        if items is not None:
            return turn <= len(items)
        if kind == "while":
            return self.test_all(given, with_block(scopes, ("repeat", turn_map(kind, items, turn))), place)
        return turn == 1 or not self.test_all(
            given, with_block(scopes, ("repeat", turn_map(kind, items, turn - 1))), place)

    # Calls

    def call(self, fields: dict[str, Any], scopes: Scopes, place: int) -> Item:
        """The item of a call: its service, then its targets, then its data are valued."""
        service = self.text(fields["service"], scopes, place)
        if not is_entity(service):
            raise Failure(2)
        target = [one for text in fields["targets"] for one in self.target(text, scopes, place)]
        data = self.pairs(fields["data"], scopes, place)
        domain, name = service.split(".")
        scripts = self.journal.scripts
        if domain == "script" and scripts and (name in ("turn_on", "turn_off") or name != "toggle" and name in scripts):
            return self.of_script(name, target, data)
        if domain == "automation" and name in ("turn_on", "turn_off", "toggle", "trigger"):
            return self.own_service(name, target, data, place)
        if is_service(self.journal.helpers, domain, name):
            return self.of_helpers(service, target, data, place)
        return {"call": {"service": service, "target": target, "data": data}}

    def of_helpers(self, service: str, target: list[str], data: dict[str, Value], place: int) -> Item:
        """The changes in place of the call of a service of helpers."""
        sight, helpers = self.sight(place), self.journal.helpers
        texts = {name: sight.states[name].text for name in helpers}
        try:
            return {"helped": changes(helpers, service, target, data, texts, sight.known, sight.now)}
        except Unfit as unfit:
            raise Failure(unfit.args[0]) from None

    def of_script(self, name: str, target: list[str], data: dict[str, Value]) -> Item:
        """The item in place of the call of a script."""
        named = [entity.split(".")[1] for entity in dict.fromkeys(target) if entity.split(".")[0] == "script"]
        named = [one for one in named if one in self.journal.scripts]
        if name == "turn_off":
            return {"halted": named}
        if name == "turn_on":
            handed = data.get("variables")
            return {"started": {"scripts": named, "data": handed if isinstance(handed, dict) else {}, "waits": False}}
        return {"started": {"scripts": [name], "data": data, "waits": True}}

    def target(self, text: str, scopes: Scopes, place: int) -> list[str]:
        """The entities of one target."""
        rendered = self.text(text, scopes, place)
        parts = [part.strip(" \t") for part in rendered.split(",")] if rendered else []
        if not all(is_entity(part) for part in parts):
            raise Failure(3)
        return parts

    def own_service(self, name: str, target: list[str], data: dict[str, Value], place: int) -> Item:
        """What the engine's own services give."""
        named = [entity.split(".")[1] for entity in dict.fromkeys(target) if entity.split(".")[0] == "automation"]
        named = [one for one in named if one in self.journal.automations]
        if name == "trigger":
            return {"triggered": {"automations": named, "skip_condition": as_flag(data.get("skip_condition"))}}
        return {"switched": [self.switched(name, one, data, place) for one in named]}

    def switched(self, name: str, automation: str, data: dict[str, Value], place: int) -> dict[str, Any]:
        """What becomes of one switch."""
        was = self.sight(place).on[automation]
        on = not was if name == "toggle" else name == "turn_on"
        return {"automation": automation, "on": on, "stop": not on and as_flag(data.get("stop_actions"))}


def as_flag(value: Value) -> bool:
    """A flag whose default is true, also where it is no flag."""
    return value if isinstance(value, bool) else True


def turn_map(kind: str, items: Optional[list[Value]], turn: int) -> dict[str, Value]:
    """The variable `repeat` of a turn."""
    out: dict[str, Value] = {"index": whole(turn), "first": turn == 1}
    if items is not None:
        out["last"] = turn == len(items)
    if items is not None and kind == "for_each":
        out["item"] = items[turn - 1]
    return out


class Thread:
    """A body in its branch, with the branches of a block that it is in."""

    def __init__(self, branch: tuple[int, ...], body: Body) -> None:
        self.branch = branch
        self.body = body
        self.gate: Gate = always
        self.children: list[Thread] = []
        self.status: Optional[Status] = None
        self.go_on(None)

    def go_on(self, sent: Any) -> None:
        """Goes on to the next place that the body wants, or to its end."""
        try:
            want = self.body.send(sent)
            while isinstance(want, Fork):
                self.children = [Thread(self.branch + (at,), body) for at, body in enumerate(want.bodies)]
                if any(child.status is None for child in self.children):
                    return
                want = self.body.send(self.ended_children())
            self.gate = want
        except StopIteration as end:
            self.status = end.value

    def ended_children(self) -> list[Status]:
        """The statuses of a block's branches, which all ended."""
        statuses = [str(child.status) for child in self.children]
        self.children = []
        return statuses

    def step(self, branch: tuple[int, ...], place: int) -> None:
        """Takes a place of a branch."""
        if not self.children:
            assert branch == self.branch
            self.go_on(place)
            return
        self.children[branch[len(self.branch)]].step(branch, place)
        if all(child.status is not None for child in self.children):
            self.go_on(self.ended_children())

    def ready(self, count: int) -> list[tuple[int, ...]]:
        """The branches that may take the place behind so many entries, in order."""
        if self.status is not None:
            return []
        if self.children:
            return [branch for child in self.children for branch in child.ready(count)]
        return [self.branch] if self.gate(count) else []
