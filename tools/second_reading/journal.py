"""The journal, with what stands after each entry: states, Now and switches."""

from __future__ import annotations

from dataclasses import dataclass, field, replace
from typing import Any, Mapping, Optional

from .clock import Zone
from .config import Automation, Config
from .helpers import Helper, Known
from .lines import Command
from .sameness import same_unit
from .values import Num, Value, attribute_text, read_number, same

Item = dict[str, Any]
Event = tuple[str, dict[str, Value]]
NOTHING: Item = {"nothing": True}


@dataclass(frozen=True)
class StateObject:
    """An entity's text and attributes, and when these changed last."""

    text: str
    attributes: dict[str, Value]
    changed: int
    updated: int

    def watched(self, attribute: Optional[str]) -> Optional[str]:
        """The state text, or the text of an attribute, if it has one."""
        return self.text if attribute is None else attribute_text(self.attributes.get(attribute))


@dataclass(frozen=True)
class Entry:
    """The boot, a line with its command, a step of a run with its item, or what opens the segment behind a restart. A reload has the
    configuration that its text is."""

    command: Optional[Command] = None
    serial: int = 0
    branch: tuple[int, ...] = ()
    item: Optional[Item] = None
    again: int = 0
    config: Optional[Config] = None

    def opens(self) -> bool:
        """Whether a segment begins with it."""
        return self.item is None and self.command is None

    def restarts(self) -> bool:
        """Whether it is a restart, which ends its segment."""
        return self.command is not None and "restart" in self.command

    def event(self) -> Optional[Event]:
        """The type and data of the event that the entry is."""
        if self.command and "event" in self.command:
            return self.command["event"], self.command["data"]
        if self.item and "fired" in self.item:
            return self.item["fired"]["event"], self.item["fired"]["data"]
        return None

    def changes(self) -> list[dict[str, Any]]:
        """The helpers that it changes."""
        return (self.item or {}).get("helped", [])

    def switched(self) -> list[tuple[str, bool, bool]]:
        """The automations whose switch is set: name, new value, and whether runs are stopped."""
        if self.command and "switch" in self.command:
            on = self.command["to"] == "on"
            return [(self.command["switch"].split(".")[1], on, self.command["stop_actions"] and not on)]
        return [(one["automation"], one["on"], one["stop"]) for one in (self.item or {}).get("switched", [])]

    def started(self) -> Optional[dict[str, Any]]:
        """The scripts that it starts, with the variables that it hands over."""
        return (self.item or {}).get("started")

    def halted(self) -> list[str]:
        """The scripts whose runs it ends."""
        return (self.item or {}).get("halted", [])


@dataclass(frozen=True, eq=False)
class Unit:
    """An automation or script under the number that it has in its segment. It is another unit where it came into force anew."""

    number: int
    rules: Automation

    @property
    def name(self) -> str:
        """The name of its runs, by which an automation and a script are never the same."""
        return self.rules.name


@dataclass(frozen=True)
class Sight:
    """What stands after an entry: states, Now, and of each automation in force by its name the switch, and the place after which it can
    fire; `known` has the last changes of helpers in the segment."""

    states: Mapping[str, StateObject]
    now: int
    on: Mapping[str, bool]
    since: Mapping[str, int]
    known: Mapping[str, Known] = field(default_factory=dict)

    def state_text(self, entity: str) -> Optional[str]:
        """The text of an entity, if it is there."""
        return self.states[entity].text if entity in self.states else None

    def state_attributes(self, entity: str) -> Mapping[str, Value]:
        """The attributes of an entity."""
        return self.states[entity].attributes if entity in self.states else {}


class Journal:
    """All entries so far, and the sight after each of them."""

    def __init__(self, config: Config, start: int, zone: Zone, stored: Mapping[str, bool],
                 helpers: Mapping[str, Helper]) -> None:
        self.helpers = helpers
        self.zone = zone
        self.config = config
        self.free = 0
        self.automations: dict[str, Unit] = {}
        self.scripts: dict[str, Unit] = {}
        self.number_anew()
        self.entries = [Entry()]
        self.after = [self.opened(start, stored, 0)]

    def units(self) -> list[Unit]:
        """All that is in force, in the order of the configuration."""
        return list(self.automations.values()) + list(self.scripts.values())

    def number_anew(self) -> None:
        """Where a segment begins, all that is in force gets its numbers from 0."""
        self.automations, self.scripts, self.free = {}, {}, 0
        self.bring(self.config)

    def bring(self, config: Config) -> None:
        """Brings a configuration into force: what is equal in every field is kept, and the others get the next free numbers."""
        old = {unit.name: unit for unit in self.units()}
        new: dict[str, Unit] = {}
        for rules in config.units():
            was = old.get(rules.name)
            if was is not None and same_unit(was.rules, rules):
                new[rules.name] = was
            else:
                new[rules.name] = Unit(self.free, rules)
                self.free += 1
        self.config = config
        self.automations = {one.name: new[one.name] for one in config.automations}
        self.scripts = {one.name.split(".")[1]: new[one.name] for one in config.scripts}

    def started(self, now: int, before: Mapping[str, bool], place: int) -> Sight:
        """The sight after a restart or after what opens a segment, but for the helpers."""
        on = {name: entered(unit, before) for name, unit in self.automations.items()}
        return Sight({f"automation.{name}": switch_object(flag, now) for name, flag in on.items()}, now, on, dict.fromkeys(on, place))

    def opened(self, now: int, on: Mapping[str, bool], place: int) -> Sight:
        """The sight after what opens a segment: the helpers have their first texts."""
        sight = self.started(now, on, place)
        first = {name: StateObject(one.first, {}, now, now) for name, one in self.helpers.items()}
        return replace(sight, states={**sight.states, **first})

    def restarted(self, before: Sight, on: Mapping[str, bool], place: int) -> Sight:
        """The sight after a restart: the helpers are as they were."""
        sight = self.started(before.now, on, place)
        kept = {name: held for name, held in before.states.items() if name in self.helpers}
        return replace(sight, states={**sight.states, **kept}, known=before.known)

    def append(self, entry: Entry) -> int:
        """Puts an entry and tells its place."""
        before, place = self.after[-1], len(self.entries)
        self.entries.append(entry)
        if entry.opens():
            self.number_anew()
        self.after.append(self.changed(before, entry, place) if entry.config is None else self.reloaded(before, entry.config, place))
        return place

    def reloaded(self, before: Sight, config: Config, place: int) -> Sight:
        """The sight after a reload, at which the configuration comes into force."""
        old = self.automations
        self.bring(config)
        on, since = {}, {}
        states = {entity: state for entity, state in before.states.items() if not entity.startswith("automation.")}
        for name, unit in self.automations.items():
            kept = old.get(name) is unit
            on[name] = before.on[name] if kept else entered(unit, before.on)
            since[name] = before.since[name] if kept else place
            entity = f"automation.{name}"
            states[entity] = before.states[entity] if before.on.get(name) is on[name] else switch_object(on[name], before.now)
        return Sight(states, before.now, on, since, before.known)

    def changed(self, before: Sight, entry: Entry, place: int) -> Sight:
        """The sight after an entry."""
        command = entry.command or {}
        if entry.restarts() or entry.opens():
            return self.opened(before.now, before.on, place) if entry.opens() else self.restarted(before, before.on, place)
        if "moment" in command:
            now = max(before.now, command["moment"])
            idle = {name: with_text(before, name, "idle", now) for name in self.finishing(before, now)}
            return replace(before, now=now, states={**before.states, **idle})
        if "report" in command:
            return replace(before, states={**before.states, command["report"]: reported(before, command)})
        if "gone" in command:
            return replace(before, states={k: v for k, v in before.states.items() if k != command["gone"]})
        for change in entry.changes():
            before = self.with_change(before, change)
        for name, on_now, _ in entry.switched():
            before = with_switch(before, name, on_now, place)
        return before

    def with_change(self, before: Sight, change: dict[str, Any]) -> Sight:
        """The sight with a helper changed."""
        name, text = change["entity"], change["text"]
        return replace(before, states={**before.states, name: with_text(before, name, text, before.now)},
                       known={**before.known, name: Known(text, change["span"], before.now)})

    def finishing(self, before: Sight, now: int) -> list[str]:
        """The timers that finish at a moment, as configured."""
        return [name for name in self.helpers
                if before.states[name].text == "active" and name in before.known and before.known[name].over(now)]

    def events(self, place: int) -> list[Event]:
        """The events of an entry: its own, those of its changes, and those of timers that finish there."""
        entry = self.entries[place]
        own = entry.event()
        if own is not None:
            return [own]
        found = [(one["event"], one["entity"]) for one in entry.changes() if one["event"] is not None]
        if entry.command and "moment" in entry.command:
            found = [("timer.finished", name) for name in self.finishing(self.after[place - 1], self.after[place].now)]
        return [(kind, {"entity_id": name}) for kind, name in found]

    def latest_number(self, entity: str, attribute: Optional[str], end: int) -> Optional[Num]:
        """The latest number that a report or change of an entity gave, in the segment and before place `end`."""
        for entry in reversed(self.entries[:end]):
            if entry.opens():
                return None
            number = reported_number(entry, entity, attribute)
            if number is not None:
                return number
        return None


def entered(unit: Unit, before: Mapping[str, bool]) -> bool:
    """The switch of an automation that comes into force, where these switches were set by name."""
    return before.get(unit.name, True) if unit.rules.initial is None else unit.rules.initial


def with_switch(before: Sight, name: str, on: bool, place: int) -> Sight:
    """The sight with a switch set."""
    if before.on[name] == on:
        return before
    since = {**before.since, name: place} if on else before.since
    return replace(before, states={**before.states, f"automation.{name}": switch_object(on, before.now)}, on={**before.on, name: on},
                   since=since)


def switch_object(on: bool, now: int) -> StateObject:
    """The state of an automation's entity."""
    return StateObject("on" if on else "off", {}, now, now)


def reported(before: Sight, command: Command) -> StateObject:
    """An entity's state after a report."""
    old = before.states.get(command["report"])
    text, attributes = command["state"], command["attributes"]
    changed = old.changed if old and old.text == text else before.now
    still = old and old.text == text and same(old.attributes, attributes)
    return StateObject(text, attributes, changed, old.updated if old and still else before.now)


def with_text(before: Sight, name: str, text: str, now: int) -> StateObject:
    """A helper's state with a text: since when it has had it without a break."""
    old = before.states[name]
    return old if old.text == text else StateObject(text, {}, now, now)


def reported_number(entry: Entry, entity: str, attribute: Optional[str]) -> Optional[Num]:
    """The number that an entry reports for an entity's text or attribute; a change of a helper has a text alone."""
    changed = next((one["text"] for one in entry.changes() if one["entity"] == entity), None)
    if changed is not None:
        return read_number(changed) if attribute is None else None
    command = entry.command or {}
    if command.get("report") != entity:
        return None
    text = command["state"] if attribute is None else attribute_text(command["attributes"].get(attribute))
    return None if text is None else read_number(text)
