"""The core: lines and steps are put, runs are admitted, begin and end; and what is written."""

from __future__ import annotations

from dataclasses import dataclass
from typing import Any, Mapping, Optional

from .clock import print_moment, read_moment, read_zone
from .conditions import Pairs, test_all
from .config import Config, read_whole
from .helpers import Helper, read_helpers
from .journal import NOTHING, Entry, Journal, Unit
from .lines import Command, commands_of, print_command, print_text, print_value, refused, target_automation
from .script import Script, Thread
from .triggers import firings
from .values import whole

LIMIT = 1_048_576
"""The entries of a segment."""
MOST_ENTRIES = 4_194_304
MOST_SEGMENTS = 1_024
MOST_RELOADS = 64
BY_HAND: Pairs = [("trigger", {"platform": None})]


class Full(Exception):
    """There is no room for what is due."""


@dataclass
class Record:
    """An admitted attempt: its run begins and ends at places."""

    serial: int
    unit: Unit
    number: int
    pairs: Pairs
    place: int
    begin: Optional[int] = None
    end: Optional[tuple[int, str]] = None
    calls: int = 0
    script: Optional[Script] = None
    thread: Optional[Thread] = None

    def is_live(self) -> bool:
        """From its admission to its end."""
        return self.end is None


class Engine:
    """The journal of one source with its records, and the lines that come of them. `texts` has what the texts of reloads are: a
    configuration, or none where the text is refused."""

    def __init__(self, config: Config, start: int, zone: str, stored: Mapping[str, bool], last: Mapping[str, int],
                 limit: int = LIMIT, texts: Optional[Mapping[str, Optional[Config]]] = None,
                 helpers: Optional[Mapping[str, Helper]] = None) -> None:
        self.journal = Journal(config, start, read_zone(zone), stored, helpers or {})
        self.texts = texts or {}
        self.reloads = 0
        self.taken = {name: at for name, at in last.items() if name in self.journal.automations}
        self.last = dict(self.taken)
        self.limit = limit
        self.front = 0
        self.segments = 1
        self.records: list[Record] = []
        self.calls: list[str] = []
        self.errors: list[str] = []
        self.trace: list[str] = []
        self.lines = 0
        self.attend(0)

    # Entries

    def put_line(self, command: Command) -> None:
        """Puts the next line of the source."""
        command, config = self.put_as(command)
        place = self.put(Entry(command=command, config=config), "restart" in command)
        self.reloads += config is not None
        self.trace.append(f'{{"source":0,"number":{self.lines},"cmd":{print_command(command)}}}')
        if "refused" in command:
            self.errors.append(f"source 0 line {self.lines}: {command['refused']}")
        self.lines += 1
        self.attend(place)
        if "restart" in command:
            self.open_segment()

    def put_as(self, command: Command) -> tuple[Command, Optional[Config]]:
        """What a command is put as by what is in force, with the configuration that it brings."""
        if (command.get("report") or command.get("gone")) in self.journal.helpers:
            return refused(14), None
        name = target_automation(command)
        if name is not None and name not in self.journal.automations:
            return refused(9), None
        if "reload" not in command:
            return command, None
        config = self.texts[command["reload"]]
        if config is None:
            return refused(12), None
        return (command, config) if self.reloads < MOST_RELOADS else (refused(13), None)

    def open_segment(self) -> None:
        """Puts what opens the next segment, right behind the restart that closed the last one."""
        self.last = self.last_in_force()
        self.front = self.journal.append(Entry(again=self.segments))
        self.trace.append(f'{{"again":{self.segments}}}')
        self.segments += 1
        self.attend(self.front)

    def ready(self) -> list[tuple[Record, tuple[int, ...]]]:
        """The pairs of a run and a branch that may step, by serial, then branch."""
        count = len(self.journal.entries)
        return [(record, branch) for record in self.records if record.thread is not None and record.is_live()
                for branch in record.thread.ready(count)]

    def put_step(self, record: Record, branch: tuple[int, ...]) -> None:
        """Puts a step of a run's branch."""
        assert record.script is not None and record.thread is not None
        self.check_room()
        record.script.item = NOTHING
        record.thread.step(branch, len(self.journal.entries))
        item = record.script.item
        place = self.put(Entry(serial=record.serial, branch=branch, item=item))
        self.trace.append(f'{{"worker":0,"run":{record.serial},"branch":[{",".join(map(str, branch))}],'
                          f'"item":{print_value(printable(item))}}}')
        self.write(record, item)
        if record.thread.status is not None:
            record.end = (place, record.thread.status)
        self.attend(place)

    def write(self, record: Record, item: dict[str, Any]) -> None:
        """The call line or error line of a step."""
        if "failed" in item:
            self.errors.append(f"run {record.serial} failed {item['failed']}")
        if "call" in item:
            record.calls += 1
            name = print_text(record.unit.name)
            self.calls.append(f'{{"run":{name},"number":{record.number},"call":{record.calls},'
                              + print_value(item["call"])[1:])

    def put(self, entry: Entry, restarts: bool = False) -> int:
        """Puts an entry, if there is room; behind a restart the next segment begins."""
        self.check_room(restarts)
        return self.journal.append(entry)

    def check_room(self, restarts: bool = False) -> None:
        """Whether one more entry has room: in its segment, in the journal and, of a restart, for what opens the next segment."""
        count = len(self.journal.entries)
        if count - self.front >= self.limit or count + restarts >= MOST_ENTRIES or restarts and self.segments >= MOST_SEGMENTS:
            raise Full

    # Ends, begins and attempts

    def attend(self, place: int) -> None:
        """What an entry does to runs: ends, begins of queued runs, and attempts."""
        entry = self.journal.entries[place]
        if entry.restarts():
            self.end_all(None, place, "restarted")
        if entry.config is not None:
            self.end_gone(place)
        for name, _, stop in entry.switched():
            if stop:
                self.end_all(self.journal.automations[name], place, "switched_off")
        for name in entry.halted():
            self.end_all(self.journal.scripts[name], place, "switched_off")
        self.begin_queued(place)
        for unit, pairs in self.attempts(place):
            self.admit(unit, pairs, place)

    def end_all(self, unit: Optional[Unit], place: int, cause: str) -> None:
        """Ends the live runs of an automation or script, or all."""
        for record in self.records:
            if record.is_live() and unit in (None, record.unit):
                record.end = (place, cause)

    def end_gone(self, place: int) -> None:
        """Ends the live runs of what a reload didn't keep."""
        kept = self.journal.units()
        for record in self.records:
            if record.is_live() and record.unit not in kept:
                record.end = (place, "reloaded")

    def begin_queued(self, place: int) -> None:
        """The queued runs whose predecessor ended here begin."""
        for unit in self.journal.units():
            live = [one for one in self.records if one.unit is unit and one.is_live()]
            if live and live[0].begin is None:
                self.begin(live[0], place)

    def begin(self, record: Record, place: int) -> None:
        """Begins a run."""
        record.begin = place
        record.script = Script(self.journal, self.has_ended)
        actions = record.unit.rules.actions
        record.thread = Thread((), record.script.run(actions, [list(record.pairs)]))

    def has_ended(self, place: int) -> bool:
        """Whether the run that was called at a place has ended; a call that had none ended at once."""
        called = next((one for one in self.records if one.place == place), None)
        return called is None or not called.is_live()

    def attempts(self, place: int) -> list[tuple[Unit, Pairs]]:
        """The attempts of an entry that pass, in order."""
        entry, sight = self.journal.entries[place], self.journal.after[place]
        started = entry.started()
        if started is not None:
            return [(self.journal.scripts[name], BY_HAND + list(started["data"].items())) for name in started["scripts"]]
        named, skip = named_attempts(entry)
        known = self.journal.automations
        if named is not None:
            tried = [(known[name], BY_HAND) for name in named]
        else:
            tried = [(unit, [("trigger", fired)]) for name, unit in known.items() if sight.on[name]
                     for fired in firings(self.journal, unit.rules.triggers, sight.since[name], place)]
        return [(unit, pairs) for unit, pairs in tried
                if skip or test_all(unit.rules.tests, sight, self.journal.zone, pairs)]

    def admit(self, unit: Unit, pairs: Pairs, place: int) -> None:
        """Admits an attempt by the mode of its automation or script, or refuses it."""
        mode, most = unit.rules.mode, unit.rules.max
        live = [one for one in self.records if one.unit is unit and one.is_live()]
        if mode == "single" and live or mode in ("queued", "parallel") and len(live) >= most:
            return
        if mode == "restart":
            self.end_all(unit, place, "replaced")
        number = 1 + sum(one.unit.name == unit.name for one in self.records)
        if unit.name in self.journal.automations:
            self.last[unit.name] = self.journal.after[place].now
        record = Record(len(self.records) + 1, unit, number, pairs, place)
        self.records.append(record)
        if mode != "queued" or not live:
            self.begin(record, place)

    # The whole

    def run(self, commands: list[Command]) -> int:
        """Puts all lines with the steps that they cause, and tells the status. A source is rested where a segment begins."""
        try:
            for command in commands:
                self.put_line(command)
                if not self.journal.entries[-1].opens():
                    self.settle()
            self.settle()
        except Full:
            return 7
        return 0

    def settle(self) -> None:
        """Steps until the journal is quiet."""
        while ready := self.ready():
            self.put_step(*ready[0])

    def last_in_force(self) -> dict[str, int]:
        """When automations last triggered, of those in force."""
        return {name: at for name, at in self.last.items() if name in self.journal.automations}

    def store_text(self) -> str:
        """When automations in force last triggered, and their switches, by name."""
        on = dict(sorted(self.journal.after[-1].on.items()))
        last = {name: print_moment(at) for name, at in sorted(self.last_in_force().items())}
        return print_value({"last": last, "switches": on})[:-1] + ',"version":2}'


def printable(item: dict[str, Any]) -> dict[str, Any]:
    """An item as a trace has it: the spans of changes in milliseconds."""
    if "helped" not in item:
        return item
    return {"helped": [one | {"span": None if one["span"] is None else whole(one["span"])} for one in item["helped"]]}


def named_attempts(entry: Entry) -> tuple[Optional[list[str]], bool]:
    """The automations that a command or call names, and whether their conditions are skipped."""
    if entry.command and "trigger" in entry.command:
        return [entry.command["trigger"].split(".")[1]], entry.command["skip_condition"]
    if entry.item and "triggered" in entry.item:
        return entry.item["triggered"]["automations"], entry.item["triggered"]["skip_condition"]
    return None, False


@dataclass
class Outcome:
    """What `run` writes, and its status."""

    status: int
    calls: list[str]
    errors: list[str]
    store: str
    trace: list[str]
    engine: Engine


def run_home(automations: list[dict[str, Any]], source: bytes, start: str = "2024-05-01T20:00:00Z",
             zone: str = "UTC", text: str = "", stored: Optional[dict[str, bool]] = None,
             last: Optional[dict[str, int]] = None, limit: int = LIMIT, scripts: Optional[dict[str, Any]] = None,
             helpers: Optional[dict[str, Any]] = None, texts: Optional[Mapping[str, Optional[Config]]] = None) -> Outcome:
    """What a home's lines come to. `last` has when automations last triggered, as a store of version 2 keeps it, `texts` what the texts
    of its reloads are."""
    began = read_moment(start)
    assert began is not None
    engine = Engine(read_whole(automations, scripts), began, zone, stored or {}, last or {}, limit, texts,
                    read_helpers(helpers or {}))
    taken = {name: print_moment(at) for name, at in sorted(engine.taken.items())}
    status = engine.run(commands_of(source))
    boot = print_value({"boot": {"config": text, "stored": stored, **({"last": taken} if taken else {}),
                                 "start": print_moment(began), "zone": zone}})
    end = [f'{{"end":{len(engine.journal.entries)}}}'] if status == 0 else []
    errors = engine.errors + (["hearth: journal full"] if status == 7 else [])
    return Outcome(status, engine.calls, errors, engine.store_text(), [boot] + engine.trace + end, engine)
