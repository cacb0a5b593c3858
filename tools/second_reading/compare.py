"""Runs homes through the program and through the second reading, and tells where they differ."""

from __future__ import annotations

import collections
import json
import pathlib
import subprocess
from dataclasses import dataclass
from typing import Optional, Union

from .clock import print_moment
from .engine import Outcome, run_home
from .generate import Home
from .lines import print_value
from .reloads import Reload, line_text, texts_of
from .shrink import shrink
from .yaml_out import yaml_text

LIMIT = 700
"""The entries of the longest journal that is compared."""

ENDLESS = 124
"""Stands for the status of a program that doesn't end."""


@dataclass
class Answer:
    """What the program wrote, and its status."""

    status: int
    calls: list[str]
    errors: list[str]
    store: str
    trace: list[str]


def stored_text(home: Home) -> Optional[str]:
    """The text of the store before the run: of version 2 where it has moments, else of version 1."""
    if home.stored is None:
        return None
    if home.last is None:
        return print_value({"switches": home.stored})[:-1] + ',"version":1}'
    last = {name: print_moment(at) for name, at in home.last.items()}
    return print_value({"last": last, "switches": home.stored})[:-1] + ',"version":2}'


def text_of(home: Home) -> str:
    """The configuration of a home."""
    return yaml_text(home.automations, home.scripts, home.helpers)


def lines_of(data: bytes) -> list[str]:
    """The lines of what was written."""
    return data.decode("utf-8", "surrogateescape").splitlines() if b"\r" not in data else [repr(data)]


def answer_of(program: str, home: Home, folder: pathlib.Path) -> Answer:
    """Runs the program on a home in a folder of its own."""
    (folder / "home.yaml").write_text(text_of(home))
    (folder / "lines.txt").write_bytes(home.source())
    store, trace = folder / "hearth_store.json", folder / "trace.txt"
    for old in (store, trace):
        old.unlink(missing_ok=True)
    if home.stored is not None:
        store.write_text(stored_text(home) or "")
    words = [program, "run", "--config", "home.yaml", "--start", home.start, f"--zone={home.zone}", "--trace",
             "trace.txt", "lines.txt"]
    try:
        done = subprocess.run(words, cwd=folder, capture_output=True, timeout=60, check=False)
    except subprocess.TimeoutExpired:
        return Answer(ENDLESS, [], ["no end in 60 s"], "", [])
    return Answer(done.returncode, lines_of(done.stdout), lines_of(done.stderr),
                  store.read_text() if store.exists() else "", lines_of(trace.read_bytes()) if trace.exists() else [])


def outcome_of(home: Home, limit: int) -> Outcome:
    """What the second reading makes of a home."""
    return run_home(home.automations, home.source(), home.start, home.zone, text_of(home), home.stored, home.last, limit,
                    home.scripts, home.helpers, texts_of(home.lines))


def first_difference(what: str, here: list[str], there: list[str]) -> list[str]:
    """The first place at which two lists of lines differ."""
    if here == there:
        return []
    at = next((n for n, (one, other) in enumerate(zip(here, there)) if one != other), min(len(here), len(there)))
    pick = [part[at] if at < len(part) else "nothing" for part in (here, there)]
    return [f"{what} {at}: the program has {pick[0]}", f"{what} {at}: the second reading has {pick[1]}"]


def differences(answer: Answer, outcome: Outcome) -> list[str]:
    """Where the program's answer and the second reading's differ."""
    found = first_difference("status", [str(answer.status)], [str(outcome.status)])
    for what in ("calls", "errors", "trace"):
        found += first_difference(what, getattr(answer, what), getattr(outcome, what))
    return found + first_difference("store", [answer.store.rstrip("\n")], [outcome.store])


def written(who: str, one: Union[Answer, Outcome]) -> list[str]:
    """All that one of the two wrote, but the boot's line of the trace, which has the configuration in it."""
    return [f"{who}: status {one.status}", *one.calls, *one.errors, one.store.rstrip("\n"), *one.trace[1:], ""]


def told(home: Home, answer: Answer, outcome: Outcome) -> str:
    """A home, its lines, what each of the two wrote, and where that differs, as text."""
    head = f"start {home.start}, zone {home.zone}, stored {json.dumps(home.stored)}, last {json.dumps(home.last)}"
    both = written("the program", answer) + written("the second reading", outcome)
    whole = text_of(home)
    return "\n".join([head, "", whole, *map(line_text, home.lines), "", *both, *differences(answer, outcome)])


class Comparer:
    """One program, with the folder that it is run in and counts of what was compared."""

    def __init__(self, program: str, folder: pathlib.Path, limit: int = LIMIT) -> None:
        self.program = program
        self.folder = folder
        self.limit = limit
        self.counts: collections.Counter[str] = collections.Counter()

    def differs(self, home: Home) -> bool:
        """Whether the two differ on a home; not where its journal has more entries than are compared."""
        outcome = outcome_of(home, self.limit)
        if outcome.status == 7:
            return False
        self.counts["homes"] += 1
        self.counts["calls"] += len(outcome.calls)
        return bool(differences(answer_of(self.program, home, self.folder), outcome))

    def still_differs(self, home: Home) -> bool:
        """Whether the two differ on a part of a home, which both have to take."""
        try:
            outcome = outcome_of(home, self.limit)
        except Exception:  # pylint: disable=broad-except
            return False
        if outcome.status == 7:
            return False
        answer = answer_of(self.program, home, self.folder)
        return answer.status != 2 and bool(differences(answer, outcome)) and self.takes_reloads(home)

    def takes_reloads(self, home: Home) -> bool:
        """Whether the program takes what the reloads of a home bring."""
        for line in home.lines:
            if isinstance(line, Reload) and line.automations is not None:
                (self.folder / "brought.yaml").write_text(line.text())
                words = [self.program, "check", "brought.yaml"]
                if subprocess.run(words, cwd=self.folder, capture_output=True, timeout=60, check=False).returncode != 0:
                    return False
        return True

    def told_small(self, home: Home) -> str:
        """The smallest part of a home on which the two still differ, told; the whole of one that doesn't end."""
        if answer_of(self.program, home, self.folder).status != ENDLESS:
            home = shrink(home, self.still_differs)
        return told(home, answer_of(self.program, home, self.folder), outcome_of(home, self.limit))
