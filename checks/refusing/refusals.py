"""refusals.py PROGRAM LIBRARY [STEP]: runs homes over the program again and again, with one growth of memory refused after the other, or one
read, write, opening or renaming, each alone and each with all of its kind behind it, and asks what stands then. With STEP each so
many growths one is refused.

No answer needs two of the growths, and a run from which one of these is kept is the whole run: the room that `main` asks for before it
lists the words, which then grows word by word; and the marks by which the last runs of an automation are found, without which they are
looked for (`run_modes`)."""

from __future__ import annotations

import os
import pathlib
import struct
import subprocess
import sys
import tempfile
from dataclasses import dataclass, field

PROGRAM, LIBRARY = sys.argv[1:3]
STEP = int(sys.argv[3]) if len(sys.argv) > 3 else 1

USAGE = "hearth: usage: run --config F --start MOMENT [--zone Z] [--trace F] SOURCE.. | check F | replay F | rehearse N"
TOLD = struct.Struct("@L248s")
NO_MEMORY = "hearth: no memory\n"
STORE = "hearth_store.json"
START = "2024-05-01T20:00:00Z"
GO = "triggers: [{trigger: event, event_type: go}]"

RUN = ["run", "--config", "home.yaml", "--start", START, "--trace", "run.trace", "reports.txt"]


def report(entity: str, state: str) -> str:
    return f'{{"report":"{entity}","state":"{state}"}}'


def moment(time: str) -> str:
    return f'{{"moment":"2024-05-01T{time}Z"}}'


def store(*triggered: str, **switches: bool) -> str:
    """The store where these automations last triggered at the start."""
    last = ",".join(f'"{name}":"2024-05-01T20:00:00.000Z"' for name in sorted(triggered))
    pairs = ",".join(f'"{name}":{str(on).lower()}' for name, on in sorted(switches.items()))
    return f'{{"last":{{{last}}},"switches":{{{pairs}}},"version":2}}'


@dataclass
class Home:
    """What lies in the folder of a run, the words, how the run ends where nothing is refused, and what it stores, in order."""

    name: str
    config: str
    lines: list[str]
    calls: list[str]
    stored: list[str]
    errors: list[str] = field(default_factory=list)
    status: int = 0
    words: list[str | bytes] = field(default_factory=lambda: RUN)
    files: dict[str, str] = field(default_factory=dict)


HALL = """\
- id: '1700000000001'
  alias: Hall light
  description: ''
  triggers:
  - trigger: state
    entity_id:
    - binary_sensor.hall
    from:
    to: 'on'
  conditions: []
  actions:
  - action: light.turn_on
    metadata: {}
    data:
      brightness: 128
    target:
      entity_id: light.hall
  - delay:
      hours: 0
      minutes: 2
      seconds: 0
      milliseconds: 0
  - action: light.turn_off
    target:
      entity_id: light.hall
  mode: restart
"""

EMPTY_TRACE = (
    '{"boot":{"config":"[]\\n","stored":null,"start":"2024-05-01T20:00:00.000Z","zone":"UTC"}}\n'
    '{"source":0,"number":0,"cmd":{"moment":"2024-05-01T20:00:01.000Z"}}\n'
    '{"end":2}\n'
)

WAITS = f"""\
- {{alias: z, triggers: [], actions: []}}
- alias: a
  {GO}
  actions:
    - {{delay: 5}}
    - {{action: automation.turn_off, target: {{entity_id: automation.z}}}}
    - {{action: automation.turn_on, target: {{entity_id: automation.z}}}}
- alias: b
  {GO}
  actions:
    - {{wait_template: "{{{{ is_state('automation.z', 'off') }}}}", timeout: 10}}
    - {{action: notify.b, data: {{done: "{{{{ wait.completed }}}}", left: "{{{{ wait.remaining }}}}"}}}}
"""

QUEUE = f"""\
- alias: a
  mode: queued
  max: 2
  {GO}
  actions:
    - {{delay: 5}}
    - {{action: notify.q, data: {{n: "{{{{ trigger.event.data.n }}}}"}}}}
"""

FAILS = f"""\
- alias: a
  {GO}
  actions: [{{action: notify.x, data: {{v: "{{{{ states('sensor.no')|int }}}}"}}}}]
"""


def call(run: str, number: int, count: int, service: str, target: str, data: str) -> str:
    return (
        f'{{"run":"{run}","number":{number},"call":{count},"service":"{service}",'
        f'"target":[{target}],"data":{{{data}}}}}'
    )


HOMES = [
    Home(
        "a light with a delay",
        HALL,
        [report("binary_sensor.hall", "off"), report("binary_sensor.hall", "on"), moment("20:02:00")],
        [
            call("hall_light", 1, 1, "light.turn_on", '"light.hall"', '"brightness":128'),
            call("hall_light", 1, 2, "light.turn_off", '"light.hall"', ""),
        ],
        [store(hall_light=True), store("hall_light", hall_light=True)],
    ),
    Home(
        "a wait and switches",
        WAITS,
        ['{"event":"go"}', moment("20:00:05")],
        [call("b", 1, 1, "notify.b", "", '"done":true,"left":5.0')],
        [store(a=True, b=True, z=True)] + [store("a", "b", a=True, b=True, z=z) for z in (True, False, True)],
    ),
    Home(
        "a queue",
        QUEUE,
        [f'{{"event":"go","data":{{"n":{n}}}}}' for n in (1, 2, 3)] + [moment("20:00:05"), moment("20:00:10")],
        [call("a", 1, 1, "notify.q", "", '"n":1'), call("a", 2, 1, "notify.q", "", '"n":2')],
        [store(a=True), store("a", a=True)],
    ),
    Home("no automation", "[]\n", [moment("20:00:01")], [], [store()]),
    Home(
        "lines that are refused, and a run that fails",
        FAILS,
        ['{"report":"light.x"}', '{"event":"go"}', "bad"],
        [],
        [store(a=True), store("a", a=True)],
        ["source 0 line 0: L4", "run 1 failed F1", "source 0 line 2: L2"],
    ),
    Home(
        "a stored switch",
        HALL,
        [report("binary_sensor.hall", "on")],
        [],
        [store(hall_light=False)],
        files={STORE: '{"switches":{"hall_light":false},"version":1}'},
    ),
    Home(
        "a configuration that is refused",
        "automation: {alias: a}\n",
        [],
        [],
        [],
        ["hearth: config line 1: C6"],
        2,
    ),
    Home(
        "a check",
        HALL,
        [],
        ["automation.hall_light restart 10 triggers 1 conditions 0 actions 3", "ok 1"],
        [],
        words=["check", "home.yaml"],
    ),
    Home("a replay", "", [], [], [], words=["replay", "t"], files={"t": EMPTY_TRACE}),
    Home("a rehearsal", "", [], ["lines 5", "entries 20", "runs 3", "calls 6"], [], words=["rehearse", "5"]),
    Home("words that are none", "", [], [], [], [USAGE], 1, words=["walk"]),
    Home("words that are no text", "", [], [], [], [USAGE], 1, words=["walk", b"\xff"]),
]


def text_of(lines: list[str]) -> str:
    return "".join(line + "\n" for line in lines)


@dataclass
class Refusal:
    """Which call is refused: its kind, its number from 1, or none, and whether all of its kind behind it are too."""

    kind: str
    at: int = 0
    later: bool = False

    def __str__(self) -> str:
        return f"{self.kind} {self.at}{' and all behind it' if self.later else ''}"


@dataclass
class Answer:
    """How a run ended, what it wrote, how many calls of the kind it made, and of what object the first refused one was."""

    status: int
    out: str
    err: str
    trace: str
    store: str | None
    calls: int
    object: str


def read(path: pathlib.Path) -> str | None:
    return path.read_text(encoding="utf-8") if path.exists() else None


def run(home: Home, refusal: Refusal) -> Answer:
    """Runs the home in a folder of its own."""
    with tempfile.TemporaryDirectory() as name:
        folder = pathlib.Path(name)
        for file, text in {"home.yaml": home.config, "reports.txt": text_of(home.lines), **home.files}.items():
            (folder / file).write_text(text, encoding="utf-8")
        told = folder / "told"
        more = {"REFUSE_LATER": "1"} if refusal.later else {}
        environment = {
            **os.environ,
            **more,
            "LD_PRELOAD": LIBRARY,
            "REFUSE_KIND": refusal.kind,
            "REFUSE_AT": str(refusal.at),
            "REFUSE_TOLD": str(told),
        }
        done = subprocess.run([PROGRAM, *home.words], cwd=folder, env=environment, capture_output=True, timeout=60, check=False)
        calls, thing = TOLD.unpack(told.read_bytes())
        return Answer(
            done.returncode,
            done.stdout.decode(),
            done.stderr.decode(),
            read(folder / "run.trace") or "",
            read(folder / STORE),
            calls,
            thing.rstrip(b"\0").decode(),
        )


FAULTS: list[str] = []
SPARED: dict[str, int] = {}
"""How many growths of each home no answer needed."""
PASSED = 0


def ask(home: Home, refusal: Refusal, what: str, holds: bool, answer: Answer) -> None:
    """Counts a question that was answered as it should be, or keeps what went wrong."""
    global PASSED
    if holds:
        PASSED += 1
    else:
        FAULTS.append(f"{home.name}, {refusal}: {what}: {answer}")


def is_errors(whole: list[str], line: str, found: str, cut: bool) -> bool:
    """Whether it is a front of the errors, and then the status line, or a front of that where it may be cut."""
    text = text_of([error for error in whole if not error.startswith("hearth: ")])
    lines = [text[:end] for end in range(len(text) + 1)] if cut else [text_of(text.splitlines()[:n]) for n in range(len(text.splitlines()) + 1)]
    for front in lines:
        if found == front + line or (cut and found.startswith(front) and line.startswith(found[len(front):])):
            return True
    return False


def ask_fronts(home: Home, refusal: Refusal, whole: Answer, answer: Answer) -> None:
    """What was written is a front of what the whole run writes, and what is stored is old or one that the run stores."""
    ask(home, refusal, "the calls are no front", whole.out.startswith(answer.out), answer)
    ask(home, refusal, "the trace is no front", whole.trace.startswith(answer.trace), answer)
    may_be = [home.files.get(STORE), *home.stored]
    ask(home, refusal, "the store is another", answer.store in may_be, answer)


def is_whole(whole: Answer, answer: Answer) -> bool:
    """Whether a run wrote and stored all that the whole run does, and ended alike."""
    return (answer.status, answer.out, answer.err, answer.trace, answer.store) == (
        whole.status,
        whole.out,
        whole.err,
        whole.trace,
        whole.store,
    )


def ask_growth(home: Home, refusal: Refusal, whole: Answer, answer: Answer) -> None:
    """A refused growth ends the run by want of memory, unless no answer needs it. Its line is cut where its own growth is refused."""
    if not refusal.later and is_whole(whole, answer):
        SPARED[home.name] = SPARED.get(home.name, 0) + 1
        most = 2 if '"worker"' in whole.trace or home.words[0] == "rehearse" else 1
        ask(home, refusal, "more growths than two are not needed", SPARED[home.name] <= most, answer)
        return
    ask(home, refusal, "the status is not 10", answer.status == 10, answer)
    of_status = text_of(home.errors[-1:]) if whole.status else ""
    cut = refusal.later or whole.status != 0
    told = is_errors(home.errors, NO_MEMORY, answer.err, cut) or (cut and of_status.startswith(answer.err))
    ask(home, refusal, "other errors", told, answer)
    ask_fronts(home, refusal, whole, answer)


def status_of(home: Home, kind: str, thing: str, number: int) -> tuple[int, str]:
    """The status, and its line, that a call of this kind on this object ends with; `number` counts the refused reads of the object."""
    if thing in (STORE, STORE + ".new"):
        return 6, "hearth: store failed\n"
    if kind == "open":
        return 3, f"hearth: cannot open {thing}\n"
    if kind == "read":
        return 4, "hearth: config failed\n" if thing == "home.yaml" else "hearth: source 0 failed\n"
    if thing == "errors" and home.status:
        # what could not be written is the status line itself
        return home.status, text_of(home.errors[-1:])
    return 5, "hearth: write failed\n"


def ask_lost(home: Home, refusal: Refusal, whole: Answer, answer: Answer) -> None:
    """A source that could not be read on has its lines so far, and then that it is lost. The trace has its end."""
    lines = answer.trace.splitlines()
    before = [line for line in lines if not line.startswith(("{\"end\"", '{"source":0,"number":0,"cmd":{"lost"'))]
    lost = [f"source 0 line {count}: lost" for count in (0, len(home.lines))]
    errors = answer.err.splitlines()
    ask(home, refusal, "it is not told as lost", len(errors) > 1 and errors[-2] in lost and errors[-1] == "hearth: source 0 failed", answer)
    ask(home, refusal, "other errors before", home.errors[: len(errors) - 2] == errors[:-2], answer)
    ask(home, refusal, "the calls are no front", whole.out.startswith(answer.out), answer)
    ask(home, refusal, "the store is another", answer.store in [*home.stored], answer)
    if home.words == RUN:
        ask(home, refusal, "the trace has no end", lines[-1] == f'{{"end":{len(lines) - 1}}}', answer)
        ask(home, refusal, "the lost source is not in the trace", lines[-2].endswith('"cmd":{"lost":true}}'), answer)
        ask(home, refusal, "the trace is no front", whole.trace.startswith(text_of(before[:-1] if lines[-2] in before else before)), answer)


def ask_call(home: Home, refusal: Refusal, whole: Answer, answer: Answer) -> None:
    """A refused call of the system ends the run with the status of its object."""
    status, line = status_of(home, refusal.kind, answer.object, refusal.at)
    ask(home, refusal, f"the status is not {status}", answer.status == status, answer)
    if status == 4 and answer.object != "home.yaml" and home.words == RUN:
        ask_lost(home, refusal, whole, answer)
        return
    cut = refusal.kind in ("write", "zero") and (refusal.later or (answer.object == "errors" and home.status != 0))
    ask(home, refusal, "other errors", is_errors(home.errors, line, answer.err, cut), answer)
    if status == 3:
        ask(home, refusal, "something is stored", answer.store == home.files.get(STORE), answer)
    ask_fronts(home, refusal, whole, answer)


def compare_whole(home: Home) -> None:
    """With the library, and nothing refused, the run ends as was worked out by hand."""
    none = Refusal("growth")
    answer = run(home, none)
    ask(home, none, "another status", answer.status == home.status, answer)
    ask(home, none, "other calls", answer.out == text_of(home.calls), answer)
    ask(home, none, "other errors", answer.err == text_of(home.errors), answer)
    last = home.stored[-1] if home.stored else home.files.get(STORE)
    ask(home, none, "another store", answer.store == last, answer)


def refuse_all(home: Home, kind: str, judge) -> int:
    """Refuses one call of the kind after the other, and gives how many there are."""
    whole = run(home, Refusal(kind))
    for at in range(1, whole.calls + 1, STEP if kind == "growth" else 1):
        for later in (False, True):
            refusal = Refusal(kind, at, later)
            answer = run(home, refusal)
            ask(home, refusal, "fewer calls", answer.calls >= at, answer)
            judge(home, refusal, whole, answer)
    return whole.calls


def main() -> int:
    counts: dict[str, int] = {}
    for home in HOMES:
        compare_whole(home)
        for kind in ("growth", "open", "read", "write", "zero", "rename"):
            judge = ask_growth if kind == "growth" else ask_call
            counts[kind] = counts.get(kind, 0) + refuse_all(home, kind, judge)
    for fault in FAULTS[:20]:
        print(f"refusals: {fault}", file=sys.stderr)
    told = ", ".join(f"{kind} {count}" for kind, count in counts.items())
    print(f"refusals: {PASSED} passed, {len(FAULTS)} failed ({told}; not needed {sum(SPARED.values())})")
    return 1 if FAULTS or not all(counts.values()) else 0


if __name__ == "__main__":
    sys.exit(main())
