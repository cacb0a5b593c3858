"""What is told of a file, line by line."""

from __future__ import annotations

from dataclasses import dataclass, replace

from .cures import told
from .notation import Fault
from .whole_file import Automation, File


@dataclass(frozen=True, order=True)
class Line:
    """A line of the report, by its place in the file and its code's number (0 where it is no refusal)."""

    line: int
    code: int
    text: str
    name: str

    def shown(self) -> str:
        """The line as it is printed."""
        return f"line {self.line}: {self.name or 'the file'}: {self.text}"


def refusals(faults: list[Fault], name: str) -> list[Line]:
    """The lines of faults. What a blueprint lacks is told once."""
    blueprint = [fault for fault in faults if fault.code == "C5" and fault.word == "use_blueprint"]
    if blueprint:
        first = min(fault.line for fault in faults)
        faults = [Fault(first, "C6", "use_blueprint")] + [fault for fault in faults if fault.code != "C6" and fault not in blueprint]
    return [Line(fault.line, int(fault.code[1:]), told(fault), name) for fault in faults]


def lines_of(file: File, doubts: list[tuple[Automation, int, str]]) -> list[Line]:
    """The lines of a file: what `check` tells first, then the others by their place."""
    found = refusals(file.faults, "")
    if file.is_cut and not file.automations:
        found = [replace(line, text=line.text + "; the automations can't be told apart before it") for line in found]
    for automation in file.automations:
        own = refusals(automation.faults, f"automation {automation.name}")
        if automation.node.kind == "open" and own:
            own[-1] = replace(own[-1], text=own[-1].text + "; what else this automation has is told when that is mended")
        found += own
    found += [Line(line, 0, text, f"{one.kind} {one.name}") for one, line, text in doubts]
    found = sorted(set(found))
    first = file.refusal
    if first is not None:
        found.sort(key=lambda one: (one.line, one.code) != (first.line, int(first.code[1:])))
    return found


def count_line(file: File, lines: list[Line]) -> str:
    """The last line, which counts."""
    refused = sum(1 for one in file.automations if one.faults)
    return f"automations {len(file.automations)}, refused {refused}, told {len(lines)}"
