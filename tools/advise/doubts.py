"""What nobody can have meant in the automations and scripts of a file that are taken."""

from __future__ import annotations

from .walk import Walk
from .whole_file import Automation, File

Doubt = tuple[Automation, int, str]


def doubts_of(file: File) -> list[Doubt]:
    """The doubts of each automation without faults, in its order, and of the scripts where all are taken."""
    known = ({one.name for one in file.automations}, {one.name for one in file.scripts}, file.helpers)
    out: list[Doubt] = []
    for automation in file.automations:
        if automation.node.kind != "map":
            continue
        out += lost_letters(automation)
        if not automation.faults:
            said: list[tuple[int, str]] = []
            Walk(automation.node, f"automation.{automation.name}", known, lambda line, text: said.append((line, text))).go()
            out += [(automation, line, text) for line, text in said]
    for script in file.scripts if not file.faults else []:
        said = []
        Walk(script.node, f"script.{script.name}", known, lambda line, text: said.append((line, text))).go_script()
        out += [(script, line, text) for line, text in said]
    return out


def lost_letters(automation: Automation) -> list[Doubt]:
    """An alias with letters beyond ASCII, which its name has not."""
    title = automation.node.get("alias", "id")
    if title is None or not any(char.isalpha() and not char.isascii() for char in title.text):
        return []
    return [(automation, title.line, f"`{title.text}` has letters beyond ASCII: its name is `automation.{automation.name}`; "
                                     "for another name write the alias in ASCII")]
