"""Compares which templates the program and the second reading take."""

from __future__ import annotations

import pathlib
import random
import subprocess

from .expressions import Expressions
from .template import GrammarError, parse
from .yaml_out import yaml_text

PARTS = ("{{", "}}", "{%", "%}", "{#", "#}", "-", " ", "if", "else", "elif", "endif", "set", "=", "==", "not", "in", "is",
         "none", "defined", "and", "or", "|", "int", "(", ")", "[", "]", ",", ".", "~", "//", "%", "1", "1.5", "'", '"',
         "states", "n", "{{ 1 }}", "{% set x = 1 %}", "{% if 1 %}", "{% endif %}", "{%- else -%}", "min", "true", "\\", "\n",
         "round", "default", "replace", "iif", "1.", ".5", "5.x", "1if 2", "a.states", "states('a.b')", "has_value('a.b')")


def broken(dice: random.Random) -> str:
    """A template, mostly with something wrong in it."""
    text = Expressions(dice).any_template()
    for _ in range(dice.randint(0, 2)):
        at, end = dice.randrange(len(text) + 1), dice.randrange(len(text) + 1)
        text = dice.choice((text[:at] + dice.choice(PARTS) + text[at:], text[:at] + text[at + 1:],
                           text[:at] + dice.choice(PARTS) + text[max(at, end):], text.replace(" ", "", 1),
                           text.replace(" ", ""), text[:at] + text[max(at, min(end, at + 4)):]))
    return text


def is_template(text: str) -> bool:
    """Whether the second reading takes a text."""
    try:
        parse(text)
        return True
    except GrammarError:
        return False


def check(program: str, folder: pathlib.Path, texts: list[str]) -> str:
    """What `check` says of a configuration of templates: its first fault, or that it is one."""
    home = [{"alias": "a", "triggers": [], "conditions": texts, "actions": []}]
    (folder / "home.yaml").write_text(yaml_text(home), errors="surrogateescape")
    done = subprocess.run([program, "check", "home.yaml"], cwd=folder, capture_output=True, timeout=60)
    return (done.stderr or done.stdout.splitlines()[-1]).decode().strip()


def compare(program: str, folder: pathlib.Path, texts: list[str]) -> list[str]:
    """The texts of which the two think otherwise."""
    out: list[str] = []
    front = 4
    while texts:
        bad = next((at for at, text in enumerate(texts) if not is_template(text)), None)
        wanted = "ok 1" if bad is None else f"hearth: config line {front + bad + 1}: C11"
        found = check(program, folder, texts)
        if found == wanted:
            if bad is None:
                break
            texts = texts[bad + 1:]
        else:
            at = int(found.split()[3][:-1]) - front - 1 if "line" in found else len(texts)
            first = min(at, len(texts) if bad is None else bad)
            out.append(f"{texts[first]!r}: the program says {found}, the second reading {wanted}")
            texts = texts[first + 1:]
    return out


def differing(program: str, folder: pathlib.Path, seeds: range) -> tuple[int, list[str]]:
    """How many templates were compared, in a configuration of ten for each seed, and what is told of those that differ."""
    total, found = 0, []
    for seed in seeds:
        dice = random.Random(seed)
        texts = [broken(dice) for _ in range(10)]
        total += len(texts)
        found += compare(program, folder, texts)
    return total, found
