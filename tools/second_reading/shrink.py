"""Makes a home smaller while it keeps a property."""

from __future__ import annotations

import copy
from dataclasses import replace
from typing import Any, Callable, Iterator

from .generate import Home
from .reloads import Reload

Path = tuple[Any, ...]


def paths(value: Any, front: Path = ()) -> Iterator[Path]:
    """The places of all parts of a value, the larger ones first."""
    if isinstance(value, (dict, list)):
        for key in (value if isinstance(value, dict) else range(len(value))):
            yield front + (key,)
        for key in (value if isinstance(value, dict) else range(len(value))):
            yield from paths(value[key], front + (key,))


def at(value: Any, path: Path) -> Any:
    """The part at a place."""
    for key in path:
        value = value[key]
    return value


def without(value: Any, path: Path) -> Any:
    """A copy without the part at a place."""
    out = copy.deepcopy(value)
    del at(out, path[:-1])[path[-1]]
    return out


def with_inner(value: Any, path: Path) -> Iterator[Any]:
    """Copies in which a part is replaced by a part of it."""
    part = at(value, path)
    if not isinstance(part, (dict, list)):
        return
    for inner in (part.values() if isinstance(part, dict) else part):
        if isinstance(inner, (dict, list)):
            out = copy.deepcopy(value)
            at(out, path[:-1])[path[-1]] = copy.deepcopy(inner)
            yield out


def smaller_lines(home: Home) -> Iterator[Home]:
    """The home without a row of its lines."""
    size = len(home.lines)
    while size:
        for first in range(0, len(home.lines), size):
            yield replace(home, lines=home.lines[:first] + home.lines[first + size:])
        size //= 2


def smaller_automations(home: Home) -> Iterator[Home]:
    """The home without a part of its automations, or with a part in the place of what holds it."""
    for path in paths(home.automations):
        yield replace(home, automations=without(home.automations, path))
    for path in paths(home.automations):
        for found in with_inner(home.automations, path):
            yield replace(home, automations=found)


def smaller_scripts(home: Home) -> Iterator[Home]:
    """The home without a part of its scripts."""
    for path in paths(home.scripts or {}):
        yield replace(home, scripts=without(home.scripts, path))


def smaller_helpers(home: Home) -> Iterator[Home]:
    """The home without a part of its helpers."""
    for path in paths(home.helpers or {}):
        yield replace(home, helpers=without(home.helpers, path))


def smaller_reloads(home: Home) -> Iterator[Home]:
    """The home without a part of what one of its reloads brings."""
    for place, line in enumerate(home.lines):
        if isinstance(line, Reload) and line.automations is not None:
            whole = {"automations": line.automations, "scripts": line.scripts or {}, "helpers": line.helpers or {}}
            for path in paths(whole):
                if len(path) > 1:
                    made = Reload(**without(whole, path))
                    yield replace(home, lines=home.lines[:place] + [made] + home.lines[place + 1:])


def plainer(home: Home) -> Iterator[Home]:
    """The home without a store or its moments, or in UTC."""
    if home.stored is not None:
        yield replace(home, stored=None, last=None)
    if home.last is not None:
        yield replace(home, last=None)
    if home.zone != "UTC":
        yield replace(home, zone="UTC")


def shrink(home: Home, keeps: Callable[[Home], bool], budget: int = 3000) -> Home:
    """A home that is as small as one removal at a time makes it."""
    going = True
    while going and budget > 0:
        going = False
        for make in (smaller_lines, smaller_automations, smaller_scripts, smaller_helpers, smaller_reloads, plainer):
            found = True
            while found and budget > 0:
                found = False
                for one in make(home):
                    budget -= 1
                    if budget <= 0:
                        break
                    if keeps(one):
                        home, found, going = one, True, True
                        break
    return home
