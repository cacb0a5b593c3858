"""Compares a program with the second reading: worked homes, homes at the bounds, homes and templates made up from fixed seeds."""

from __future__ import annotations

import argparse
import pathlib
import sys
import tempfile

from .both import BOTH
from .called import CALLED
from .compare import Comparer
from .corners import HOMES
from .engine import LIMIT
from .grammar import differing
from .helped import HELPED
from .reloaded import RELOADED
from .rows import ROWS, TEMPLATES, row_faults
from .styles import STYLES


def complain(text: str) -> None:
    """Tells of a failure, on standard error."""
    print(f"homes: {text}", file=sys.stderr)


def check_corners(program: str, folder: pathlib.Path) -> int:
    """How many homes at the bounds differ; each is named, and the first is made small and told."""
    comparer = Comparer(program, folder, LIMIT)
    bad = [name for name, home in HOMES.items() if comparer.differs(home)]
    for name in bad:
        complain(f"{name} differs")
    if bad:
        complain(comparer.told_small(HOMES[bad[0]]))
    return len(bad)


def check_style(comparer: Comparer, style: str, seeds: range) -> int:
    """How many homes of a style differ; the first of them is made small and told."""
    bad = 0
    for seed in seeds:
        home = STYLES[style](seed)
        if comparer.differs(home):
            bad += 1
            complain(f"home {seed} of the style {style} differs")
            if bad == 1:
                complain(comparer.told_small(home))
    return bad


def check_all(program: str, folder: pathlib.Path, seeds: range) -> bool:
    """Compares all, prints the line of result, and tells whether something was compared of each style, and nothing failed."""
    rows = ROWS + CALLED + HELPED + RELOADED + BOTH
    failed, passed, empty = check_corners(program, folder), len(HOMES) + len(rows) + len(TEMPLATES), []
    for style in STYLES:
        comparer = Comparer(program, folder)
        failed += check_style(comparer, style, seeds)
        passed += comparer.counts["homes"]
        if not comparer.counts["calls"]:
            empty.append(style)
            complain(f"no call of the style {style} was compared")
    count, unlike = differing(program, folder, seeds)
    wrong = row_faults(rows) + unlike
    for text in wrong:
        complain(text)
    failed += len(wrong)
    print(f"homes: {passed + count - failed} passed, {failed} failed")
    return not (failed or empty) and count > 0


def main() -> None:
    """The words: a program, and perhaps the first seed and the count of seeds of each style."""
    words = argparse.ArgumentParser(prog="second_reading", description=__doc__)
    words.add_argument("program")
    words.add_argument("--first", type=int, default=0)
    words.add_argument("--count", type=int, default=15)
    found = words.parse_args()
    with tempfile.TemporaryDirectory() as name:
        if not check_all(found.program, pathlib.Path(name), range(found.first, found.first + found.count)):
            sys.exit(1)


if __name__ == "__main__":
    main()
