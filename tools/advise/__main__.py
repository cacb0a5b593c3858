"""`advise FILE`: what of a configuration would be refused, and what in it nobody can have meant.

Status 0 where nothing is told, 1 where something is or the words are others, 3 where the file can't be read.
"""

from __future__ import annotations

import sys

from .doubts import doubts_of
from .report import count_line, lines_of
from .whole_file import LONGEST, read_file

DEEPEST = 20_000


def main(words: list[str]) -> int:
    """Prints what is told of the file of the words."""
    if len(words) != 1:
        print("hearth: usage: advise FILE", file=sys.stderr)
        return 1
    try:
        with open(words[0], "rb") as source:
            raw = source.read(LONGEST + 1)
    except OSError:
        print(f"hearth: cannot open {words[0]}", file=sys.stderr)
        return 3
    sys.setrecursionlimit(DEEPEST)
    file = read_file(raw)
    lines = lines_of(file, doubts_of(file))
    for line in lines:
        print(line.shown())
    print(count_line(file, lines))
    return 1 if lines else 0


if __name__ == "__main__":
    sys.exit(main(sys.argv[1:]))
