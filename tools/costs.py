"""What crates.txt says of the crates, and what a check of each takes by the table in docs/GATE.md: for the tools beside this file."""
import os
import re

TOP = os.path.dirname(os.path.dirname(os.path.realpath(__file__)))
# What a crate without a row, or with "less than 1" in it, is reckoned to take, in processor minutes.
FEW = 0.6


def crates(top=TOP):
    """The names of the crates, each behind those below it, with the names of those that it uses."""
    uses, found = {}, {}
    with open(f"{top}/crates.txt", encoding="utf-8") as it:
        for line in it:
            head, _, below = line.partition("#")[0].partition(":")
            if head.strip():
                uses[head.split()[0]] = below.split()

    def visit(name):
        if name not in found:
            own = [it for it in uses[name] if it in uses]
            for it in own:
                visit(it)
            found[name] = own

    for name in uses:
        visit(name)
    return found


def stands_on(uses, name):
    """The crates below a crate, and the crate itself, each behind those below it."""
    wanted, left = {name}, [name]
    for it in left:
        left += [below for below in uses[it] if below not in wanted and not wanted.add(below)]
    return [it for it in uses if it in wanted]


def above(uses, name):
    """The crates that stand on a crate, each behind those below it."""
    found = {name}
    for it, below in uses.items():
        if not found.isdisjoint(below):
            found.add(it)
    return [it for it in uses if it in found and it != name]


def minutes(top=TOP):
    """The processor minutes of proof, tests and edits, by crate, of each that has a row."""
    found, file = {}, f"{top}/docs/GATE.md"
    if not os.path.isfile(file):
        return found
    with open(file, encoding="utf-8") as it:
        rows = [line.strip().strip("|").split("|") for line in it if re.match(r"\| `\w+`.*\|$", line)]
    for cells in rows:
        names, spent = re.findall(r"`(\w+)`", cells[0]), [it.strip() for it in cells[1:4]]
        if len(spent) == 3 and all(re.fullmatch(r"[0-9.]*|less than 1( each)?", it) for it in spent):
            for name in names:
                found[name] = tuple(FEW if "less" in it else float(it or 0) for it in spent)
    return found


def of(table, name):
    return table.get(name, (FEW, 0, 0))


def longest(uses, among, weight):
    """The chain of crates, each of which waits for the one before it, that weighs most."""
    best = {}
    for name in uses:
        if name in among:
            below = max((best[it] for it in uses[name] if it in best), default=(0, []), key=lambda it: it[0])
            best[name] = below[0] + weight(name), [*below[1], name]
    return max(best.values(), key=lambda it: it[0])
