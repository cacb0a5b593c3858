"""Templates made up from a seed, over the whole grammar."""

from __future__ import annotations

import random
from typing import Callable

from .template import GrammarError, parse

ENTITIES = ("sensor.t", "light.x", "sensor.no")
NUMBERS = ("0", "1", "2", "3", "7", "10", "0.5", "2.5", "1.0", "0.000001", "1000000000000", "999999999999.5", "3.75")
TEXTS = ("''", "'on'", "'1'", "'2.50'", "' 3 '", "'-0'", "'x'", "'abc'", "'1000000000001'", '"B"', "'+5'", "'1.'",
         r"'a\'b'", r"'\n'", "'True'", "'None'")
NAMES = ("n", "t", "l", "m", "none_such", "trigger")


class Expressions:
    """Expressions by chance, to a depth."""

    def __init__(self, dice: random.Random) -> None:
        self.dice = dice

    def one(self, *items: str) -> str:
        """One of some texts."""
        return self.dice.choice(items)

    def make(self, depth: int) -> str:
        """Any expression."""
        if depth == 0:
            return self.leaf()
        kinds: list[Callable[[int], str]] = [self.leaf_at, self.pair, self.pair, self.filtered, self.filtered,
                                             self.call, self.unary, self.post, self.listed, self.choice, self.bracket]
        return self.dice.choice(kinds)(depth - 1)

    def leaf(self) -> str:
        """A constant or a name."""
        return self.one(self.one(*NUMBERS), self.one(*NUMBERS), self.one(*TEXTS), self.one(*NAMES),
                        self.one("true", "false", "none", "True", "[]"), f"states('{self.one(*ENTITIES)}')")

    def leaf_at(self, depth: int) -> str:
        """A leaf at a greater depth."""
        return self.leaf()

    def pair(self, depth: int) -> str:
        """An operator, with brackets at times."""
        sign = self.one("+", "-", "*", "/", "//", "%", "~", "==", "!=", "<", "<=", ">", ">=", "in", "not in", "and",
                        "or")
        left, right = self.make(depth), self.make(depth)
        if self.dice.random() < 0.6:
            left, right = f"({left})", f"({right})"
        return f"{left} {sign} {right}"

    def filtered(self, depth: int) -> str:
        """A filter."""
        base = f"({self.make(depth)})" if self.dice.random() < 0.7 else self.leaf()
        return base + "|" + self.one(
            "int", "float", "round", "abs", "lower", "upper", "trim", "length", "first", "last", "string", "is_number",
            "int()", f"int({self.leaf()})", f"float({self.leaf()})", f"round({self.one('0', '1', '2', '6', '7', '1.0')})",
            f"default({self.leaf()})", f"replace({self.leaf()}, {self.leaf()})", "replace('1', 'x')", "int|string",
            "string|length", "float|round(1)")

    def call(self, depth: int) -> str:
        """A function."""
        entity = self.one(*(f"'{one}'" for one in ENTITIES), self.leaf())
        return self.one(
            f"states({entity})", f"state_attr({entity}, {self.one(chr(39) + 'b' + chr(39), self.leaf())})",
            f"is_state({entity}, {self.make(depth)})", f"is_state({entity}, ['on', {self.leaf()}])",
            f"is_state_attr({entity}, 'b', {self.make(depth)})", f"has_value({entity})",
            f"int({self.make(depth)})", f"int({self.make(depth)}, {self.leaf()})", f"float({self.make(depth)}, 1)",
            f"min({self.make(depth)}, {self.leaf()})", f"max({self.make(depth)})",
            f"min([{self.leaf()}, {self.leaf()}, {self.leaf()}])", f"max({self.leaf()}, 2.0, 2)",
            f"iif({self.make(depth)}, {self.leaf()}, {self.leaf()})", f"is_number({self.make(depth)})")

    def unary(self, depth: int) -> str:
        """A sign, `not` or a test."""
        inner = self.make(depth)
        return self.one(f"-{self.leaf()}", f"-({inner})", f"not {self.leaf()}", f"not ({inner})", f"({inner}) is none",
                        f"({inner}) is not none", f"({inner}) is defined", f"({inner}) is not defined", f"- -{self.leaf()}")

    def post(self, depth: int) -> str:
        """A key or an index."""
        base = self.one("m", "l", "trigger", "trigger.event", "trigger.event.data", f"({self.make(depth)})")
        return base + self.one(".k", ".event", ".data", "['k']", "[0]", "[-1]", "[1.0]", f"[{self.make(depth)}]", ".n.o",
                               "[2]", "[-4]")

    def listed(self, depth: int) -> str:
        """A list."""
        return "[" + ", ".join(self.make(depth) for _ in range(self.dice.randint(0, 3))) + "]"

    def choice(self, depth: int) -> str:
        """`x if c else y`"""
        found = f"({self.make(depth)}) if {self.leaf()}"
        return found + (f" else {self.make(depth)}" if self.dice.random() < 0.7 else "")

    def bracket(self, depth: int) -> str:
        """An expression in brackets."""
        return f"({self.make(depth)})"

    def template(self) -> str:
        """A whole template that is in the grammar."""
        while True:
            text = self.any_template()
            try:
                parse(text)
                return text
            except GrammarError:
                pass

    def any_template(self) -> str:
        """A whole template; operators may stand where the grammar doesn't chain them."""
        if self.dice.random() < 0.75:
            return "{{ " + self.make(self.dice.randint(1, 3)) + " }}"
        sign = self.one("", "-")
        return self.one(
            f"a {{{{{sign} {self.make(1)} {sign}}}}} b", f"{{%{sign} set n = {self.make(2)} %}} {{{{ n }}}}",
            f"{{% if {self.make(2)} {sign}%}} y {{%{sign} elif {self.make(1)} %}} z {{% else {sign}%}} e {{% endif %}}",
            f"{{% if {self.make(1)} %}}{{% set t = 5 %}}{{% endif {sign}%}}\n {{{{ t }}}}{{#{sign} c {sign}#}} x",
            f"  {{{{ {self.make(1)} }}}}{{{{ {self.make(1)} }}}}\n")
