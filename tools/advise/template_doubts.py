"""What in a template nobody can have meant: names and parts that are never there, and what is a fault at each run."""

from __future__ import annotations

from typing import Callable, Mapping

from second_reading.template import parse
from second_reading.tree import Expr, Piece
from second_reading.values import Num, is_entity

from .shapes import NUMBERS, Fields, Shape, is_list, is_no_number, is_text, joined
from .texts import part_text, unknown_text

Say = Callable[[int, str], None]
"""Tells something at a character of the template."""

TEXT_FILTERS = {"lower", "upper", "trim", "string", "replace"}
ASKS = ("states", "state_attr", "is_state", "is_state_attr", "has_value")


class TemplateDoubts:
    """Goes over a template's tree with what is known of its names."""

    def __init__(self, names: Mapping[str, Shape], say: Say, automations: set[str], entity: str) -> None:
        self.names = dict(names)
        self.say = say
        self.automations = automations
        self.entity = entity
        self.hands_over = False

    def shown(self, text: str) -> list[tuple[int, Shape]]:
        """The shapes of what the template shows, each with its place."""
        return self.pieces(parse(text))

    def pieces(self, pieces: tuple[Piece, ...]) -> list[tuple[int, Shape]]:
        """The shapes of what some pieces show."""
        out: list[tuple[int, Shape]] = []
        for piece in pieces:
            found = [self.shape(part) for part in piece.parts]
            if piece.kind == "set":
                self.names[piece.word] = found[0]
            elif piece.kind == "show":
                out.append((piece.at, found[0]))
            for body in piece.bodies:
                out += self.pieces(body)
        return out

    def shape(self, expr: Expr, guarded: bool = False) -> Shape:
        """What is known of an expression. Where it is guarded, a missing one is asked for on purpose."""
        if expr.kind in ("name", "field", "at"):
            return {"name": self.of_name, "field": self.of_field, "at": self.of_index}[expr.kind](expr, guarded)
        is_guard = expr.kind == "is" or expr.kind == "filter" and expr.word == "default"
        parts = [self.shape(part, is_guard and place == 0) for place, part in enumerate(expr.parts)]
        if expr.kind == "plain":
            return of_constant(expr.word)
        if expr.kind == "list":
            return "list"
        if expr.kind in ("not", "is"):
            return "flag"
        if expr.kind == "pick":
            return joined(parts[1], parts[2] if len(parts) > 2 else "text")
        if expr.kind == "negate":
            return self.number_of(expr.at, "-", parts[0])
        return {"pair": self.of_pair, "filter": self.of_filter, "call": self.of_call}[expr.kind](expr, parts)

    def of_name(self, expr: Expr, guarded: bool) -> Shape:
        """A name."""
        if expr.word in self.names:
            return self.names[expr.word]
        if not (guarded or self.hands_over) or expr.word in ("this", "context"):
            self.say(expr.at, unknown_text(expr.word, "", list(self.names), self.entity))
        return "any"

    def of_field(self, expr: Expr, guarded: bool) -> Shape:
        """`.name`"""
        return self.part(expr, expr.word, guarded)

    def of_index(self, expr: Expr, guarded: bool) -> Shape:
        """`[e]`"""
        self.shape(expr.parts[1])
        key = expr.parts[1].word
        return self.part(expr, key if isinstance(key, str) and expr.parts[1].kind == "plain" else "", guarded)

    def part(self, expr: Expr, key: str, guarded: bool) -> Shape:
        """A part of a value; no key where it is not known."""
        base = expr.parts[0]
        if base.kind == "name" and base.word in ("this", "context") and base.word not in self.names:
            self.say(expr.at, unknown_text(base.word, key, list(self.names), self.entity))
            return "any"
        held = self.shape(base, guarded)
        if not isinstance(held, Fields) or not key:
            return "any"
        if key in held.parts:
            return held.parts[key]
        text, is_never = part_text(held.name, key, list(held.parts))
        if is_never or not guarded:
            self.say(expr.at, text)
        return "any"

    def number_of(self, at: int, what: str, shape: Shape) -> Shape:
        """A value that has to be a number."""
        if is_no_number(shape):
            self.say(at, f"`{what}` of {article(shape)} is a fault at each run: `x|float{'|' + what if what.startswith('round') else ''}`")
            return "any"
        return shape

    def of_filter(self, expr: Expr, parts: list[Shape]) -> Shape:
        """A filter."""
        name, base = expr.word, parts[0]
        if name in ("int", "float"):
            return numeric(name, parts)
        if name == "round":
            return self.rounded(expr, base)
        if name == "abs":
            return self.number_of(expr.at, "abs", base)
        if name in ("first", "last") and is_text(base):
            self.say(expr.at, f"`{name}` of a text is a fault at each run: it takes a list")
        if name == "default":
            return joined(base, parts[1])
        return "text" if name in TEXT_FILTERS else {"length": "whole", "is_number": "flag"}.get(name, "any")

    def rounded(self, expr: Expr, base: Shape) -> Shape:
        """`round`"""
        places = expr.parts[1] if len(expr.parts) > 1 else None
        if places is not None and places.kind == "negate":
            self.say(expr.at, "`round` to places left of the point is a fault at each run: `(x / 10)|round * 10`")
            return "any"
        shown = "round" if places is None else f"round({places.word.text()})" if isinstance(places.word, Num) else "round(1)"
        found = self.number_of(expr.at, shown, base)
        is_whole = places is None or isinstance(places.word, Num) and places.word.micros == 0
        return "any" if is_no_number(found) else "whole" if is_whole else "fixed"

    def of_call(self, expr: Expr, parts: list[Shape]) -> Shape:
        """A function."""
        name = expr.word
        entity = expr.parts[0].word if expr.parts and expr.parts[0].kind == "plain" else None
        if name in ASKS and isinstance(entity, str):
            self.asked(expr.parts[0].at, entity)
        if name == "states":
            return "decimal" if isinstance(entity, str) and entity.startswith("input_number.") else "text"
        if name in ("int", "float"):
            return numeric(name, parts)
        if name == "iif":
            return joined(parts[1], parts[2])
        if name in ("min", "max"):
            for part in parts:
                if is_text(part):
                    self.say(expr.at, f"`{name}` of a text is a fault at each run: `x|float(0)`")
            return parts[0] if len(set(map(str, parts))) == 1 and parts[0] in NUMBERS else "any"
        return "any" if name == "state_attr" else "flag"

    def asked(self, at: int, entity: str) -> None:
        """An entity that is asked by its name."""
        if entity.startswith("automation.") and is_entity(entity) and entity.split(".")[1] not in self.automations:
            self.say(at, no_automation(entity, self.automations))

    def of_pair(self, expr: Expr, parts: list[Shape]) -> Shape:
        """An operator."""
        sign, (left, right) = expr.word, parts
        if sign in ("and", "or"):
            return joined(left, right)
        if sign == "~":
            for part in parts:
                if is_list(part):
                    self.say(expr.at, "a list or map joined by `~` is a fault at each run: join its items")
            return "text"
        if sign in ("==", "!=", "<", "<=", ">", ">=", "in", "not in"):
            self.compared(expr, left, right)
            return "flag"
        if sign == "+" and is_text(left) and is_text(right):
            return "text"
        return self.arithmetic(expr, left, right)

    def compared(self, expr: Expr, left: Shape, right: Shape) -> None:
        """A comparison of a text with a number, which is a fault or false for ever."""
        if {is_text(left), is_text(right)} != {True, False} or not {left, right} & set(NUMBERS):
            return
        if expr.word in ("==", "!="):
            self.say(expr.at, f"a text `{expr.word}` a number is {'never' if expr.word == '==' else 'always'} true: `x|float(0) {expr.word} 5`, "
                              f"or `x {expr.word} '5'`")
        elif expr.word not in ("in", "not in"):
            self.say(expr.at, f"a text `{expr.word}` a number is a fault at each run: `x|float(0) {expr.word} 5`")

    def arithmetic(self, expr: Expr, left: Shape, right: Shape) -> Shape:
        """`+ - * / // %`"""
        wrong = next((part for part in (left, right) if is_no_number(part)), None)
        if wrong is not None and expr.word == "%" and is_text(left):
            self.say(expr.at, "`'..' % x` is a fault at each run: `x|round(1)`, and `~` to join texts")
            return "any"
        if wrong is not None:
            if expr.word == "+" and not (left in NUMBERS or right in NUMBERS) and "any" in (left, right) and (is_text(left) or is_text(right)):
                return "any"
            cure = "`a ~ b` joins texts, `x|float(0)` is a number" if expr.word == "+" else f"`x|float(0) {expr.word} 2`"
            self.say(expr.at, f"`{expr.word}` of {article(wrong)} is a fault at each run: {cure}")
            return "any"
        if expr.word == "/" or "fixed" in (left, right):
            return "fixed"
        return "whole" if left == right == "whole" else "any"


def article(shape: Shape) -> str:
    """A shape in words."""
    if isinstance(shape, Fields):
        return "a map"
    return {"none": "none", "decimal": "a text"}.get(shape, f"a {shape}")


def of_constant(value: object) -> Shape:
    """What is known of a constant."""
    if isinstance(value, Num):
        return "whole" if value.whole else "fixed"
    return "none" if value is None else "flag" if isinstance(value, bool) else "text"


def numeric(name: str, parts: list[Shape]) -> Shape:
    """`int` and `float`, with perhaps a default."""
    if len(parts) > 1 and parts[1] not in NUMBERS:
        return "any"
    return "whole" if name == "int" and parts[1:] != ["fixed"] else "fixed" if name == "float" else "any"


def no_automation(entity: str, automations: set[str]) -> str:
    """What is told of an automation that is not there."""
    from .texts import nearest
    return f"no automation is `{entity}`: {nearest(entity, automations)}"
