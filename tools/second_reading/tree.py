"""Templates as trees: what each part is, where it begins, its parts, and how it is computed."""

from __future__ import annotations

from dataclasses import dataclass, field
from typing import Any, Callable, Mapping, Optional, Protocol

from .filters import FILTERS, compare, function
from .values import Fault, Num, Value, arithmetic, bounded, bounded_list, equal, printed, truth, whole


class States(Protocol):
    """What a template sees of the states."""

    def state_text(self, entity: str) -> Optional[str]:
        """The text of an entity, if it is there."""

    def state_attributes(self, entity: str) -> Mapping[str, Value]:
        """The attributes of an entity, empty where it isn't there."""


@dataclass
class Scene:
    """What an expression is computed in: the states, the run's names, and those set so far."""

    states: States
    names: Mapping[str, Value]
    own: dict[str, Value] = field(default_factory=dict)


@dataclass(frozen=True)
class Expr:
    """An expression of a kind, with its parts and the word, sign or value that it has beside them."""

    kind: str
    at: int
    value: Callable[[Scene], Value]
    parts: tuple["Expr", ...] = ()
    word: Any = None

    def __call__(self, scene: Scene) -> Value:
        return self.value(scene)


@dataclass(frozen=True)
class Piece:
    """A piece of a template: `text`, `show`, `set` of a name, or `choice` with a body for each arm."""

    kind: str
    at: int
    value: Callable[[Scene], str]
    parts: tuple[Expr, ...] = ()
    word: str = ""
    bodies: tuple[tuple["Piece", ...], ...] = ()

    def __call__(self, scene: Scene) -> str:
        return self.value(scene)


def field_of(base: Value, key: Value) -> Value:
    """`.name` and `[..]`: what isn't there is none."""
    if isinstance(base, dict) and isinstance(key, str):
        return base.get(key)
    if isinstance(base, list) and isinstance(key, Num) and key.whole:
        at = key.micros // 10**6
        return base[at] if -len(base) <= at < len(base) else None
    return None


def plus(left: Value, right: Value) -> Value:
    """`+` of two numbers or two texts."""
    if isinstance(left, str) and isinstance(right, str):
        return bounded(left + right)
    return arithmetic("+", left, right)


def within(item: Value, group: Value) -> bool:
    """`in`: an item of a list, a key of a map, a part of a text."""
    if isinstance(group, list):
        return any(equal(item, one) for one in group)
    if isinstance(group, (dict, str)) and isinstance(item, str):
        return item in group
    raise Fault


def operate(sign: str, left: Value, right: Value) -> Value:
    """An operator that computes both its operands."""
    if sign in ("==", "!="):
        return equal(left, right) == (sign == "==")
    if sign in ("<", "<=", ">", ">="):
        return compare(sign, left, right)
    if sign in ("in", "not in"):
        return within(left, right) == (sign == "in")
    if sign == "+":
        return plus(left, right)
    if sign == "~":
        return bounded(printed(left) + printed(right))
    return arithmetic(sign, left, right)


def constant(at: int, value: Value) -> Expr:
    """A number, text, flag or none."""
    return Expr("plain", at, lambda scene: value, word=value)


def named(at: int, name: str) -> Expr:
    """A name: what the template set, else what the run has; none where it isn't there."""
    return Expr("name", at, lambda scene: scene.own[name] if name in scene.own else scene.names.get(name), word=name)


def listed(at: int, items: list[Expr]) -> Expr:
    """A list in brackets."""
    return Expr("list", at, lambda scene: bounded_list([item(scene) for item in items]), tuple(items))


def pick(test: Expr, yes: Expr, no: Optional[Expr]) -> Expr:
    """`x if c else y`; without else the empty text."""
    parts = (test, yes, no) if no else (test, yes)
    return Expr("pick", yes.at, lambda scene: yes(scene) if truth(test(scene)) else (no(scene) if no else ""), parts)


def decide(sign: str, left: Expr, right: Expr) -> Expr:
    """`and` and `or`, which give the operand that decided."""
    def value(scene: Scene) -> Value:
        first = left(scene)
        return right(scene) if truth(first) == (sign == "and") else first
    return Expr("pair", left.at, value, (left, right), sign)


def both(sign: str, left: Expr, right: Expr) -> Expr:
    """An operator's expression."""
    def value(scene: Scene) -> Value:
        first = left(scene)
        return operate(sign, first, right(scene))
    return Expr("pair", left.at, value, (left, right), sign)


def turned(at: int, inner: Expr) -> Expr:
    """`not e`."""
    return Expr("not", at, lambda scene: not truth(inner(scene)), (inner,))


def negated(at: int, inner: Expr) -> Expr:
    """`-e`."""
    return Expr("negate", at, lambda scene: arithmetic("*", whole(-1), inner(scene)), (inner,))


def is_none(base: Expr, holds: bool) -> Expr:
    """`is none`, `is defined` and their opposites."""
    return Expr("is", base.at, lambda scene: (base(scene) is None) == holds, (base,), holds)


def at_key(base: Expr, key: str) -> Expr:
    """`.name`"""
    return Expr("field", base.at, lambda scene: field_of(base(scene), key), (base,), key)


def at_index(base: Expr, key: Expr) -> Expr:
    """`[e]`"""
    def value(scene: Scene) -> Value:
        first = base(scene)
        return field_of(first, key(scene))
    return Expr("at", base.at, value, (base, key))


def filtered(name: str, base: Expr, args: list[Expr]) -> Expr:
    """A filter of the table."""
    apply = FILTERS[name][0]

    def value(scene: Scene) -> Value:
        first = base(scene)
        return apply(first, *[arg(scene) for arg in args])
    return Expr("filter", base.at, value, (base, *args), name)


def called(at: int, name: str, args: list[Expr]) -> Expr:
    """A function of the table."""
    return Expr("call", at, lambda scene: function(name, [arg(scene) for arg in args], scene.states), tuple(args), name)


def literal(at: int, text: str) -> Piece:
    """The text between tags."""
    return Piece("text", at, lambda scene: text, word=text)


def shown(at: int, inner: Expr) -> Piece:
    """{{ e }}"""
    return Piece("show", at, lambda scene: printed(inner(scene)), (inner,))


def assigned(at: int, name: str, inner: Expr) -> Piece:
    """{% set name = e %}"""
    return Piece("set", at, lambda scene: scene.own.__setitem__(name, inner(scene)) or "", (inner,), name)


def joined(pieces: tuple[Piece, ...], scene: Scene) -> str:
    """Pieces rendered in order."""
    return "".join(piece(scene) for piece in pieces)


def chosen(at: int, arms: list[tuple[Optional[Expr], tuple[Piece, ...]]]) -> Piece:
    """{% if %}: the body of the first arm whose test is true; one without a test always is."""
    def value(scene: Scene) -> str:
        return next((joined(body, scene) for test, body in arms if test is None or truth(test(scene))), "")
    return Piece("choice", at, value, tuple(test for test, _ in arms if test), bodies=tuple(body for _, body in arms))
