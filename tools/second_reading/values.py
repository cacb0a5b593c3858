"""Numbers and values, as lines, configurations and templates have them.

A value is None, a bool (a flag), a Num, a str (a text), a list or a dict whose order counts.
"""

from __future__ import annotations

import re
from dataclasses import dataclass
from fractions import Fraction
from typing import Any, Optional

Value = Any

MILLION = 10**6
BOUND = 10**12 * MILLION
NUMBER_TEXT = re.compile(r"([+-]?)([0-9]+)(?:\.([0-9]+))?")
ENTITY = re.compile(r"[a-z0-9_]+\.[a-z0-9_]+")
BLANKS = " \t\r\n"
LONGEST = 65_536


class Fault(Exception):
    """What a template's value is where it has none."""


@dataclass(frozen=True)
class Num:
    """A number in millionths; a whole one and a fixed-point one are told apart."""

    micros: int
    whole: bool

    def text(self) -> str:
        """The number as it is printed."""
        if self.whole:
            return str(self.micros // MILLION)
        sign = "-" if self.micros < 0 else ""
        front, back = divmod(abs(self.micros), MILLION)
        return f"{sign}{front}.{f'{back:06d}'.rstrip('0') or '0'}"


def whole(number: int) -> Num:
    """A whole number."""
    return Num(number * MILLION, True)


def half_even(number: Fraction) -> int:
    """The nearest whole number, of two the even one."""
    return round(number)


def in_range(number: Num) -> bool:
    """Whether a number is from -10^12 to 10^12."""
    return abs(number.micros) <= BOUND


def read_number(text: str) -> Optional[Num]:
    """The number of a number text in range."""
    found = NUMBER_TEXT.fullmatch(text)
    if not found:
        return None
    sign, front, back = found.groups()
    exact = Fraction(int(front + (back or "")), 10 ** len(back or ""))
    micros = half_even(exact * MILLION) * (-1 if sign == "-" else 1)
    number = Num(micros, back is None)
    return number if in_range(number) else None


def ranged(micros: int, is_whole: bool) -> Num:
    """A number that an operation gives, or a fault out of range."""
    number = Num(micros, is_whole)
    if not in_range(number):
        raise Fault
    return number


def arithmetic(sign: str, left: Value, right: Value) -> Num:
    """One of + - * / // % on two numbers."""
    if not (isinstance(left, Num) and isinstance(right, Num)):
        raise Fault
    both = left.whole and right.whole
    if sign in ("/", "//", "%") and right.micros == 0:
        raise Fault
    if sign == "+":
        return ranged(left.micros + right.micros, both)
    if sign == "-":
        return ranged(left.micros - right.micros, both)
    if sign == "*":
        return ranged(half_even(Fraction(left.micros * right.micros, MILLION)), both)
    if sign == "/":
        return ranged(half_even(Fraction(left.micros * MILLION, right.micros)), False)
    if sign == "//":
        return ranged(left.micros // right.micros * MILLION, both)
    return ranged(left.micros - right.micros * (left.micros // right.micros), both)


def rounded(number: Num, places: int) -> Num:
    """A number at 0 to 6 places, half to even."""
    if not 0 <= places <= 6:
        raise Fault
    unit = 10 ** (6 - places)
    return ranged(half_even(Fraction(number.micros, unit)) * unit, places == 0)


def same(left: Value, right: Value) -> bool:
    """Whether two values are the same as written: 3 and 3.0 differ, and so do maps in another order."""
    if type(left) is not type(right):
        return False
    if isinstance(left, list):
        return len(left) == len(right) and all(same(one, other) for one, other in zip(left, right))
    if isinstance(left, dict):
        return list(left) == list(right) and all(same(left[key], right[key]) for key in left)
    return left == right


def equal(left: Value, right: Value) -> bool:
    """The `==` of templates: numbers by value, lists and maps item by item in order, false between kinds."""
    if type(left) is not type(right):
        return False
    if isinstance(left, Num):
        return left.micros == right.micros
    if isinstance(left, list):
        return len(left) == len(right) and all(equal(one, other) for one, other in zip(left, right))
    if isinstance(left, dict):
        return list(left) == list(right) and all(equal(left[key], right[key]) for key in left)
    return left == right


def truth(value: Value) -> bool:
    """False are none, false, zero and what is empty."""
    if isinstance(value, Num):
        return value.micros != 0
    return bool(value)


def printed(value: Value) -> str:
    """A value's text in a template; a list or map has none."""
    if value is None:
        return "None"
    if isinstance(value, bool):
        return "True" if value else "False"
    if isinstance(value, Num):
        return value.text()
    if isinstance(value, str):
        return value
    raise Fault


def bounded(text: str) -> str:
    """A text that a template makes, or a fault where it is too long."""
    if len(text.encode("utf-8", "surrogatepass")) > LONGEST:
        raise Fault
    return text


def count(value: Value) -> int:
    """How many values stand in a list or map, those inside counted."""
    inner = value if isinstance(value, list) else list(value.values()) if isinstance(value, dict) else []
    return sum(1 + count(one) for one in inner)


def bounded_list(items: list[Value]) -> list[Value]:
    """A list in brackets, or a fault where it holds too many values."""
    if count(items) > LONGEST:
        raise Fault
    return items


def as_data(text: str) -> Value:
    """The value that a rendered text is as data."""
    if text in ("True", "False"):
        return text == "True"
    number = read_number(text)
    return number if number is not None and number.text() == text else text


def ascii_lower(text: str) -> str:
    """A text with its ASCII letters in lower case."""
    return "".join(char.lower() if char.isascii() else char for char in text)


def ascii_upper(text: str) -> str:
    """A text with its ASCII letters in upper case."""
    return "".join(char.upper() if char.isascii() else char for char in text)


def says_yes(text: str) -> bool:
    """Whether the rendered text of a trigger's or wait's template is true."""
    number = read_number(text)
    if number is not None:
        return number.micros != 0
    return ascii_lower(text) in ("true", "yes", "on", "enable")


def is_entity(text: str) -> bool:
    """Whether a text has the form of an entity id."""
    return ENTITY.fullmatch(text) is not None


def attribute_text(value: Value) -> Optional[str]:
    """The text of an attribute's value; a list, map or null has none."""
    if isinstance(value, bool):
        return "true" if value else "false"
    if isinstance(value, Num):
        return value.text()
    return value if isinstance(value, str) else None
