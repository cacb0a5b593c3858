"""The filters and functions of templates, by their tables."""

from __future__ import annotations

from typing import Any, Callable, Optional

from .values import (BLANKS, Fault, Num, Value, ascii_lower, ascii_upper, bounded, equal, printed, ranged, read_number,
                     rounded, truth, whole)

NOTHING = object()


def number_of(value: Value) -> Optional[Num]:
    """The number that `int` and `float` see in a value."""
    if isinstance(value, bool):
        return whole(int(value))
    if isinstance(value, Num):
        return value
    return read_number(value.strip(BLANKS)) if isinstance(value, str) else None


def to_int(value: Value, other: Value = NOTHING) -> Value:
    """A whole number, cut towards 0."""
    number = number_of(value)
    if number is None:
        return fallback(other)
    cut = abs(number.micros) // 10**6
    return whole(-cut if number.micros < 0 else cut)


def to_float(value: Value, other: Value = NOTHING) -> Value:
    """A fixed-point number."""
    number = number_of(value)
    return fallback(other) if number is None else Num(number.micros, False)


def fallback(other: Value) -> Value:
    """The argument, or a fault without one."""
    if other is NOTHING:
        raise Fault
    return other


def of_number(value: Value) -> Num:
    """A value that has to be a number."""
    if not isinstance(value, Num):
        raise Fault
    return value


def of_text(value: Value) -> str:
    """A value that has to be a text."""
    if not isinstance(value, str):
        raise Fault
    return value


def to_places(value: Value, places: Value = whole(0)) -> Num:
    """`round`: the number of places is a whole number."""
    if not of_number(places).whole:
        raise Fault
    return rounded(of_number(value), places.micros // 10**6)


def length(value: Value) -> Num:
    """Characters of a text, items of a list or map."""
    if not isinstance(value, (str, list, dict)):
        raise Fault
    return whole(len(value))


def end_of(value: Value, at: int) -> Value:
    """The first or last of a list; none where it is empty."""
    if not isinstance(value, list):
        raise Fault
    return value[at] if value else None


def replace(value: Value, old: Value, new: Value) -> str:
    """Each occurrence from the left; an empty first argument faults."""
    if not of_text(old):
        raise Fault
    return bounded(of_text(value).replace(old, of_text(new)))


def is_number(value: Value) -> bool:
    """A number, or a text that is number text."""
    return isinstance(value, Num) or isinstance(value, str) and read_number(value) is not None


FILTERS: dict[str, tuple[Callable[..., Value], tuple[int, ...]]] = {
    "int": (to_int, (0, 1)),
    "float": (to_float, (0, 1)),
    "round": (to_places, (0, 1)),
    "abs": (lambda value: ranged(abs(of_number(value).micros), value.whole), (0,)),
    "lower": (lambda value: bounded(ascii_lower(printed(value))), (0,)),
    "upper": (lambda value: bounded(ascii_upper(printed(value))), (0,)),
    "trim": (lambda value: bounded(of_text(value).strip(BLANKS)), (0,)),
    "length": (length, (0,)),
    "default": (lambda value, other: other if value is None else value, (1,)),
    "first": (lambda value: end_of(value, 0), (0,)),
    "last": (lambda value: end_of(value, -1), (0,)),
    "replace": (replace, (2,)),
    "string": (lambda value: bounded(printed(value)), (0,)),
    "is_number": (is_number, (0,)),
}

FUNCTIONS: dict[str, Callable[[int], bool]] = {
    "states": lambda count: count == 1,
    "state_attr": lambda count: count == 2,
    "is_state": lambda count: count == 2,
    "is_state_attr": lambda count: count == 3,
    "has_value": lambda count: count == 1,
    "int": lambda count: count in (1, 2),
    "float": lambda count: count in (1, 2),
    "min": lambda count: count >= 1,
    "max": lambda count: count >= 1,
    "iif": lambda count: count == 3,
    "is_number": lambda count: count == 1,
}


def compare(sign: str, left: Value, right: Value) -> bool:
    """`<` and its kin on two numbers or two texts."""
    if isinstance(left, Num) and isinstance(right, Num):
        first: Any = left.micros
        second: Any = right.micros
    elif isinstance(left, str) and isinstance(right, str):
        first, second = left.encode(), right.encode()
    else:
        raise Fault
    return {"<": first < second, "<=": first <= second, ">": first > second, ">=": first >= second}[sign]


def extreme(name: str, args: list[Value]) -> Num:
    """`min` and `max`: of equal ones the first."""
    group = args[0] if len(args) == 1 and isinstance(args[0], list) else args
    if not group:
        raise Fault
    best = of_number(group[0])
    for one in group[1:]:
        if compare("<" if name == "min" else ">", of_number(one), best):
            best = one
    return best


def is_state(args: list[Value], states: Any) -> bool:
    """The entity is there and its text is s, or one of the list s."""
    text, wanted = states.state_text(of_text(args[0])), args[1]
    if isinstance(wanted, list):
        return text is not None and any(equal(text, one) for one in wanted)
    return text == of_text(wanted)


def is_state_attr(args: list[Value], states: Any) -> bool:
    """The attribute is there and equal."""
    held = states.state_attributes(of_text(args[0]))
    return of_text(args[1]) in held and equal(held[args[1]], args[2])


def function(name: str, args: list[Value], states: Any) -> Value:
    """A function of the table on its arguments."""
    if name == "states":
        text = states.state_text(of_text(args[0]))
        return "unknown" if text is None else text
    if name == "state_attr":
        return states.state_attributes(of_text(args[0])).get(of_text(args[1]))
    if name == "is_state":
        return is_state(args, states)
    if name == "is_state_attr":
        return is_state_attr(args, states)
    if name == "has_value":
        return states.state_text(of_text(args[0])) not in (None, "unknown", "unavailable")
    if name in ("min", "max"):
        return extreme(name, args)
    if name == "iif":
        return args[1] if truth(args[0]) else args[2]
    return {"int": to_int, "float": to_float, "is_number": is_number}[name](*args)
