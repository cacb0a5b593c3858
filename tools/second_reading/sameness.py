"""Whether two automations or scripts are equal in every field, as they were read."""

from __future__ import annotations

from dataclasses import fields, is_dataclass
from typing import Any

from .config import Action, Automation, Condition, Template, TemplateRule
from .template import parse
from .tree import Expr, Piece
from .values import Num

TEMPLATES = ("service", "targets", "template", "span", "timeout", "value_template")
"""The fields whose texts are templates, those of one part alone too."""


def expression(one: Expr) -> Any:
    """An expression without the place at which it stands."""
    return (one.kind, shape(one.word), *(expression(part) for part in one.parts))


def pieces(all_of: tuple[Piece, ...]) -> Any:
    """The pieces of a template; an empty text is none."""
    return tuple(piece(one) for one in all_of if one.kind != "text" or one.word)


def piece(one: Piece) -> Any:
    """A piece; without `else` a choice is as with an empty one."""
    bodies = one.bodies + ((),) * (one.kind == "choice" and len(one.bodies) == len(one.parts))
    return (one.kind, one.word, *(expression(part) for part in one.parts), *(pieces(body) for body in bodies))


def is_source(owner: Any, key: str) -> bool:
    """Whether the texts of a field are templates."""
    if isinstance(owner, (Action, Condition)):
        return key in TEMPLATES or owner.fields.get("kind") == "count" and key == "given"
    return isinstance(owner, TemplateRule)


def shape(part: Any, source: bool = False) -> Any:
    """A part as nested tuples, which are equal exactly where two parts are the same: 3 and 3.0 differ, and maps in another order."""
    if isinstance(part, Template):
        return ("template", pieces(parse(part.text)))
    if isinstance(part, str):
        return ("template", pieces(parse(part))) if source else ("text", str(part))
    if isinstance(part, Num):
        return ("number", part.micros, part.whole)
    if isinstance(part, (list, tuple)):
        return ("list", *(shape(one, source) for one in part))
    if isinstance(part, dict):
        return ("map", *((key, shape(one)) for key, one in part.items()))
    if isinstance(part, (Action, Condition)):
        inner = shape(part.inner) if isinstance(part, Condition) else ()
        return (part.kind, inner, *((key, shape(one, is_source(part, key))) for key, one in part.fields.items()))
    if is_dataclass(part):
        named = [(field.name, getattr(part, field.name)) for field in fields(part)]
        return (type(part).__name__, *((key, shape(one, is_source(part, key))) for key, one in named))
    return (type(part).__name__, part)


def same_unit(one: Automation, other: Automation) -> bool:
    """Whether two automations, or two scripts, are equal in every field; one of each kind never are, since their names differ."""
    return shape(one) == shape(other)
