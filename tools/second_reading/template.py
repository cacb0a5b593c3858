"""Templates: a text in the grammar becomes a function of states and names to a text."""

from __future__ import annotations

import re
from functools import lru_cache
from typing import Callable, Mapping, Optional

from . import tree
from .filters import FILTERS, FUNCTIONS
from .tree import Expr, Piece, Scene, States
from .values import BLANKS, Value, bounded, read_number

WORDS = {"and", "or", "not", "in", "is", "if", "else", "elif", "endif", "set", "true", "false", "none",
         "True", "False", "None", "defined"}
NAME = re.compile(r"[A-Za-z_][A-Za-z0-9_]*")
NUMBER = re.compile(r"[0-9]+(\.[0-9]+)?")
SIGNS = ("==", "!=", "<=", ">=", "//", "<", ">", "+", "-", "*", "/", "%", "~", "|", ".", ",", "(", ")", "[", "]", "=")
ESCAPES = {"\\": "\\", "'": "'", '"': '"', "n": "\n", "t": "\t"}
DEEPEST = 64


class GrammarError(Exception):
    """A text that is no template: what was wanted or wrong there, with the word that it is about, and about where."""

    def __init__(self, what: str, at: int, word: str = "") -> None:
        super().__init__(f"{what} {word} at {at}")
        self.what = what
        self.at = at
        self.word = word


def holds_template(text: str) -> bool:
    """Whether a text of a configuration holds a template."""
    return any(sign in text for sign in ("{{", "{%", "{#"))


class Parser:
    """One pass over a template's text, by its grammar."""

    def __init__(self, text: str) -> None:
        self.text = text
        self.at = 0
        self.open = 0
        self.trim_next = False

    # Tokens

    def skip(self) -> None:
        """Goes over blanks between tokens."""
        while self.at < len(self.text) and self.text[self.at] in BLANKS:
            self.at += 1

    def at_end_of_tag(self) -> bool:
        """Whether a tag ends here."""
        self.skip()
        return re.compile(r"-?(\}\}|%\})").match(self.text, self.at) is not None

    def sign(self, *wanted: str) -> Optional[str]:
        """Takes one of these signs, where the longest sign that stands here is one."""
        if self.at_end_of_tag():
            return None
        here = next((one for one in SIGNS if self.text.startswith(one, self.at)), None)
        if here is None or here not in wanted:
            return None
        self.at += len(here)
        return here

    def need(self, wanted: str) -> None:
        """Takes a sign that has to stand here."""
        if self.sign(wanted) is None:
            raise GrammarError("wanted", self.at, wanted)

    def peek_name(self) -> Optional[str]:
        """The word that stands here."""
        self.skip()
        found = NAME.match(self.text, self.at)
        return found.group() if found else None

    def word(self, *wanted: str) -> Optional[str]:
        """Takes one of these words."""
        here = self.peek_name()
        if here not in wanted:
            return None
        self.at += len(here)
        return here

    def name(self) -> str:
        """Takes a name that is no word of the grammar."""
        here = self.peek_name()
        if here is None or here in WORDS:
            raise GrammarError("name", self.at)
        self.at += len(here)
        return here

    def string(self) -> Optional[str]:
        """Takes a string, if one stands here."""
        self.skip()
        quote = self.text[self.at:self.at + 1]
        if quote not in ("'", '"'):
            return None
        out, at = "", self.at + 1
        while at < len(self.text) and self.text[at] != quote:
            if self.text[at] == "\\" and self.text[at + 1:at + 2] in ESCAPES:
                out, at = out + ESCAPES[self.text[at + 1]], at + 2
            else:
                out, at = out + self.text[at], at + 1
        if at >= len(self.text):
            raise GrammarError("open string", self.at)
        self.at = at + 1
        return out

    # Expressions

    def deeper(self, part: Callable[[], Expr]) -> Expr:
        """A part inside what is open: at most so many are open in one another."""
        self.open += 1
        if self.open > DEEPEST:
            raise GrammarError("depth", self.at)
        found = part()
        self.open -= 1
        return found

    def expression(self) -> Expr:
        """An expression that stands in a tag, in brackets or among arguments."""
        return self.deeper(self.any_expression)

    def any_expression(self) -> Expr:
        """e := or [ "if" or [ "else" e ] ]"""
        yes = self.either()
        if not self.word("if"):
            return yes
        test = self.either()
        return tree.pick(test, yes, self.any_expression() if self.word("else") else None)

    def either(self) -> Expr:
        """or := and { "or" and }"""
        left = self.all_of()
        while self.word("or"):
            left = tree.decide("or", left, self.all_of())
        return left

    def all_of(self) -> Expr:
        """and := not { "and" not }"""
        left = self.negation()
        while self.word("and"):
            left = tree.decide("and", left, self.negation())
        return left

    def negation(self) -> Expr:
        """not := "not" not | cmp"""
        at = self.at
        if self.word("not"):
            return tree.turned(at, self.deeper(self.negation))
        return self.comparison()

    def comparison(self) -> Expr:
        """cmp: one comparison at most, since they aren't chained."""
        left = self.sums()
        found = self.sign("==", "!=", "<=", ">=", "<", ">")
        if found:
            return tree.both(found, left, self.sums())
        if self.word("in"):
            return tree.both("in", left, self.sums())
        if self.word("not"):
            if not self.word("in"):
                raise GrammarError("wanted", self.at, "in")
            return tree.both("not in", left, self.sums())
        return self.is_test(left) if self.word("is") else left

    def is_test(self, base: Expr) -> Expr:
        """ "is" ["not"] ("none" | "defined") """
        turned = self.word("not") is not None
        wanted = self.word("none", "None", "defined")
        if wanted is None:
            raise GrammarError("no test", self.at, self.peek_name() or "")
        return tree.is_none(base, (wanted != "defined") != turned)

    def row(self, part: Callable[[], Expr], *signs: str) -> Expr:
        """Operators of one level, grouped from the left."""
        left = part()
        while (found := self.sign(*signs)):
            left = tree.both(found, left, part())
        return left

    def sums(self) -> Expr:
        """sum := cat { ("+" | "-") cat }"""
        return self.row(self.joins, "+", "-")

    def joins(self) -> Expr:
        """cat := mul { "~" mul }"""
        return self.row(self.products, "~")

    def products(self) -> Expr:
        """mul := filt { ("*" | "/" | "//" | "%") filt }"""
        return self.row(self.filtered, "*", "/", "//", "%")

    def filtered(self) -> Expr:
        """filt := neg { "|" name [ "(" args ")" ] }"""
        base = self.negative()
        while self.sign("|"):
            base = self.one_filter(base)
        return base

    def one_filter(self, base: Expr) -> Expr:
        """One filter of a row of them."""
        name = self.name()
        at = self.at
        args = self.arguments(")") if self.sign("(") else []
        if name not in FILTERS or len(args) not in FILTERS[name][1]:
            raise GrammarError("no filter", at, name)
        return tree.filtered(name, base, args)

    def negative(self) -> Expr:
        """neg := "-" neg | post"""
        at = self.at
        if self.sign("-"):
            return tree.negated(at, self.deeper(self.negative))
        return self.posts()

    def posts(self) -> Expr:
        """post := atom { "." name | "[" e "]" }"""
        base = self.atom()
        while True:
            if self.sign("."):
                base = tree.at_key(base, self.name())
            elif self.sign("["):
                key = self.expression()
                self.need("]")
                base = tree.at_index(base, key)
            else:
                return base

    def arguments(self, close: str) -> list[Expr]:
        """args := [ e { "," e } ], with the bracket that closes them."""
        args: list[Expr] = []
        if self.sign(close):
            return args
        while True:
            args.append(self.expression())
            if self.sign(close):
                return args
            self.need(",")

    def atom(self) -> Expr:
        """A number, string, word, name, call, list or bracket."""
        self.skip()
        at = self.at
        text = self.string()
        if text is not None:
            return tree.constant(at, text)
        found = NUMBER.match(self.text, self.at)
        if found:
            return tree.constant(at, self.number(found.group()))
        if self.sign("["):
            return tree.listed(at, self.arguments("]"))
        if self.sign("("):
            inner = self.expression()
            self.need(")")
            return inner
        return self.named(at)

    def number(self, text: str) -> Value:
        """A number, which has to be in range."""
        value = read_number(text)
        if value is None:
            raise GrammarError("number", self.at, text)
        self.at += len(text)
        return value

    def named(self, at: int) -> Expr:
        """A constant, a variable or a function's call."""
        for words, value in ((("true", "True"), True), (("false", "False"), False), (("none", "None"), None)):
            if self.word(*words):
                return tree.constant(at, value)
        name = self.name()
        if self.sign("("):
            return self.call(at, name, self.arguments(")"))
        if name == "states":
            raise GrammarError("states alone", at, name)
        return tree.named(at, name)

    @staticmethod
    def call(at: int, name: str, args: list[Expr]) -> Expr:
        """A function of the table."""
        if name not in FUNCTIONS or not FUNCTIONS[name](len(args)):
            raise GrammarError("no function", at, name)
        return tree.called(at, name, args)

    # Pieces

    def literal(self) -> str:
        """The text up to the next tag, without what `-` signs take away."""
        found = re.compile(r"\{\{|\{%|\{#").search(self.text, self.at)
        end = found.start() if found else len(self.text)
        out = self.text[self.at:end]
        if self.trim_next:
            out = out.lstrip(BLANKS)
        self.trim_next = False
        self.at = end
        if found and self.text.startswith("-", end + 2):
            out = out.rstrip(BLANKS)
        return out

    def open_tag(self) -> str:
        """Takes what opens a tag, with its sign."""
        kind = self.text[self.at:self.at + 2]
        self.at += 2
        if self.text.startswith("-", self.at):
            self.at += 1
        return kind

    def close_tag(self, end: str) -> None:
        """Takes the end of a tag, with its sign."""
        self.skip()
        if self.text.startswith("-" + end, self.at):
            self.trim_next = True
            self.at += 1
        if not self.text.startswith(end, self.at):
            raise GrammarError("wanted", self.at, end)
        self.at += 2

    def comment(self) -> None:
        """Goes over a comment."""
        end = self.text.find("#}", self.at)
        if end < 0:
            raise GrammarError("open comment", self.at)
        self.trim_next = end > self.at and self.text[end - 1] == "-"
        self.at = end + 2

    def pieces(self) -> tuple[tuple[Piece, ...], Optional[str]]:
        """Pieces up to the end, or to `elif`, `else` or `endif`, whose word is taken and told."""
        out: list[Piece] = []
        while True:
            at = self.at
            out.append(tree.literal(at, self.literal()))
            if self.at >= len(self.text):
                return tuple(out), None
            at = self.at
            kind = self.open_tag()
            if kind == "{#":
                self.comment()
            elif kind == "{{":
                inner = self.expression()
                self.close_tag("}}")
                out.append(tree.shown(at, inner))
            else:
                word = self.word("elif", "else", "endif")
                if word:
                    return tuple(out), word
                out.append(self.statement(at))

    def statement(self, at: int) -> Piece:
        """{% set %} or {% if %}"""
        if self.word("set"):
            name = self.name()
            self.need("=")
            value = self.expression()
            self.close_tag("%}")
            return tree.assigned(at, name, value)
        if not self.word("if"):
            raise GrammarError("no tag", self.at, self.peek_name() or "")
        return self.choice(at)

    def choice(self, at: int) -> Piece:
        """The arms of an `if`, the last of which may be without a test."""
        arms: list[tuple[Optional[Expr], tuple[Piece, ...]]] = []
        word: Optional[str] = "if"
        while word in ("if", "elif"):
            test = self.expression()
            self.close_tag("%}")
            inner, word = self.pieces()
            arms.append((test, inner))
        if word == "else":
            self.close_tag("%}")
            inner, word = self.pieces()
            arms.append((None, inner))
        if word != "endif":
            raise GrammarError("wanted", self.at, "endif")
        self.close_tag("%}")
        return tree.chosen(at, arms)


@lru_cache(maxsize=4096)
def parse(text: str) -> tuple[Piece, ...]:
    """The pieces of a template's text."""
    parser = Parser(text)
    pieces, word = parser.pieces()
    if word is not None:
        raise GrammarError("no if", parser.at, word)
    return pieces


def render(text: str, states: States, names: Mapping[str, Value]) -> str:
    """The rendered text, trimmed; or a Fault."""
    return bounded(tree.joined(parse(text), Scene(states, names))).strip(BLANKS)
