"""Bounds as trees: their values and their JSON, and the text of those over absolute values read. `signed_bounds` reads
those over the inputs themselves.

    bound    = term (" + " term)*
    term     = factor ("*" factor)*
    factor   = NUMBER | NAME | NAME "^" NUMBER | NUMBER "^" exponent | "max(" bound (", " bound)+ ")" | "(" bound ")"
    exponent = NUMBER | NAME | "(" bound ")"

A name is a start argument and stands for its absolute value. `A^2` is the product of A and A, and `2^A` a power.
"""

import math
import re
import sys
from dataclasses import dataclass
from typing import Tuple

# From here on values aren't told exactly: bounds grow by powers of powers. What is below a root or in a quotient is
# told exactly up to a number whose roots and quotients are above that, too.
CAP = 2**127
WIDE = 2**4096

# Bounds are read and walked by recursion; koat keeps up to 200 levels, each of some calls.
sys.setrecursionlimit(max(sys.getrecursionlimit(), 20000))

TOKEN = re.compile(r"[A-Za-z_$][A-Za-z0-9_$'.]*|[0-9]+|[ ]\+[ ]|,[ ]|[*^()]")


class BoundError(ValueError):
    """A text that is no bound."""


@dataclass(frozen=True)
class Constant:
    number: int


@dataclass(frozen=True)
class Input:
    name: str


@dataclass(frozen=True)
class Sum:
    parts: Tuple


@dataclass(frozen=True)
class Product:
    parts: Tuple


@dataclass(frozen=True)
class Maximum:
    parts: Tuple


@dataclass(frozen=True)
class Power:
    base: int
    exponent: object


@dataclass(frozen=True)
class Part:
    """A polynomial over the inputs themselves, or 0 where it is negative: terms of a coefficient and names."""

    terms: Tuple


@dataclass(frozen=True)
class Minimum:
    parts: Tuple


@dataclass(frozen=True)
class Quotient:
    """A bound divided by a number, rounded down."""

    of: object
    divisor: int


@dataclass(frozen=True)
class Root:
    """The whole square root of a bound."""

    of: object


def read(text):
    """The tree of a bound's text."""
    tokens, at = [], 0
    while at < len(text):
        match = TOKEN.match(text, at)
        if not match:
            raise BoundError(f"no bound: {text!r}")
        tokens.append(match.group())
        at = match.end()
    reader = _Reader(tokens, text)
    bound = reader.bound()
    if reader.tokens:
        raise BoundError(f"no bound: {text!r}")
    return bound


class _Reader:
    def __init__(self, tokens, text):
        self.tokens, self.text = list(reversed(tokens)), text

    def take(self, wanted=None):
        if not self.tokens or (wanted and self.tokens[-1] != wanted):
            raise BoundError(f"no bound: {self.text!r}")
        return self.tokens.pop()

    def follows(self, token):
        return bool(self.tokens) and self.tokens[-1] == token

    def bound(self):
        return Sum(parts) if len(parts := self.list(" + ", self.term)) > 1 else parts[0]

    def list(self, separator, part):
        parts = [part()]
        while self.follows(separator):
            self.take()
            parts.append(part())
        return tuple(parts)

    def term(self):
        parts = []
        for factors in self.list("*", self.factors):
            parts += factors
        return Product(tuple(parts)) if len(parts) > 1 else parts[0]

    def factors(self):
        """One factor, or the several equal ones of `A^2`."""
        word = self.take()
        if word == "(":
            return [self.closed()]
        if word == "max" and self.follows("("):
            self.take()
            return [Maximum(self.maximum())]
        if word.isdigit():
            return [self.power(int(word))]
        if not re.match(r"[A-Za-z_$]", word):
            raise BoundError(f"no bound: {self.text!r}")
        return [Input(word)] * self.times()

    def closed(self):
        inner = self.bound()
        self.take(")")
        return inner

    def maximum(self):
        parts = self.list(", ", self.bound)
        self.take(")")
        return parts

    def power(self, number):
        if not self.follows("^"):
            return Constant(number)
        self.take()
        word = self.take()
        if word == "(":
            return Power(number, self.closed())
        return Power(number, Constant(int(word)) if word.isdigit() else Input(word))

    def times(self):
        if not self.follows("^"):
            return 1
        self.take()
        word = self.take()
        if not word.isdigit():
            raise BoundError(f"no bound: {self.text!r}")
        return int(word)


def value(bound, inputs):
    """The bound's value at these inputs, which may be negative, or CAP where it is that or more."""
    return min(_value(bound, inputs), CAP)


def _value(bound, inputs):
    """The same up to WIDE."""
    return min(VALUES[type(bound)](bound, inputs), WIDE)


def _of_part(bound, inputs):
    return max(0, sum(number * math.prod(inputs[it] for it in found) for number, found in bound.terms))


def _product(parts):
    result = 1
    for part in parts:
        result = min(result * part, WIDE)
    return result


def _power(base, exponent):
    # A base of at least 2 is at the limit from exponent 4096 on. Bases are below 2^64, so no number grows far beyond it.
    if base < 2:
        return base if exponent else 1
    return WIDE if exponent >= 4096 else base**exponent


def _values(bound, inputs):
    return [_value(part, inputs) for part in bound.parts]


VALUES = {
    Constant: lambda bound, inputs: bound.number,
    Input: lambda bound, inputs: abs(inputs[bound.name]),
    Sum: lambda bound, inputs: sum(_values(bound, inputs)),
    Product: lambda bound, inputs: _product(_values(bound, inputs)),
    Maximum: lambda bound, inputs: max(_values(bound, inputs)),
    Minimum: lambda bound, inputs: min(_values(bound, inputs)),
    Power: lambda bound, inputs: _power(bound.base, _value(bound.exponent, inputs)),
    Part: _of_part,
    Quotient: lambda bound, inputs: _value(bound.of, inputs) // bound.divisor,
    Root: lambda bound, inputs: math.isqrt(_value(bound.of, inputs)),
}


def value_text(number):
    return "2^127 or more" if number >= CAP else str(number)


def names(bound):
    """The inputs that the bound reads, in order of first occurrence."""
    found = {}
    for node in _nodes(bound):
        if isinstance(node, Input):
            found[node.name] = True
        if isinstance(node, Part):
            found.update({name: True for _, of_term in node.terms for name in of_term})
    return list(found)


def _nodes(bound):
    yield bound
    for part in parts(bound):
        yield from _nodes(part)


def parts(bound):
    """The bounds of which a bound is made."""
    if isinstance(bound, Power):
        return (bound.exponent,)
    return (bound.of,) if isinstance(bound, (Quotient, Root)) else getattr(bound, "parts", ())


KINDS = {Sum: "sum", Product: "product", Maximum: "maximum", Minimum: "minimum"}


def as_json(bound):
    """The tree as JSON. Numbers are texts of digits: a constant may have 39 of them, which many readers round."""
    if isinstance(bound, Constant):
        return {"kind": "constant", "value": str(bound.number)}
    if isinstance(bound, Input):
        return {"kind": "input", "name": bound.name}
    if isinstance(bound, Power):
        return {"kind": "power", "base": str(bound.base), "exponent": as_json(bound.exponent)}
    if isinstance(bound, Part):
        terms = [{"coefficient": str(number), "names": list(found)} for number, found in bound.terms]
        return {"kind": "part", "terms": terms}
    if isinstance(bound, Quotient):
        return {"kind": "quotient", "of": as_json(bound.of), "divisor": str(bound.divisor)}
    if isinstance(bound, Root):
        return {"kind": "root", "of": as_json(bound.of)}
    return {"kind": KINDS[type(bound)], "parts": [as_json(part) for part in bound.parts]}
