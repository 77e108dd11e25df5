"""Bounds over the inputs themselves, which may be negative, as `koat best` writes them and `koat check` answers them of
files of the third form. Their grammar is defined here alone.

    bound    = term (" + " term)*
    term     = factor ("*" factor)* | quotient
    factor   = NUMBER | "[" polynomial "]" | "max(" bound (", " bound)* ")" | "min(" bound (", " bound)* ")"
             | "root(" bound ")" | NUMBER "^(" bound ")" | "(" bound ")"
    quotient = "(" bound ")/" NUMBER
    polynomial = ["-"] product ((" + " | " - ") product)*
    product  = (NUMBER | NAME) ("*" (NUMBER | NAME))*

`[p]` is the polynomial's value, or 0 where that is negative. Quotients are rounded down, and `root` is the whole square
root. In a product a number behind a `*` is 0: it is the value of an input that isn't there.
"""

import re

from . import bounds
from .bounds import BoundError

TOKEN = re.compile(r"[A-Za-z_$][A-Za-z0-9_$'.]*|[0-9]+|[ ][+-][ ]|,[ ]|[-*^()\[\]/]")
MANY = {"max": bounds.Maximum, "min": bounds.Minimum}


def read(text):
    """The tree of a bound's text."""
    tokens, at = [], 0
    while at < len(text):
        match = TOKEN.match(text, at)
        if not match:
            raise BoundError(f"no bound: {text!r}")
        tokens.append(match.group())
        at = match.end()
    reader = _Reader(tokens, text)
    bound = reader.bound()
    if reader.tokens:
        raise BoundError(f"no bound: {text!r}")
    return bound


class _Reader:
    def __init__(self, tokens, text):
        self.tokens, self.text = list(reversed(tokens)), text

    def take(self, wanted=None):
        if not self.tokens or (wanted and self.tokens[-1] != wanted):
            raise BoundError(f"no bound: {self.text!r}")
        return self.tokens.pop()

    def follows(self, *tokens):
        return bool(self.tokens) and self.tokens[-1] in tokens

    def list(self, separator, part):
        found = [part()]
        while self.follows(separator):
            self.take()
            found.append(part())
        return tuple(found)

    def bound(self):
        return _joined(bounds.Sum, self.list(" + ", self.term))

    def term(self):
        is_closed = self.follows("(")
        factors = [self.factor()]
        if is_closed and self.follows("/"):
            self.take()
            return bounds.Quotient(factors[0], self.divisor())
        while self.follows("*"):
            self.take()
            factors.append(self.factor())
        return _joined(bounds.Product, tuple(factors))

    def divisor(self):
        word = self.take()
        if not word.isdigit() or int(word) == 0:
            raise BoundError(f"no bound: {self.text!r}")
        return int(word)

    def factor(self):
        word = self.take()
        if word == "(":
            return self.closed()
        if word == "[":
            return self.part()
        if word.isdigit():
            return self.power(int(word))
        if word in MANY or word == "root":
            self.take("(")
            return self.called(word)
        raise BoundError(f"no bound: {self.text!r}")

    def called(self, word):
        if word == "root":
            return bounds.Root(self.closed())
        found = self.list(", ", self.bound)
        self.take(")")
        return MANY[word](found)

    def closed(self):
        inner = self.bound()
        self.take(")")
        return inner

    def power(self, number):
        if not self.follows("^"):
            return bounds.Constant(number)
        self.take()
        self.take("(")
        return bounds.Power(number, self.closed())

    def part(self):
        terms = [self.product(-1 if self.follows("-") and self.take() else 1)]
        while self.follows(" + ", " - "):
            terms.append(self.product(-1 if self.take() == " - " else 1))
        self.take("]")
        return bounds.Part(tuple(terms))

    def product(self, sign):
        """A term: its coefficient and its names."""
        number, names = sign, []
        for word in self.list("*", self.take):
            if word.isdigit():
                number *= int(word)
            elif re.match(r"[A-Za-z_$]", word):
                names.append(word)
            else:
                raise BoundError(f"no bound: {self.text!r}")
        return number, tuple(names if number else ())


def _joined(kind, parts):
    """Parts as one bound; a single one is itself."""
    return kind(parts) if len(parts) > 1 else parts[0]


def text(bound):
    """The text of a bound's tree."""
    if isinstance(bound, bounds.Constant):
        return str(bound.number)
    if isinstance(bound, bounds.Part):
        return f"[{polynomial(bound.terms)}]"
    if isinstance(bound, bounds.Quotient):
        return f"({text(bound.of)})/{bound.divisor}"
    if isinstance(bound, bounds.Root):
        return f"root({text(bound.of)})"
    if isinstance(bound, bounds.Power):
        return f"{bound.base}^({text(bound.exponent)})"
    if isinstance(bound, bounds.Product):
        return "*".join(_factor(it) for it in bound.parts)
    parts = [text(it) for it in bound.parts]
    if isinstance(bound, bounds.Sum):
        return " + ".join(parts)
    return f"{'max' if isinstance(bound, bounds.Maximum) else 'min'}({', '.join(parts)})"


def _factor(bound):
    """A factor, in brackets where it is a sum or a quotient."""
    return f"({text(bound)})" if isinstance(bound, (bounds.Sum, bounds.Quotient)) else text(bound)


def polynomial(terms):
    """The text of a polynomial: products first, then single names, then numbers; of each what is added before what is
    subtracted."""
    written = ""
    for number, names in sorted(terms, key=lambda it: (-min(len(it[1]), 2), it[0] < 0)):
        size = "*".join([str(abs(number))] * (abs(number) != 1 or not names) + list(names))
        written += (" - " if number < 0 else " + ") + size if written else ("-" if number < 0 else "") + size
    return written or "0"
