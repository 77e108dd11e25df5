"""Expressions multiplied out, the comparisons of a guard, and the linear rows that koat makes of them.

docs/proof-format.md says what the rows and the unknowns of a rule are.
"""

import math
from dataclasses import dataclass
from typing import Dict, List, Tuple

from . import programs

SIGNS = {"^": "**"}
RELATIONS = (">=", ">", "<=", "<", "=", "==")


class Polynomial:
    """Monomials, each the sorted names of its factors, with their coefficients; none has the coefficient 0."""

    def __init__(self, monomials):
        self.monomials: Dict[Tuple, int] = {key: it for key, it in monomials.items() if it}

    def __add__(self, other):
        found = dict(self.monomials)
        for key, it in other.monomials.items():
            found[key] = found.get(key, 0) + it
        return Polynomial(found)

    def __neg__(self):
        return Polynomial({key: -it for key, it in self.monomials.items()})

    def __sub__(self, other):
        return self + -other

    def __mul__(self, other):
        found = {}
        for one, left in self.monomials.items():
            for two, right in other.monomials.items():
                key = tuple(sorted(one + two))
                found[key] = found.get(key, 0) + left * right
        return Polynomial(found)

    def __pow__(self, other):
        result = constant(1)
        for _ in range(other.monomials.get((), 0)):
            result = result * self
        return result

    @property
    def degree(self):
        return max((len(it) for it in self.monomials), default=0)

    def coefficient(self, name):
        return self.monomials.get((name,), 0)

    @property
    def constant(self):
        return self.monomials.get((), 0)


def constant(number):
    return Polynomial({(): number})


def variable(name):
    return Polynomial({(name,): 1})


def read(text):
    """The polynomial of an expression that koat took."""
    return _of_tokens(programs.tokens(text))


def _of_tokens(tokens):
    told = []
    for it in tokens:
        if it.kind == "name":
            told.append(f"variable({it.text!r})")
        elif it.kind == "number":
            told.append(f"constant({it.text.lstrip('0') or '0'})")
        else:
            told.append(SIGNS.get(it.text, it.text))
    return eval("".join(told), {"__builtins__": {}}, {"variable": variable, "constant": constant})


@dataclass
class Comparison:
    """A comparison of a guard: its text, and the polynomials that it says are at least 0."""

    text: str
    differences: List[Polynomial]

    @property
    def degree(self):
        return max(it.degree for it in self.differences)


def comparisons(guard):
    """The comparisons of a guard that koat took, without atoms that are TRUE."""
    found, part, tokens = [], [], programs.tokens(guard)
    for it in [*tokens, None]:
        if it is not None and it.text not in ("&&", "/\\"):
            part.append(it)
            continue
        if any(one.text in RELATIONS for one in part):
            found.append(_comparison(guard, part))
        part = []
    return found


def _comparison(guard, part):
    at = next(index for index, it in enumerate(part) if it.text in RELATIONS)
    left, right = _of_tokens(part[:at]), _of_tokens(part[at + 1:])
    sign, one = part[at].text, constant(1)
    differences = {">=": [left - right], ">": [left - right - one], "<=": [right - left],
                   "<": [right - left - one]}.get(sign, [left - right, right - left])
    return Comparison(guard[part[0].at:part[-1].end], differences)


def new_values(rule):
    """The new value at each place over the unknowns: one of degree 2 or more is an unknown of its own."""
    found, count = [], 0
    for update in rule.updates:
        polynomial = read(update)
        if polynomial.degree > 1:
            count += 1
            polynomial = variable(f"new value {count}")
        found.append(polynomial)
    return found


def unknowns(rule):
    """The names of the unknowns: left variables, free variables, and new values of degree 2 or more."""
    count = sum(read(it).degree > 1 for it in rule.updates)
    known = rule.left_names + [it.text for it in rule.free]
    return known + [f"new value {number}" for number in range(1, count + 1)]


def rows(rule):
    """The rows of a rule: the comparisons of degree 1 of its guard, tightened to whole numbers, each with its text."""
    found = []
    for comparison in comparisons(rule.guard):
        for difference in comparison.differences:
            if difference.degree <= 1:
                found += _tightened(difference, comparison.text)
    return found


def _tightened(difference, text):
    rest = {key: it for key, it in difference.monomials.items() if key}
    if not rest:
        return [] if difference.constant >= 0 else [(constant(-1), text)]
    divisor = math.gcd(*rest.values())
    tight = {key: it // divisor for key, it in rest.items()}
    return [(Polynomial({**tight, (): difference.constant // divisor}), text)]


def text(polynomial):
    """The polynomial as people write it."""
    told = ""
    for key, it in sorted(polynomial.monomials.items(), key=lambda one: (not one[0], len(one[0]) > 1, one[0])):
        names = "*".join(key)
        size = str(abs(it)) if not key else names if abs(it) == 1 else f"{abs(it)}*{names}"
        told += (" - " if it < 0 else " + ") + size if told else ("-" if it < 0 else "") + size
    return told or "0"
