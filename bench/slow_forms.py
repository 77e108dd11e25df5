"""What proofs say of the rules of a program, by their description alone: rows, new values and the graph.

`Program(reading)` is made of a `Reading` of `slow_reading.py` that took the program's text.
"""

from math import gcd
from typing import NamedTuple

import slow_proofs
from slow_reading import expanded


class Forms(NamedTuple):
    """What proofs say of a rule: symbols by their names, how many left variables and unknowns there are, rows and new
    values as lists of a coefficient for each unknown and a constant, and the polynomials of the new values of degree 2
    or more, else none, each a list of monomials with an absolute coefficient and variables by their number."""

    source: bytes
    target: bytes
    left: int
    unknowns: int
    rows: list
    news: list
    polynomials: list


def degree(polynomial):
    return max((len(monomial) for monomial in polynomial), default=0)


def differences(left, relation, right):
    """The polynomials that an atom says are at least 0."""
    up, down, one = ("-", left, right), ("-", right, left), ("number", 1)
    told = {">=": [up], "<=": [down], ">": [("-", up, one)], "<": [("-", down, one)]}.get(relation, [up, down])
    return [expanded(tree) for tree in told]


def tightened(row):
    """The row for whole numbers, in a list, or no row where it always holds."""
    *coefficients, constant = row
    divisor = gcd(*coefficients)
    if divisor:
        return [[number // divisor for number in coefficients] + [constant // divisor]]
    return [] if constant >= 0 else [coefficients + [-1]]


def forms_of(source, target, left, variables, atoms, updates):
    polynomials = [expanded(update) for update in updates]
    bent = [degree(polynomial) > 1 for polynomial in polynomials]
    width = len(variables) + sum(bent)

    def row_of(polynomial):
        return [polynomial.get((name,), 0) for name in variables] + [0] * sum(bent) + [polynomial.get((), 0)]

    rows, news = [], []
    for atom in atoms:
        for polynomial in differences(*atom) if atom else ():
            rows += tightened(row_of(polynomial)) if degree(polynomial) <= 1 else []
    for place, polynomial in enumerate(polynomials):
        own = len(variables) + sum(bent[:place])
        news.append([int(at == own) for at in range(width + 1)] if bent[place] else row_of(polynomial))
    monomials = [sorted((sorted(map(variables.index, monomial)), abs(number)) for monomial, number in it.items())
                 for it in polynomials]
    return Forms(source, target, left, width, rows, news,
                 [it if is_bent else None for it, is_bent in zip(monomials, bent)])


class Program:
    """What proofs speak of: symbols in the order in which rules name them, rules from 1, start names; and the same for
    a reading of proofs, as `known`."""

    def __init__(self, reading):
        self.start = reading.starts[0].text
        self.symbols = list(reading.arities)
        self.arities = reading.arities
        self.rules, self.costs = [None], [None]
        for rule in reading.rules:
            parts = rule.source, rule.target, rule.left, rule.variables
            self.rules.append(forms_of(*parts, rule.atoms, rule.updates))
            paid = rule.cost and (rule.cost, ">=", ("number", 0))
            self.costs.append(rule.cost and forms_of(*parts, rule.atoms + [paid], [rule.cost]))
        first = next(rule for rule in reading.rules if rule.source == self.start)
        self.names = [name.decode() for name in first.variables[:first.left]]
        targets = [self.symbols.index(rule.target) for rule in reading.rules]
        names = [name.decode() for name in self.symbols]
        self.known = slow_proofs.Program(names, list(self.arities.values()), targets, self.names)

    def numbers(self):
        return range(1, len(self.rules))

    def target(self, rule):
        return self.rules[rule].target if rule else self.start

    def before(self, rule):
        """The rules that can come just before one, 0 for the virtual entry."""
        return [it for it in (0, *self.numbers()) if self.target(it) == self.rules[rule].source]

    def entries(self, members):
        sources = {self.rules[rule].source for rule in members}
        return [it for it in (0, *self.numbers()) if it not in members and self.target(it) in sources]

    def symbols_of(self, members):
        met = {name for rule in members for name in (self.rules[rule].source, self.rules[rule].target)}
        return [name for name in self.symbols if name in met]

    def is_reached(self, symbol, left_out):
        reached = {self.start}
        while True:
            more = {self.rules[it].target for it in self.numbers()
                    if it not in left_out and self.rules[it].source in reached} - reached
            if not more:
                return symbol in reached
            reached |= more
