"""Lassos, looked for along paths: rules one behind another from the start symbol, of which the last ones lead from a symbol
back to it. What has to hold along a path, and of its turn, is linear in the start values and the free values where all
guards and updates are affine there; an integer point at which it holds gives a run.

A run that is found is walked before it is told, so nothing rests on how it was found.
"""

import time
from dataclasses import dataclass
from typing import Dict, List, Tuple

from . import moving, runs
from .linear import ONE, integers, plus

# Paths have so many rules at most, and turns so many of them; of each length no more paths than these are made longer.
LENGTH, TURN, WIDTH = 10, 6, 50


class NotAffine(ValueError):
    """An expression isn't affine along a path."""


def found(program, until):
    """Start values, the steps of a stem and those of a turn, and whether the turn moves on; none where none were found
    until then."""
    leaving: Dict[str, List] = {}
    for rule in map(runs.UsableRule, program.rules):
        leaving.setdefault(rule.source, []).append(rule)
    count = len(program.inputs)
    level = [_Path([program.start], [[{it: 1} for it in range(count)]], [], [], count)]
    for _ in range(LENGTH):
        longer = []
        for path, rule in ((path, rule) for path in level for rule in leaving.get(path.symbols[-1], [])):
            if time.monotonic() > until:
                return None
            try:
                path = path.longer(rule)
            except NotAffine:
                continue
            if integers(path.rows, path.count) is None:
                continue
            lasso = path.lasso()
            if lasso:
                return lasso
            longer.append(path)
        level = longer[:WIDTH]
    return None


class _Value:
    """A value along a path: a form over the unknowns, and one of how much it changes in each turn.

    A comparison is true, and notes in `rows` what has to be for it to hold and to go on to hold.
    """

    def __init__(self, rows, first, slope):
        self.rows, self.first, self.slope = rows, first, slope

    def number(self):
        """The number that this is at all unknowns, or none."""
        return None if self.slope or set(self.first) - {ONE} else self.first.get(ONE, 0)

    def plus(self, other, factor):
        return _Value(self.rows, plus(self.first, other.first, factor), plus(self.slope, other.slope, factor))

    def note(self, other, least=0, is_equal=False):
        """Notes that this is by so much greater than the other one, at least or just."""
        over = self.plus(other, -1)
        self.rows += [(plus(over.first, {ONE: -least}), is_equal), (over.slope, is_equal)]
        return True

    def __neg__(self):
        return _Value(self.rows, {}, {}).plus(self, -1)

    def __add__(self, other):
        return self.plus(other, 1)

    def __sub__(self, other):
        return self.plus(other, -1)

    def __mul__(self, other):
        number, value = (self.number(), other) if self.number() is not None else (other.number(), self)
        if number is None:
            raise NotAffine
        return _Value(self.rows, {}, {}).plus(value, number)

    def __pow__(self, other):
        number, exponent = self.number(), other.number()
        if exponent == 1:
            return self
        if number is None or exponent > 127:
            raise NotAffine
        return _Value(self.rows, plus({}, {ONE: number ** exponent}), {})

    def __ge__(self, other):
        return self.note(other)

    def __gt__(self, other):
        return self.note(other, 1)

    def __le__(self, other):
        return other.note(self)

    def __lt__(self, other):
        return other.note(self, 1)

    def __eq__(self, other):
        return self.note(other, is_equal=True)

    __hash__ = None


def _behind(rule, places, free, rows):
    """The places behind a rule, each a form and its slope; notes in the rows what its guard says."""
    values, unknowns = [_Value(rows, *it) for it in places], [_Value(rows, {it: 1}, {}) for it in free]

    def whole(it):
        return it if isinstance(it, _Value) else _Value(rows, plus({}, {ONE: it}), {})

    return [(it.first, it.slope) for it in rule.moved(values, unknowns, whole)]


@dataclass
class _Path:
    """The symbols on a path, the forms of the values at each, its steps, each a rule with the unknowns that are its free
    values, what has to hold for these to be a run, and how many unknowns there are."""

    symbols: List[str]
    values: List[List[Dict[int, int]]]
    steps: List[Tuple]
    rows: List[Tuple[Dict[int, int], bool]]
    count: int

    def longer(self, rule):
        """This path with a rule more."""
        rows, free = list(self.rows), range(self.count, self.count + len(rule.free))
        places = _behind(rule, [(it, {}) for it in self.values[-1]], free, rows)
        return _Path([*self.symbols, rule.target], [*self.values, [it for it, _ in places]],
                     [*self.steps, (rule, free)], rows, self.count + len(rule.free))

    def lasso(self):
        """A lasso whose turn ends where the path does, or none; shorter turns and such as lead back are tried first."""
        for at in range(len(self.steps) - 1, max(-1, len(self.steps) - 1 - TURN), -1):
            if self.symbols[at] == self.symbols[-1]:
                for rows_of in (self.rows_back, self.rows_on):
                    try:
                        numbers = integers(rows_of(at), self.count)
                    except NotAffine:
                        continue
                    lasso = None if numbers is None else self.walked(numbers, at)
                    if lasso:
                        return lasso
        return None

    def rows_back(self, at):
        """What has to hold for the turn that begins here to lead back."""
        return self.rows + [(plus(one, two, -1), True) for one, two in zip(self.values[-1], self.values[at])]

    def rows_on(self, at):
        """What has to hold for the turn that begins here to move on."""
        rows = list(self.rows)
        moves = [plus(one, two, -1) for one, two in zip(self.values[-1], self.values[at])]
        places = list(zip(self.values[at], moves))
        for rule, free in self.steps[at:]:
            places = _behind(rule, places, free, rows)
        return rows + [(plus(slope, move, -1), True) for (_, slope), move in zip(places, moves)]

    def walked(self, numbers, at):
        """The lasso with these numbers for the unknowns and a turn that begins here, if walking shows that it is one."""
        start = numbers[:len(self.values[0])]
        steps = [(rule, [numbers[it] for it in free]) for rule, free in self.steps]
        seen = [start]
        for rule, free in steps:
            seen.append(rule.after(seen[-1], free))
            if seen[-1] is None:
                return None
        if max(map(abs, numbers), default=0) > runs.WIDEST or not moving.moves_on(steps[at:], seen[at], seen[-1]):
            return None
        told = [(rule.number, free) for rule, free in steps]
        return start, told[:at], told[at:], seen[at] != seen[-1]
