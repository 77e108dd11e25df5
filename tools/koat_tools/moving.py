"""Turns that move on: values that change by the same amount in each turn, as `koat lasso` sees them. docs/lasso.md has
the rules.
"""

from . import runs


class Bent(ValueError):
    """An expression isn't seen to change by the same amount in each turn."""


class Changing:
    """An integer that changes by its slope in each turn.

    A comparison is true where it holds and is seen to go on to hold.
    """

    def __init__(self, first, slope=0):
        if not all(-runs.PAST <= it < runs.PAST for it in (first, slope)):
            raise Bent
        self.first, self.slope = first, slope

    def __neg__(self):
        return Changing(-self.first, -self.slope)

    def __add__(self, other):
        return Changing(self.first + other.first, self.slope + other.slope)

    def __sub__(self, other):
        return Changing(self.first - other.first, self.slope - other.slope)

    def __mul__(self, other):
        if self.slope and other.slope:
            raise Bent
        still, moving = (other, self) if self.slope else (self, other)
        return Changing(still.first * moving.first, still.first * moving.slope)

    def __pow__(self, other):
        if self.slope or abs(self.first) > 1 and other.first > 127:
            raise Bent
        return Changing(self.first ** other.first)

    def __ge__(self, other):
        return self.first >= other.first and self.slope >= other.slope

    def __gt__(self, other):
        return self.first > other.first and self.slope >= other.slope

    def __le__(self, other):
        return other >= self

    def __lt__(self, other):
        return other > self

    def __eq__(self, other):
        return (self.first, self.slope) == (other.first, other.slope)

    __hash__ = None


def changing(value):
    """An integer of a guard or an update as one that changes; numbers stay."""
    return value if isinstance(value, Changing) else Changing(value)


def moves_on(steps, before, behind):
    """Whether steps, each a usable rule with its free values, that lead from values at a symbol to others there move on."""
    try:
        places = [Changing(one, two - one) for one, two in zip(before, behind)]
        slopes = [it.slope for it in places]
        for rule, free in steps:
            places = rule.moved(places, [Changing(it) for it in free], changing)
            if places is None:
                return False
    except Bent:
        return False
    return [it.slope for it in places] == slopes
