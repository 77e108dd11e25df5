"""The O-class of a bound, where all inputs are at most n in absolute value.

A class is the pair of a height and a degree: height 0 is O(n^degree), height 1 is 2^O(n^degree), height 2 is
2^2^O(n^degree). Classes compare as pairs. It is derived from koat's bound, and isn't part of what is proved. The class
of the total is that of what all steps cost together; without costs in the program, of their number.
"""

import math
from fractions import Fraction

from . import bounds

CONSTANT = (0, 0)


def growth(bound):
    if isinstance(bound, bounds.Constant):
        return CONSTANT
    if isinstance(bound, bounds.Input):
        return (0, 1)
    if isinstance(bound, bounds.Part):
        return (0, max((len(names) for number, names in bound.terms if number), default=0))
    if isinstance(bound, bounds.Quotient):
        return growth(bound.of)
    if isinstance(bound, bounds.Root):
        height, degree = growth(bound.of)
        return (height, degree) if height else (0, Fraction(degree, 2))
    if isinstance(bound, bounds.Power):
        height, degree = growth(bound.exponent)
        return CONSTANT if degree == 0 or bound.base < 2 else (height + 1, degree)
    parts = [growth(part) for part in bound.parts]
    if isinstance(bound, bounds.Minimum):
        return min(parts)
    return _product(parts) if isinstance(bound, bounds.Product) else max(parts)


def _product(parts):
    # A polynomial factor is lost in 2^O(n), and the greatest of several exponents is the class of their sum.
    greatest = max(parts)
    return greatest if greatest[0] > 0 else (0, sum(degree for _, degree in parts))


def text(pair):
    height, degree = pair
    inner = "1" if degree == 0 else "n" if degree == 1 else f"n^{degree}"
    if Fraction(degree).denominator > 1:
        inner = f"n^({degree})"
    return "2^" * height + f"O({inner})"


def competition(pair):
    """The line of the termination competition for the class of what all steps cost; `MAYBE` where it is a tower of
    powers. A degree is rounded up."""
    height, degree = pair
    if height > 1:
        return "MAYBE"
    upper = "O(EXP)" if height else "O(1)" if degree == 0 else f"O(n^{math.ceil(degree)})"
    return f"WORST_CASE(?, {upper})"
