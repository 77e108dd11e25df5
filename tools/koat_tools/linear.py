"""Forms over unknowns with whole factors, and integers at which such forms are 0 or at least 0.

A form is a dict from unknowns, which are numbers from 0, to their factors; its constant is that of the key ONE. No factor
is 0.
"""

import math
from typing import Dict, List, Tuple

ONE = -1
# No more inequalities are handled at once; and so many integers are tried at most, these many for one unknown.
ROWS, TRIES, NEAR = 400, 200, 5


def plus(one, two, factor=1):
    """The sum of a form and of so many times another one."""
    total = dict(one)
    for name, number in two.items():
        total[name] = total.get(name, 0) + factor * number
    return {name: number for name, number in total.items() if number}


def _at(form, numbers):
    """The value of a form at these numbers; the others are 0."""
    return sum(number if name == ONE else number * numbers.get(name, 0) for name, number in form.items())


def _replaced(form, name, by):
    return plus({it: number for it, number in form.items() if it != name}, by, form[name]) if name in form else form


def integers(rows, count):
    """Integers for so many unknowns at which each form is 0, or at least 0, as its row says; none where none were found."""
    equal, least, changes = [it for it, is_equal in rows if is_equal], [it for it, is_equal in rows if not is_equal], []
    while equal:
        form = equal.pop()
        names = [it for it in form if it != ONE]
        if not names:
            if form:
                return None
            continue
        divisor = math.gcd(*(form[it] for it in names))
        if form.get(ONE, 0) % divisor:
            return None
        # An unknown with the factor 1 is expressed by the others; else Euclid's steps make the least factor smaller.
        form = {it: number // divisor for it, number in form.items()}
        name = min(names, key=lambda it, form=form: abs(form[it]))
        factor, is_one = form[name], abs(form[name]) == 1
        others = {it: number // factor for it, number in form.items() if it != name and (is_one or it != ONE)}
        by = plus({} if is_one else {name: 1}, others, -1)
        changes.append((name, by))
        equal = [_replaced(it, name, by) for it in [*equal, form]]
        least = [_replaced(it, name, by) for it in least]
    ranges = _ranges(least)
    numbers = None if ranges is None else _chosen(ranges, {}, [TRIES])
    if numbers is None:
        return None
    for name, by in reversed(changes):
        numbers[name] = _at(by, numbers)
    return [numbers.get(it, 0) for it in range(count)]


def _ranges(least):
    """Unknown by unknown the forms that bound it from below and from above, over unknowns that come later (Fourier and
    Motzkin); none where the forms can't all be at least 0, or where there are too many."""
    found_ranges, least = [], _strongest(least)
    while least:
        signs: Dict[int, List[int]] = {}
        for form in least:
            for name in form.keys() - {ONE}:
                signs.setdefault(name, [0, 0])[form[name] < 0] += 1
        name = min(sorted(signs), key=lambda it: math.prod(signs[it]) - sum(signs[it]))
        below, above = ([it for it in least if it.get(name, 0) * sign > 0] for sign in (1, -1))
        found_ranges.append((name, below, above))
        if len(least) + len(below) * len(above) > ROWS:
            return None
        least = _strongest([it for it in least if name not in it] + [
            plus(plus({}, one, -two[name]), two, one[name]) for one in below for two in above])
    return None if least is None else found_ranges


def _strongest(least):
    """The forms that say most where they are to be at least 0 at integers; none where one can't be."""
    constants: Dict[Tuple, int] = {}
    for form in least:
        names = sorted(form.keys() - {ONE})
        divisor = math.gcd(*(form[it] for it in names))
        if not names and form.get(ONE, 0) < 0:
            return None
        if names:
            key = tuple((it, form[it] // divisor) for it in names)
            constants[key] = min(form.get(ONE, 0) // divisor, constants.get(key, math.inf))
    return [plus(dict(key), {ONE: number}) for key, number in constants.items()]


def _chosen(ranges, numbers, tries):
    """Integers within these ranges, chosen from the last one on, each as near 0 as the others let it; or none."""
    if not ranges:
        return numbers
    name, below, above = ranges[-1]
    low = max((-(_at(it, numbers) // it[name]) for it in below), default=-math.inf)
    high = min((_at(it, numbers) // -it[name] for it in above), default=math.inf)
    nearest = min(max(0, low), high)
    near = sorted((nearest + away for away in range(-NEAR, NEAR + 1) if low <= nearest + away <= high), key=abs)
    for number in near[:NEAR]:
        tries[0] -= 1
        chosen = _chosen(ranges[:-1], {**numbers, name: number}, tries) if tries[0] >= 0 else None
        if chosen is not None:
            return chosen
    return None
