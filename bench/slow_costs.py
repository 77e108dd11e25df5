"""The bounds on costs in a report, plainly and slowly, by their description alone: nothing of the crates is used.

`Costs(program, pivots, times, sizes)` takes a program of `slow_forms.py`, the pivots that a linear program may take,
and the bounds on times and sizes of a report. `answer(rule)` is what the analysis answers of a rule's cost: a bound
with the lemma that states it, or why there is none. Every linear program is written out and followed by Bland's rule over
fractions, so that the side bound, the limit and the ray are those of the program, number by number.
"""

from math import lcm
from typing import NamedTuple

from slow_bounds import ZERO, rewritten, text_of
from slow_check import LOW, UP, No, Sided, stated
from slow_lp import Program, Tableau
from slow_trees import Arm

NUMBER_LIMIT, DUAL_LIMIT = 2**56, 2**45


class Unbounded(Exception):
    """Why a cost has no bound: the lines of the report behind `why cost R: `."""

    def __init__(self, *lines):
        super().__init__(lines[0])
        self.lines = list(lines)


class Limit(Exception):
    """The limit that a linear program exceeds."""


class Infeasible(Exception):
    """A linear program has no solution; its dual, over a common denominator."""

    def __init__(self, dual):
        super().__init__()
        self.dual = dual


class Answer(NamedTuple):
    """A bound, with what stands in its lemma behind the rule's number; or else why there is none."""

    bound: tuple
    lemma: str
    why: list


def scaled(numbers):
    """The numbers times their least common denominator, and it."""
    den = lcm(*(number.denominator for number in numbers))
    return [int(number * den) for number in numbers], den


def within(most, numbers):
    """The numbers, where none is over the limit."""
    if any(abs(number) > most for number in numbers):
        raise Limit("scale")
    return numbers


def solved(columns, first, second, rows, right, pivots):
    """The solution of a linear program over its least common denominator, and this."""
    tableau, made = Tableau(Program(columns, first, second, rows, right)), 0
    while True:
        if not tableau.is_in_range():
            raise Limit(f"range at pivot {made}")
        if tableau.is_infeasible():
            raise Infeasible(within(DUAL_LIMIT, scaled(tableau.dual())[0]))
        column = tableau.entering()
        if column is None:
            whole, den = scaled(tableau.values())
            within(NUMBER_LIMIT, [*whole, den])
            return whole, den
        if made == pivots:
            raise Limit(f"budget after {pivots} pivots")
        tableau.pivot(tableau.leaving(column), column)
        made += 1


def form_above(forms, sought, fixed, value, pivots):
    """The side bound of a form in the arguments that is at least the value wherever the rows hold: one with
    coefficients at the places sought and a constant, where that is sought too, and else these fixed coefficients."""
    places, has_constant = sought
    width = 2 * len(places) + (2 if has_constant else 0)
    columns = width + len(forms.rows) + 1
    rows = []
    for unknown in range(forms.unknowns):
        row = [0] * columns
        if unknown in places:
            row[2 * places.index(unknown)], row[2 * places.index(unknown) + 1] = 1, -1
        row[width:columns - 1] = [-it[unknown] for it in forms.rows]
        rows.append(row)
    last = [0] * columns
    if has_constant:
        last[width - 2], last[width - 1] = 1, -1
    last[width:] = [-it[-1] for it in forms.rows] + [-1]
    right = [number - other for number, other in zip(value[:-1], fixed)] + [value[-1]]
    first = [1] * (2 * len(places)) + [0] * (columns - 2 * len(places))
    second = [0] * columns
    if has_constant:
        second[width - 2] = 1
    whole, den = solved(columns, first, second, [*rows, last], right, pivots)
    form = [den * number for number in fixed[:forms.left]] + [0]
    for at, place in enumerate(places):
        form[place] = whole[2 * at] - whole[2 * at + 1]
    if has_constant:
        form[-1] = whole[width - 2] - whole[width - 1]
    return Arm(False, den, form, whole[width:columns - 1])


def point_of(forms, pivots):
    """The multipliers that show that the rows have no point, and none; or none and a point. A limit is raised."""
    columns = len(forms.rows) + 1
    rows = [[-it[unknown] for it in forms.rows] + [0] for unknown in range(forms.unknowns)]
    rows.append([-it[-1] for it in forms.rows] + [-1])
    right = [0] * forms.unknowns + [1]
    try:
        whole, den = solved(columns, [0] * columns, [0] * columns, rows, right, pivots)
    except Infeasible as infeasible:
        return None, infeasible.dual
    return whole[:-1], None


class Costs:
    """The costs of a program's rules over the bounds of a report."""

    def __init__(self, program, pivots, times, sizes):
        self.program, self.pivots, self.times, self.sizes = program, pivots, times, sizes

    def size_after(self, rule):
        """The bound of each place after a rule, the start arguments after the virtual entry."""
        return lambda place: self.sizes[rule, place] if rule else ("var", place - 1)

    def answer(self, rule):
        try:
            bound, lemma = self.bounded(rule)
            return Answer(bound, lemma, None)
        except Unbounded as unbounded:
            return Answer(None, None, unbounded.lines)

    def bounded(self, rule):
        """The bound on the cost of a rule, and its lemma behind the rule's number: a text and the keys of its premises,
        a rule and a place, or place 0 for the time."""
        forms = self.program.costs[rule]
        try:
            multipliers, point = point_of(forms, self.pivots)
        except Limit as limit:
            multipliers, point = None, limit
        if multipliers is not None:
            return ZERO, (f"empty {listed(multipliers)}", [])
        if self.times[rule] == ZERO:
            return ZERO, ("never", [(rule, 0)])
        arm = self.step(rule, forms, point)
        sided = Sided(forms, 1, UP, arm)
        before = self.program.before(rule)
        for entry in before:
            for place in sided.reads():
                if entry and self.sizes[entry, place] is None:
                    raise Unbounded(f"missing {entry}.{place}")
        if self.times[rule] is None:
            raise Unbounded(f"untimed {rule}")
        most = ("max", tuple(sided.bound(self.size_after(entry)) for entry in before))
        try:
            bound = stated(("prod", (self.times[rule], most)))
        except No as no:
            raise Unbounded(f"{no} nodes") from None
        word = "poly" if arm.is_poly else f"lin {arm.den} {listed(arm.form)} {listed(arm.multipliers)}"
        return bound, (word, [(rule, 0)] + [(entry, place) for entry in before for place in sided.reads()])

    def step(self, rule, forms, point):
        """The upper side bound on the cost of one step."""
        read = [number for monomial, _ in forms.polynomials[0] or () for number in monomial]
        if forms.polynomials[0] is not None and all(number < forms.left for number in read):
            return Arm(True)
        found, loose = {}, []
        try:
            for side in (UP, LOW):
                try:
                    found[side] = self.side_bound(forms, side)
                except Infeasible as infeasible:
                    loose.append((side, infeasible.dual))
        except Limit as limit:
            raise Unbounded(f"cost {rule} {limit}") from None
        if loose and isinstance(point, Limit):
            raise Unbounded(f"cost {rule} {point}")
        if loose:
            side, ray = loose[0]
            kept = f"  kept: ({', '.join(map(str, point[:-1]))}) / {point[-1]}"
            raise Unbounded(f"loose {side}", f"  ray: ({', '.join(map(str, ray[:-1]))})", kept)
        return found[UP]

    def side_bound(self, forms, side):
        """The first of the side bounds that follow: a constant; the argument at the cost's place or its negation, then
        each other argument or its negation; an affine form. Where the cost has degree 2 or more, the last alone."""
        sign = 1 if side == UP else -1
        value = [sign * number for number in forms.news[0]]
        none = [0] * forms.unknowns
        every = list(range(forms.left))
        if forms.polynomials[0] is None:
            asked = [(([], True), none)]
            for place in every:
                for number in (1, -1):
                    fixed = list(none)
                    fixed[place] = number
                    asked.append((([], False), fixed))
            for sought, fixed in asked:
                try:
                    return form_above(forms, sought, fixed, value, self.pivots)
                except Infeasible:
                    pass
        return form_above(forms, (every, True), none, value, self.pivots)


def listed(numbers):
    return f"[{' '.join(map(str, numbers))}]"


def total_of(costs, program, times):
    """The total over the answers on costs and the times, or none."""
    parts = [costs[rule].bound if rule in costs else times[rule] for rule in program.numbers()]
    return None if None in parts else rewritten(("sum", tuple(parts)))


def cost_lines(costs, program, times):
    """The first line, those on costs and the total, and the reasons of a report."""
    names, total = program.names, total_of(costs, program, times)
    told = lambda bound: "unknown" if bound is None else text_of(bound, names)
    known = [*times.values(), *(answer.bound for answer in costs.values())]
    bounds = [f"cost {rule}: {told(answer.bound)}" for rule, answer in costs.items()]
    whys = [line for rule, answer in costs.items() if answer.why
            for line in [f"why cost {rule}: {answer.why[0]}", *answer.why[1:]]]
    return "unknown" if None in known else "bounded", [*bounds, f"total: {told(total)}"], whys


def cost_lemmas(costs, numbers):
    """The lemmas of costs, where these are the numbers of the lemmas that state times and sizes, by their keys."""
    lemmas = []
    for rule, answer in costs.items():
        if answer.bound is not None:
            word, keys = answer.lemma
            cited = sorted({numbers[key] for key in keys if key[0]}, key=[numbers.get(key) for key in keys].index)
            uses = ["start"] * any(not entry for entry, _ in keys) + [f"cite {number}" for number in cited]
            lemmas.append(f"cost {rule} {word} uses {{{'; '.join(uses)}}}")
    return lemmas
