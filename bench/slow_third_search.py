"""Finds the certificates of proof files of the third form, by exact linear programming: nothing of the crates is used.

`combination(columns, goal)` are numbers of at least 0 that take the columns to the goal, or none; `certificate(rows,
goal)` is the text of a certificate of products that shows a polynomial, and `multipliers(rows, goal)` are those of a
plain certificate; both are whole, or none.
"""

from fractions import Fraction
from math import lcm

from slow_reading import product_of, sum_of


def combination(columns, goal):
    """A basic solution of `columns * x = goal` with x at least 0, by the first phase with Bland's rule."""
    height, width = len(goal), len(columns)
    rows = [[Fraction(column[at]) for column in columns] + [Fraction(int(at == it)) for it in range(height)]
            + [Fraction(goal[at])] for at in range(height)]
    rows = [[-number for number in row[:width]] + row[width:-1] + [-row[-1]] if row[-1] < 0 else row for row in rows]
    basis = list(range(width, width + height))
    while True:
        lost = [at for at in range(height) if basis[at] >= width]
        gain = lambda column: sum(rows[at][column] for at in lost)
        entering = next((column for column in range(width) if column not in basis and gain(column) > 0), None)
        if entering is None:
            break
        _, _, leaving = min((rows[at][-1] / rows[at][entering], basis[at], at)
                            for at in range(height) if rows[at][entering] > 0)
        pivot = rows[leaving][entering]
        rows[leaving] = [number / pivot for number in rows[leaving]]
        for at in range(height):
            factor = rows[at][entering]
            if at != leaving and factor:
                rows[at] = [one - factor * other for one, other in zip(rows[at], rows[leaving])]
        basis[leaving] = entering
    if any(rows[at][-1] for at in range(height) if basis[at] >= width):
        return None
    found = [Fraction(0)] * width
    for at, column in enumerate(basis):
        if column < width:
            found[column] = rows[at][-1]
    return found


def multipliers(rows, goal):
    """Multipliers by which rows, lists of coefficients and a constant, show a goal."""
    columns = list(rows) + [[0] * (len(goal) - 1) + [1]]
    found = combination(columns, goal)
    if found is None or any(number.denominator > 1 for number in found[:-1]):
        return None
    return [int(number) for number in found[:-1]]


def refuting(rows):
    """Whole multipliers by which rows show -1, or none."""
    if not rows:
        return None
    found = combination(list(rows) + [[0] * (len(rows[0]) - 1) + [1]], [0] * (len(rows[0]) - 1) + [-1])
    if found is None:
        return None
    scale = lcm(*(number.denominator for number in found))
    return [int(number * scale) for number in found[:-1]]


def certificate(rows, goal, variables=0):
    """A certificate of rows and their products, and of opposite rows times one of so many variables; polynomials are
    a coefficient by the sorted tuple of its variables."""
    summands = [(f"row {at}", row) for at, row in enumerate(rows, 1)]
    summands += [(f"rows {at} {by}", product_of(rows[at - 1], rows[by - 1]))
                 for at in range(1, len(rows) + 1) for by in range(at, len(rows) + 1)]
    for at, row in enumerate(rows, 1):
        for by, other in enumerate(rows, 1):
            if at != by and not sum_of(row, other, 1):
                for place in range(variables):
                    for sign in (1, -1):
                        summands.append((f"zero {at} {by} by {place + 1}", product_of({(place,): sign}, row), sign))
    for chosen in ([], summands[:len(rows)], summands):
        keys = sorted({key for it in chosen for key in it[1]} | set(goal) | {()})
        columns = [[it[1].get(key, 0) for key in keys] for it in chosen] + [[int(key == ()) for key in keys]]
        found = combination(columns, [goal.get(key, 0) for key in keys])
        if found is not None and all(number.denominator == 1 for number in found[:-1]):
            return "{" + "; ".join(f"{number * (it[2] if len(it) > 2 else 1)} {it[0]}"
                                   for number, it in zip(found, chosen) if number) + "}"
    return None
