"""A plain slow reading of lasso files and a plain slow check of lassos, by docs/lasso.md alone: nothing of the crates is
used.

`verdict(program, text)` is what is said of a lasso file: its refusal, as `Syntax at 5`; its first bad step, as
`GuardFails at 2, atom 1`; why its turn isn't a lasso's, as `Open at 1`; or the rules of the turn and what it costs, as
`rules 2 : 1`, behind the differences where the turn moves on. The program is a `Reading` of `slow_reading.py` that took
its text.
"""

import slow_runs
from slow_runs import PAST, BadStep, Refused, Text

# The forms of lasso files that are read.
FORMS = (1, 2)
BAD_STEPS = {"wrong rule": "WrongRule at {}", "value passes 128 bits": "PassedRange at {}"}


class Stopped(Exception):
    """Why a turn isn't a lasso's."""


def read(program, text):
    """The form, the start values, and the steps of the stem and of the turn, of a lasso file of the program."""
    free = [len(rule.variables) - rule.left for rule in program.rules]
    written, parts = Text(text), [[], []]
    written.take(b"koat-lasso ")
    form = 2 if 2 in FORMS and written.next() == b"2" else 1
    written.take(b"%d\nstart" % form)
    start = written.line(program.arities[program.starts[0].text])
    for steps in parts:
        while written.next() == b"s" or (steps is parts[1] and not steps):
            if len(parts[0]) + len(parts[1]) == slow_runs.STEPS and written.next() == b"s":
                raise Refused("Limit", written.at)
            written.take(b"step ")
            rule = written.rule(len(free))
            steps.append((rule, written.line(free[rule - 1])))
        written.take(b"loop\n" if steps is parts[0] else b"end\n")
    if written.next():
        raise Refused("Syntax", written.at)
    return form, start, parts[0], parts[1]


def walked(program, start, steps):
    """The configurations before each step and behind all, and what each step costs; or the first bad step."""
    found, costs = [(program.starts[0].text, start)], []
    for number, (rule, free) in enumerate(steps, 1):
        symbol, now = found[-1]
        try:
            behind = slow_runs.after(program.rules[rule - 1], symbol, now, free)
        except BadStep as error:
            atom = str(error).partition("atom ")[2]
            raise Stopped(f"GuardFails at {number}, atom {atom}" if atom
                          else BAD_STEPS[str(error)].format(number)) from None
        costs.append(slow_runs.spent(program.rules[rule - 1], now, free))
        found.append((program.rules[rule - 1].target, behind))
    return found, costs


def in_range(first, slope):
    """An integer that changes by its slope in each turn, or none where 128 bits don't hold both."""
    return (first, slope) if -PAST <= min(first, slope) and max(first, slope) < PAST else None


def product(a, b):
    if not a[1]:
        return in_range(a[0] * b[0], a[0] * b[1])
    return None if b[1] else in_range(a[0] * b[0], a[1] * b[0])


def affine(tree, values):
    """An expression over such integers, or none."""
    word, *parts = tree
    if word == "number":
        return parts[0], 0
    if word == "variable":
        return values[parts[0]]
    one = affine(parts[0], values)
    if word == "^":
        return None if one is None or one[1] else in_range(one[0] ** parts[1], 0)
    if word == "opposite":
        return None if one is None else in_range(-one[0], -one[1])
    two = affine(parts[1], values)
    if one is None or two is None:
        return None
    if word == "*":
        return product(one, two)
    sign = 1 if word == "+" else -1
    return in_range(one[0] + sign * two[0], one[1] + sign * two[1])


def goes_on(atom, values):
    """Whether an atom that holds is seen to go on to hold."""
    if atom is None:
        return True
    one, two = affine(atom[0], values), affine(atom[2], values)
    if one is None or two is None:
        return False
    if atom[1] in (">=", ">"):
        return one[1] >= two[1]
    return one[1] <= two[1] if atom[1] in ("<=", "<") else one[1] == two[1]


def behind_step(rule, free, places, number):
    """Such integers at the places behind a step."""
    values = dict(zip(rule.variables, [*places, *((value, 0) for value in free)]))
    for atom, it in enumerate(rule.atoms, 1):
        if not goes_on(it, values):
            raise Stopped(f"AtomStops at {number}, atom {atom}")
    found = [affine(tree, values) for tree in rule.updates]
    for place, it in enumerate(found, 1):
        if it is None:
            raise Stopped(f"PlaceBends at {number}, place {place}")
    return found


def differences(program, stem, turn, before, behind):
    """By how much the values change in each turn that moves on."""
    if before[0] != behind[0]:
        raise Stopped("OtherSymbol")
    found = [two - one for one, two in zip(before[1], behind[1])]
    for place, it in enumerate(found, 1):
        if not -PAST <= it < PAST:
            raise Stopped(f"DifferencePasses at {place}")
    places = list(zip(before[1], found))
    for number, (rule, free) in enumerate(turn, len(stem) + 1):
        places = behind_step(program.rules[rule - 1], free, places, number)
    for place, (one, two) in enumerate(zip(found, places), 1):
        if two[1] != one:
            raise Stopped(f"DifferenceChanges at {place}")
    return found


def closed(before, behind):
    """Refuses a turn that leads elsewhere."""
    if before[0] != behind[0]:
        raise Stopped("Open at 0")
    for place, (one, two) in enumerate(zip(before[1], behind[1]), 1):
        if one != two:
            raise Stopped(f"Open at {place}")


def checked(program, form, start, stem, turn):
    found, costs = walked(program, start, stem + turn)
    before, behind, said = found[len(stem)], found[-1], ""
    if form == 1:
        closed(before, behind)
    else:
        said = "".join(f"{it} " for it in ["moves", *differences(program, stem, turn, before, behind), ":"])
    rules = " ".join(str(rule) for rule in sorted({rule for rule, _ in turn}))
    return f"{said}rules {rules} : {min(PAST, sum(costs[len(stem):]))}"


def verdict(program, text):
    """What is said of a lasso file."""
    try:
        return checked(program, *read(program, text))
    except Refused as refused:
        kind, _, at = str(refused).removeprefix("run refused at ").partition(": ")
        return f"{at} at {kind}"
    except Stopped as stopped:
        return str(stopped)
