"""All runs of a program from a start, with free values from a small range: the greatest tally that one of them has.

`Exhaustive(text).greatest(start)` is a list of numbers, each the greatest one that some run from the start reaches,
or `NEVER` where none has one. `labels` names them as a report of `koat best` does: `total`, `time R`, `cost R` of a
rule with a cost, `above R.I` and `below R.I`. Configurations are kept between starts, so that each is gone on from
once. The program is read by `slow_reading.py`; what steps do is computed by its trees alone, over integers of any
size.
"""

import itertools
import math
import random

from slow_reading import Reading

LEAST, MOST, STARTS = -5, 12, 74
# From which numbers free values are taken, where a rule has one, two or more of them.
FREE = [range(LEAST, MOST + 1), range(-2, 4), range(-1, 2)]
# From how many configurations a program's runs may be gone on, those of runs without end too.
CONFIGURATIONS = 1_000_000
NEVER = -math.inf


class Endless(Exception):
    """A run leads back to a configuration, so that no number is the greatest."""


class TooMany(Exception):
    """There are more configurations than may be gone on from."""


def starts(places):
    """Lists of start values from -5 to 12: those of equal values, and others at random, always the same; 74 at most."""
    found = [(value,) * places for value in range(LEAST, MOST + 1)] if places else [()]
    draws = random.Random(places)
    while places > 1 and len(found) < STARTS:
        start = tuple(draws.randint(LEAST, MOST) for _ in range(places))
        found += [start] if start not in found else []
    return found


def written(tree, names):
    """A tree as Python writes it, over the list `v` of the values of the names."""
    word, *parts = tree
    if word == "number":
        return f"({parts[0]})"
    if word == "variable":
        return f"v[{names.index(parts[0])}]"
    if word == "opposite":
        return f"(-{written(parts[0], names)})"
    if word == "^":
        return f"({written(parts[0], names)}**{parts[1]})"
    return f"({written(parts[0], names)}{word}{written(parts[1], names)})"


def test(atom, names):
    """A comparison as Python writes it."""
    if atom is None:
        return "True"
    left, relation, right = atom
    return f"{written(left, names)} {'==' if relation == '=' else relation} {written(right, names)}"


class Step:
    """What a rule does: its number, where it leads, and what computes the cost and the values behind it; the latter is
    false where its guard doesn't hold."""

    def __init__(self, number, rule):
        names, self.number, self.target, self.places = rule.variables, number, rule.target, len(rule.updates)
        count = len(names) - rule.left
        self.free = list(itertools.product(FREE[min(count, len(FREE)) - 1], repeat=count)) if count else [()]
        guard = " and ".join([test(it, names) for it in rule.atoms] or ["True"])
        values = "".join(f"{written(it, names)}," for it in rule.updates)
        self.after = eval(f"lambda v: ({guard}) and (({values}),)")
        self.has_cost = rule.cost is not None
        self.cost = eval(f"lambda v: max(0, {written(rule.cost, names)})" if self.has_cost else "lambda v: 1")


class Exhaustive:
    """The runs of a program that koat takes."""

    def __init__(self, text):
        reading = Reading(text)
        verdict = reading.verdict()
        if verdict != "taken":
            raise ValueError(verdict)
        self.start, self.leaving, self.known = reading.starts[0].text, {}, {}
        steps = [Step(number, rule) for number, rule in enumerate(reading.rules, 1)]
        for step, rule in zip(steps, reading.rules):
            self.leaving.setdefault(rule.source, []).append(step)
        self.places = next((it.left for it in reading.rules if it.source == self.start), 0)
        self.labels = ["total"] + [f"time {it.number}" for it in steps]
        self.labels += [f"cost {it.number}" for it in steps if it.has_cost]
        self.labels += [f"{side} {it.number}.{place}" for side in ("above", "below") for it in steps
                        for place in range(1, it.places + 1)]
        self.at = {label: at for at, label in enumerate(self.labels)}
        self.nothing = [NEVER if it[0] in "ab" else 0 for it in self.labels]
        self.left = CONFIGURATIONS

    def steps(self, configuration):
        """Each step from a configuration: its rule, what it costs and the values behind it."""
        symbol, values = configuration
        for step in self.leaving.get(symbol, ()):
            for free in step.free:
                given = values + free
                behind = step.after(given)
                if behind:
                    yield step, step.cost(given), behind[0]

    def with_step(self, step, cost, values, tally):
        """The numbers of a run that begins with a step and goes on as one with these numbers does."""
        told = list(tally)
        told[0] += cost
        told[step.number] += 1
        if step.has_cost:
            told[self.at[f"cost {step.number}"]] += cost
        for place, value in enumerate(values, 1):
            for label, number in ((f"above {step.number}.{place}", value), (f"below {step.number}.{place}", -value)):
                told[self.at[label]] = max(told[self.at[label]], number)
        return told

    def greatest(self, start):
        """The greatest numbers of runs from these start values.

        It raises `Endless` where a run leads back to a configuration, and `TooMany` where runs lead to too many.
        """
        begin = (self.start, tuple(start))
        if begin in self.known:
            return self.known[begin]
        path = [(begin, None, self.steps(begin))]
        open_ones = {begin: list(self.nothing)}
        while path:
            here, by, steps = path[-1]
            step = next(steps, None)
            if step is None:
                path.pop()
                self.known[here] = open_ones.pop(here)
                if path:
                    self.add(open_ones[path[-1][0]], by, here)
                continue
            there = (step[0].target, step[2])
            if there in self.known:
                self.add(open_ones[here], step, there)
            elif there in open_ones:
                raise Endless
            elif self.left == 0:
                raise TooMany
            else:
                self.left -= 1
                path.append((there, step, self.steps(there)))
                open_ones[there] = list(self.nothing)
        return self.known[begin]

    def add(self, tally, step, there):
        """Raises numbers to those of the runs that begin with this step."""
        tally[:] = map(max, tally, self.with_step(*step, self.known[there]))
