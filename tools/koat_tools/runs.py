"""Runs made at random, as run files, and what `koat replay` writes of a run. docs/run-files.md has both.

Which steps are a run is said by koat alone, when it replays one. What stands here takes steps of a program that koat
took: at each one a rule that leaves the symbol and whose guard holds, with free values that were drawn for it.
"""

import random
import re
from dataclasses import dataclass, field
from typing import Dict, List, Tuple, Union

from . import programs

# A run ends where a value would become greater: koat replays in 128 bits, and files have values below 2^63.
WIDEST = 2**62
# koat takes no step in which some part of an expression isn't below this, or is below its negative.
PAST = 2**127
# How often free values are drawn for a rule, and from where.
DRAWS, NEAR, FAR = 20, 3, 100

SIGNS = {"^": "**", "=": "==", "&&": " and ", "/\\": " and "}


@dataclass
class Run:
    """The start values, and the steps: each the number of a rule and the values of its free variables."""

    start: List[int]
    steps: List[Tuple[int, List[int]]] = field(default_factory=list)


def text(run):
    """The run file of a run."""
    lines = ["koat-run 1", " ".join(["start", *map(str, run.start)])]
    lines += [" ".join(["step", str(rule), *map(str, free)]) for rule, free in run.steps]
    return "".join(f"{line}\n" for line in [*lines, "end"])


def usable(program):
    """The rules of a program as they are computed."""
    return [UsableRule(rule) for rule in program.rules]


def made(program, start, most, seed):
    """A run from these start values of at most so many steps; the same seed gives the same run."""
    return run_by(start, walked(usable(program), program.start, start, most, seed))


def run_by(start, steps):
    """The run of steps that were walked."""
    return Run(list(start), [(rule.number, free) for rule, free, _ in steps])


def walked(rules, symbol, start, most, seed):
    """The steps of a run that is made by these rules from a symbol: of each the rule, its free values, and the values
    behind it."""
    draws, values = random.Random(seed), list(start)
    for _ in range(most):
        step = _step(draws, rules, symbol, values)
        if step is None:
            return
        rule, _, values = step
        symbol = rule.target
        yield step


def states(program, run, most):
    """For each step of a run its rule, the symbol that it leads to and the values there; none where one isn't possible."""
    rules, values, found = {it.number: it for it in map(UsableRule, program.rules)}, list(run.start), []
    for number, free in run.steps[:most]:
        values = rules[number].after(values, free) if number in rules else None
        if values is None:
            return None
        found.append((number, rules[number].target, values))
    return found


def costs(program, run, most):
    """What each step of a run costs, all steps being possible: 1 where no cost is written, and 0 where it is negative."""
    rules, values, found = {it.number: it for it in map(UsableRule, program.rules)}, list(run.start), []
    for number, free in run.steps[:most]:
        found.append(rules[number].spent(values, free))
        values = rules[number].after(values, free)
    return found


def run_of(data):
    """The run of a run file that koat took."""
    lines = [it.split() for it in data.decode("latin-1").splitlines()]
    return Run([int(it) for it in lines[1][1:]], [(int(it[1]), [int(one) for one in it[2:]]) for it in lines[2:-1]])


def _step(draws, rules, symbol, values):
    """A rule that can be used here, its free values and the values behind it; none where no draw gives one."""
    leaving = [rule for rule in rules if rule.source == symbol]
    draws.shuffle(leaving)
    for rule in leaving:
        for _ in range(DRAWS if rule.free else 1):
            free = [_drawn(draws, values) for _ in rule.free]
            after = rule.after(values, free)
            if after is not None:
                return rule, free, after
    return None


def _drawn(draws, values):
    """A value near 0, near one of these values, or anywhere up to 100."""
    kind = draws.randrange(3)
    if kind == 2:
        return draws.randint(-FAR, FAR)
    middle = draws.choice(values) if kind and values else 0
    return max(-WIDEST, min(WIDEST, middle + draws.randint(-NEAR, NEAR)))


class UsableRule:
    """A rule of which guard, updates and cost can be computed."""

    def __init__(self, rule):
        self.number, self.source, self.target = rule.number, rule.source.text, rule.target.text
        self.names, self.free = rule.left_names, [it.text for it in rule.free]
        self.guard = _computed(rule.guard or "TRUE")
        self.updates = [_computed(it) for it in rule.updates]
        self.cost = None if rule.cost is None else _computed(rule.cost)

    def spent(self, values, free):
        """What a use of the rule costs."""
        if self.cost is None:
            return 1
        return max(0, int(_value(self.cost, dict(zip(self.names + self.free, values + free)))))

    def after(self, values, free):
        """The values behind the rule, or none where its guard doesn't hold, or a value or the cost would become too
        large."""
        given = dict(zip(self.names + self.free, values + free))
        try:
            if not _value(self.guard, given):
                return None
            after = [int(_value(update, given)) for update in self.updates]
            self.spent(values, free)
        except OverflowError:
            return None
        return after if all(abs(it) <= WIDEST for it in after) else None

    def moved(self, places, free, whole):
        """What is behind the rule where names stand for other numbers than integers, which `whole` makes of integers; none
        where the guard isn't true of them."""
        given = dict(zip(self.names + self.free, places + free))
        if not _value(self.guard, given, whole):
            return None
        return [_value(update, given, whole) for update in self.updates]


class _Whole(int):
    """A whole number of which no sum, product or power passes 128 bits."""

    def __neg__(self):
        return _within(-int(self))

    def __add__(self, other):
        return _within(int(self) + int(other))

    def __sub__(self, other):
        return _within(int(self) - int(other))

    def __mul__(self, other):
        return _within(int(self) * int(other))

    def __pow__(self, other):
        if abs(self) > 1 and other > 127:
            raise OverflowError
        return _within(int(self) ** int(other))


def _within(number):
    if not -PAST <= number < PAST:
        raise OverflowError
    return _Whole(number)


def _computed(written):
    """What computes an expression or a guard as it is written, over the values of its names."""
    found, told = programs.tokens(written), []
    for at, token in enumerate(found):
        if token.kind == "name" and _is_truth(found, at):
            told.append("True")
        elif token.kind == "name":
            told.append(f"whole(given[{token.text!r}])")
        elif token.text.isdigit():
            told.append(f"whole({token.text.lstrip('0') or '0'})")
        else:
            told.append(SIGNS.get(token.text, token.text))
    return compile("".join(told), "rule", "eval")


def _is_truth(found, at):
    """Whether this name is an atom that is true: TRUE, with no sign of an expression or a comparison beside it."""
    if found[at].text not in ("TRUE", "true"):
        return False
    beside = [it.text for it in found[max(at - 1, 0):at] + found[at + 1:at + 2]]
    return all(it in ("&&", "/\\") for it in beside)


def _value(code, given, whole=None):
    return eval(code, {"__builtins__": {}}, {"given": given, "whole": whole or _within})  # pylint: disable=eval-used


class ReplayError(ValueError):
    """A text that isn't what `koat replay` writes of a run."""


@dataclass
class Replay:
    """What `koat replay` writes: of each label of a bound the number of the run, or the words of one that is too large to
    be told, and the bound's value beside it."""

    steps: int
    beside: Dict[str, Tuple[Union[int, str], str]]


LINE = re.compile(r"(time [0-9]+|cost [0-9]+|total|size [0-9]+\.[0-9]+): ([0-9]+|2\^127 or more) of "
                  r"([0-9]+|unknown|2\^127 or more)")


def labels(program):
    """The labels of the lines that `koat replay` writes of a run of a program: those of the bounds of `koat analyse`."""
    found = [f"time {it.number}" for it in program.rules]
    found += [f"cost {it.number}" for it in program.rules if it.cost is not None] + ["total"]
    return found + [f"size {it.number}.{place}" for it in program.rules for place in range(1, len(it.updates) + 1)]


def read(said, labels):
    """What koat wrote of a run that it replayed, beside bounds with these labels."""
    lines = said.splitlines()
    first = re.fullmatch(r"steps ([0-9]+)", lines[0]) if lines else None
    found = [LINE.fullmatch(line) for line in lines[1:]]
    if first is None or None in found:
        raise ReplayError("no lines of a replay")
    if [it.group(1) for it in found] != labels:
        raise ReplayError("no line for each bound, in order")
    return Replay(int(first.group(1)), {it.group(1): (_counted(it.group(2)), it.group(3)) for it in found})


def _counted(written):
    return int(written) if written.isdigit() else written
