"""Lassos, looked for by walking and then along paths (`paths`): a run that comes to a configuration where it was before,
so that it goes on for ever; or to one at the same symbol from which it goes on by the same differences each time.

`koat lasso` alone says that what is found here is a lasso of the program: it checks the file that is written.
"""

import itertools
import time
from dataclasses import dataclass
from typing import List, Tuple

from . import moving, paths, runs

# Start values are tried up to this absolute value, the small ones first.
START = 6
# So many steps a walk has at most: first in each walk from every start, then again where nothing was found.
DEPTHS = (60, 5000)
# So many combinations of free values are tried for a rule, and so many configurations looked at in all.
DRAWS, CONFIGURATIONS = 60, 400000
# Where the search for one walk of a depth stops, so that those from other starts have their turn.
FEW = 20000
# Turns of so many steps at most are tried as such that move on, where a walk has so many steps at most.
TURN, EARLY = 6, 20


@dataclass
class Lasso:
    """The start values, the steps of the stem and those of the turn: the number of a rule and its free values; and whether
    the turn moves on, or else leads back."""

    start: List[int]
    stem: List[Tuple[int, List[int]]]
    turn: List[Tuple[int, List[int]]]
    is_moving: bool = False


def text(lasso):
    """The lasso file of a lasso."""
    lines = [f"koat-lasso {2 if lasso.is_moving else 1}", " ".join(["start", *map(str, lasso.start)])]
    lines += [*map(_line, lasso.stem), "loop", *map(_line, lasso.turn), "end"]
    return "".join(f"{line}\n" for line in lines)


def lasso_of(data):
    """The lasso of a lasso file that koat took."""
    lines = [it.split() for it in data.decode("latin-1").splitlines()]
    loop = lines.index(["loop"])
    steps = [(int(it[1]), [int(one) for one in it[2:]]) for it in lines[2:loop] + lines[loop + 1:-1]]
    return Lasso([int(it) for it in lines[1][1:]], steps[:loop - 2], steps[loop - 2:], lines[0][1] == "2")


def found(program, seconds):
    """A lasso of the program, or none where none was found within so many seconds; walks have half of them."""
    now = time.monotonic()
    lasso = _walked(_Search(program, now + seconds / 2), len(program.inputs))
    if lasso:
        return lasso
    along = paths.found(program, now + seconds)
    return Lasso(*along) if along else None


def _walked(search, places):
    """A lasso that walks find, or none."""
    for depth in DEPTHS:
        for start in _starts(places):
            lasso = search.walk(start, depth)
            if lasso or search.is_over():
                return lasso
    return None


def _line(step):
    return " ".join(["step", str(step[0]), *map(str, step[1])])


def _starts(places):
    """Start values, those with a small greatest absolute value first."""
    for most in range(START + 1):
        near = sorted(range(-most, most + 1), key=lambda it: (abs(it), it < 0))
        yield from (list(it) for it in itertools.product(near, repeat=places)
                    if max(map(abs, it), default=0) == most)
        if not places:
            return


class _Search:
    """Walks through configurations, depth first.

    `done` has, for each configuration from which all walks of so many steps led to no lasso, that number; with no more
    steps left it isn't walked from again. One that is left after `FEW` cut a walk short gets no such number.
    """

    def __init__(self, program, until):
        self.symbol, self.until, self.left = program.start, until, CONFIGURATIONS
        self.leaving, self.done = {}, {}
        self.rules = [runs.UsableRule(rule) for rule in program.rules]
        for rule in self.rules:
            self.leaving.setdefault(rule.source, []).append(rule)

    def is_over(self):
        return self.left <= 0 or time.monotonic() > self.until

    def walk(self, start, depth):
        """A lasso from these start values whose steps are no more than the depth, or none."""
        here = (self.symbol, tuple(start))
        path, steps, at, order = [self._steps(here)], [], {here: 0}, [here]
        few, is_cut = FEW, False
        while path:
            step = next(path[-1], None)
            if step is None:
                path.pop()
                if not is_cut:
                    self.done[order[-1]] = depth - len(steps)
                del at[order.pop()]
                if steps:
                    steps.pop()
                continue
            taken, there = step
            if there in at:
                steps.append(taken)
                return Lasso(list(start), steps[:at[there]], steps[at[there]:])
            turn = self._moving_turn(order, [*steps, taken], there)
            if turn:
                return Lasso(list(start), steps[:len(steps) + 1 - turn], [*steps, taken][-turn:], True)
            if self.done.get(there, 0) >= depth - len(steps) - 1 or self.is_over():
                continue
            if few == 0:
                is_cut = True
                continue
            few, self.left = few - 1, self.left - 1
            steps.append(taken)
            at[there] = len(steps)
            order.append(there)
            path.append(self._steps(there))
        return None

    def _moving_turn(self, order, steps, there):
        """How many of the last steps, through these configurations to the last one, are a turn that moves on; or 0."""
        if len(steps) > EARLY:
            return 0
        for turn in range(1, min(TURN, len(steps)) + 1):
            symbol, values = order[-turn]
            taken = [(self.rules[number - 1], free) for number, free in steps[-turn:]]
            if symbol == there[0] and moving.moves_on(taken, values, there[1]):
                return turn
        return 0

    def _steps(self, here):
        """The steps from a configuration, each with the configuration behind it."""
        symbol, values = here
        for rule in self.leaving.get(symbol, []):
            for free in itertools.islice(_free_values(values, len(rule.free)), DRAWS):
                after = rule.after(list(values), list(free))
                if after is not None:
                    yield (rule.number, list(free)), (rule.target, tuple(after))


def _free_values(values, count):
    """Free values: small ones, those in sight, and such as are one away from these."""
    near = [0, 1, -1, 2, *values, *(it + away for it in values for away in (1, -1))]
    return itertools.product(list(dict.fromkeys(it for it in near if abs(it) <= runs.WIDEST)), repeat=count)
