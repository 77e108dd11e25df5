"""The curve of the total beside some random runs, as a picture with its numbers. The total bounds what all steps cost
together: how many there are, where no rule has a cost."""

import html
import random
from dataclasses import dataclass

from . import bounds, runs

# The inputs are at most each of these numbers; for each one so many runs are made, of so many steps at most.
SIZES, RUNS, MOST = (0, 1, 2, 3, 4, 6, 8, 10, 12, 16, 20), 5, 400
WIDTH, HEIGHT, LEFT, TOP, BOTTOM = 560, 230, 70, 14, 34
# From this factor between the greatest and the least number on, the scale is that of powers.
WIDE = 500


def points(program, report):
    """For each size of the inputs the total where all are of that size, or, of a bound over the inputs themselves, the
    greatest one at the starts of the runs; and the most that random runs from inputs of at most that size cost, which is
    the number of their steps where no rule has a cost; `True` where one of these runs was cut off."""
    found, draws = [], random.Random(0)
    for size in SIZES:
        most, is_cut, bound = 0, False, 0
        for seed in range(RUNS):
            start = _start(program, report, size, seed, draws)
            run = runs.made(program, start, MOST, seed)
            bound = max(bound, bounds.value(report.total, dict(zip(program.inputs, start))))
            most, is_cut = max(most, sum(runs.costs(program, run, MOST))), is_cut or len(run.steps) == MOST
        if not report.is_best:
            bound = bounds.value(report.total, {name: size for name in program.inputs})
        found.append((size, bound, most, is_cut))
    return found


def _start(program, report, size, seed, draws):
    """The start of a run: first all inputs are of this size; for a bound over the inputs themselves then every other one,
    since their differences count; else they are drawn."""
    if seed == 0 or report.is_best and seed in (1, 2):
        return [size if seed == 0 or at % 2 == seed - 1 else 0 for at, _ in enumerate(program.inputs)]
    return [draws.randint(0, size) for _ in program.inputs]


@dataclass
class Words:
    """How the numbers are headed: the whole section, and those of the runs."""

    head: str
    run: str


STEPS, COSTS = Words("All steps", "longest run"), Words("What all steps cost", "dearest run")


def section(program, report):
    """The section of a page; nothing where there is no total, or no input."""
    if report.total is None or not program.inputs:
        return ""
    found, words = points(program, report), COSTS if report.costs else STEPS
    rows = "".join(f'<tr><th scope="row">{size}</th><td data-head="at most">{bounds.value_text(bound)}</td>'
                   f'<td data-head="{words.run}">{most:,}{" or more" if is_cut else ""}</td></tr>'
                   for size, bound, most, is_cut in found)
    names = "inputs of at most" if report.is_best else " = ".join(program.inputs)
    kind = words.run.split()[0]
    line = "greatest bound at the starts of its runs" if report.is_best else "bound where all inputs are n"
    return (f'<section aria-labelledby="curve"><h2 id="curve">{words.head}, by the inputs</h2>'
            f'<p class="help">The line is the {line}; a dot is the {kind} of {RUNS} runs made at '
            f"random from inputs of at most n, a triangle says that one of them was cut off after {MOST} "
            f"steps. The {kind} of all runs may be far above.</p>"
            f'<div class="curve">{_drawn(found, words)}</div>'
            f'<details><summary>the numbers</summary><table><caption class="unseen">{words.head.lower()} by the inputs'
            "</caption>"
            f'<thead><tr><th scope="col" class="seen">{html.escape(names)}</th><th scope="col">at most</th>'
            f'<th scope="col">{words.run}</th></tr></thead><tbody>{rows}</tbody></table></details></section>')


def _drawn(found, words):
    """The picture, of at most two scales: by numbers, or by their lengths where they differ widely."""
    greatest = max(max(bound, longest) for _, bound, longest, _ in found)
    least = min([it for _, bound, longest, _ in found for it in (bound, longest) if it] or [1])
    is_wide = greatest > WIDE * least

    def across(size):
        return LEFT + (WIDTH - LEFT - 12) * size / SIZES[-1]

    def up(number):
        share = _length(number) / max(_length(greatest), 1) if is_wide else number / max(greatest, 1)
        return HEIGHT - BOTTOM - (HEIGHT - BOTTOM - TOP) * share

    line = " ".join(f"{across(size):.1f},{up(bound):.1f}" for size, bound, _, _ in found)
    dots = "".join(_dot(across(size), up(longest), is_cut) for size, _, longest, is_cut in found)
    marks = sorted({0, greatest} | ({_half(greatest)} if is_wide else {greatest // 2}))
    sides = "".join(f'<text x="{LEFT - 8}" y="{up(it) + 4:.1f}" text-anchor="end">{_short(it)}</text>'
                    f'<path d="M{LEFT} {up(it):.1f}H{WIDTH - 12}"/>' for it in marks)
    feet = "".join(f'<text x="{across(it):.1f}" y="{HEIGHT - BOTTOM + 18}" text-anchor="middle">{it}</text>'
                   for it in SIZES if it % 4 == 0)
    scale = "; each line upwards is a power of the one below" if is_wide else ""
    return (f'<svg viewBox="0 0 {WIDTH} {HEIGHT}" role="img" aria-label="{words.head.lower()}: the bound and the '
            f'{words.run} of some at random, from inputs of 0 to {SIZES[-1]}{scale}; the numbers follow">{sides}{feet}'
            f'<text x="{WIDTH - 12}" y="{HEIGHT - 2}" text-anchor="end">n</text>'
            f'<polyline points="{line}"/>{dots}</svg>')


def _dot(across, up, is_cut):
    if is_cut:
        return f'<path class="cut" d="M{across - 5:.1f} {up + 4:.1f}h10l-5 -9z"/>'
    return f'<circle cx="{across:.1f}" cy="{up:.1f}" r="4"/>'


def _length(number):
    """The length of a number in bits, with a part for its first ones: close to its logarithm, and exact on integers."""
    shift = max(number.bit_length() - 20, 0)
    first = (number + 1) >> shift
    return shift + first.bit_length() - 1 + first / (1 << (first.bit_length() - 1)) - 1 if first else 0


def _half(greatest):
    return 1 << (greatest.bit_length() // 2)


def _short(number):
    if number < 100000:
        return f"{number:,}"
    return f"2^{number.bit_length() - 1} .." if number & (number - 1) else f"2^{number.bit_length() - 1}"
