"""What the stand-in answers to `best`, to `certify` and to checks of files of the third form: the reports in the folder
`best`, and for other programs one with the bounds of their analysis; the proof files there, and for other programs one
that claims nothing; and what the slow checker of bench/ says."""

import glob
import os
import sys

import examples
from koat_tools import bounds, reports, signed_bounds

HERE = os.path.join(examples.HERE, "best")
BENCH = os.path.join(examples.TOP, "bench")
NOTHING = "koat-proof 3\nkoat-proof 1\nend\n"


def read(path):
    with open(path, encoding="utf-8") as file:
        return file.read()


def names():
    return sorted(os.path.basename(it)[:-len(".txt")] for it in glob.glob(os.path.join(HERE, "*.txt")))


def program(name):
    """The text of a program that has a report here."""
    return read(os.path.join(examples.TOP, "examples", "best", name + ".koat"))


def named(text):
    """The name of the program with this text, or nothing."""
    return next((it for it in names() if program(it).encode() == text), None)


def report(name):
    return read(os.path.join(HERE, name + ".txt"))


def certificate(name):
    path = os.path.join(HERE, f"{name}.proof")
    return read(path) if name and os.path.exists(path) else NOTHING


def checked(text, proof):
    """The lines of the slow checker."""
    sys.path.insert(0, BENCH)
    sys.setrecursionlimit(100000)
    from slow_third import said
    return said(text, proof)


def of_analysis(text):
    """A report of `best` with the bounds of a report of `facts`."""
    analysis = reports.read(text)
    lines = [f"fact {it}" for it in analysis.facts] + [analysis.verdict]
    lines += [f"{it.label}: {_written(it.bound)}" for it in analysis.times + analysis.costs]
    lines.append(f"total: {_written(analysis.total)}")
    lines += [f"{side} {it.rule}.{it.place}: {_written(it.bound)}" for side in ("above", "below") for it in analysis.sizes]
    is_kept = False
    for line in text.splitlines():
        is_kept = line.startswith(("why time", "why cost")) or is_kept and line.startswith("  ")
        lines += [line] if is_kept else []
    return "".join(f"{it}\n" for it in lines)


def _written(bound):
    return "unknown" if bound is None else signed_bounds.text(_signed(bound))


def _signed(bound):
    """A bound over absolute values as one over the inputs themselves."""
    if isinstance(bound, bounds.Constant):
        return bound
    if isinstance(bound, bounds.Input):
        return bounds.Maximum(tuple(bounds.Part(((sign, (bound.name,)),)) for sign in (1, -1)))
    if isinstance(bound, bounds.Power):
        return bounds.Power(bound.base, _signed(bound.exponent))
    return type(bound)(tuple(_signed(it) for it in bound.parts))
