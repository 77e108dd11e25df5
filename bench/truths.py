"""What koat says of programs beside what their runs reach: for `best_ratios` and `planted`.

`report_of` asks koat, and `Truth` has the greatest numbers of the runs from each start of `exhaustive_runs.py`.
"""

import subprocess
import sys
from pathlib import Path

import exhaustive_runs

TOP = Path(__file__).resolve().parent.parent
sys.path.insert(0, str(TOP / "tools"))

from koat_tools import bounds, programs, reports

READERS = {"best": reports.read_best, "facts": reports.read}


def report_of(koat, command, text, seconds):
    """What koat says of a program; none where it gives no answer in time."""
    try:
        told = subprocess.run([koat, command, "-"], input=text, capture_output=True, timeout=seconds, check=False)
    except subprocess.TimeoutExpired:
        return None
    return READERS[command](told.stdout.decode()) if told.returncode in (0, 1) else None


class Truth:
    """The greatest numbers of the runs of a program, for each start from which runs end."""

    def __init__(self, text):
        self.runs, self.inputs = exhaustive_runs.Exhaustive(text), programs.read(text).inputs
        self.found, self.endless, self.left_out = [], [], 0
        for start in exhaustive_runs.starts(self.runs.places):
            try:
                self.found.append((dict(zip(self.inputs, start)), self.runs.greatest(start)))
            except exhaustive_runs.Endless:
                self.endless.append(dict(zip(self.inputs, start)))
            except exhaustive_runs.TooMany:
                self.left_out += 1

    def ratio(self, bound):
        """The sum of a bound on the total over the starts, divided by that of the truth."""
        truth = sum(numbers[0] for _, numbers in self.found)
        if bound is None or not truth or self.endless:
            return None
        return sum(bounds.value(bound, inputs) for inputs, _ in self.found) / truth

    def passed(self, report, counted):
        """The bounds of a report that a run passes, in words; how many were compared and reached is counted."""
        for label, text, bound in report.labelled():
            if bound is None:
                continue
            kind = label.split(" ")[0]
            if kind == "total" and self.endless:
                yield f"total: {text}, and from {self.endless[0]} a run never ends"
            for inputs, numbers in self.found:
                number, most = numbers[self.runs.at[label]], bounds.value(bound, inputs)
                if number == exhaustive_runs.NEVER:
                    continue
                counted[kind, "compared"] += 1
                counted[kind, "reached"] += number == most
                if number > most:
                    yield f"{label}: {text} is {most} at {inputs}, and a run reaches {number}"


def files(paths):
    """The programs of paths, in order."""
    for path in map(Path, paths):
        yield from sorted(path.glob("*.koat")) if path.is_dir() else [path]
