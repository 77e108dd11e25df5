"""The scripts of bench/ that measure `koat best`: what they count, on programs and reports worked out by hand."""

import contextlib
import importlib.machinery
import importlib.util
import io
import os
import pathlib
import random
import sys
import tempfile
import unittest
from collections import Counter

import best_texts
from koat_tools import programs, reports
from test_command import script

sys.path.insert(0, best_texts.BENCH)

import exhaustive_runs
import truths
from slow_reading import Reading

# It counts x up to y. From (-2, 1) the longest run has 4 steps, of which 3 are by rule 2.
COUNTING = best_texts.program("difference").encode()
REPORT = best_texts.report("difference")
# It gives b up to 3, costs what is given, and never ends where A is 7.
COSTS = b"""(STARTTERM (FUNCTIONSYMBOLS s))(RULES
  s(A) -{B}> Com_1(t(A, B)) :|: B <= 3
  t(A, B) -> Com_1(t(A, B)) :|: A = 7)"""
ENDLESS = b"(STARTTERM (FUNCTIONSYMBOLS s))(RULES s(A) -> Com_1(s(A + 1)))"


def bench(name):
    """A script of bench/ as a module."""
    loader = importlib.machinery.SourceFileLoader(f"bench_{name}", os.path.join(best_texts.BENCH, name))
    module = importlib.util.module_from_spec(importlib.util.spec_from_loader(loader.name, loader))
    # Where it has processes of its own, they find its functions by this name.
    sys.modules[loader.name] = module
    loader.exec_module(module)
    return module


def said(call, *words):
    """What a call returns, and the lines that it prints."""
    out = io.StringIO()
    with contextlib.redirect_stdout(out):
        status = call(*words)
    return status, out.getvalue().splitlines()


class AllRuns(unittest.TestCase):
    def test_the_greatest_numbers(self):
        runs = exhaustive_runs.Exhaustive(COUNTING)
        told = dict(zip(runs.labels, runs.greatest((-2, 1))))
        self.assertEqual(told, {"total": 4, "time 1": 1, "time 2": 3, "above 1.1": -2, "above 1.2": 1, "above 2.1": 1,
                                "above 2.2": 1, "below 1.1": 2, "below 1.2": -1, "below 2.1": 1, "below 2.2": -1})
        told = dict(zip(runs.labels, runs.greatest((1, -2))))
        self.assertEqual((told["total"], told["time 2"], told["above 2.1"]), (1, 0, exhaustive_runs.NEVER))

    def test_costs_and_free_values(self):
        runs = exhaustive_runs.Exhaustive(COSTS)
        told = dict(zip(runs.labels, runs.greatest((5,))))
        self.assertEqual([told[it] for it in ("total", "cost 1", "time 1", "above 1.2", "below 1.2")], [3, 3, 1, 3, 5])
        with self.assertRaises(exhaustive_runs.Endless):
            runs.greatest((7,))

    def test_runs_that_never_come_back(self):
        runs = exhaustive_runs.Exhaustive(ENDLESS)
        runs.left = 100
        with self.assertRaises(exhaustive_runs.TooMany):
            runs.greatest((0,))
        self.assertEqual(runs.left, 0)

    def test_starts(self):
        self.assertEqual([len(exhaustive_runs.starts(it)) for it in (0, 1, 2, 9)], [1, 18, 74, 74])
        found = exhaustive_runs.starts(3)
        self.assertEqual((len(set(found)), min(map(min, found)), max(map(max, found))), (74, -5, 12))


class Truths(unittest.TestCase):
    def faults(self, report):
        return list(truths.Truth(COUNTING).passed(reports.read_best(report), Counter()))

    def test_a_bound_that_is_passed(self):
        self.assertEqual(self.faults(REPORT), [])
        faults = self.faults(REPORT.replace("time 2: [y - x]", "time 2: [y - x - 1]"))
        self.assertTrue(faults and all(it.startswith("time 2: [y - x - 1] is ") for it in faults))
        self.assertTrue(self.faults(REPORT.replace("below 2.1: [-x - 1]", "below 2.1: [-x - 2]")))

    def test_a_total_where_runs_never_end(self):
        report = "bounded\ntime 1: 1\ntime 2: 9\ncost 1: 3\ntotal: 9\n" + "".join(
            f"{side} {rule}.{place}: unknown\n" for side in ("above", "below") for rule in (1, 2) for place in (1, 2))
        truth = truths.Truth(COSTS)
        self.assertEqual(truth.endless, [{"A": 7}])
        faults = list(truth.passed(reports.read_best(report), Counter()))
        self.assertEqual(faults, ["total: 9, and from {'A': 7} a run never ends"])

    def test_ratios(self):
        truth = truths.Truth(COUNTING)
        self.assertEqual(truth.ratio(reports.read_best(REPORT).total), 1)
        self.assertTrue(2 < truth.ratio(reports.read("bounded\ntime 1: 1\ntotal: x + y + 1\n").total) < 5)
        self.assertIsNone(truth.ratio(None))

    def test_the_table(self):
        table, truth = bench("best_ratios").Table(), truths.Truth(COUNTING)
        lines = list(table.add("difference", truth, {"best": reports.read_best(REPORT), "facts": None}))
        steps = sum(max(0, y - x) + 1 for x, y in exhaustive_runs.starts(2))
        self.assertEqual(lines, [f"difference | {steps} | [y - x] + 1 | no answer | 1.00 | -"])
        told = list(table.lines(1))
        self.assertEqual(told[0], "best: 1 of 1 have a total, median of total over truth 1.00, 1 of 1 within a tenth")
        self.assertEqual(told[-1], "0 bounds passed")


class RandomRuns(unittest.TestCase):
    def setUp(self):
        self.script = bench("best_runs")

    def told(self, body, *words):
        with tempfile.TemporaryDirectory() as room:
            return said(self.script.main, [script(room, "koat", body), *words])

    def test_slow_and_refused_programs_end_nothing(self):
        status, lines = self.told("sleep 9", "2", "--seconds", "0.1")
        self.assertEqual((status, lines), (0, [
            "2 programs, 0 bounded, 0 unknown, 2 slow, 0 refused, 0 compared, 0 reached, 0 passed"]))
        status, lines = self.told("while :; do :; done", "1", "--seconds", "1")
        self.assertEqual((status, lines[0].split(", ")[3]), (0, "1 slow"))
        status, lines = self.told("exit 6", "3", "--jobs", "2")
        self.assertEqual((status, lines[0]), (0, "3 programs, 0 bounded, 0 unknown, 0 slow, 3 refused, 0 compared, "
                                                 "0 reached, 0 passed"))

    def test_a_bound_that_is_passed_ends_nothing(self):
        """By a program that says of each rule that it is never used."""
        body = ("rules=$(grep -c 'Com_1'); echo unknown; for k in $(seq $rules); do echo \"time $k: 0\"; done; "
                "echo 'total: unknown'; exit 1")
        status, lines = self.told(body, "5", "7")
        self.assertEqual((status, lines[-2].split(", ")[:3]), (1, ["5 programs", "0 bounded", "5 unknown"]))
        self.assertTrue(any(it == "time 1.None: 0 is 0, and here it is 1" for it in lines))

    def test_programs_are_those_of_their_numbers(self):
        made = [self.script.made(random.Random("1:3")) for _ in range(2)]
        self.assertEqual(made[0], made[1])
        self.assertEqual(Reading(made[0].encode()).verdict(), "taken")

    def test_it_ends_in_time(self):
        status, lines = self.told("exit 6", "500", "--minutes", "0")
        self.assertEqual((status, lines[0].split(",")[0]), (0, "0 programs"))


class Growth(unittest.TestCase):
    def setUp(self):
        self.script = bench("best")

    def test_each_shape_is_a_program(self):
        refused = []
        for name, (make, sizes) in self.script.SHAPES.items():
            for size in sizes[:2]:
                word, rules = make(size)
                text = self.script.text(rules).encode()
                if Reading(text).verdict() != "taken" or len(programs.read(text).inputs) != word.count(",") + 1:
                    refused.append((name, size))
        self.assertEqual(refused, [])

    def test_powers(self):
        pairs = ((8, 1, 2, 1), (3, 3, 9, 4), (100, 10, 100, 1))
        self.assertEqual([round(self.script.power(*it), 3) for it in pairs], [3, 0, 0.5])

    def test_kinds(self):
        with tempfile.TemporaryDirectory() as room:
            koat = script(room, "koat", "echo bounded")
            lines = list(self.script.kinds([os.path.join(best_texts.examples.TOP, "examples", "best")],
                                           self.script.Timed(koat, 5)))
        count = len(best_texts.names())
        self.assertTrue(lines[0].startswith(f"{count:3} programs bounded: "))

    def test_a_call_that_is_cut_off(self):
        with tempfile.TemporaryDirectory() as room:
            koat = script(room, "koat", "while :; do :; done")
            self.assertEqual(self.script.Timed(koat, 0.5).call("best", "p"), (None, "cut off"))


class Planted(unittest.TestCase):
    def test_what_is_counted(self):
        with tempfile.TemporaryDirectory() as room:
            lines = "[ $1 = best ] || exit 6\n" + "".join(f"echo '{it}'\n" for it in REPORT.splitlines())
            program = bench("planted").Program(pathlib.Path(os.path.join(
                best_texts.examples.TOP, "examples", "best", "difference.koat")), script(room, "koat", lines), 20)
        counted = Counter()
        self.assertEqual(program.compare(reports.read_best(REPORT), counted), [])
        self.assertEqual((counted["programs"], counted["reports differ"]), (1, 0))
        wrong = REPORT.replace("time 2: [y - x]", "time 2: [y - x - 1]")
        wrong = wrong.replace("total: [y - x] + 1", "total: [y - x] + 2")
        self.assertTrue(program.compare(reports.read_best(wrong), counted))
        told = [counted[it] for it in ("reports differ", "other", "wider", "other totals")]
        self.assertEqual(told, [1, 2, 1, 1])
