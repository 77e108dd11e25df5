"""What is shown of reports of `koat best`."""

import html
import json
import os
import re
import sys
import tempfile
import unittest
from unittest import mock

import best_texts
import examples
import schema
from koat_tools import analyser, answers, curve, explain, gallery, growth, making, page, programs, reports, runs, searches
from koat_tools import tally
from test_command import STAND_IN, script, shown

VERSION = {"version": None, "sources": None, "is_proved": None}
GAP = ("why time 2: no affine ranking function over rules 2\n  move 2: (1) / 1\n  floor 2: (0) / 0\n  kept 2: (1) / 1\n")
LOOP = b"(STARTTERM (FUNCTIONSYMBOLS l0))(RULES l0(A) -> Com_1(l1(A)) l1(A) -{A}> Com_1(l1(A)))"
VALUES = "above 1.1: [A]\nabove 2.1: [A]\nbelow 1.1: [-A]\nbelow 2.1: unknown\n"
UNKNOWN = "unknown\ntime 1: 1\ntime 2: unknown\ncost 2: unknown\ntotal: unknown\n" + VALUES + GAP + "why cost 2: untimed 2\n"
NO_TOTAL = "unknown\ntime 1: 1\ntime 2: [A]\ncost 2: [A*A]\ntotal: unknown\n" + VALUES
NO_COST = "unknown\ntime 1: 1\ntime 2: [A]\ncost 2: unknown\ntotal: unknown\n" + VALUES + "why cost 2: untimed 2\n"
WHOLE = "bounded\ntime 1: 1\ntime 2: [A]\ncost 2: [A*A]\ntotal: [A*A] + 1\n" + VALUES
# Texts that are no reports of `koat best`.
WRONG = ["", WHOLE[:-1], WHOLE.replace("bounded", "unknown"), NO_TOTAL.replace("unknown", "bounded", 1),
         WHOLE.replace("below 1.1: [-A]\n", ""), WHOLE.replace("above 1.1: [A]\n", ""), WHOLE.replace("below 1.1", "below 1.2"),
         WHOLE.replace("time 2: [A]", "time 2: A"), WHOLE + "size 1.1: 1\n", UNKNOWN.replace("why cost 2: untimed 2\n", ""),
         UNKNOWN.replace(GAP, ""), UNKNOWN.replace("untimed 2", "untimed 1"), WHOLE + "why cost 2: untimed 2\n",
         WHOLE.replace("total: [A*A] + 1\n", "")]


def path(name):
    return os.path.join(examples.TOP, "examples", "best", name + ".koat")


def answer_of(report, data=LOOP):
    return analyser.Answer(data, "p", report=reports.read_best(report), program=programs.read(data))


def of_example(name):
    return answer_of(best_texts.report(name), best_texts.program(name).encode())


def lines_of(report):
    told = [f"fact {it}" for it in report.facts] + [report.verdict]
    told += [f"{label}: {text or 'unknown'}" for label, text, _ in report.labelled()]
    return told + [f"why {it.label}: {it.why.line}" for it in report.entries() if it.why]


class Reports(unittest.TestCase):
    def test_lines(self):
        texts = [best_texts.report(it) for it in best_texts.names()] + [UNKNOWN, NO_TOTAL, NO_COST, WHOLE]
        texts += [best_texts.of_analysis(examples.text(it)) for it in examples.names()]
        differ = [it for it in texts
                  if lines_of(reports.read_best(it)) != [line for line in it.splitlines() if not line.startswith("  ")]]
        self.assertEqual(differ, [])

    def test_no_reports(self):
        taken = []
        for text in WRONG:
            try:
                taken.append((text, reports.read_best(text)))
            except reports.ReportError:
                pass
        self.assertEqual(taken, [])

    def test_each_example_has_its_lines(self):
        differ = []
        for name in best_texts.names():
            answer = of_example(name)
            places = [(rule.number, place + 1, side) for side in ("above", "below") for rule in answer.program.rules
                      for place in range(len(rule.updates))]
            if places != [(it.rule, it.place, it.kind) for it in answer.report.sizes]:
                differ.append(name)
        self.assertEqual(differ, [])

    def test_json_keeps_the_schema(self):
        known = json.loads(examples.text("../docs/report.schema", ".json"))
        shown_answers = [of_example(it) for it in best_texts.names()]
        shown_answers += [answer_of(it) for it in (UNKNOWN, NO_TOTAL, NO_COST, WHOLE)]
        told = [json.loads(json.dumps(answers.as_json(it, VERSION))) for it in shown_answers]
        self.assertEqual([it for one in told for it in schema.faults(known, known, one)], [])
        first = told[best_texts.names().index("difference")]
        self.assertEqual((first["command"], first["total"]["text"], first["values"][5]), ("best", "[y - x] + 1", {
            "rule": 1, "place": 2, "side": "below", "bound": {"text": "[-y]", "class": "O(n)", "tree": {
                "kind": "part", "terms": [{"coefficient": "-1", "names": ["y"]}]}}}))
        first["sizes"] = []
        self.assertEqual(len(schema.faults(known, known, first)), 1)


class Commands(unittest.TestCase):
    def test_values_at_inputs(self):
        status, out, _ = shown("at", path("difference"), "--best", "x=-3", "y=7")
        self.assertEqual((status, out.splitlines()[1:5]),
                         (0, ["time 2: [y - x] = 10", "total: [y - x] + 1 = 11", "above 1.1: [x] = 0", "above 1.2: [y] = 7"]))
        self.assertEqual(shown("at", path("difference"), "--best", "x=7", "y=-3")[1].splitlines()[1], "time 2: [y - x] = 0")
        self.assertEqual(shown("at", path("difference"), "--best", "x=7")[0], 13)

    def test_classes(self):
        lines = shown("class", path("triangular"), "--best")[1].splitlines()
        self.assertEqual((lines[0], lines[3], lines[5]), ("WORST_CASE(?, O(n^2))", "time 3: O(n^2)", "total: O(n^2)"))
        self.assertEqual(shown("class", path("phase_change"), "--best")[1].splitlines()[0], "WORST_CASE(?, O(n^1))")

    def test_one_command_is_asked(self):
        self.assertEqual(shown("class", path("triangular"), "--best", "--facts")[0], 2)

    def test_a_while_program(self):
        lines = shown("at", examples.path("counting", ".while"), "--best", "A=-30")[1].splitlines()
        self.assertEqual(lines[-1], "line 3, column 3, A := A - 1: at most max([A], [-A]) = 30")

    def test_json_and_its_proof(self):
        known = json.loads(examples.text("../docs/report.schema", ".json"))
        proof = os.path.join(best_texts.HERE, "difference.proof")
        told = json.loads(shown("json", path("difference"), "--best", "--proof", proof)[1])
        self.assertEqual(schema.faults(known, known, told), [])
        third = told["proof"].pop("third_form")
        self.assertEqual(told["proof"], {"verdict": "accepted", "gaps": [], "facts": [
            "time 1: 1", "time 2: [y - x]", "total: [y - x] + 1"]})
        self.assertEqual([(it["kind"], it["by"]) for it in third["claims"]], [
            ("time", [{"fact": 1, "rules": [1]}]), ("time", [{"fact": 2, "rules": [2]}]),
            ("total", [{"fact": 3, "rules": [1, 2]}])])

    def test_many(self):
        with tempfile.TemporaryDirectory() as room:
            status, out, error = shown("many", path("difference"), path("triangular"), "--best", "--jobs", "1", "--pages", room)
            pages = sorted(os.listdir(room))
        told = [json.loads(it) for it in out.splitlines()]
        self.assertEqual((status, [it["call"] for it in told], len(pages)), (0, [["best"]] * 2, 3))
        self.assertEqual({it["competition"] for it in told}, {"WORST_CASE(?, O(n^1))", "WORST_CASE(?, O(n^2))"})
        self.assertEqual(len([it for it in pages if it.endswith("-best.html")]), 2)

    def test_an_earlier_line_of_another_command_is_asked_again(self):
        with tempfile.TemporaryDirectory() as room:
            lines = os.path.join(room, "lines")
            for option in ([], ["--best"], ["--best"]):
                shown("many", examples.path("gcd"), *option, "--resume", lines)
            with open(lines, encoding="utf-8") as file:
                calls = [json.loads(it)["call"] for it in file]
        self.assertEqual(calls, [["analyse"], ["best"]])


class Explained(unittest.TestCase):
    def lines(self, report):
        return explain.report_lines(answer_of(report), "best")

    def test_what_was_tried_for_a_time(self):
        lines = self.lines(UNKNOWN)
        self.assertEqual(lines[0], "why time 2: no affine ranking function over rules 2")
        tried = [it for it in lines if it.startswith("  - ")]
        self.assertEqual(len(tried), len(searches.OF_TIMES))
        for word in ("of degree 1", "gains of constants", "multiples of arguments", "while the first one is positive",
                     "of degree 2", "split by which guards hold", "the rule that led to them"):
            self.assertTrue(any(word in it for it in tried), word)
        self.assertIn("total: unknown", lines)
        self.assertIn("  All steps together have no bound as long as rule 2 has none.", lines)
        self.assertIn("below 2.1: unknown", lines)

    def test_other_bounds_that_are_missing(self):
        self.assertTrue(self.lines(NO_TOTAL)[1].startswith("  `koat best` looked for a potential from which each step"))
        self.assertEqual([it for it in self.lines(NO_COST) if "what such a step costs at most" in it], [
            "  That is the reason of the analysis with facts. `koat best` also looked for a potential from which each step by "
            "rule 2 takes what it costs, and what such a step costs at most, times how often the rule is used, and found no "
            "bound that its checker accepts."])
        self.assertEqual(explain.report_lines(of_example("difference"), "best"), ["no bound is missing"])

    def test_best_is_recommended(self):
        lines = shown("explain", examples.path("two_phases"))[1].splitlines()
        self.assertTrue(re.match("try `koat best .*two_phases.koat`: ", lines[-1]))
        self.assertFalse(any(it.startswith("try ") for it in shown("explain", examples.path("two_phases"), "--best")[1].splitlines()))

    def test_tables(self):
        told = [answers.as_json(answer_of(it), VERSION) for it in (UNKNOWN, NO_TOTAL, NO_COST, WHOLE)]
        self.assertEqual([tally.outcome(it) for it in told], [
            ("unknown", "no affine ranking function"), ("unknown", "no bound on all steps together"),
            ("unknown", "a time is missing"), ("bounded", "O(n^2)")])
        self.assertEqual([gallery.said(answer_of(it).report) for it in (UNKNOWN, NO_TOTAL, WHOLE)], [
            "no bound on the cost of rule 2", "no bound on all steps together", "a cost of [A*A] + 1, O(n^2)"])


class Pages(unittest.TestCase):
    def test_values_from_both_sides(self):
        text = page.page(of_example("difference"))
        rows = re.findall(r'<tr data-label="(above|below) 2\.1"><th scope="row"><b>(-?x)</b> after rule 2</th>'
                          r'<td class="bound" data-head="at most">([^<]*)</td>', text)
        self.assertEqual(rows, [("above", "x", "[y]"), ("below", "-x", "[-x - 1]")])
        self.assertIn("2 values after it", text)
        self.assertIn('min="-100"', text)
        self.assertIn("Bounds speak of the inputs themselves", text)
        self.assertNotIn("absolute value", re.sub("<(script|footer).*?</\\1>", "", text, flags=re.S))

    def test_it_is_for_screen_readers_too(self):
        for answer in (of_example("phase_change"), answer_of(UNKNOWN), answer_of(NO_TOTAL)):
            text = page.page(answer)
            ids = re.findall(r'\bid="([^"]*)"', text)
            self.assertEqual(len(ids), len(set(ids)))
            self.assertEqual([it for it in re.findall(r'href="#([^"]*)"', text) if it not in ids], [])

    def test_why_bounds_hold(self):
        text = html.unescape(shown("page", path("difference"), "--best", "--without-picture")[1])
        for sentence in ("The potential is y - x at start and w.", "Rule 2 takes 1 out of it.",
                         "Before rule 2 at least 1 is there, by y - x - 1 >= 0.",
                         "It is the bound of `koat facts`, over absolute values"):
            self.assertIn(f"<li>{sentence}", text)

    def test_why_bounds_of_the_analysis_hold(self):
        """`koat certify` writes the proof of `koat prove` where it finds nothing better."""
        answer = analyser.Answer(examples.text("gcd", ".koat").encode(), "gcd",
                                 report=reports.read_best(best_texts.of_analysis(examples.text("gcd"))),
                                 program=programs.read(examples.text("gcd", ".koat").encode()))
        proof = examples.text("../tools/tests/proofs/gcd", ".proof").encode()
        with mock.patch.dict(os.environ, {"KOAT": STAND_IN}), mock.patch.object(analyser, "prove", return_value=proof):
            whys = making.beside(answer, analyser.BEST).whys
        self.assertEqual({it[:24] for told in whys.values() for it in told}, {"It is the bound of `koat"})
        self.assertEqual(list(whys), [label for label, _, _ in answer.report.labelled()])

    def test_a_run_keeps_the_signs_of_its_inputs(self):
        answer = of_example("difference")
        told = page.page(answer, page.Beside(run=runs.Run([-2, 1], [(1, []), (2, [])])))
        data = json.loads(re.search(r'id="steps">(.*?)</script>', told, re.S).group(1))
        self.assertEqual(data["inputs"], {"x": "-2", "y": "1"})

    def test_a_replay_has_no_numbers_for_sides(self):
        answer = of_example("difference")
        labels = runs.labels(answer.program)
        said = "steps 1\n" + "".join(f"{it}: 1 of 5\n" for it in labels)
        text = page.page(answer, page.Beside(replay=runs.read(said, labels)))
        self.assertEqual(text.count('<td class="counted" data-head="in the run">1</td>'), 3)
        self.assertEqual(text.count('<td class="counted" data-head="in the run"></td>'), 8)

    def test_the_curve_is_above_its_runs(self):
        for name in best_texts.names():
            answer = of_example(name)
            found = curve.points(answer.program, answer.report)
            self.assertEqual([it for it in found if it[2] > it[1]], [], name)

    def test_the_gallery_has_each_answer(self):
        with tempfile.TemporaryDirectory() as room:
            out = shown("gallery", room, examples.path("gcd"))[1]
            with open(out.strip(), encoding="utf-8") as file:
                index = file.read()
        self.assertEqual(re.findall("<dt>(.*?)</dt>", index), ["analyse", "best"])
        self.assertIn("max([A], [-A])", index)


    def test_the_gallery_keeps_what_it_has(self):
        """Where `best` gives no answer, the others stay."""
        with tempfile.TemporaryDirectory() as room:
            koat = script(room, "koat", f'[ "$1" != best ] || exit 5; exec {STAND_IN} "$@"')
            out = shown("gallery", os.path.join(room, "made"), examples.path("gcd"), koat=koat)[1]
            with open(out.strip(), encoding="utf-8") as file:
                index = file.read()
        self.assertIn("A + B + 2 steps, O(n)", index)
        self.assertIn("<dt>best</dt><dd>no answer: koat ended with status 5</dd>", index)


class Programs(unittest.TestCase):
    def test_each_is_in_the_index(self):
        index = examples.text("README", ".md").split("## Programs for the best bounds", 1)[1]
        files = sorted(it[:-len(".koat")] for it in os.listdir(os.path.dirname(path("gcd"))) if it.endswith(".koat"))
        self.assertEqual((sorted(re.findall(r"^\| `(\w+)` \|", index, re.M)), best_texts.names()), (files, files))

    def test_each_is_taken(self):
        """By the slow reading, whose verdict is empty where a text is a program."""
        sys.path.insert(0, best_texts.BENCH)
        from slow_reading import Reading
        refused = [(it, Reading(best_texts.program(it).encode()).verdict()) for it in best_texts.names()]
        self.assertEqual([it for it in refused if "refused" in (it[1] or "")], [])


class Stands(unittest.TestCase):
    def test_what_is_made_of_an_analysis_is_at_most_as_good(self):
        """The stand-in's reports have the values of those that they are made of."""
        differ = []
        for name in examples.names():
            text = examples.text(name)
            pairs = zip(reports.read(text).times, reports.read_best(best_texts.of_analysis(text)).times)
            differ += [name for one, other in pairs if (one.bound is None) != (other.bound is None)
                       or one.bound and growth.growth(one.bound) != growth.growth(other.bound)]
        self.assertEqual((differ, os.path.exists(STAND_IN)), ([], True))
