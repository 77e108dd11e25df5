"""Programs of the while language: the examples, their translations, and what the tools say of them."""

import glob
import itertools
import json
import os
import re
import sys
import unittest

import examples
import schema
from koat_tools import analyser, bounds, explain, programs, reports, while_hints, while_programs
from test_command import shown

sys.path.insert(0, os.path.join(examples.TOP, "bench"))
import slow_while
import while_reading

# A text, and the hint on its refusal, which the plain slow reading finds.
HINTS = [
    ("(STARTTERM (FUNCTIONSYMBOLS f))", "this looks like a transition system"),
    ("A := 1;", "a program begins with its variables"),
    ("input A; // counts\nskip;", "there are no comments"),
    ("input A; skip; # counts", "there are no comments"),
    ("input A; (COMMENT counts) skip;", "there are no comments"),
    ("input A; while (A != 0) { skip; }", "a test has no `!=`"),
    ("input A; while (A >= 1 || A < 0) { skip; }", "a test has no `||`"),
    ("input A; while (A >= 1 & A < 9) { skip; }", "`and` is written `&&`"),
    ("input A; if (!A) { skip; }", "a test has no negation"),
    ("input A; A = 1;", "an assignment is written"),
    ("input A; A++;", "an assignment is written"),
    ("input A; A += 1;", "an assignment is written"),
    ("input A; A : 1;", "an assignment is written"),
    ("input A; A := A / 2;", "there is no division"),
    ("input A; A := A % 2;", "there is no division"),
    ("input A; A := A**2;", "a power is written"),
    ("input A; while (A => 1) { skip; }", "the relations are"),
    ("input A; while [A >= 1] { skip; }", "brackets are round"),
    ("input A; A := 1.5;", "numbers are whole"),
    ("input A; else { skip; }", "`else` stands behind the block of an `if`"),
    ("input A; for (A := 0; A < 9; A := A + 1) { skip; }", "there is no `for`"),
    ("input A; int B;", "variables aren't declared"),
    ("input A; while (A >= 1) { break; }", "there is no `break`"),
    ("input A; a := 1;", "`a` is no input, but `A` is one"),
    ("input A; B := 1;", "`B` is no input"),
    ("input A, A; skip;", "each input is named once"),
    ("input A;", "behind the inputs stands a statement"),
    ("input A; while (A >= 1) { skip;", "the text ends, and a block isn't closed"),
    ("input A; A := 1", "the text ends within a statement"),
    ("input A; skip; }", "one block too many is closed"),
    ("input A; while () { skip; }", "a test isn't empty"),
    ("input A; while (A >= 1) A := 1;", "a block stands in braces"),
    ("input A; if (A >= 1) { skip; } else A := 1;", "a block stands in braces"),
    ("input A; A := 2A;", "a statement ends with `;`"),
    ("input A, B; A := 1 B := 2;", "a statement ends with `;`"),
    ("input A; skip;;", "`;` ends an assignment"),
    ("input A; while ((A >= 1)) { skip; }", "a comparison has two sides"),
    ("input A; while (0 <= A <= 9) { skip; }", "a comparison has two sides"),
    ("input A; A := 9223372036854775808;", "numbers, also those that multiplying out gives"),
    ("input \u00e4; skip;", "names and signs are ASCII"),
    ("input A; A := A^9;", "koat takes exponents up to 8"),
    ("input A; " + "while (TRUE) {" * 65, "koat takes at most 64 blocks"),
]


def names():
    found = glob.glob(os.path.join(examples.TOP, "examples", "*.while"))
    return sorted(os.path.basename(it) for it in found)


def answer_of(name, report=None):
    """What koat says of an example, its report being that beside it."""
    data, report = examples.text(name, ".koat").encode(), reports.read(report or examples.text(name))
    answer = analyser.Answer(data, name, report=report, program=programs.read(data))
    text = examples.text(name, "").encode()
    answer.source = while_programs.source(text, while_reading.read(text)[0][2], answer.program)
    return answer


class Examples(unittest.TestCase):
    def test_each_has_its_translation(self):
        differ = []
        for name in names():
            found, refused = while_reading.read(examples.text(name, "").encode())
            if refused or slow_while.canonical_text(found[0], found[1]) != examples.text(name, ".koat"):
                differ.append(name)
        self.assertEqual((differ, len(names())), ([], 6))

    def test_totals_bound_executions(self):
        passed = []
        for name in names():
            inputs, body, _ = while_reading.read(examples.text(name, "").encode())[0]
            total = reports.read(examples.text(name)).total
            for size in range(4) if total else ():
                given = {it.decode(): size for it in inputs}
                most = bounds.value(total, given)
                states = slow_while.executed(body, [size] * len(inputs), (0, 1))
                if next(itertools.islice(states, most + 1, None)):
                    passed.append((name, size))
        self.assertEqual(passed, [])

    def test_statements_have_their_rules(self):
        for name in names():
            answer = answer_of(name)
            rules = [number for it in answer.source.statements for number in it.rules]
            self.assertEqual(rules, [it.number for it in answer.program.rules])


class Document(unittest.TestCase):
    def setUp(self):
        with open(os.path.join(examples.TOP, "docs", "while.md"), encoding="utf-8") as file:
            self.blocks = re.findall(r"```\n(.*?)```", file.read(), re.S)

    def test_it_shows_the_first_example(self):
        text = examples.text("counting.while", "")
        points = while_reading.point_lines(text.encode())
        self.assertEqual(self.blocks[:3], [text, points + examples.text("counting.while"),
                                           examples.text("counting.while", ".koat")])

    def test_the_rules_that_it_shows(self):
        names, body, _ = while_reading.read(b"input A; if (A = 0) {} else { A := ?; } skip;")[0]
        rules = slow_while.canonical_text(names, body).partition("(RULES\n")[2].replace("  p", "p").rpartition(")")[0]
        self.assertEqual(self.blocks[-1], rules)

    def test_refusals_that_it_names(self):
        before = "input A; " + "skip; " * 999
        cases = [("input A; A := A^9 }", "Limit Degree", "9 }"), ("input A; A := A^9 + }", "Syntax", "}"),
                 ("input A; A := (A^9 }", "Syntax", "}"), (before + "while (A >= 1 ;", "Limit Rules", "while"),
                 (before + "while (A >= ;", "Syntax", ";"),
                 (before + "while (B >= 1 && A >= 1) {}", "Limit Rules", "while"),
                 ("input A; while (TRUE + 1 >= 0) {}", "Syntax", "+"), ("input A; B := 1;", "UnknownName", "B")]
        found = [while_reading.read(text.encode())[1] for text, _, _ in cases]
        self.assertEqual(found, [f"{kind} at {text.rindex(where)}" for text, kind, where in cases])


class Statements(unittest.TestCase):
    def test_how_they_begin(self):
        text = "input A;\nwhile (A >=\n (1) &&TRUE) { A := A\n- 1; if(A=1){skip ;}}"
        found = [while_programs.begins(text, at) for at in while_reading.read(text.encode())[0][2]]
        self.assertEqual(found, ["while (A >= (1) &&TRUE)", "A := A - 1;", "if(A=1)", "skip ;"])

    def test_points_stand_before_the_report(self):
        self.assertEqual(while_programs.split(b"point 0 at 9\npoint 1 at 26\nbounded\n"), ([9, 26], b"bounded\n"))

    def test_bounds_are_sums_of_times(self):
        answer = answer_of("counting.while")
        self.assertEqual(while_programs.lines(answer), [
            "line 2, column 1, while (A >= 1): at most A + 1 times", "line 3, column 3, A := A - 1: at most A times"])
        missing = examples.text("counting.while").replace("bounded\ntime 1: A", "unknown\ntime 1: unknown")
        missing = missing.replace("total: 2*A + 1", "total: unknown") + "why time 1: large 5000 nodes\n"
        answer = answer_of("counting.while", missing)
        self.assertEqual(while_programs.lines(answer)[0], "line 2, column 1, while (A >= 1): unknown")
        self.assertIn("  Rule 1 is line 2, column 1: `while (A >= 1)`, where it holds.", explain.report_lines(answer))

    def test_rules_are_steps_of_statements(self):
        text = (b"input A, B;\nwhile (A >= 1 && B >= 1) {\n"
                b"  if (A >= B) { A := A - B; } else {\n    B := B - A;\n  }\n}\n")
        inputs, body, positions = while_reading.read(text)[0]
        program = programs.read(slow_while.canonical_text(inputs, body).encode())
        source = while_programs.source(text, positions, program)
        answer = analyser.Answer(b"", "p.while", program=program, source=source)
        self.assertEqual([while_programs.step(answer, number) for number in (1, 3, 5, 6, 7)], [
            "line 2, column 1: `while (A >= 1 && B >= 1)`, where it holds",
            "line 2, column 1: `while (A >= 1 && B >= 1)`, where `B < 1`",
            "line 3, column 3: `if (A >= B)`, where `A < B`", "line 3, column 17: `A := A - B;`",
            "line 4, column 5: `B := B - A;`"])


class Commands(unittest.TestCase):
    def setUp(self):
        self.path = examples.path("counting", ".while")

    def test_explain(self):
        status, out, _ = shown("explain", self.path)
        self.assertEqual((status, out.splitlines()), (0, [
            "line 2, column 1, while (A >= 1): at most A + 1 times", "line 3, column 3, A := A - 1: at most A times",
            "no bound is missing"]))

    def test_at(self):
        status, out, _ = shown("at", self.path, "A=-30")
        self.assertEqual((status, out.splitlines()[-3:]), (0, [
            "size 3.1: 2*A = 60", "line 2, column 1, while (A >= 1): at most A + 1 = 31",
            "line 3, column 3, A := A - 1: at most A = 30"]))

    def test_class(self):
        out = shown("class", self.path)[1].splitlines()
        self.assertEqual((out[0], out[-3]), ("WORST_CASE(?, O(n^1))", "line 2, column 1, while (A >= 1): O(n)"))

    def test_json(self):
        with open(os.path.join(examples.TOP, "docs", "report.schema.json"), encoding="utf-8") as file:
            whole = json.load(file)
        faults = []
        for name in names():
            told = json.loads(shown("json", examples.path(name, ""))[1])
            faults += schema.faults(whole, whole, told)
        self.assertEqual(faults, [])
        told = json.loads(shown("json", self.path)[1])
        self.assertEqual([(it["rule"], it["line"], it["column"]) for it in told["rules"]],
                         [(1, 2, 1), (2, 2, 1), (3, 3, 3)])
        self.assertEqual([(it["byte"], it["rules"], it["bound"]["text"]) for it in told["statements"]],
                         [(9, [1, 2], "A + 1"), (28, [3], "A")])

    def test_facts_are_of_the_translation(self):
        lines = shown("explain", examples.path("gcd", ".while"), "--facts")[1].splitlines()
        self.assertTrue(any(it.startswith("fact p") for it in lines))

    def test_page(self):
        status, out, _ = shown("page", self.path, "--without-picture")
        rows = re.findall(r'<tr data-label="point (\d)"><th scope="row">(\d+)</th><td class="code"[^>]*>(.*?)</td>'
                          r'<td class="bound"[^>]*>(.*?)</td>', out)
        self.assertEqual((status, rows), (0, [("0", "2", "while (A &gt;= 1) {", "A + 1"),
                                              ("1", "3", "  A := A - 1;", "A")]))
        self.assertIn("line 2, column 1: <code>while (A &gt;= 1)</code>, where <code>A &lt; 1</code>", out)
        self.assertNotIn('id="source"', shown("page", examples.path("gcd"), "--without-picture")[1])

    def test_a_refusal(self):
        data = b"input A;\nB := 1;\n"
        answer = analyser.answer_of(6, b"program refused at 9: UnknownName\n", data, "p.while")
        self.assertEqual(explain.refusal_lines(answer), [
            "program refused at 9: UnknownName", "p.while, line 2, column 1:", "  B := 1;", "  ^",
            "hint: `B` is no input: every variable stands behind `input`, as in `input A, B;`"])

    def test_commands_of_rules_refuse_it(self):
        status, _, error = shown("lint", self.path)
        self.assertEqual((status, "koat translate" in error), (2, True))


class Hints(unittest.TestCase):
    def test_hints(self):
        differ = []
        for text, wanted in HINTS:
            data = text.encode()
            kind, _, at = while_reading.read(data)[1].rpartition(" at ")
            hint = while_hints.hint(data, int(at), kind)
            if not hint.startswith(wanted):
                differ.append((text, kind, at, hint))
        self.assertEqual(differ, [])

    def test_beginnings_of_a_text_get_a_hint(self):
        lacking = []
        for name in names():
            data = examples.text(name, "").encode()
            for at in range(0, len(data), 7):
                if not while_hints.hint(data[:at], at, "Syntax"):
                    lacking.append((name, at))
        self.assertEqual(lacking, [])
