import os
import sys
import time
import unittest

import examples
import mistakes
import refusals
from koat_tools import analyser, explain, hints, programs, reports


def answer_of(name, text):
    data = text.encode()
    return analyser.Answer(data, name, report=reports.read(examples.text(name)), program=programs.read(data))


class Refusals(unittest.TestCase):
    def test_hints(self):
        differ = []
        for text, at, kind, wanted in refusals.REFUSALS:
            hint = hints.hint(text.encode(), at, kind)
            if not hint.startswith(wanted):
                differ.append((text, at, hint))
        self.assertEqual(differ, [])

    def test_mistakes_by_habit(self):
        differ = []
        for text, at, kind, wanted in [(it[0].encode(), *it[1:]) for it in mistakes.MISTAKES] + mistakes.FILES:
            hint = hints.hint(text, at, kind)
            if not hint.startswith(wanted):
                differ.append((text, at, hint))
        self.assertEqual(differ, [])
        self.assertGreaterEqual(len(mistakes.MISTAKES), 100)

    def test_the_tables_name_the_refusal_of_a_slow_reading(self):
        sys.path.insert(0, os.path.join(examples.TOP, "bench"))
        from slow_reading import Reading
        rows = [(it[0].encode(), *it[1:3]) for it in mistakes.MISTAKES + refusals.REFUSALS]
        rows += [it[:3] for it in mistakes.FILES]
        differ = [(text, at, kind) for text, at, kind in rows
                  if Reading(text).verdict() != f"program refused at {at}: {kind}"]
        self.assertEqual(differ, [])

    def test_beginnings_of_a_text_get_a_hint(self):
        lacking = []
        for name in examples.names():
            data = examples.text(name, ".koat").encode()
            for at in range(0, len(data), 23):
                if not hints.hint(data[:at], at, "Syntax"):
                    lacking.append((name, at))
        self.assertEqual(lacking, [])

    def test_tokens_get_a_hint(self):
        lacking = []
        for name in examples.names():
            text = examples.text(name, ".koat")
            for token in programs.tokens(text)[::7]:
                if not hints.hint(text.encode(), token.at, "Syntax"):
                    lacking.append((name, token))
        self.assertEqual(lacking, [])

    def test_line_column_and_caret(self):
        data = "(COMMENT grüße)\r\n(RULES\n  f(A) -> ü(A))".encode()
        refused = analyser.Refusal("program refused at 36: NotAscii", data.index("ü(A)".encode()), "NotAscii")
        lines = explain.refusal_lines(analyser.Answer(data, "p", refusal=refused))
        self.assertEqual(lines[1:4], ["p, line 3, column 11:", "    f(A) -> ü(A))", "            ^"])

    def test_long_lines_are_cut_around_the_column(self):
        where = programs.place(b"x" * 500 + b"?" + b"y" * 500, 500)
        text, caret = explain.shown(where)
        self.assertEqual((text[len(caret) - 1], len(text)), ("?", 102))


class Reasons(unittest.TestCase):
    def test_each_missing_bound_of_the_examples_has_its_words(self):
        lacking = []
        for name in examples.names():
            answer = answer_of(name, examples.text(name, ".koat"))
            lines = explain.report_lines(answer)
            missing = sum(it.why is not None for it in answer.report.entries())
            if missing != sum(it.startswith("why ") for it in lines) or len(lines) < 2 * missing:
                lacking.append(name)
        self.assertEqual(lacking, [])

    def test_points_are_named(self):
        lines = explain.report_lines(answer_of("two_phases", examples.text("two_phases", ".koat")))
        self.assertIn("  Consider rule 2 at X = 1, Y = 1: this leads along X +1, Y -1, where the "
                      "comparisons of degree 1 of rule 2 hold without end, so that what falls has no lower bound by "
                      "them.", lines)


class Long(unittest.TestCase):
    def test_hints_of_long_texts_come_soon(self):
        begun = time.process_time()
        for text in (b"(" * 20000, b"[" * 20000, b"(RULES " + b"f(A) -> f(A) " * 2000 + b"f", b"(COMMENT " + b"(" * 20000,
                     b"(RULES f(A) -> f(" + b"(A+" * 5000):
            for at in (0, len(text) - 1, len(text)):
                self.assertTrue(hints.hint(text, at, "Syntax"))
        self.assertLess(time.process_time() - begun, 60)
