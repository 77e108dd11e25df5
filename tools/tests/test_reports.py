import json
import unittest

import examples
import schema
from koat_tools import programs, reports

REASONS = """unknown
time 1: unknown
time 2: unknown
time 3: unknown
total: unknown
size 1.1: unknown
size 1.2: unknown
size 2.1: unknown
size 2.2: unknown
why time 1: empty 1 wide 16000001 entries
why time 2: rank 2 budget after 0 pivots
why time 3: large 5000 nodes
why size 1.1: local 1.1 scale
why size 1.2: bent 2.2
why size 2.1: untimed 2
why size 2.2: loose low
  ray: ()
  kept: () / 1
"""


HEAD = {"format": "koat report 2", "koat": {"version": None, "sources": None, "is_proved": None}, "file": "p",
        "competition": "MAYBE", "inputs": [], "rules": []}


class Reports(unittest.TestCase):
    def test_lines_of_all_examples(self):
        differ = []
        for name in examples.names():
            text = examples.text(name)
            report = reports.read(text)
            lines = [report.verdict] + [f"{label}: {said or 'unknown'}" for label, said, _ in report.labelled()]
            lines += [f"why {it.label}: {it.why.line}" for it in report.entries() if it.why]
            if lines != [it for it in text.splitlines() if not it.startswith(" ")]:
                differ.append(name)
        self.assertEqual(differ, [])

    def test_json_keeps_the_schema(self):
        wanted = json.loads(examples.text("../docs/report.schema", ".json"))
        texts = [(name, examples.text(name)) for name in examples.names()] + [("reasons", REASONS)]
        texts.append(("facts", examples.text("flag", ".facts.txt")))
        faults = []
        for name, text in texts:
            told = {**HEAD, **reports.as_json(reports.read(text))}
            faults += [(name, it) for it in schema.faults(wanted, wanted, json.loads(json.dumps(told)))]
        self.assertEqual(faults, [])

    def test_the_schema_refuses(self):
        wanted = json.loads(examples.text("../docs/report.schema", ".json"))
        told = {**HEAD, **reports.as_json(reports.read(examples.text("stay")))}
        told["times"][0]["bound"]["tree"]["kind"] = "number"
        self.assertEqual(len(schema.faults(wanted, wanted, told)), 1)

    def test_reasons(self):
        kinds = [it.why.as_json() for it in reports.read(REASONS).entries()]
        self.assertEqual([it["kind"] for it in kinds], ["limit", "limit", "large", "limit", "bent", "untimed", "loose"])
        self.assertEqual(kinds[0], {"kind": "limit", "text": "empty 1 wide 16000001 entries", "question": "empty",
                                    "rule": 1, "limit": "wide", "number": 16000001})

    def test_facts_stand_before_a_report(self):
        report = reports.read(examples.text("flag", ".facts.txt"))
        self.assertEqual((report.facts, report.total_text), (["work: -x2 >= 0", "work: x2 >= 0"], "N + 1"))
        self.assertEqual(reports.as_json(report)["facts"][1], {"symbol": "work", "text": "x2 >= 0"})
        self.assertRaises(reports.ReportError, reports.read, "fact work: x2 >= 2\n" + examples.text("flag"))

    def test_a_gap(self):
        why = reports.read(examples.text("unequal")).times[2].why.as_json()
        self.assertEqual((why["rules"], why["shut"]), ([3], [{"symbol": "loop", "place": 1}]))
        self.assertEqual(why["floor"], {"rule": 3, "point": [1, 0], "denominator": 0})

    def test_an_input_may_be_named_unknown(self):
        text = "bounded\ntime 1: unknown\ntotal: unknown\nsize 1.1: unknown\n"
        report = reports.read(text)
        self.assertEqual((report.times[0].text, report.total_text, report.sizes[0].why), ("unknown", "unknown", None))
        stay = reports.read(examples.text("stay").replace(": A\n", ": unknown\n"))
        self.assertEqual([it.text for it in stay.entries()], ["1", None, "unknown", "unknown"])
        self.assertIsNone(stay.total_text)

    def test_no_reports(self):
        whole = examples.text("stay")
        taken = []
        for text in ("", "bounded\n", whole[:-1], whole.replace("unknown", "bounded", 1), whole + "more\n",
                     whole.replace("  kept 2: (1) / 1\n", "")):
            try:
                taken.append(reports.read(text))
            except reports.ReportError:
                pass
        self.assertEqual(taken, [])


class Programs(unittest.TestCase):
    def test_rules_of_all_examples(self):
        differ = []
        for name in examples.names():
            with open(examples.path(name), "rb") as file:
                program = programs.read(file.read())
            report = reports.read(examples.text(name))
            places = [(rule.number, place + 1) for rule in program.rules for place in range(len(rule.updates))]
            costed = [rule.number for rule in program.rules if rule.cost is not None]
            if len(program.rules) != len(report.times) or places != [(it.rule, it.place) for it in report.sizes] or (
                    costed != [it.rule for it in report.costs]):
                differ.append(name)
        self.assertEqual(differ, [])

    def test_a_variable_may_be_named_comment(self):
        text = b"(COMMENT (a) b)(STARTTERM (FUNCTIONSYMBOLS f))(RULES f(COMMENT) -> g(COMMENT))"
        self.assertEqual(programs.read(text).rules[0].updates, ["COMMENT"])

    def test_a_rule_in_parts(self):
        text = (b"(STARTTERM (FUNCTIONSYMBOLS f))(RULES f(A) -> g((A+1)*B, TRUE) [ TRUE && true >= C ] "
                b"g(A, B) -> g(B, A):|:)")
        rule, second = programs.read(text).rules
        self.assertEqual((rule.left_names, rule.updates, [it.text for it in rule.free]),
                         (["A"], ["(A+1)*B", "TRUE"], ["B", "TRUE", "true", "C"]))
        self.assertEqual((second.text, second.guard), ("g(A, B) -> g(B, A):|:", ""))
