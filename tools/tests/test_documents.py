import glob
import os
import re
import runpy
import unittest

import examples
from koat_tools import bounds, programs, reasons, reports

DOCUMENTS = ["README.md", "CONTRIBUTING.md", "examples/README.md"] + [f"docs/{name}.md" for name in (
    "architecture", "best", "claims", "contributing", "DECISIONS", "definitions", "format", "front-ends", "glossary", "lasso",
    "lp", "proof-format", "report", "run-files", "running", "theorem", "trust", "while")]
FOLDERS = ["", "examples", "examples/best", "examples/reasons", "docs"]
PATH = r"`((?:examples|reasons|docs|tools|bench)/[\w./-]+|[\w-]+\.(?:koat|md))`"


def document(name):
    with open(os.path.join(examples.TOP, name), encoding="utf-8") as file:
        return file.read()


def index_rows():
    """The cells of each row of the index whose first cell is an example."""
    rows = [[it.strip() for it in line.strip("|").split(" | ")] for line in document("examples/README.md").splitlines()]
    return {row[0].strip("| `"): row for row in rows if row[0].strip("| `") in examples.names()}


def with_facts(name):
    """The total that facts lead to: that of their report, where one stands beside an example with another total."""
    if not os.path.exists(examples.path(name, ".facts.txt")):
        return "the same"
    total = reports.read(examples.text(name, ".facts.txt")).total_text
    return total if total != reports.read(examples.text(name)).total_text else "the same"


class Documents(unittest.TestCase):
    def test_files_that_are_named_are_there(self):
        lacking = []
        for name in DOCUMENTS:
            for path in re.findall(PATH, document(name)):
                there = any(os.path.exists(os.path.join(examples.TOP, it, path)) for it in FOLDERS)
                if path not in ("NAME.koat", "loop.koat", "stays.koat") and not there:
                    lacking.append((name, path))
        self.assertEqual(lacking, [])

    def test_the_linear_program_has_its_answer(self):
        slow = runpy.run_path(os.path.join(examples.TOP, "bench", "slow_lp.py"))
        text = examples.text("prices", ".lp")
        self.assertEqual(slow["answer"](text.encode()), (0, examples.text("prices", ".lp.txt")))
        self.assertIn(f"```\n{text}```", document("docs/lp.md"))

    def test_rows_of_tables_have_as_many_cells_as_their_heads(self):
        differ = []
        for name in DOCUMENTS:
            width = None
            for line in document(name).splitlines():
                cells = len(re.findall(r"(?<!\\)\|", line)) if line.startswith("|") else None
                if cells is not None and width is not None and cells != width:
                    differ.append((name, line))
                width = cells if cells is None or width is None else width
        self.assertEqual(differ, [])

    def test_the_index_has_each_example_with_its_total(self):
        rows, differ = index_rows(), []
        for name in examples.names():
            total = reports.read(examples.text(name)).total_text
            row = rows.get(name, [])
            said = row[3] if total and len(row) == 6 else None
            if not row or (row[2] if said == "the same" else said) != total:
                differ.append((name, said, total))
            if said and row[4] != with_facts(name):
                differ.append((name, row[4], with_facts(name)))
        self.assertEqual(differ, [])

    def test_gaps_that_are_shown_are_of_an_example(self):
        told = "".join(examples.text(os.path.join("reasons", it)) for it in reason_names())
        blocks = re.findall(r"```\n(why .*?)```", document("docs/report.md"), re.S)
        self.assertEqual([it for it in blocks if it not in told], [])

    def test_each_reason_has_its_program(self):
        named = set(re.findall(r"\| `(\w+)\.koat` \|", document("docs/report.md")))
        self.assertEqual(named - set(reason_names()), set())

    def test_reports_of_reasons_have_their_reason(self):
        wanted = {"bent": "bent", "budget": "limit", "invariant": "no ranking function", "large": "large",
                  "loose": "loose", "range": "limit", "scale": "limit", "untimed": "untimed"}
        limits = {"budget": "budget", "range": "range", "scale": "scale"}
        lacking = []
        for name, kind in wanted.items():
            whys = [it.why for it in reports.read(examples.text(os.path.join("reasons", name))).entries() if it.why]
            if not any(it.kind == kind and it.facts.get("limit") == limits.get(name) for it in whys):
                lacking.append(name)
        self.assertEqual(lacking, [])
        costs = reports.read(examples.text(os.path.join("reasons", "cost"))).costs
        self.assertEqual([(it.label, it.why.kind) for it in costs], [("cost 1", "loose"), ("cost 2", "untimed")])
        added = reports.read(examples.text(os.path.join("reasons", "invariant_added")))
        self.assertEqual((added.verdict, added.times[1].text), ("bounded", "N"))

    def test_reports_of_reasons(self):
        differ = []
        for name in reason_names():
            program = programs.read(examples.text(os.path.join("reasons", name), ".koat").encode())
            report = reports.read(examples.text(os.path.join("reasons", name)))
            places = [(rule.number, place + 1) for rule in program.rules for place in range(len(rule.updates))]
            read = {it for _, _, bound in report.labelled() if bound for it in bounds.names(bound)}
            if [it.rule for it in report.times] != [it.number for it in program.rules] or not (
                    places == [(it.rule, it.place) for it in report.sizes] and read <= set(program.inputs)):
                differ.append(name)
            differ += [(name, it.label) for it in report.entries() if it.why and not reasons.words(report, it, program)]
        self.assertEqual(differ, [])


def reason_names():
    found = glob.glob(os.path.join(examples.TOP, "examples", "reasons", "*.koat"))
    return sorted(os.path.basename(it)[:-len(".koat")] for it in found)
