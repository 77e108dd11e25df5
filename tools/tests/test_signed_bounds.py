"""Bounds over the inputs themselves: their texts, trees, values and classes."""

import json
import math
import re
import shutil
import subprocess
import unittest

import best_texts
import examples  # noqa: F401
from koat_tools import bounds, growth, page, reports, signed_bounds

# Texts of each kind, and their values at x = 3, y = 5 and n = -7.
VALUES = [
    ("12", 12), ("[y - x]", 2), ("[x - y]", 0), ("[y - x] + 1", 3), ("2*[x]", 6), ("([x] + 1)*((7)/2)", 12),
    ("max([x], 1)", 3), ("min([x], 1, 2)", 1), ("min(1)", 1), ("max(0)", 0), ("([x] + 1)/2", 2), ("(7)/2", 3),
    ("root(2*[x])", 2), ("2^([x])", 8), ("[5*n*n - n]", 252), ("[n*n - 2*x*y]", 19), ("[-2*y + 3]", 0), ("[-n]", 7),
    ("[0]", 0), ("[2*0]", 0), ("[2*0*x + 4]", 4), ("[-1]", 0), ("(root([x]) + 1)*2^([x] + 1)", 32),
    ("([n*n + 5*n])/2 + 1", 8), ("[-y - 1] + 2*[y + 1] + root(2*[x - 1]) + 1", 15),
]
AT = {"x": 3, "y": 5, "n": -7}
CLASSES = [("[y - x]", "O(n)", "WORST_CASE(?, O(n^1))"), ("[-3]", "O(1)", "WORST_CASE(?, O(1))"),
           ("root(2*[x])", "O(n^(1/2))", "WORST_CASE(?, O(n^1))"), ("root([x*x*x])", "O(n^(3/2))", "WORST_CASE(?, O(n^2))"),
           ("root([x])*root([y])", "O(n)", "WORST_CASE(?, O(n^1))"), ("([n*n + n])/2", "O(n^2)", "WORST_CASE(?, O(n^2))"),
           ("min([x*x], [y])", "O(n)", "WORST_CASE(?, O(n^1))"), ("max([x*x], [y])", "O(n^2)", "WORST_CASE(?, O(n^2))"),
           ("root(2^([x]))", "2^O(n)", "WORST_CASE(?, O(EXP))"), ("2^(root([x]))", "2^O(n^(1/2))", "WORST_CASE(?, O(EXP))"),
           ("2^(2^([x]))", "2^2^O(n)", "MAYBE"), ("[x]*[y] + [x*0*y]", "O(n^2)", "WORST_CASE(?, O(n^2))"),
           ("[0*x]", "O(1)", "WORST_CASE(?, O(1))")]
WRONG = ["", "[x", "[x]]", "x", "2^x", "2^3", "(1)*2/3", "1/2", "[x]/2", "([x])/0", "([x])/y", "[x]+1", "[x + ]", "[--x]",
         "[+x]", "[]", "max()", "root(1, 2)", "[x] ", "[x^2]", "-1", "([x] + 1)/2*3", "unknown", "min[x]", "[x*]", "(7)/2/2"]


def evaluated(text, inputs):
    """The value by Python's own reading of the text."""
    text = re.sub(r"\[([^\]]*)\]", r"max(0, \1)", text).replace("^", "**").replace("/", "//")
    return eval(text, {"max": lambda *it: max(it), "min": lambda *it: min(it), "root": math.isqrt, "__builtins__": {}}, dict(inputs))


def known_bounds():
    """The bounds of all reports that stand in the tests, each with its text."""
    found = [(text, bound) for name in best_texts.names()
             for _, text, bound in reports.read_best(best_texts.report(name)).labelled() if bound]
    return found + [(text, signed_bounds.read(text)) for text, _ in VALUES]


class SignedBounds(unittest.TestCase):
    def test_values(self):
        self.assertEqual([(text, bounds.value(signed_bounds.read(text), AT)) for text, _ in VALUES], VALUES)

    def test_values_of_reports(self):
        differ = []
        for text, bound in known_bounds():
            for size in (-4, 0, 1, 9):
                inputs = {it: size * (-1) ** at + at for at, it in enumerate(bounds.names(bound))}
                if bounds.value(bound, inputs) != evaluated(text, {**AT, **inputs}):
                    differ.append((text, inputs))
        self.assertEqual(differ, [])

    def test_a_tree_has_its_text(self):
        texts = [text for text, bound in known_bounds() if "*0" not in text]
        self.assertEqual([signed_bounds.text(signed_bounds.read(it)) for it in texts], texts)

    def test_trees(self):
        part = bounds.Part(((1, ("y",)), (-2, ("x", "x"))))
        wanted = bounds.Sum((bounds.Quotient(part, 2), bounds.Product((bounds.Constant(2), bounds.Root(part)))))
        self.assertEqual(signed_bounds.read("([y - 2*x*x])/2 + 2*root([y - 2*x*x])"), wanted)
        self.assertEqual(bounds.names(wanted), ["y", "x"])
        self.assertEqual(bounds.as_json(part)["terms"][1], {"coefficient": "-2", "names": ["x", "x"]})

    def test_no_bounds(self):
        taken = []
        for text in WRONG:
            try:
                taken.append((text, signed_bounds.read(text)))
            except bounds.BoundError:
                pass
        self.assertEqual(taken, [])

    def test_large_values_are_capped_outside_alone(self):
        at = {"x": 200, "y": -10**40}
        found = [bounds.value(signed_bounds.read(it), at) for it in
                 ("2^([x])", "root(2^([x]))", "(2^([x]))/1180591620717411303424", "min(2^([x]), 7)", "[y]", "[-y]",
                  "root([-y])", "2^(2^([x]))", "root(root(2^(2^([x]))))")]
        self.assertEqual(found, [bounds.CAP, 2**100, bounds.CAP, 7, 0, bounds.CAP, 10**20, bounds.CAP, bounds.CAP])
        self.assertEqual(bounds.value(signed_bounds.read("(2^([x]))/1180591620717411303424"), {"x": 130}), 2**60)

    def test_classes(self):
        found = [(text, growth.text(it), growth.competition(it))
                 for text, it in ((text, growth.growth(signed_bounds.read(text))) for text, _, _ in CLASSES)]
        self.assertEqual(found, CLASSES)

    @unittest.skipUnless(shutil.which("node"), "node isn't there")
    def test_values_of_the_script(self):
        script = page._file("page.js").split("// The inputs by name", 1)[0]
        told, right = [], []
        texts = ["root(2^([x]))", "2^(2^([x]))", "(2^([x]))/7", "min(2^([x]), [x*x])"]
        for bound in [it for _, it in known_bounds()] + [signed_bounds.read(it) for it in texts]:
            for size in (-4, 0, 9, 200):
                inputs = {it: size * (-1) ** at + at for at, it in enumerate(bounds.names(bound))}
                told.append([bounds.as_json(bound), {key: str(it) for key, it in inputs.items()}])
                right.append(bounds.value(bound, inputs))
        loop = (f"for (const [tree, texts] of {json.dumps(told)}) {{ const given = {{}};"
                "for (const key in texts) given[key] = BigInt(texts[key]); console.log(String(value(tree, given))); }")
        ran = subprocess.run(["node", "-"], input=script + loop, stdout=subprocess.PIPE, text=True, check=True)
        self.assertEqual([int(it) for it in ran.stdout.split()], right)
