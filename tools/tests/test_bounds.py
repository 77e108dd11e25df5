import json
import unittest

import examples
from koat_tools import bounds, growth, reports


def evaluated(text, inputs):
    """The value by Python's own reading of the text."""
    return eval(text.replace("^", "**"), {"max": max, "__builtins__": {}}, dict(inputs))


class Bounds(unittest.TestCase):
    def test_values_of_all_examples(self):
        differ = []
        for name in examples.names():
            report = reports.read(examples.text(name))
            for label, text, bound in report.labelled():
                for size in (0, 1, 3, 7) if bound else ():
                    inputs = {it: size + at for at, it in enumerate(bounds.names(bound))}
                    if bounds.value(bound, inputs) != evaluated(text, inputs):
                        differ.append((name, label, inputs))
        self.assertEqual(differ, [])

    def test_trees(self):
        read = bounds.read("2*2^(A + 1)*B^2 + max(A, 3)")
        power = bounds.Power(2, bounds.Sum((bounds.Input("A"), bounds.Constant(1))))
        product = bounds.Product((bounds.Constant(2), power, bounds.Input("B"), bounds.Input("B")))
        self.assertEqual(read, bounds.Sum((product, bounds.Maximum((bounds.Input("A"), bounds.Constant(3))))))

    def test_as_deep_as_koat_keeps_them(self):
        text = "A"
        for _ in range(200):
            text = f"max(2^({text}), B)"
        bound = bounds.read(text)
        self.assertEqual((bounds.names(bound), bounds.value(bound, {"A": 0, "B": 5})), (["A", "B"], bounds.CAP))
        self.assertEqual(growth.growth(bound), (200, 1))
        self.assertEqual(json.loads(json.dumps(bounds.as_json(bound), indent=1))["kind"], "maximum")

    def test_no_bounds(self):
        wrong = ["", "A +", "A+B", "max(A", "2^", "A^B", "(A", "A B", "unknown "]
        taken = []
        for text in wrong:
            try:
                taken.append((text, bounds.read(text)))
            except bounds.BoundError:
                pass
        self.assertEqual(taken, [])

    def test_large_values_are_capped(self):
        value = bounds.value(bounds.read("2^(2^A)*3"), {"A": 10**9})
        self.assertEqual(bounds.value_text(value), "2^127 or more")
        power = bounds.read("2^A")
        self.assertEqual([bounds.value(power, {"A": it}) for it in (20, 126, 127)], [2**20, 2**126, bounds.CAP])


CLASSES = [("7", "O(1)", "WORST_CASE(?, O(1))"), ("A", "O(n)", "WORST_CASE(?, O(n^1))"),
           ("2*A^2*B + A", "O(n^3)", "WORST_CASE(?, O(n^3))"),
           ("max(A, B^2)*(A + 1)", "O(n^3)", "WORST_CASE(?, O(n^3))"), ("2*2^A*A", "2^O(n)", "WORST_CASE(?, O(EXP))"),
           ("3^(A^2) + 2^B", "2^O(n^2)", "WORST_CASE(?, O(EXP))"), ("2^(2^A)", "2^2^O(n)", "MAYBE"),
           ("2^200", "O(1)", "WORST_CASE(?, O(1))")]


class Classes(unittest.TestCase):
    def test_classes(self):
        found = [(text, growth.text(it), growth.competition(it))
                 for text, it in ((text, growth.growth(bounds.read(text))) for text, _, _ in CLASSES)]
        self.assertEqual(found, CLASSES)
