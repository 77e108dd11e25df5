import unittest

import examples
from koat_tools import lint, programs, reports


def found(text, times=""):
    """The findings of a program, with a report that says these times of 0."""
    program = programs.read(text.encode())
    lines = [f"time {it.number}: {'0' if str(it.number) in times.split() else '1'}\n" for it in program.rules]
    return lint.findings(program, reports.read("bounded\n" + "".join(lines) + "total: 1\n"))


def texts(text, times=""):
    return [(it.is_slip, it.text) for it in found(text, times)]


HEAD = "(STARTTERM (FUNCTIONSYMBOLS start))(RULES "


class Lint(unittest.TestCase):
    def test_lines_and_columns_are_those_of_places(self):
        data = "ab\n\ngrüße\r\n(é) c".encode()
        starts = [at for at in range(len(data) + 1) if at == len(data) or data[at] & 0xC0 != 0x80]
        places = [(it.line, it.column) for it in (programs.place(data, at) for at in starts)]
        self.assertEqual(list(programs.columns(data, starts)), places)
        self.assertEqual(list(programs.columns(data, starts[::3])), places[::3])

    def test_a_variable_that_is_nowhere(self):
        self.assertEqual(texts(HEAD + "start(A) -> start(B))"), [
            (True, "rule 1: `B` is on no left side and not in VAR; koat takes it as any integer")])
        self.assertEqual(texts("(VAR A B)" + HEAD + "start(A) -> start(B))"), [])
        self.assertEqual(texts(HEAD + "start(A) -> start(B) start(B) -> start(B))"), [])

    def test_a_variable_of_nearly_the_same_name(self):
        self.assertEqual(texts("(VAR Count count)" + HEAD + "start(Count) -> start(count))"), [
            (True, "rule 1: `count` isn't on the left, so it is any integer; is `Count` meant?")])

    def test_dead_ends(self):
        text = HEAD + "start(A) -> loop(A) loop(A) -> lop(A) loop(A) -> stop(A))"
        self.assertEqual(texts(text), [(True, "no rule leaves `lop`: runs end there; is `loop` meant?"),
                                       (False, "no rule leaves `stop`: runs end there")])

    def test_what_no_rule_reaches(self):
        self.assertEqual(texts(HEAD + "start(A) -> start(A) other(A) -> start(A))"), [
            (True, "no rule leads to `other` from the start symbol")])

    def test_times_of_0(self):
        self.assertEqual([slip for slip, _ in texts(HEAD + "start(A) -> start(A) :|: A > A)", "1")], [True])

    def test_large_constants(self):
        text = HEAD + "start(A) -> start(A) :|: A <= {})"
        numbers = (46340, 46341, 2**29 - 1, 2**29, 2147483647, "0" * 5000 + "7", "0" * 5000)
        self.assertEqual([[it.is_slip for it in found(text.format(it))] for it in numbers],
                         [[], [False], [False], [True], [True], [], []])

    def test_numbers_that_left_the_range(self):
        program = programs.read((HEAD + "start(A) -> start(A+1) :|: A <= 46341)").encode())
        report = reports.read("unknown\ntime 1: unknown\ntotal: unknown\nwhy time 1: rank 1 range at pivot 5\n")
        self.assertEqual([it.is_slip for it in lint.findings(program, report)], [True])

    def test_comparisons_that_are_not_looked_at(self):
        self.assertEqual(texts(HEAD + "start(A) -> start(A) :|: A*A < 9 && A*A - A*A < 1 && TRUE)"), [
            (False, "rule 1: `A*A < 9` has degree 2, and koat's search looks at comparisons of degree 1 alone: its bounds "
             "hold without this one, too")])

    def test_which_names_are_near(self):
        near = [("loop", "lop"), ("Count", "count"), ("Ar_0", "Ar0"), ("first", "fisrt"), ("search", "seerch")]
        far = [("A", "B"), ("loop1", "loop2"), ("A", "A'"), ("Ar_0", "Ar_1"), ("abc", "abd"), ("loop", "loop"),
               ("stop", "step")]
        self.assertEqual([lint.is_near(*it) for it in near + far], [True] * len(near) + [False] * len(far))

    def test_examples_have_no_slips(self):
        slips = []
        for name in examples.names():
            program = programs.read(examples.text(name, ".koat").encode())
            for it in lint.findings(program, reports.read(examples.text(name))):
                if it.is_slip and name not in ("large_constant",):
                    slips.append((name, it.text))
        self.assertEqual(slips, [])
