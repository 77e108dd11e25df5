"""Lassos that are found by walking or along paths: each is checked here step by step."""

import time
import unittest
from unittest import mock

import examples
from endless_programs import BACK, ENDING, ENDLESS, FAR, NEITHER, ON, program
from koat_tools import endless, linear, moving, paths, programs, runs
from test_command import shown

TURNS = 40


def _values(read, lasso, turns):
    """Where the stem leads and where each of so many turns does; none where some step isn't possible."""
    found = []
    for made in range(turns + 1):
        steps = lasso.stem + lasso.turn * made
        states = runs.states(read, runs.Run(lasso.start, steps), len(steps))
        if states is None:
            return None
        found.append([(0, read.start, lasso.start), *states][-1][1:])
    return found


def _kind(read, lasso):
    """How the turn of a lasso goes, as its first turns do; none where these aren't possible or go otherwise."""
    where = _values(read, lasso, TURNS) if lasso and lasso.turn else None
    if not where or len({symbol for symbol, _ in where}) > 1:
        return NEITHER
    moves = {tuple(b - a for a, b in zip(one[1], two[1])) for one, two in zip(where, where[1:])}
    if len(moves) > 1 or lasso.is_moving == (not any(moves.pop())):
        return NEITHER
    return ON if lasso.is_moving else BACK


class Endless(unittest.TestCase):
    def test_lassos_are_found_and_go_on_within_a_second_of_processor_time(self):
        differ = []
        for name, (rules, wanted) in {**ENDLESS, **FAR}.items():
            read, begun = programs.read(program(rules)), time.process_time()
            lasso = endless.found(read, 300)
            used = time.process_time() - begun
            if _kind(read, lasso) != wanted or (lasso and wanted == NEITHER) or used > 1:
                differ.append((name, lasso, used))
        self.assertEqual(differ, [])

    def test_walking_alone_misses_far_values(self):
        with mock.patch.object(paths, "found", return_value=None):
            found = [name for name, (rules, _) in FAR.items() if endless.found(programs.read(program(rules)), 30)]
        self.assertEqual(found, [])

    def test_paths_that_are_no_lassos(self):
        for rules in (
                "f(A) -> Com_1(g(A)) g(A) -> Com_1(g(A*A)) :|: A >= 9",
                "f(A) -> Com_1(g(A)) g(A) -> Com_1(g(A)) :|: A*A >= 99",
                "f(A) -> Com_1(g(A)) :|: A > 2^62 g(A) -> Com_1(g(A))",
                "f(A) -> Com_1(g(A)) :|: A >= 99 g(A) -> Com_1(g(A)) :|: 2*A = 2*Z + 1",
                "f(A) -> Com_1(g(A)) :|: A >= 99 g(A) -> Com_1(g(A-1)) :|: A >= 20"):
            self.assertIsNone(paths.found(programs.read(program(rules)), time.monotonic() + 300), rules)

    def test_no_paths_are_tried_when_the_time_is_over(self):
        read = programs.read(program(FAR["back from 50 on"][0]))
        self.assertIsNone(paths.found(read, time.monotonic() - 1))

    def test_integers(self):
        one = linear.ONE
        for rows, wanted in (
                ([], [0, 0]),
                ([({0: 3, 1: -5, one: -7}, True), ({0: 1, one: -100}, False)], [104, 61]),
                ([({0: 1, 1: 1, one: -9}, True), ({0: 1, 1: -1}, True)], None),
                ([({0: 2, 1: 4, one: -5}, True)], None),
                ([({one: 3}, True)], None),
                ([({one: -1}, False)], None),
                ([({0: 2, one: -5}, False), ({0: -2, one: 5}, False)], None),
                ([({0: 2, one: -5}, False), ({0: -3, one: 10}, False)], [3, 0]),
                ([({0: 1, 1: 1, one: 20}, False), ({0: -1, one: -7}, False), ({1: -1, one: -11}, False)], [-7, -11]),
                ([({0: 5, 1: -7, one: -1}, False), ({0: -5, 1: 7, one: 1}, False), ({1: 1, one: -1}, False)], [3, 2])):
            self.assertEqual(linear.integers(rows, 2), wanted, rows)

    def test_nine_of_ten_are_settled(self):
        self.assertGreaterEqual(len(ENDLESS), 30)
        self.assertGreaterEqual(sum(kind != NEITHER for _, kind in ENDLESS.values()) * 10, len(ENDLESS) * 9)

    def test_nothing_is_found_where_all_runs_end(self):
        found = [name for name, rules in ENDING.items() if endless.found(programs.read(program(rules)), 1)]
        self.assertEqual(found, [])

    def test_walks_from_other_starts_come_as_deep(self):
        rules = ("f(A) -> Com_1(g(A)) g(A) -> Com_1(g(A+1)) :|: A < 58 g(A) -> Com_1(h(A)) :|: A >= 58 "
                 "h(A) -> Com_1(g(A))")
        with mock.patch.object(endless, "DEPTHS", (60,)):
            lasso = endless.found(programs.read(program(rules)), 60)
        wanted = endless.Lasso([1], [(1, []), *[(2, [])] * 57], [(3, []), (4, [])])
        self.assertEqual(lasso, wanted)

    def test_walks_from_other_starts_come_as_far(self):
        rules = ("f(A) -> Com_1(g(A)) g(A) -> Com_1(g(A+1)) :|: A < 12 g(A) -> Com_1(h(A)) :|: A >= 12 "
                 "h(A) -> Com_1(g(A))")
        with mock.patch.object(endless, "FEW", 10):
            lasso = endless.found(programs.read(program(rules)), 60)
        self.assertEqual(lasso, endless.Lasso([4], [(1, []), *[(2, [])] * 8], [(3, []), (4, [])]))

    def test_what_the_command_finds(self):
        for name in ("stay", "unequal"):
            self.assertEqual(shown("endless", examples.path(name)), (0, examples.text(name, ".lasso"), ""))

    def test_the_command_finds_none_where_all_runs_end(self):
        self.assertEqual(shown("endless", examples.path("gcd")), (1, "", ""))

    def test_texts(self):
        lasso = endless.Lasso([1, -2], [(1, [])], [(2, [3, -4]), (3, [])])
        wanted = "koat-lasso 1\nstart 1 -2\nstep 1\nloop\nstep 2 3 -4\nstep 3\nend\n"
        self.assertEqual((endless.text(lasso), endless.lasso_of(wanted.encode())), (wanted, lasso))
        on = endless.Lasso([1], [], [(1, [])], True)
        self.assertEqual((endless.text(on), endless.lasso_of(endless.text(on).encode())),
                         ("koat-lasso 2\nstart 1\nloop\nstep 1\nend\n", on))
        bare = endless.Lasso([], [], [(1, [])])
        self.assertEqual(endless.lasso_of(endless.text(bare).encode()), bare)

    def test_turns_that_move_on(self):
        rules = ("f(A,B) -> Com_1(f(A+B,B)) :|: A >= 1 f(A,B) -> Com_1(f(A*B,B)) f(A,B) -> Com_1(f(A*A,B)) "
                 "f(A,B) -> Com_1(f(A+1,B)) :|: A < 9 f(A,B) -> Com_1(f(2*A,B))")
        usable = [runs.UsableRule(rule) for rule in programs.read(program(rules)).rules]
        found = [moving.moves_on([(rule, [])], before, behind) for rule, before, behind in (
            (usable[0], [1, 2], [3, 2]), (usable[0], [5, -1], [4, -1]), (usable[1], [3, 1], [3, 1]),
            (usable[1], [3, 2], [6, 2]), (usable[2], [2, 0], [4, 0]), (usable[2], [1, 0], [1, 0]),
            (usable[3], [1, 0], [2, 0]), (usable[4], [1, 0], [2, 0]), (usable[0], [1, 2 ** 127], [1, 0]))]
        self.assertEqual(found, [True, False, True, False, False, True, False, False, False])


if __name__ == "__main__":
    unittest.main()
