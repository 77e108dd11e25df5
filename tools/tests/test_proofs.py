import os
import tempfile
import unittest

import examples
from koat_tools import facts, programs, proofs, refusals, sentences
from test_command import shown

COUNTER = b"""(STARTTERM (FUNCTIONSYMBOLS l0))
(RULES l0(A) -{A*A}> Com_1(l1(A)) l1(A) -> Com_1(l1(A-1)) :|: A >= 1 l1(A) -> Com_1(l2(A*A, C)) l2(A, B) -> l0(B))"""
START = "rank 1 set [1] den 1 forms [l0 [0 1]; l1 [0 0]] moves [[]] floor [] uses {start}"
FALLS = "rank 2 set [1 2] den 3 forms [l0 [2 1]; l1 [2 1]] moves [[]; [0]] floor [1] uses {start}"
LOOP = "cycle [2.1 up lin 1 [1 0] [0] low lin 1 [0 0] [1]] uses {cite 3}"
# Lemmas, the lines of facts that each states, its first sentence, and those behind it that are looked at.
LEMMAS = [
    (START, ["time 1: 1"], "rule 1 is used at most once", [
        "A function falls by at least 1 with each use of rule 1, and is at least 1 before it.",
        "It is 1 at l0 and 0 at l1.",
        "Runs come to this rule by the start and rule 4: as often as that happens, times what the function is then at "
        "most, gives the bound.",
        "This rests on the start."]),
    (FALLS, ["time 2: 7"], "rule 2 is used at most 7 times", [
        "A function falls by at least 3 with each use of rule 2, and is at least 3 before it; it never rises by rule "
        "1.",
        "It is 2*A + 1 at l0 and 2*A + 1 at l1.",
        "Runs come to these rules by the start and rule 4: as often as that happens, times what the function is then "
        "at most over 3, gives the bound.",
        "This rests on the start."]),
    ("spread 1.1 up lin 1 [1 0] [] low lin 1 [-1 0] [] uses {start}", ["size 1.1: A"],
     "argument 1 after rule 1 is at most A in absolute value", [
        "By rule 1 argument 1 becomes A, which is at least A and at most A.",
        "At the sizes after each rule that can come before, this gives the bound.", "This rests on the start."]),
    (LOOP, ["size 2.1: A"], "argument 1 after rule 2 is at most A in absolute value", [
        "By rule 2 argument 1 becomes A-1, which is at least 0 and at most A.",
        "This value comes back to itself in a loop: what comes in from outside, and what each use of a rule adds, "
        "times what each use multiplies by, gives the bound.", "This rests on lemma 3."]),
    ("spread 3.1 up poly low poly uses {cite 3; cite 4}", ["size 3.1: A^2"],
     "argument 1 after rule 3 is at most A^2 in absolute value", [
        "By rule 3 argument 1 becomes A*A, which is in absolute value at most the same with absolute values and "
        "coefficients.",
        "At the sizes after each rule that can come before, this gives the bound.", "This rests on lemmas 3 and 4."]),
    ("weaken (empty 2 [1]) to max(A, 2^(A + 1))", ["time 2: max(A, 2^(A + 1))"],
     "rule 2 is used at most max(A, 2^(A + 1)) times", [
        "A smaller bound was shown, and max(A, 2^(A + 1)) is no less.", "By a contradiction, in which:",
        "  The comparisons of degree 1 in its guard contradict each other."]),
    ("never (unreached 3 uses {cite 6})", ["size 3.1: 0", "size 3.2: 0"],
     "argument 1 after rule 3 is 0 and argument 2 after rule 3 is 0", [
        "No run comes there, since the rule is never used.", "By a rule that isn't reached, in which:",
        "  Its source isn't reached by rules that may be used.", "  This rests on lemma 6."]),
    ("cite 7", ["size 3.1: 0", "size 3.2: 0"], "argument 1 after rule 3 is 0 and argument 2 after rule 3 is 0",
     ["Lemma 7 says so."]),
    ("start", ["time 0: 1", "size 0.1: A"], "the start occurs once and start argument 1 is at most A in absolute value",
     ["So each run begins."]),
    ("cost 1 poly uses {start; cite 1}", ["cost 1: A^2"], "the steps by rule 1 cost at most A^2 together", [
        "A step costs A*A, which is at most the same with absolute values and coefficients; times how often rule 1 is "
        "used, that gives the bound.", "This rests on the start and lemma 1."]),
    ("cost 1 empty [1] uses {}", ["cost 1: 0"], "the steps by rule 1 cost at most 0 together", [
        "Where the guard holds, the cost is below 0, which counts as 0."]),
]
GAP = "gap 2 set [2] shut [l1.1] moves [[1 1]] floor [0 0] kept [[1 1]]"


def text(lemmas, *gaps):
    return "koat-proof 2\n" + "".join(f"lemma {it}\n" for it in lemmas) + "".join(f"{it}\n" for it in gaps) + "end\n"


class Proofs(unittest.TestCase):
    def test_how_many_rules_have_a_time(self):
        program = programs.read(COUNTER)
        self.assertEqual(sentences.tally(program, ["time 0: 1", "time 2: A", "time 2: A + 1", "size 1.1: A"]),
                         "It states a time for 1 of 4 rules, so it bounds no number of steps.")
        self.assertEqual(sentences.tally(program, ["time 1: 1", "time 2: A", "time 4: 0", "time 3: 2^A"]),
                         "It states a time for each rule: a run has at most 1 + A + 2^A steps.")
        self.assertIn("for 0 of 4 rules", sentences.tally(program, []))

    def test_each_kind_of_lemma_has_its_sentences(self):
        proof = proofs.read(text([it[0] for it in LEMMAS]))
        told = sentences.lines(programs.read(COUNTER), proof, [line for it in LEMMAS for line in it[1]])
        wanted = []
        for number, (_, _, states, shows) in enumerate(LEMMAS, 1):
            wanted += [f"lemma {number}: {states}"] + [f"  {it}" for it in shows]
        self.assertEqual(told, wanted)

    def test_gaps_are_told(self):
        told = sentences.lines(programs.read(COUNTER), proofs.read(text([], GAP)), [])
        self.assertEqual(told[0], "gap 1: rule 2 is ranked by no affine function over rule 2 that leaves out argument 1 of "
                                  "l1")
        self.assertEqual([it for it in told if "no size bound" in it], [])

    def test_without_facts_nothing_is_said_of_bounds(self):
        told = sentences.lines(programs.read(COUNTER), proofs.read(text([START, LOOP])), None)
        self.assertEqual([told[0], told[5]],
                         ["lemma 1: rule 1 has a time", "lemma 2: argument 1 after rule 2 has a size"])

    def test_texts_that_are_no_proofs(self):
        refused = []
        for wrong in ("", "koat-proof 1\n", "koat-proof 1\nlemma stop\nend\n", "koat-proof 1\nlemma cite\nend\n"):
            try:
                refused.append(proofs.read(wrong))
            except proofs.ProofError:
                pass
        self.assertEqual(refused, [])

    def test_the_command(self):
        status, out, _ = shown("proof", examples.path("gcd"))
        lines = out.splitlines()
        self.assertEqual((status, lines[-2:]), (0, [
            "koat's checker accepts this proof",
            "It states a time for each rule: a run has at most 1 + A + B + 1 steps."]))
        self.assertEqual([it for it in lines if it.startswith("lemma")][1], "lemma 2: rule 2 is used at most A times")

    def test_a_proof_that_is_not_accepted(self):
        with tempfile.TemporaryDirectory() as room:
            path = os.path.join(room, "other.proof")
            with open(path, "w", encoding="utf-8") as file:
                file.write("koat-proof 1\nlemma empty 1 []\nend\n")
            status, out, _ = shown("proof", examples.path("gcd"), "--proof", path)
        lines = out.splitlines()
        self.assertEqual((status, lines[0]), (15, "lemma 1: rule 1 has a time   <-- not accepted"))
        self.assertEqual(lines[2:], [
            "koat's checker does not accept it: no lemma 1 node 1: shape",
            "  Node 1 of lemma 1 is a guard that contradicts itself of rule 1.",
            "  A list has a wrong length or doesn't ascend, or a number is out of range."])


class Refusals(unittest.TestCase):
    def said(self, line, *lemmas, gaps=()):
        return refusals.lines(programs.read(COUNTER), proofs.read(text(lemmas, *gaps)), line)

    def test_goals_and_what_is_left_over(self):
        wrong = FALLS.replace("forms [l0 [2 1]; l1 [2 1]]", "forms [l0 [2 1]; l1 [1 1]]")
        self.assertEqual(self.said("no lemma 1 node 2: move 2", wrong), [
            "Node 2 of lemma 1 is a ranking function of rule 2.",
            "Its goal is that the function falls by at least 3 with rule 2: `-2 >= 0`.",
            "Its multipliers take none of the guard's rows.",
            "Left over is `-2`, which should be a number of at least 0: it is below 0."])
        self.assertEqual(self.said("no lemma 1 node 2: floor", FALLS.replace("floor [1]", "floor [1 ]"[:-2] + "]"))[1:], [
            "Its goal is that the function is at least its denominator before the rule: `2*A - 2 >= 0`.",
            "Its multipliers take 1 times `A - 1 >= 0`.",
            "Left over is `A - 1`, which should be a number of at least 0: variables are left."])

    def test_arms(self):
        self.assertEqual(self.said("no lemma 1 node 2: arm 2.1 up", LOOP.replace("{cite 3}", "{start}"))[1], (
            "Its goal is that argument 1 after rule 2 is at most the form: `1 >= 0`."))

    def test_what_is_missing(self):
        self.assertEqual(self.said("no lemma 1 node 2: missing time 4", FALLS)[1], (
            "It needs the time of rule 4 over the rules 1, 2, since runs come by rule 4; no node that it rests on states "
            "that."))
        self.assertIn("4,096", self.said("no lemma 1 node 2: large 5000", FALLS)[1])

    def test_lengths(self):
        self.assertEqual(self.said("no lemma 1 node 2: shape", FALLS.replace("[[]; [0]]", "[[]; [0 0]]"))[2], (
            "Rule 2 has 1 rows (`A - 1 >= 0`), and 2 multipliers are given."))

    def test_gaps(self):
        self.assertEqual(self.said("no gap 1: kept 2", gaps=[GAP])[0], (
            "The gap is of rule 2 over the rules 2, without the places: l1.1."))


class WithFacts(unittest.TestCase):
    def test_facts_stand_in_guards(self):
        program = programs.read(examples.text("flag", ".koat").encode())
        said = facts.with_facts(program, ["work: -x2 >= 0", "work: x1 - x2 >= 1"]).decode()
        rule = next(it for it in programs.read(said.encode()).rules if it.source.text == "work")
        names = rule.left_names
        self.assertTrue(rule.guard.endswith(f"-{names[1]} >= 0 && {names[0]} - {names[1]} >= 1"))
        self.assertEqual([it.updates for it in programs.read(said.encode()).rules],
                         [[one.strip() for one in it.updates] for it in program.rules])
