"""Proof files of the third form in sentences, and what is said of those that the checker doesn't accept."""

import json
import math
import os
import re
import sys
import tempfile
import unittest

import best_texts
import examples
import schema
from koat_tools import answers, programs, proofs, refined, third_form, third_json, third_refusals, third_sentences
from test_command import shown

# The files of docs/proof-format.md, with their programs, in order.
HEAD = "(STARTTERM (FUNCTIONSYMBOLS {start}))(RULES {rules})"
# Lemmas of each kind behind the facts of other lemmas, and what each states and shows.
LOOP = HEAD.format(start="start", rules="""start(x, y) -> Com_1(l(x, y))
l(x, y) -> Com_1(l(x - 1, y)) :|: x >= 1 && y <= 5 && y >= 0 l(x, y) -> Com_1(l(y, y - 1)) :|: y >= 1""").encode()
FUNCTIONS = "functions [start [1*2]; l [1*2]] den 1 moves [1 keep [] {}; 2 keep [] {}; 3 keep [] {}]"
LEMMAS = [
    (f"fall {FUNCTIONS} pays [3 [1] {{1 row 1}} {{}}] to part [1*2]", "rule 3 is used at most [y] times", [
        "The potential is y at start and l.", "Rules 1 and 2 don't raise it.",
        "Rule 3 takes 1 out of it.", "Before rule 3 at least 1 is there, by y - 1 >= 0.",
        "What is there at the start and what is put in bound what is taken out."]),
    (f"peak 3 [1*2] {{}} {FUNCTIONS} to part [1*2]", "at each step by rule 3, y is at most [y]", [
        "The potential is y at start and l.", "Rules 1, 2 and 3 don't raise it.", "Before rule 3 it is at least y.",
        "What is there at the start or anew and what is put in bound that."]),
    ("row 2 [1*2] {1 row 2} most 5 to 5", "at each step by rule 2, y is at most 5", [
        "The guard of rule 2 limits it, by -y + 5 >= 0."]),
    ("times 3 [1*2] by 1 2 to product (part [1*2]; part [1*2])",
     "y over all steps by rule 3, where it is positive, comes to at most [y]*[y]", [
         "How often it is used, fact 1, times how large that is each time, fact 2, gives the bound."]),
    ("fall functions [start [2*1]; l [2*1]] den 2 moves [1 keep [] {}; 2 keep [] {}; 3 reset [2*2] by 4 {}] "
     "pays [2 [1] {2 row 1} {}] to sum (part [1*1]; product (part [1*2]; part [1*2]))",
     "rule 2 is used at most [x] + [y]*[y] times", [
         "The potential is 2*x at start and l.", "Rule 1 doesn't raise it.", "Rule 2 takes 2 out of it.",
         "Rule 3 sets it anew, to at most 2*y, which fact 4 bounds.",
         "Before rule 2 at least 2 is there, by x - 1 >= 0.",
         "What is there at the start and what is put in, divided by 2, bound what is taken out."]),
    ("add 1 5 to quotient (root (part [3*1*1])) by 2", "rules 3 and 2 are together used at most (root([3*x*x]))/2 times", [
        "It is the sum of what facts 1 and 5 state."]),
    ("among [2 [1]] by 6 to power 2 to (part [-1*1; 4])", "rule 2 is used at most 2^([-x + 4]) times", [
        "They are among what fact 6 bounds."]),
    ("least 5 7 to minimum (1; part [])", "rule 2 is used at most min(1, [0]) times", [
        "It is the least of what facts 5 and 7 state."]),
    ("sized 3 [1*1] by [1 2] to maximum (part [1*1]; part [1*9])", "at each step by rule 3, x is at most max([x], [0])", [
        "It is so by the absolute values that facts 1 and 2 bound."]),
    ("phases functions [l [1*2; 1]] functions [l [1*1]] den 1 moves [1 {} {}; 2 {} {}] counts [3 {1 row 1}] to 7",
     "rule 3 is used at most 7 times", [
         "The first function is y + 1 at l.", "The second one is x at l.",
         "Rule 3 lowers the first one by 1 each time, and the second one is at least 1 before: it may rise by what the "
         "first one is, less 1, and so falls ever faster once the first one is negative. Other rules raise neither."]),
]
# What the checker says of a file, and the sentences on it.
REFUSALS = [
    ("no lemma 1: floor 3", ["The certificate of rule 3 doesn't show that what is needed is there before it.",
                             "Its goal is `y - 1 >= 0`.", "Its certificate takes 1 times `y - 1`.",
                             "Left over is `0`, which has to be a number of at least 0, or to have no negative coefficient "
                             "and each variable an even number of times in each product."]),
    ("no lemma 5: move 3", ["The certificate of rule 3 doesn't show that the function rises by no more than is said.",
                            "Its goal is `0 >= 0`.", "Its certificate takes nothing.",
                            "Left over is `0`, which has to be a number of at least 0, or to have no negative coefficient "
                            "and each variable an even number of times in each product."]),
    ("no lemma 2: missing move 1", ["Rule 1 leads to a symbol with a function and isn't shown to be unused: it needs a "
                                    "move."]),
    ("no lemma 4: bound", ["Its bound isn't seen to be at least what follows."]),
    ("no claim 1: lemma", ["A fact that it cites isn't there or states something else, or there are too few or too many."]),
    ("no claim 2: place", ["The rule's target has no such place."]),
]
CLAIMS = ["time 3 by 1", "above 3.1 by [2] to part [1*2]", "below 3.1 by [0] to 0", "cost 2 by 4", "total by 6"]


def loop_file(*lemmas):
    return "koat-proof 3\nkoat-proof 1\nend\n" + "".join(f"signed {it}\n" for it in lemmas) + "".join(
        f"claim {it}\n" for it in CLAIMS)


def documented():
    """The programs and files of the document, each with what the slow checker says."""
    with open(os.path.join(examples.TOP, "docs", "proof-format.md"), encoding="utf-8") as file:
        text = file.read()
    blocks = re.findall("```\n(.*?)```", text.split("### Three files", 1)[1], re.S)
    found = []
    for rules, proof in zip(blocks[::2], blocks[1::2]):
        program = HEAD.format(start=rules.split("(")[0], rules=rules).encode()
        found.append((program, proof, best_texts.checked(program, proof.encode())))
    return found


class Sentences(unittest.TestCase):
    def test_each_kind_of_lemma_has_its_sentences(self):
        program = programs.read(LOOP)
        words = third_sentences.Words(program, third_form.read(loop_file(*[it[0] for it in LEMMAS]), program))
        wanted = []
        for number, (_, states, shows) in enumerate(LEMMAS, 1):
            wanted += [f"signed lemma {number}, fact {number}: {states}"] + [f"  {it}" for it in shows]
        self.assertEqual(words.lemmas(), wanted)

    def test_claims(self):
        program = programs.read(LOOP)
        file = third_form.read(loop_file(), program)
        stated = ["time 3: [y]", "above 3.1: [y]", "below 3.1: 0", "cost 2: [x]", "total: [x] + 1"]
        told = third_sentences.Words(program, file, stated).claims()
        self.assertEqual(told, [
            "claim 1: rule 3 is used at most [y] times, by fact 1", "claim 2: argument 1 after rule 3 is at most [y], by fact 2",
            "claim 3: argument 1 after rule 3 is at least 0, by no fact",
            "claim 4: the steps by rule 2 cost at most [x] together, by fact 4",
            "claim 5: a run has at most [x] + 1 steps, by fact 6"])
        self.assertEqual(third_sentences.Words(program, file, None, "claim 2").claims()[1],
                         "claim 2: argument 1 after rule 3 is bounded from above, by fact 2   <-- not accepted")

    def test_why_a_claim_holds(self):
        """By the lemmas of its facts, behind which stands what those that they cite state."""
        program = programs.read(LOOP)
        file = third_form.read(loop_file(*[it[0] for it in LEMMAS]), program)
        stated = ["time 3: [y]", "above 3.1: [y]", "below 3.1: 0", "cost 2: [x]", "total: [x] + 1"]
        told = third_sentences.Words(program, file, stated).whys()
        self.assertEqual(told["total", "[x] + 1"], [
            "It rests on fact 6.", f"signed lemma 6, fact 6: {LEMMAS[5][1]}", "It is the sum of what facts 1 and 5 state.",
            f"signed lemma 1, fact 1: {LEMMAS[0][1]}", f"signed lemma 5, fact 5: {LEMMAS[4][1]}"])
        self.assertEqual([told["above 3.1", "[y]"][0], told["below 3.1", "0"][:2]], [
            "It rests on fact 2.", ["It rests on no fact.", "A copy that is never used needs none."]])

    def test_the_files_of_the_document(self):
        found = documented()
        self.assertEqual([said[0] for _, _, said in found], ["accepted"] * 3)
        told = [third_refusals.lines(programs.read(program), proof, said) for program, proof, said in found]
        self.assertEqual([it[-1] for it in told], [
            "It claims a time for 1 of 3 rules, and nothing of all steps together.",
            "It claims a time for 1 of 2 rules, and that the number of all steps is at most [1] + [y - x].",
            "It claims a time for 0 of 2 rules, and nothing of all steps together."])
        self.assertEqual(told[0][:10], [
            "the refined program:", "  a is a copy of a where nothing is known", "  b.1 is a copy of b where A >= 0",
            "  b.2 is a copy of b where A >= 0", "  rule 1 leads from a to b.1: refined rule 1",
            "  rule 2 leads from b.1 where A - 2 >= 0 to b.2: refined rule 2",
            "  rule 2 leads from b.1 where A - 2 < 0 to b.2: refined rule 3",
            "  rule 3 leads from b.1 nowhere: no values meet its guard there", "  rule 2 leads from b.2 to b.2: refined rule 4",
            "  rule 3 leads from b.2 nowhere: no values meet its guard there"])
        self.assertIn("signed lemma 2, fact 5: refined rules 2, 3 and 4 are together used at most 2 + max([A], [-A]) times",
                      told[0])

    def test_facts_at_symbols(self):
        """The checker's lines on them stand before what the claims state."""
        program, proof, said = documented()[0]
        program, (_, claimed), fact = programs.read(program), third_form.stated(said), "fact b: x1 >= 0"
        self.assertEqual(third_form.stated(["accepted", fact, *claimed]), ([fact], claimed))
        told = third_refusals.lines(program, proof, ["accepted", fact, *claimed])
        self.assertEqual(told[-4:-1], ["koat's checker accepts this proof",
                                       "Whenever a run of the program itself is at one of these symbols:", f"  {fact}"])
        without = third_refusals.lines(program, proof, ["accepted", *claimed])
        self.assertEqual(told[:-3] + told[-1:], without)
        self.assertEqual(answers.proof_json(["accepted", fact, *claimed])["facts"], [fact, *claimed])

    def test_the_refined_program(self):
        program, proof, _ = documented()[2]
        program = programs.read(program)
        rules = refined.spelled(third_form.read(proof, program), program).rules
        self.assertEqual([(it.source.text, it.target.text, it.guard) for it in rules][2:4], [
            ("loop.yes", "loop.yes", "X >= 1 && Y >= 0 && Y - 1 >= 0"),
            ("loop.yes", "loop.no", "X >= 1 && Y >= 0 && Y - 1 < 0")])

    def test_files_of_many_kinds(self):
        """Each file that the slow checker accepts or doesn't accept is shown, with what it names marked, and is told as
        data."""
        sys.path.insert(0, best_texts.BENCH)
        from slow_third_makers import files
        lacking, count = [], 0
        known = json.loads(examples.text("../docs/report.schema", ".json"))
        for program, proof in files(120, 7):
            said, text = best_texts.checked(program, proof), proof.decode("latin-1")
            if said[0].startswith("proof refused") or not third_form.is_third(text):
                continue
            count += 1
            told = third_refusals.lines(programs.read(program), text, said)
            if said[0] != "accepted" and sum(it.endswith("<-- not accepted") for it in told) != 1:
                lacking.append((text, said[0]))
            told = json.loads(json.dumps(third_json.as_json(programs.read(program), text, said)))
            lacking += [(text, it) for it in schema.faults(known, known["$defs"]["third_form"], told)]
        self.assertEqual(lacking, [])
        self.assertGreater(count, 20)

    def test_texts_that_are_no_files(self):
        program, refused = programs.read(LOOP), []
        for wrong in ("koat-proof 3", "koat-proof 3\n", loop_file("other 1 to 2"), loop_file("add 1 2"),
                      loop_file("add 1 2 to 3 4"), loop_file("add 1 2 to part"), loop_file() + "claim time 1\n"):
            try:
                refused.append(third_form.read(wrong, program))
            except proofs.ProofError:
                pass
        self.assertEqual(refused, [])


    def test_rows_of_squares(self):
        rule = programs.read(HEAD.format(start="f", rules="f(x, y) -> g(3*y - 2*x*x, x*y) :|: x >= 1").encode()).rules[0]
        self.assertEqual([third_sentences.text(it) for it in refined.rows(rule)], [
            "x - 1", "3*y - new value 1", "3*y - new value 1 - 2*x", "3*y + 2*x - new value 1",
            "3*y - new value 1 - 4*x + 2", "3*y + 4*x - new value 1 + 2"])
        at = {"x": 3, "y": 1, "new value 1": -15}
        values = [sum(number * math.prod(at[it] for it in names) for names, number in row.monomials.items())
                  for row in refined.rows(rule)]
        self.assertEqual(values, [2, 18, 12, 24, 8, 32])


class Refusals(unittest.TestCase):
    def test_reasons(self):
        program, text = programs.read(LOOP), loop_file(*[it[0] for it in LEMMAS])
        for said, wanted in REFUSALS:
            told = third_refusals.lines(program, text, [said])
            at = told.index(f"koat's checker does not accept it: {said}")
            self.assertEqual(told[at + 1:], [f"  {it}" for it in wanted])
            self.assertEqual(sum(it.endswith("<-- not accepted") for it in told), 1)

    def test_sections(self):
        program, proof, _ = documented()[0]
        program = programs.read(program)
        for said, mark, wanted in (
                ("no refinement: facts b.1", "the refined program:", "A fact of the copy b.1 hasn't a coefficient"),
                ("no end 2: fact 1", "  rule 2 leads from b.1 where A - 2 >= 0 to b.2: refined rule 2",
                 "The multipliers don't show fact 1 of the copy")):
            told = third_refusals.lines(program, proof, [said])
            self.assertIn(f"{mark}   <-- not accepted", told)
            self.assertTrue(told[-1].startswith(f"  {wanted}"))

    def test_a_node_of_the_plain_part(self):
        program, proof, _ = documented()[0]
        told = third_refusals.lines(programs.read(program), proof, ["no lemma 3 node 2: move 2"])
        self.assertIn("lemma 3: rule 4 has a time   <-- not accepted", told)
        self.assertIn("  Node 2 of lemma 3 is a ranking function of rule 4.", told)

    def test_as_json(self):
        known = json.loads(examples.text("../docs/report.schema", ".json"))
        told = json.loads(shown("json", examples.path("gcd"))[1])
        found = [answers.proof_json([it]) for it in ("no lemma 2: bound", "no claim 3: place", "no end 4: fact 1",
                                                     "no refinement: start", "proof refused at 12: Syntax")]
        self.assertEqual([schema.faults(known, known, {**told, "proof": it}) for it in found], [[]] * 5)
        self.assertEqual(found[:4], [
            {"verdict": "not accepted", "text": "no lemma 2: bound", "lemma": 2, "reason": "bound"},
            {"verdict": "not accepted", "text": "no claim 3: place", "claim": 3, "reason": "place"},
            {"verdict": "not accepted", "text": "no end 4: fact 1", "end": 4, "reason": "fact 1"},
            {"verdict": "not accepted", "text": "no refinement: start", "reason": "start"}])


class Commands(unittest.TestCase):
    PATH = os.path.join(examples.TOP, "examples", "best", "difference.koat")

    def test_the_proof_of_the_best_bounds(self):
        status, out, _ = shown("proof", self.PATH, "--best")
        self.assertEqual((status, out.splitlines()[-5:]), (0, [
            "claim 1: rule 1 is used at most once, by fact 1", "claim 2: rule 2 is used at most [y - x] times, by fact 2",
            "claim 3: a run has at most [y - x] + 1 steps, by fact 3", "koat's checker accepts this proof",
            "It claims a time for 2 of 2 rules, and that the number of all steps is at most [y - x] + 1."]))

    def test_a_file_that_is_not_accepted(self):
        with tempfile.TemporaryDirectory() as room:
            path = os.path.join(room, "other.proof")
            with open(path, "w", encoding="utf-8") as file:
                file.write(best_texts.certificate("difference").replace("to part [-1*1; 1*2]", "to part [-1*1]"))
            status, out, _ = shown("proof", self.PATH, "--best", "--proof", path)
        self.assertEqual(status, 15)
        self.assertIn("signed lemma 2, fact 2: rule 2 is used at most [-x] times   <-- not accepted", out.splitlines())
        self.assertEqual(out.splitlines()[-2:], ["koat's checker does not accept it: no lemma 2: bound",
                                                 "  Its bound isn't seen to be at least what follows."])
