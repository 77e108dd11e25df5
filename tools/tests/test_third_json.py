"""Proof files of the third form as data."""

import glob
import json
import os
import re
import tempfile
import unittest

import best_texts
import examples
import schema
from koat_tools import programs, third_form, third_json
from test_command import shown
from test_third import LEMMAS, LOOP, documented, loop_file

PATH = os.path.join(examples.TOP, "examples", "best", "difference.koat")
# What is behind a lemma of the program of PATH that bounds the value at the first place, from above and from below.
SIDES = ["peak 2 [1; 1*1] {1 row 1} functions [start [1*2]; w [1*2]] den 1 moves [1 keep [] {}; 2 keep [] {}] to part [1*2]",
         "peak 2 [-1; -1*1] {} functions [start [-1*1; -1]; w [-1*1; -1]] den 1 moves [1 keep [] {}; 2 keep [] {}] "
         "to part [-1*1; -1]"]
SIDES_CLAIMED = ["above 2.1 by [1] to part [1*2]", "below 2.1 by [2] to part [-1*1; -1]"]
FUNCTIONS = [{"symbol": it, "arguments": ["x", "y"], "function": {"text": "y", "terms": [{"coefficient": "1", "names": ["y"]}]}}
             for it in ("start", "l")]
# How the lemmas of test_third are told: the facts that they cite, and what else their kind has but for functions.
KEEPS = [(rule, "keep", "0", None, []) for rule in (1, 2, 3)]
HOW = [
    ("fall", [], "1", KEEPS, [(3, "1", ["y - 1 >= 0"])]), ("peak", [], "1", KEEPS, None), ("row", [], None, None, None),
    ("times", [1, 2], None, None, None),
    ("fall", [4], "2", KEEPS[:2] + [(3, "reset", "2*y", 4, [])], [(2, "1", ["x - 1 >= 0"])]),
    ("add", [1, 5], None, None, None), ("among", [6], None, None, None), ("least", [5, 7], None, None, None),
    ("sized", [1, 2], None, None, None), ("phases", [], "1", KEEPS[:2], [(3, "1", ["y - 1 >= 0"])]),
]
STATES = [
    [(3, "1")], (3, "y", [(1, "above")]), (2, "y", [(2, "above")]), [(3, "y")], [(2, "1")], [(3, "1"), (2, "1")], [(2, "1")],
    [(2, "1")], (3, "x", []), [(3, "1")],
]
EMPTY = {it: [] for it in ("facts_at_symbols", "copies", "rules", "plain", "lemmas", "claims")}


def schema_faults(told):
    """What of a third form doesn't keep the schema."""
    known = json.loads(examples.text("../docs/report.schema", ".json"))
    return schema.faults(known, known["$defs"]["third_form"], json.loads(json.dumps(told)))


def how(lemma):
    """The same of a lemma as data."""
    moves = lemma.get("moves") and [(it["rule"], it["kind"], it["gain"]["text"], it["by"], it["rows"]) for it in lemma["moves"]]
    pays = lemma.get("pays") and [(it["rule"], it["amount"]["text"], it["rows"]) for it in lemma["pays"]]
    return lemma["kind"], lemma["by"], lemma.get("denominator"), moves, pays


def states(lemma):
    if "peak" in lemma:
        peak = lemma["peak"]
        return peak["rule"], peak["expression"]["text"], [(it["place"], it["side"]) for it in peak["values"]]
    return [(it["rule"], it["amount"]["text"]) for it in lemma["sum"]]


def recorded():
    """The programs, files and answers of bench/third, by name."""
    for path in sorted(glob.glob(os.path.join(examples.TOP, "bench", "third", "*.proof"))):
        stem = path[:-len(".proof")]
        program = best_texts.read(stem.split(".spoiled")[0] + ".koat").encode()
        yield os.path.basename(stem), programs.read(program), best_texts.read(path), best_texts.read(stem + ".txt").splitlines()


def label(claim):
    return claim["kind"] + (f" {claim['rule']}" if "rule" in claim else "") + (f".{claim['place']}" if "place" in claim else "")


def is_shown(told, claim, fact, rule):
    """Whether a fact is on what a claim states, for one of the rules of which lemmas speak."""
    plain = {it["fact"]: it["label"] for it in told["plain"]}
    kind, place = claim["kind"], claim.get("place")
    if fact in plain:
        return plain[fact] == (f"size {rule}.{place}" if place else f"{'cost' if kind == 'cost' else 'time'} {rule}")
    lemma = next(it for it in told["lemmas"] if it["fact"] == fact)
    if place:
        return lemma["peak"]["rule"] == rule and {"place": place, "side": kind} in lemma["peak"]["values"]
    return any(it["rule"] == rule and (kind != "time" or it["amount"]["text"] == "1") for it in lemma["sum"])


class Files(unittest.TestCase):
    def test_each_kind_of_lemma(self):
        program = programs.read(LOOP)
        told = third_json.as_json(program, loop_file(*[it[0] for it in LEMMAS]), ["no lemma 9: shape"])
        lemmas = told["lemmas"]
        self.assertEqual(schema_faults(told), [])
        self.assertEqual([it["text"] for it in lemmas], [it[1] for it in LEMMAS])
        self.assertEqual([(it["lemma"], it["fact"]) for it in lemmas], [(it, it) for it in range(1, len(LEMMAS) + 1)])
        self.assertEqual([how(it) for it in lemmas], HOW)
        self.assertEqual([states(it) for it in lemmas], STATES)
        self.assertEqual([lemmas[0]["functions"], lemmas[4]["functions"][1]["function"]["text"]], [FUNCTIONS, "2*x"])
        self.assertEqual([lemmas[9][it][0]["function"]["text"] for it in ("functions", "second_functions")], ["y + 1", "x"])
        self.assertEqual((lemmas[2]["most"], lemmas[2]["rows"], lemmas[1]["rows"]), ("5", ["-y + 5 >= 0"], []))
        self.assertEqual(lemmas[5]["bound"]["text"], "(root([3*x*x]))/2")

    def test_claims_without_an_accepted_file(self):
        told = third_json.as_json(programs.read(LOOP), loop_file(), ["no claim 1: lemma"])["claims"]
        self.assertEqual(told[:3], [
            {"claim": 1, "kind": "time", "rule": 3, "bound": None, "by": [{"fact": 1, "rules": [3]}]},
            {"claim": 2, "kind": "above", "rule": 3, "place": 1, "bound": None, "by": [{"fact": 2, "rules": [3]}]},
            {"claim": 3, "kind": "below", "rule": 3, "place": 1, "bound": None, "by": [{"fact": None, "rules": [3]}]}])
        self.assertEqual(told[4], {"claim": 5, "kind": "total", "bound": None, "by": [{"fact": 6, "rules": [1, 2, 3]}]})

    def test_values_from_both_sides(self):
        data = best_texts.program("difference").encode()
        proof = "koat-proof 3\nkoat-proof 1\nend\n" + "".join(f"signed {it}\n" for it in SIDES) + "".join(
            f"claim {it}\n" for it in SIDES_CLAIMED)
        said = best_texts.checked(data, proof.encode())
        self.assertEqual(said, ["accepted", "above 2.1: [y]", "below 2.1: [-x - 1]"])
        told = third_json.as_json(programs.read(data), proof, said)
        self.assertEqual([states(it) for it in told["lemmas"]],
                         [(2, "x + 1", [(1, "above")]), (2, "-x - 1", [(1, "below")])])
        self.assertEqual([(label(it), it["bound"]["text"], it["by"]) for it in told["claims"]], [
            ("above 2.1", "[y]", [{"fact": 1, "rules": [2]}]), ("below 2.1", "[-x - 1]", [{"fact": 2, "rules": [2]}])])

    def test_a_section(self):
        program, proof, said = documented()[0]
        told = third_json.as_json(programs.read(program), proof, [said[0], "fact b: x1 >= 0", *third_form.stated(said)[1]])
        self.assertEqual(told["facts_at_symbols"], [{"symbol": "b", "text": "x1 >= 0"}])
        self.assertEqual([(it["symbol"], it["of"], [one["text"] for one in it["facts"]]) for it in told["copies"]],
                         [("a", "a", []), ("b.1", "b", ["A"]), ("b.2", "b", ["A"])])
        self.assertEqual(told["rules"][1], {"rule": 2, "of": 2, "source": "b.1", "target": "b.2",
                                            "guard": "A >= 1 && A >= 0 && A - 2 >= 0"})
        self.assertEqual(told["plain"][2], {"fact": 3, "label": "time 4"})
        self.assertEqual([it["by"] for it in told["lemmas"]], [[1, 2], [4, 3]])
        self.assertEqual(told["claims"][0]["by"], [{"fact": 5, "rules": [2, 3, 4]}])
        refused = third_json.as_json(programs.read(program), proof, ["no end 2: fact 1"])
        self.assertEqual({**refused, "copies": []}, EMPTY)
        self.assertEqual(refused["copies"], told["copies"])

    def test_recorded_files(self):
        """Each keeps the schema; of accepted ones the claims are what the checker says, by facts on the same."""
        faults, count = [], 0
        for name, program, text, said in recorded():
            told = third_json.as_json(program, text, said)
            faults += [(name, it) for it in schema_faults(told)]
            if said[0] != "accepted":
                continue
            claimed = [f"{label(it)}: {it['bound']['text']}" for it in told["claims"]]
            faults += [] if claimed == third_form.stated(said)[1] else [name]
            for claim in told["claims"]:
                cited = [(it["fact"], rule) for it in claim["by"] for rule in it["rules"] if it["fact"]]
                count += len(cited)
                faults += [(name, label(claim), it) for it in cited if not is_shown(told, claim, *it)]
        self.assertEqual(faults, [])
        self.assertGreater(count, 60)


class Commands(unittest.TestCase):
    def test_the_document(self):
        """The lemma that the document shows is that of the command beside it."""
        with open(os.path.join(examples.TOP, "docs", "tools.md"), encoding="utf-8") as file:
            block = re.search(r"```\n(\{ \"lemma\".*?)```", file.read(), re.S).group(1)
        proof = os.path.join(best_texts.HERE, "difference.proof")
        told = json.loads(shown("json", PATH, "--best", "--proof", proof)[1])["proof"]["third_form"]
        self.assertEqual(json.loads(block), told["lemmas"][1])

    def test_files_that_are_not_accepted(self):
        """What is in them is told all the same, but for a text that is refused."""
        found = []
        for new in ("to part [-1*1]", "to part"):
            with tempfile.NamedTemporaryFile("w", encoding="utf-8") as file:
                file.write(best_texts.certificate("difference").replace("to part [-1*1; 1*2]", new))
                file.flush()
                status, out, _ = shown("json", PATH, "--best", "--proof", file.name)
            told = json.loads(out)["proof"]
            found.append((status, told["verdict"], told.get("lemma"), "third_form" in told))
            self.assertEqual(schema_faults(told.get("third_form", EMPTY)), [])
        self.assertEqual(found, [(0, "not accepted", 2, True), (0, "refused", None, False)])

    def test_files_of_other_forms(self):
        proof = os.path.join(examples.HERE, "proofs", "gcd.proof")
        self.assertNotIn("third_form", json.loads(shown("json", examples.path("gcd"), "--proof", proof)[1])["proof"])
