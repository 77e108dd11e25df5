import contextlib
import io
import json
import os
import re
import shutil
import subprocess
import tempfile
import unittest
from unittest import mock

import examples
import schema
from koat_tools import answers, command, endless, reports, runs

STAND_IN = os.path.join(examples.HERE, "stand_in")


def shown(*words, koat=STAND_IN, path=None):
    """Status, output and error output of a call."""
    out, error = io.StringIO(), io.StringIO()
    variables = {"KOAT": koat, **({} if path is None else {"PATH": path})}
    with mock.patch.dict(os.environ, variables), contextlib.redirect_stderr(error):
        try:
            status = command.main(list(words), out)
        except SystemExit as end:
            status = end.code
    return status, out.getvalue(), error.getvalue()


def script(room, name, line):
    """The path of a new program that runs this line."""
    path = os.path.join(room, name)
    with open(path, "w", encoding="utf-8") as file:
        file.write(f"#!/bin/sh\n{line}\n")
    os.chmod(path, 0o755)
    return path


class Commands(unittest.TestCase):
    def test_values(self):
        status, out, _ = shown("at", examples.path("gcd"), "A=30", "B=-12")
        self.assertEqual((status, out.splitlines()[:6]), (0, [
            "time 1: 1", "time 2: A = 30", "time 3: B = 12", "time 4: 1", "total: A + B + 2 = 44", "size 1.1: A = 30"]))

    def test_inputs_behind_options(self):
        _, out, _ = shown("at", examples.path("gcd"), "--seconds", "60", "A=30", "B=12")
        self.assertEqual(out.splitlines()[4], "total: A + B + 2 = 44")
        self.assertEqual(shown("json", examples.path("gcd"), "--seconds", "60", "A=30")[0], 2)
        wrong = [shown("json", examples.path("gcd"), "--seconds", it)[0] for it in ("0", "nan", "inf")]
        self.assertEqual(wrong, [2, 2, 2])

    def test_outputs_that_end(self):
        tool = os.path.join(examples.TOP, "tools", "show")
        variables = {**os.environ, "KOAT": STAND_IN, "PYTHONIOENCODING": "ascii"}
        ended = []
        for output in ("/dev/full", "/dev/null"):
            with open(output, "wb") as sink:
                ran = subprocess.run([tool, "page", "--without-picture", examples.path("gcd")], stdout=sink,
                                     stderr=subprocess.PIPE, env=variables, check=False)
            ended.append((ran.returncode, ran.stderr.count(b"\n")))
        self.assertEqual(ended, [(4, 1), (0, 0)])

    def test_classes(self):
        _, out, _ = shown("class", examples.path("doubling"))
        self.assertEqual(out.splitlines()[:1] + out.splitlines()[4:6],
                         ["WORST_CASE(?, O(EXP))", "time 4: 2^O(n)", "total: 2^O(n)"])
        self.assertEqual(shown("class", examples.path("triangle"))[1].splitlines()[0], "WORST_CASE(?, O(n^2))")
        self.assertEqual(shown("class", examples.path("stay"))[1].splitlines()[0], "MAYBE")
        status, out, error = shown("class", os.path.join(examples.HERE, "examples.py"))
        self.assertEqual((status, out, error.count("\n")), (6, "MAYBE\n", 1))

    def test_json(self):
        _, out, _ = shown("json", examples.path("gcd"))
        told = json.loads(out)
        self.assertEqual((told["verdict"], told["inputs"], told["total"]["text"]), ("bounded", ["A", "B"], "A + B + 2"))
        self.assertEqual((told["competition"], told["koat"]["version"], told["koat"]["is_proved"]),
                         ("WORST_CASE(?, O(n^1))", "0.5.0", True))
        second = told["rules"][1]
        self.assertEqual((second["line"], second["source"], second["updates"], second["guard"]),
                         (5, "loop", ["A - B", "B"], "A > B && B >= 1"))
        self.assertEqual(told["times"][1]["bound"]["class"], "O(n)")

    def test_json_of_a_refusal(self):
        wanted = json.loads(examples.text("../docs/report.schema", ".json"))
        status, out, _ = shown("json", os.path.join(examples.HERE, "examples.py"))
        told = json.loads(out)
        self.assertEqual((status, told["verdict"], told["competition"]), (6, "refused", "MAYBE"))
        self.assertEqual((told["refusal"]["kind"], schema.faults(wanted, wanted, told)), ("Syntax", []))
        _, out, _ = shown("json", examples.path("gcd"))
        self.assertEqual(schema.faults(wanted, wanted, json.loads(out)), [])

    def test_json_of_a_run_and_of_a_proof(self):
        wanted = json.loads(examples.text("../docs/report.schema", ".json"))
        told = json.loads(shown("json", examples.path("gcd"))[1])
        replay = runs.read(examples.text("gcd", ".run.txt"), [it for it, _, _ in reports.read(examples.text("gcd")).labelled()])
        told["run"] = answers.run_json(replay)
        self.assertEqual((told["run"]["steps"], told["run"]["beside"][1]),
                         (replay.steps, {"label": "time 2", "in_run": replay.beside["time 2"][0],
                                         "bound": replay.beside["time 2"][1]}))
        proofs = [["accepted", "time 1: 1", "gap 2"], ["no lemma 3 node 2: move 1"], ["no gap 1: floor"],
                  ["proof refused at 5: Syntax"]]
        found = [answers.proof_json(it) for it in proofs]
        self.assertEqual([schema.faults(wanted, wanted, {**told, "proof": it}) for it in found], [[]] * 4)
        self.assertEqual(found[:2], [
            {"verdict": "accepted", "facts": ["time 1: 1"], "gaps": [2]},
            {"verdict": "not accepted", "text": "no lemma 3 node 2: move 1", "lemma": 3, "node": 2, "reason": "move 1"}])
        proof = os.path.join(examples.HERE, "proofs", "gcd.proof")
        said = json.loads(shown("json", examples.path("gcd"), "--proof", proof)[1])["proof"]
        self.assertEqual((said["verdict"], said["facts"][1]), ("accepted", "time 2: A"))

    def test_a_gallery(self):
        with tempfile.TemporaryDirectory() as room:
            evil = os.path.join(room, "<i>.koat")
            with open(evil, "w", encoding="utf-8") as file:
                file.write("(COMMENT <b>)")
            folder = os.path.join(room, "made")
            status, out, _ = shown("gallery", folder, examples.path("gcd"), examples.path("flag"), evil)
            with open(out.strip(), encoding="utf-8") as file:
                index = file.read()
            links = re.findall('href="([^"]*)"', index)
            self.assertEqual((status, sorted(os.listdir(folder))), (0, sorted([*links, "index.html"])))
        for text in ("A + B + 2 steps, O(n)", "no time for rule 3", "N + 1 steps, O(n)", "&lt;b&gt;", "refused",
                     "the greatest common divisor of A and B by subtraction", "It is the proved program"):
            self.assertIn(text, index)
        self.assertEqual(index.count("<b>") + index.count("<i>"), 4)

    def test_explain(self):
        self.assertEqual(shown("explain", examples.path("gcd"))[:2], (0, "no bound is missing\n"))
        self.assertEqual(shown("explain", os.path.join(examples.HERE, "examples.py"))[0], 6)

    def test_explain_says_where_no_bound_exists(self):
        for name, goes in (("stay", "repeats"), ("unequal", "moves on")):
            path = examples.path(name)
            lines = shown("explain", path)[1].splitlines()
            wanted = (f"  no bound exists: this run {goes} for ever (`tools/show endless {path} | koat lasso {path} -` "
                      "checks it)")
            self.assertEqual(lines.count(wanted), 1)
            self.assertTrue(lines[lines.index(wanted) - 1].startswith("  "))

    def test_explain_says_nothing_of_a_lasso_that_koat_refuses(self):
        with mock.patch.object(endless, "text", return_value="koat-lasso 1\nend\n"):
            self.assertNotIn("no bound exists", shown("explain", examples.path("stay"))[1])

    def test_lint(self):
        status, out, _ = shown("lint", examples.path("gcd"))
        self.assertEqual((status, re.sub(r"^.*gcd", "gcd", out)),
                         (0, "gcd.koat:7:23: note: no rule leaves `stop`: runs end there\n"))
        self.assertEqual(shown("lint", examples.path("large_constant"))[0], 1)

    def test_pages_stand_alone(self):
        loading = []
        for name in examples.names():
            status, out, _ = shown("page", examples.path(name), "--without-picture")
            if status or re.search(r"(src|href)=\"(?!#)|https?://|@import|url\(", out):
                loading.append(name)
        self.assertEqual(loading, [])

    @unittest.skipUnless(shutil.which("dot"), "dot isn't there")
    def test_pictures(self):
        _, out, _ = shown("page", examples.path("unequal"))
        self.assertEqual(re.findall(r'id="edge-(\d)" class="edge (\w+)"', out),
                         [("1", "known"), ("2", "known"), ("3", "missing"), ("4", "known")])


class Faults(unittest.TestCase):
    def fault(self, status, pattern, *words, **how):
        ended, out, error = shown(*words, **how)
        self.assertEqual((ended, out, error.count("\n")), (status, "", 1))
        self.assertRegex(error, pattern)

    def test_words(self):
        self.assertEqual([shown(*it)[0] for it in ([], ["other"], ["json"], ["json", "a", "b"])], [2, 2, 2, 2])

    def test_files(self):
        self.fault(3, "can't be read", "json", examples.path("no such"))
        self.fault(3, "can't be read", "json", examples.HERE)

    def test_refused(self):
        self.fault(6, "program refused at [0-9]+: Syntax", "page", os.path.join(examples.HERE, "examples.py"))

    def test_koat(self):
        self.fault(10, "can't be run", "json", examples.path("gcd"), koat="/no/such/koat")
        self.fault(11, "can't be read", "json", examples.path("gcd"), koat=shutil.which("false"))
        self.fault(11, "can't be read", "json", examples.path("gcd"), koat=shutil.which("true"))

    def test_no_answer_in_time(self):
        with tempfile.TemporaryDirectory() as room:
            slow = script(room, "slow", "exec sleep 60")
            self.fault(11, "no answer within", "json", examples.path("gcd"), "--seconds", "0.2", koat=slow)

    def test_words_that_koat_refuses(self):
        with tempfile.TemporaryDirectory() as room:
            koat = script(room, "koat", "echo 'usage: koat'; exit 2")
            self.fault(2, "usage: koat", "json", examples.path("gcd"), "--pivots", "x", koat=koat)

    def test_no_picture_in_time(self):
        with tempfile.TemporaryDirectory() as room:
            script(room, "dot", "exec sleep 60")
            path = room + os.pathsep + os.environ["PATH"]
            self.fault(12, "no picture within", "page", examples.path("gcd"), "--seconds", "3", path=path)

    def test_dot(self):
        with tempfile.TemporaryDirectory() as room:
            os.symlink(shutil.which("python3"), os.path.join(room, "python3"))
            self.fault(12, "dot of Graphviz isn't there", "page", examples.path("gcd"), path=room)

    def test_inputs(self):
        self.fault(13, "needs A=NUMBER", "at", examples.path("gcd"))
        self.fault(13, "no input of this program; its inputs: A, B", "at", examples.path("gcd"), "C=1")
        self.fault(13, "isn't NAME=NUMBER", "at", examples.path("gcd"), "A=--1")
        self.fault(13, "A is given twice", "at", examples.path("gcd"), "A=1", "B=1", "A=2")
