"""Many files at once."""

import json
import os
import re
import shutil
import signal
import subprocess
import tempfile
import time
import unittest

import examples
import schema
from koat_tools import many, tally
from test_command import STAND_IN, script, shown

SHOW = os.path.join(examples.TOP, "tools", "show")
# Answers of the stand-in, but for texts that ask it to sleep, to take memory, or to fail.
ODD = f"""text=$(cat; echo .)
case $text in
    *sleep*) exec sleep 60 ;;
    *memory*) exec python3 -c 'import time; kept = bytearray(200 * 2**20); time.sleep(60)' ;;
    *fail*) exit 9 ;;
esac
printf %s "${{text%.}}" | exec {STAND_IN} "$@"
"""


class Many(unittest.TestCase):
    def setUp(self):
        room = tempfile.TemporaryDirectory()
        self.addCleanup(room.cleanup)
        self.room = room.name
        self.folder = os.path.join(self.room, "programs", "deep")
        os.makedirs(self.folder)
        for name in ("gcd", "stay", "triangle"):
            shutil.copy2(examples.path(name), self.folder)
        self.koat = script(self.room, "koat", ODD)
        self.lines = os.path.join(self.room, "lines")

    def put(self, name, text):
        with open(os.path.join(self.folder, name), "w", encoding="utf-8") as file:
            file.write(text)

    def shown(self, *words):
        status, out, error = shown("many", os.path.join(self.room, "programs"), *words, koat=self.koat)
        return status, [json.loads(it) for it in out.splitlines()] if not words or "--resume" not in words else out, error

    def test_a_line_for_each_file(self):
        self.put("bad.koat", "(")
        self.put("fails.koat", "fail")
        self.put("long.koat", "(" * 300000)
        self.put("other.txt", "(")
        status, told, error = self.shown("--jobs", "2")
        found = {os.path.basename(it["file"]): (it["verdict"], it["competition"]) for it in told}
        self.assertEqual((status, found), (0, {
            "gcd.koat": ("bounded", "WORST_CASE(?, O(n^1))"), "triangle.koat": ("bounded", "WORST_CASE(?, O(n^2))"),
            "stay.koat": ("unknown", "MAYBE"), "bad.koat": ("refused", "MAYBE"), "fails.koat": ("no answer", "MAYBE"),
            "long.koat": ("refused", "MAYBE")}))
        self.assertEqual([it.split() for it in error.splitlines()[:3]], [["6", "files"], ["2", "bounded"], ["1", "O(n)"]])
        self.assertIn("no affine ranking function", error)
        wanted = json.loads(examples.text("../docs/report.schema", ".json"))
        self.assertEqual([it for one in told for it in schema.faults(wanted, wanted, one)], [])

    def test_limits(self):
        self.put("slow.koat", "sleep")
        self.put("wide.koat", "memory")
        begun = time.monotonic()
        _, told, _ = self.shown("--seconds", "6", "--memory", "100", "--jobs", "5")
        problems = {os.path.basename(it["file"]): it["problem"] for it in told if "problem" in it}
        self.assertEqual(problems, {"slow.koat": "time limit of 6 seconds", "wide.koat": "memory limit of 100 MiB"})
        self.assertLess(time.monotonic() - begun, 40)

    def test_what_is_answered_is_not_asked_again(self):
        self.assertEqual(self.shown("--resume", self.lines, "--jobs", "1")[0], 0)
        with open(self.lines, encoding="utf-8") as file:
            first = file.read()
        with open(self.lines, "w", encoding="utf-8") as file:
            file.write(first[:-40])
        self.put("gcd.koat", "(")
        self.koat = script(self.room, "koat", ODD)
        status, out, _ = self.shown("--resume", self.lines, "--jobs", "1")
        with open(self.lines, encoding="utf-8") as file:
            told = [json.loads(it) for it in file]
        self.assertEqual((status, len(told)), (0, 2 + 2))
        self.assertEqual(out.splitlines()[0].split(), ["3", "files"])
        self.assertEqual(told[-2:][0]["verdict"] if told[-2]["file"].endswith("gcd.koat") else told[-1]["verdict"],
                         "refused")
        self.assertEqual(self.shown("--resume", self.lines)[1].splitlines()[:4], out.splitlines()[:4])

    def test_an_interruption_loses_nothing(self):
        self.put("zz.koat", "sleep")
        process = subprocess.Popen([SHOW, "many", self.folder, "--jobs", "1", "--resume", self.lines],
                                   env={**os.environ, "KOAT": self.koat}, stdout=subprocess.PIPE, stderr=subprocess.PIPE)
        for _ in range(300):
            time.sleep(0.1)
            if self.count() == 3:
                break
        process.send_signal(signal.SIGINT)
        out, error = process.communicate(timeout=30)
        self.assertEqual((process.returncode, out.split()[:2]), (130, [b"3", b"files"]))
        self.assertIn(b"goes on", error)
        self.put("zz.koat", "(")
        self.assertEqual(self.shown("--resume", self.lines)[1].splitlines()[0].split(), ["4", "files"])

    def count(self):
        """How many lines there are so far."""
        if not os.path.exists(self.lines):
            return 0
        with open(self.lines, encoding="utf-8") as file:
            return file.read().count("\n")

    def test_parts_and_paths(self):
        found = many.files([self.folder, examples.path("gcd"), examples.path("gcd")])
        self.assertEqual(len(found), 4)
        self.assertEqual(sorted(many.part(found, (0, 3)) + many.part(found, (1, 3)) + many.part(found, (2, 3))),
                         sorted(found))
        self.assertEqual([shown("many", *it, koat=self.koat)[0] for it in ([], ["x", "--part", "3/3"], ["x", "--jobs", "0"])],
                         [2, 2, 2])

    def test_a_page(self):
        self.put("<b>.koat", "(")
        path = os.path.join(self.room, "index.html")
        self.assertEqual(self.shown("--html", path)[0], 0)
        with open(path, encoding="utf-8") as file:
            page = file.read()
        self.assertEqual((page.count('<tr class="'), page.count("<b>"), page.count("&lt;b&gt;")), (4, 0, 1))

    def test_a_page_for_each_file(self):
        self.put("bad.koat", "(")
        folder = os.path.join(self.room, "pages")
        words = ("--pages", folder, "--resume", self.lines)
        self.assertEqual(self.shown(*words)[0], 0)
        with open(os.path.join(folder, "index.html"), encoding="utf-8") as file:
            links = re.findall('href="([^"]*)"', file.read())
        self.assertEqual((len(links), sorted([*links, "index.html"])), (3, sorted(os.listdir(folder))))
        wanted = json.loads(examples.text("../docs/report.schema", ".json"))
        with open(self.lines, encoding="utf-8") as file:
            self.assertEqual([schema.faults(wanted, wanted, json.loads(it)) for it in file], [[]] * 4)
        os.remove(os.path.join(folder, links[0]))
        self.assertEqual(self.shown(*words)[0], 0)
        self.assertEqual((self.count(), os.path.exists(os.path.join(folder, links[0]))), (5, True))

    def test_a_file_that_is_no_answers(self):
        self.put("../../lines", "{}\n")
        self.assertEqual(self.shown("--resume", self.lines)[0], 3)

    def test_reasons_of_all_examples(self):
        told = {"verdict": "unknown", "times": [{"why": {"kind": "limit", "limit": "range"}}]}
        self.assertEqual(tally.outcome(told), ("unknown", "limit: range"))
