"""What the page of a program holds."""

import html
import json
import os
import re
import shutil
import subprocess
import tempfile
import unittest
from unittest import mock

import browser
import examples
from koat_tools import analyser, bounds, explain, growth, page, picture, programs, proofs, reports, runs, whys

TEXT_OF_TAG = re.compile(r"<[^>]*>")


# What is tried in a browser: values, steps by keys, and that nothing is wider than the window.
TRIED = """<pre id="tried"></pre><script>
const press = (key) => slider.dispatchEvent(new KeyboardEvent("keydown", { key, bubbles: true }));
const texts = (what) => [...document.querySelectorAll(".run " + what)].map((it) => it.textContent);
press("ArrowRight"); press("ArrowRight"); press("ArrowRight"); press("ArrowLeft");
const found = { total: document.querySelector("[data-label=total] .value").textContent,
                state: document.getElementById("state").textContent, uses: texts(".uses"), most: texts(".most") };
press("End");
found.end = document.getElementById("state").textContent;
found.wide = document.documentElement.scrollWidth > innerWidth;
document.getElementById("tried").textContent = JSON.stringify(found);
</script>"""


def data_of_run(text):
    return json.loads(re.search('<script type="application/json" id="steps">(.*?)</script>', text, re.S).group(1))


def whys_of(name, written=None):
    folder = os.path.join(examples.HERE, "proofs", name)
    program = programs.read(examples.text(name, ".koat").encode())
    with open(folder + ".proof", encoding="utf-8") as proof, open(folder + ".checked", encoding="utf-8") as checked:
        return whys.whys(program, proofs.read(proof.read()), checked.read().splitlines()[1:], written)


def answer_of(name, comment=b""):
    data = comment + examples.text(name, ".koat").encode()
    return analyser.Answer(data, name, report=reports.read(examples.text(name)), program=programs.read(data))


def rows(text):
    """The cells of each rule's bounds: the rule, the label, the bound, its tree and its class."""
    found = []
    for rule, body in re.findall(r'<article class="rule \w+" id="rule-(\d+)" tabindex="-1">(.*?)</article>', text, re.S):
        for label, row in re.findall(r"<tr(?: class=\"unknown\")? data-label=\"([^\"]*)\">(.*?)</tr>", body):
            cells = re.findall(r"<t[hd][^>]*>(.*?)</t[hd]>", row)
            tree = re.search(r'data-tree="([^"]*)"', row)
            plain = [html.unescape(TEXT_OF_TAG.sub("", it)) for it in cells]
            found.append((int(rule), label, plain[1], tree and json.loads(html.unescape(tree.group(1))), plain[3]))
    return found


def wanted(report):
    found = []
    for entry in sorted(report.entries(), key=lambda it: (it.rule, it.place or 0)):
        known = entry.bound is not None
        found.append((entry.rule, entry.label, entry.text or "unknown", bounds.as_json(entry.bound) if known else None,
                      growth.text(growth.growth(entry.bound)) if known else ""))
    return found


class Pages(unittest.TestCase):
    def test_each_rule_has_its_bounds_beside_it(self):
        for name in ("gcd", "doubling", "unequal"):
            answer = answer_of(name)
            self.assertEqual(rows(page.page(answer, "")), wanted(answer.report))

    def test_kinds_of_rules(self):
        answer = answer_of("unequal")
        answer.report.times[3].text = "0"
        kinds = re.findall(r'class="rule (\w+)" id', page.page(answer, ""))
        self.assertEqual(kinds, ["known", "known", "missing", "never"])

    def test_the_head(self):
        bounded, missing = page.page(answer_of("gcd"), ""), page.page(answer_of("unequal"), "")
        self.assertIn('gcd <span class="verdict bounded">bounded</span>', bounded)
        self.assertIn("Every rule has a bound: every run ends.", bounded)
        self.assertIn('<th scope="row">all rules</th><td class="bound" data-head="at most">A + B + 2</td>', bounded)
        self.assertIn("1 of 4 rules has no bound. Of what is missing nothing is claimed.", missing)
        self.assertIn("all rules</th><td class=\"bound\" data-head=\"at most\">unknown</td>", missing)
        self.assertEqual(re.findall(r'type="number"[^>]*data-input="(\w+)"', bounded), ["A", "B"])

    def test_each_reason_has_its_words(self):
        answer = answer_of("unequal")
        text = page.page(answer, "")
        said = [html.unescape(it) for why in re.findall(r'<article class="why".*?</article>', text)
                for it in re.findall(r"<(?:p|li)>(.*?)</(?:p|li)>", why)]
        lines = [it.strip() for it in explain.report_lines(answer) if it.startswith("  ")]
        self.assertEqual(said, lines)
        links, places = re.findall(r'href="#(why[^"]*)"', text), re.findall(r'class="why" id="([^"]*)"', text)
        self.assertEqual((sorted(links), len(set(places))), (sorted(places), len(places)))
        self.assertNotIn("Why bounds are missing", page.page(answer_of("gcd"), ""))

    def test_what_others_wrote_is_escaped(self):
        evil = "<script>alert(1)</script>"
        answer = answer_of("gcd", f"(COMMENT {evil})".encode())
        answer.name = f"a{evil.replace('/', '')}"
        answer.program.rules[0].text += evil
        answer.report.text += evil
        text = page.page(answer, "")
        self.assertEqual((text.count("<script>"), text.count(html.escape(evil))), (1, 3))
        self.assertIn(html.escape(answer.name), text)

    def test_each_bound_says_why(self):
        answer = answer_of("gcd")
        text = html.unescape(page.page(answer, page.Beside(whys=whys_of("gcd"))))
        for line in ("Rule 2 lowers it: A - 1 - (A - B - 1) = B >= 1, by the guard's B >= 1.",
                     "Before rule 2 it is bounded from below: A - 1 >= 1, by the guard's A > B and B >= 1.",
                     "Runs come in by the start, once; then it is A - 1, with A at most A in absolute value.",
                     "Rule 2 makes it A - B, which is at least 1, by the guard's A > B, and at most A, by the guard's B >= 1."):
            self.assertIn(f"<li>{line}</li>", text)
        self.assertEqual(text.count("<li>So the bound is"), len(answer.report.entries()))
        self.assertNotIn("<summary>why</summary>", page.page(answer))

    def test_facts_are_told_from_the_guards_of_the_text(self):
        written = programs.read(examples.text("gcd", ".koat").replace("A > B && B >= 1", "A > B").encode())
        told = whys_of("gcd", written)["time 2"]
        for line in ("Rule 2 lowers it: A - 1 - (A - B - 1) = B >= 1, by the fact B >= 1.",
                     "Before rule 2 it is bounded from below: A - 1 >= 1, by the guard's A > B and the fact B >= 1."):
            self.assertIn(line, told)

    def test_a_run_is_stepped_through(self):
        told = data_of_run(page.page(answer_of("gcd"), page.Beside(run=runs.Run([6, 4], [(1, []), (2, []), (3, []), (4, [])]))))
        self.assertEqual(told["steps"], [[1, "loop", ["6", "4"]], [2, "loop", ["2", "4"]], [3, "loop", ["2", "2"]],
                                         [4, "stop", ["2", "2"]]])
        self.assertEqual((told["inputs"], told["names"]["stop"]), ({"A": "6", "B": "4"}, ["x1", "x2"]))
        self.assertEqual(len(data_of_run(page.page(answer_of("stay")))["steps"]), 200)

    def test_facts_stand_at_their_symbols(self):
        answer = answer_of("flag")
        answer.report.facts = ["work: -x2 >= 0", "work: x2 >= 0"]
        text = html.unescape(page.page(answer))
        names = programs.read(examples.text("flag", ".koat").encode()).rules[1].left_names
        self.assertIn(f"<dt>work</dt><dd>{names[1]} <= 0, {names[1]} >= 0</dd>", text)
        self.assertIn(f"work\\n{names[1]} <= 0\\n{names[1]} >= 0", picture.source(answer.program, answer.report))

    def test_guards_stand_on_arrows(self):
        answer = answer_of("gcd")
        self.assertIn('label=" 2: A   \\n A > B && B >= 1   "', picture.source(answer.program, answer.report))

    def test_the_foot_says_which_program_answered(self):
        versions = [{"version": "0.5.0", "sources": "ab" * 32, "is_proved": it} for it in (True, False, None)] + [{}]
        feet = [re.search("<footer>.*?</footer>", page.page(answer_of("gcd"), page.Beside(version=it)), re.S).group()
                for it in versions]
        wanted = ("It is the proved program", "It was compiled without proof", "Whether it is proved it doesn't say",
                  "doesn't say which it is")
        self.assertEqual([it in foot for it, foot in zip(wanted, feet)], [True] * 4)

    def test_many_sizes_are_folded(self):
        self.assertIn("<details open><summary>2 values after it", page.page(answer_of("gcd")))
        answer = answer_of("gcd")
        with mock.patch.object(page, "MANY_SIZES", 3):
            self.assertIn("<details><summary>2 values after it", page.page(answer))

    def test_a_page_is_for_screen_readers_too(self):
        text = page.page(answer_of("gcd"))
        ids = re.findall(r'\bid="([^"]*)"', text)
        self.assertEqual(len(ids), len(set(ids)))
        self.assertEqual([it for it in re.findall(r'aria-labelledby="([^"]*)"', text) if it not in ids], [])
        self.assertEqual([it for it in re.findall(r'href="#([^"]*)"', text) if it not in ids], [])
        self.assertEqual(len(re.findall("<th(?! scope)[ >]", text)), 0)

    @unittest.skipUnless(shutil.which("chromium") and browser.LACKING, "test_browser tries it, or chromium isn't there")
    def test_the_page_in_a_browser(self):
        text = page.page(answer_of("gcd"), page.Beside(run=runs.Run([6, 4], [(1, []), (2, []), (3, []), (4, [])])))
        with tempfile.TemporaryDirectory() as room:
            path = os.path.join(room, "page.html")
            with open(path, "w", encoding="utf-8") as file:
                file.write(text.replace("</body>", TRIED + "</body>"))
            ran = subprocess.run(["chromium", "--headless", "--no-sandbox", "--disable-gpu", f"--user-data-dir={room}/user",
                                  "--window-size=360,900", "--dump-dom", f"file://{path}"], stdout=subprocess.PIPE,
                                 stderr=subprocess.DEVNULL, text=True, timeout=110, check=False)
        found = re.search('<pre id="tried">(.*?)</pre>', ran.stdout, re.S)
        self.assertIsNotNone(found, "the script failed")
        self.assertEqual(json.loads(html.unescape(found.group(1))), {
            "total": "12", "state": "step 2 of 4, by rule 2: at loop, A = 2, B = 4", "uses": ["2", "1", "1", "0", "0"],
            "most": ["12", "1", "6", "4", "1"], "end": "step 4 of 4, by rule 4: at stop, x1 = 2, x2 = 2", "wide": False})

    @unittest.skipUnless(shutil.which("node"), "node isn't there")
    def test_values_of_the_script(self):
        script = page._file("page.js").split("// The inputs by name", 1)[0]
        told, right = [], []
        for name in ("gcd", "doubling", "fibonacci", "triangle", "counters"):
            for _, _, bound in reports.read(examples.text(name)).labelled():
                for size in (0, 1, 5, 200):
                    inputs = {it: size + at for at, it in enumerate(bounds.names(bound))}
                    told.append([bounds.as_json(bound), {key: str(it) for key, it in inputs.items()}])
                    right.append(bounds.value(bound, inputs))
        for base, exponent in ((0, 0), (0, 2), (1, 0), (1, 300), (2, 127)):
            bound = bounds.Power(base, bounds.Constant(exponent))
            told.append([bounds.as_json(bound), {}])
            right.append(bounds.value(bound, {}))
        loop = (f"for (const [tree, texts] of {json.dumps(told)}) {{ const given = {{}};"
                "for (const key in texts) given[key] = BigInt(texts[key]); console.log(String(value(tree, given))); }")
        ran = subprocess.run(["node", "-"], input=script + loop, stdout=subprocess.PIPE, text=True, check=True)
        self.assertEqual([int(it) for it in ran.stdout.split()], right)
