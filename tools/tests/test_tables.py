import glob
import os
import re
import runpy
import subprocess
import sys
import unittest

import best_texts
import examples

SCRIPTS = os.path.join(examples.TOP, "scripts")
CITING = ["claims.md", "definitions.md", "architecture.md", "trust.md", "theorem.md", "beside.md", "spelling.md",
          "glossary.md", "proof-format.md"]


def read(*path):
    with open(os.path.join(examples.TOP, *path), encoding="utf-8") as file:
        return file.read()


def checked(name):
    """The status of a script that looks whether its tables are fresh, and what it says: nothing where they are."""
    done = subprocess.run([sys.executable, "-B", os.path.join(SCRIPTS, name), "--check"],
                          capture_output=True, text=True, check=False)
    return done.returncode, done.stdout + done.stderr


def pages():
    """The documents, by their paths from the top."""
    found = glob.glob(os.path.join(examples.TOP, "*.md")) + glob.glob(os.path.join(examples.TOP, "docs", "*.md"))
    return sorted(os.path.relpath(it, examples.TOP) for it in found)


def words_of_the_sources():
    """Each word that the sources of the crates, their folders or the scripts for measuring have."""
    found = set(os.listdir(os.path.join(examples.TOP, "crates")) + os.listdir(os.path.join(examples.TOP, "bench")))
    for part in ("src/**/*.rt", "specs/**/*.antt"):
        for path in glob.glob(os.path.join(examples.TOP, "crates", "*", part), recursive=True):
            found.update(re.findall(r"[A-Za-z_]\w*", read(path)))
    return found


class Tables(unittest.TestCase):
    def test_tables_of_crates_are_those_of_the_sources(self):
        self.assertEqual(checked("tables"), (0, ""))

    def test_reading_lists_are_those_of_the_definitions(self):
        self.assertEqual(checked("reading_list"), (0, ""))

    def test_the_theorem_quotes_each_definition_as_it_is(self):
        self.assertEqual(checked("theorem"), (0, ""))

    def test_the_documents_have_no_more_words_than_they_may(self):
        self.assertEqual(checked("words"), (0, ""))

    def test_words_are_counted_outside_of_code_and_comments(self):
        count = runpy.run_path(os.path.join(SCRIPTS, "words"))["words_of"]
        self.assertEqual(count("One `two three` four.\n\n| a | - |\n\n```\nb c\n```\n<!-- d e -->\n5"), 4)

    def test_a_definition_that_is_not_quoted_is_found(self):
        script = runpy.run_path(os.path.join(SCRIPTS, "theorem"))
        lists = runpy.run_path(os.path.join(SCRIPTS, "reading_list"))
        text = read("docs", "theorem.md").replace("Facts.antt HoldsTime HoldsSize", "Facts.antt HoldsSize")
        self.assertEqual(len(script["lacking"](lists, ["headline"], [text])), 1)
        self.assertNotEqual(script["with_quotations"](lists, text), text)

    def test_definitions_are_found_in_blocks_and_through_crates(self):
        script = runpy.run_path(os.path.join(SCRIPTS, "reading_list"))
        bounds = "model/specs/Bounds.antt"
        self.assertLessEqual({"Bound", "Parts", "NoParts", "val", "val_sum", "IsBased"}, set(script["items"](bounds)))
        self.assertEqual(script["resolve"]("bound_text/specs/Texts.antt", "Bound"), (bounds, "Bound"))
        self.assertIn((bounds, "val_sum"), script["closure"]("theorem"))
        self.assertNotIn("IsAnalysis", {name for _, name in script["closure"]("theorem")})
        self.assertFalse(script["closure"]("theorem") & script["closure"]("reasons"))

    def test_laws_and_calls_are_found(self):
        script = runpy.run_path(os.path.join(SCRIPTS, "tables"))
        self.assertIn("runs_are_determined", script["laws"]("model"))
        self.assertIn("`check` (answered, facts, gaps)", script["calls"]("check_file"))
        self.assertNotIn("check", script["laws"]("check_file"))
        self.assertTrue(script["what_it_is"]("frac128").startswith("Exact fractions of 128-bit integers"))

    def test_links_lead_to_files(self):
        lacking = []
        for page in pages():
            for link in re.findall(r"\]\(([^)#:]+)\)", read(page)):
                if not os.path.exists(os.path.join(examples.TOP, os.path.dirname(page), link)):
                    lacking.append((page, link))
        self.assertEqual(lacking, [])

    def test_names_that_are_cited_are_in_the_sources(self):
        known, lacking = words_of_the_sources() | {"as_worked_out", "LF"}, []
        for page in CITING:
            text = re.sub(r"```.*?```", "", read("docs", page), flags=re.S)
            for cited in re.findall(r"`([A-Za-z_]\w*(?:(?:::|\.)[A-Za-z_]\w*)*)`", text):
                if not cited.endswith(".py") and not set(re.split(r"::|\.", cited)) <= known:
                    lacking.append((page, cited))
        self.assertEqual(lacking, [])

    def test_what_the_readme_shows_is_what_the_examples_have(self):
        shown = re.findall(r"```\n((?:bounded|fact ).*?)```", read("README.md"), re.S)
        reports = [best_texts.report("difference"), examples.text("gcd"), examples.text("flag", ".facts.txt")]
        self.assertEqual(len(shown), len(reports))
        wrong = [it for it, report in zip(shown, reports) if not report.startswith(it.removesuffix("...\n"))]
        self.assertEqual(wrong, [])
        self.assertIn(examples.text("gcd", ".koat"), read("README.md"))

    def test_the_readme_is_one_page_with_the_version(self):
        text, version = read("README.md"), read("VERSION").split()
        self.assertLessEqual(len(text.splitlines()), 150)
        self.assertIn(" ".join(version), text)
        self.assertIn(f"## {version[1]}", read("CHANGELOG.md"))
