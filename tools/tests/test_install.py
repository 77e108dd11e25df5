"""Installations, and the archive of a release, from a small checkout with a program that stands in for koat."""

import json
import os
import re
import shutil
import subprocess
import tempfile
import unittest

import examples
from koat_tools import command

PROGRAM = """#!/bin/sh
[ "$1" != analyze ] || { echo usage; exit 2; }
echo "$@"
"""


def called(words, **how):
    """The status, standard output and standard error of a call, as text."""
    ran = subprocess.run(words, stdout=subprocess.PIPE, stderr=subprocess.PIPE, check=False, text=True, **how)
    return ran.returncode, ran.stdout, ran.stderr


def write(path, text, mode=0o644):
    os.makedirs(os.path.dirname(path), exist_ok=True)
    with open(path, "w", encoding="utf-8") as file:
        file.write(text)
    os.chmod(path, mode)


class Installations(unittest.TestCase):
    def setUp(self):
        room = tempfile.TemporaryDirectory()
        self.addCleanup(room.cleanup)
        self.room = room.name
        self.checkout, self.prefix = os.path.join(self.room, "check out"), os.path.join(self.room, "pre fix")
        for name in ("koat", "prove", "install", "launch", "share", "scripts", "examples", "docs", "VERSION", "LICENSE",
                     "README.md", "CHANGELOG.md", "CONTRIBUTING.md", "tools/show", "tools/koat_tools"):
            source, target = os.path.join(examples.TOP, name), os.path.join(self.checkout, name)
            os.makedirs(os.path.dirname(target), exist_ok=True)
            if os.path.isdir(source):
                shutil.copytree(source, target)
            else:
                shutil.copy2(source, target)
        write(os.path.join(self.checkout, "crates.txt"), "koat: itoa\n")
        write(os.path.join(self.checkout, "HANDLES"), "none\n")
        write(os.path.join(self.checkout, "crates/koat/src/main.rt"), "fn main() {}\n")
        self.out = os.path.join(self.checkout, "crates/koat/out")
        self.how = {"env": {"PATH": "/usr/bin:/bin", "HOME": self.room}, "cwd": self.room}
        self.settle("koat")
        mark = 'top=$0; . "$top/launch/sources"; . "$top/launch/programs"; mark_of "$(sum_of "$top")" "$out/koat" >"$out/made_of"'
        subprocess.run(["sh", "-c", mark, self.checkout], check=True, **self.how)

    def settle(self, name):
        write(os.path.join(self.out, name), PROGRAM, 0o755)

    def install(self, *words, at=None):
        return called([os.path.join(at or self.checkout, "install"), *words], **self.how)

    def koat(self, *words, **settings):
        return called([os.path.join(self.prefix, "bin", "koat"), *words], cwd=self.room,
                      env={**self.how["env"], **settings})

    def files(self):
        return [os.path.join(where, it) for where, _, names in os.walk(self.prefix) for it in names]

    def test_what_is_installed_answers_without_the_checkout(self):
        self.assertEqual(self.install(self.prefix)[0], 0)
        shutil.rmtree(self.checkout)
        self.assertEqual(self.koat("analyse", examples.path("gcd")), (0, f"analyse {examples.path('gcd')}\n", ""))
        self.assertEqual(self.koat("analyze", "x"), (2, "usage\n", "koat: `analyze` is no command; is `analyse` meant?\n"))
        status, said, _ = self.koat("--version")
        self.assertEqual((status, said.splitlines()[0], said.splitlines()[2]), (0, "koat 0.5.0", "program: proved"))
        self.assertEqual(self.koat("--help")[1], examples.text("../launch/help", ""))
        shown = called([os.path.join(self.prefix, "bin", "koat-show"), "--help"], **self.how)
        self.assertEqual(shown[0], 0)
        self.assertIn("koat-show", shown[1].splitlines()[0])
        for page in ("man/man1/koat.1", "bash-completion/completions/koat", "zsh/site-functions/_koat",
                     "fish/vendor_completions.d/koat.fish", "nvim/site/syntax/koat.vim"):
            self.assertTrue(os.path.exists(os.path.join(self.prefix, "share", page)), page)

    def test_uninstalling_leaves_what_was_there(self):
        write(os.path.join(self.prefix, "bin", "other"), "other\n")
        self.assertEqual(self.install(self.prefix)[0], 0)
        self.assertEqual(self.install("--uninstall", self.prefix), (0, "", ""))
        self.assertEqual(self.files(), [os.path.join(self.prefix, "bin", "other")])
        self.assertEqual(sorted(os.listdir(self.prefix)), ["bin"])
        status, _, error = self.install("--uninstall", self.prefix)
        self.assertEqual((status, error), (1, f"install: no installation is in {self.prefix}\n"))

    def test_an_installation_takes_the_place_of_an_older_one(self):
        self.assertEqual([self.install(self.prefix)[0] for _ in range(2)], [0, 0])
        self.assertEqual(self.koat("generate", "3")[1], "generate 3\n")
        self.assertEqual([it for it in os.listdir(os.path.join(self.prefix, "lib")) if it != "koat"], [])

    def test_what_others_made_stays(self):
        other = os.path.join(self.prefix, "bin", "koat")
        write(other, "other\n")
        status, _, error = self.install(self.prefix)
        self.assertEqual((status, error.count("\n")), (1, 1))
        with open(other, encoding="utf-8") as file:
            self.assertEqual(file.read(), "other\n")

    def test_the_unproved_program_says_so(self):
        os.remove(os.path.join(self.out, "made_of"))
        status, _, error = self.install(self.prefix)
        self.assertEqual((status, error.count("\n")), (1, 1))
        self.assertIn("the proved program isn't here", error)
        find = 'top=$0; . "$top/launch/sources"; sum_of "$top"'
        self.settle("unproved-" + called(["sh", "-c", find, self.checkout], **self.how)[1].strip())
        self.assertEqual(self.install("--unproved", self.prefix)[0], 0)
        status, said, error = self.koat("generate", "3")
        self.assertEqual((status, said, error.count("\n")), (0, "generate 3\n", 1))
        self.assertIn("compiled without proof", error)
        self.assertEqual(self.koat("--version")[1].splitlines()[2], "program: compiled without proof")
        self.assertEqual(self.koat("generate", "3", KOAT_PROVED="1")[:2], (70, ""))

    def test_words(self):
        self.assertEqual([self.install(*it)[0] for it in (["--other"], ["a", "b"], [""])], [2, 2, 2])

    def test_an_archive_runs_by_itself(self):
        write(os.path.join(self.room, "kit/bin/rt"), "#!/bin/sh\nexit 1\n", 0o755)
        write(os.path.join(self.room, "kit/rattle/itoa/LICENSE"), "as you like\n")
        self.how["env"]["PATH"] = f"{self.room}/kit/bin:/usr/bin:/bin"
        release = [os.path.join(self.checkout, "scripts", "release"), os.path.join(self.room, "made")]
        status, path, error = called(release, **self.how)
        self.assertEqual((status, error), (0, ""))
        with open(path.strip(), "rb") as file:
            first = file.read()
        self.assertEqual(called(release, **self.how)[:2], (0, path))
        with open(path.strip(), "rb") as file:
            self.assertEqual(first, file.read())
        shutil.rmtree(self.checkout)
        subprocess.run(["tar", "-xzf", path.strip(), "-C", self.room], check=True)
        tree = os.path.join(self.room, os.path.basename(path.strip())[:-len(".tar.gz")])
        self.assertEqual(called(["sha256sum", "--quiet", "-c", "SHA256SUMS"], cwd=tree), (0, "", ""))
        self.assertEqual(os.listdir(os.path.join(tree, "licences")), ["itoa-LICENSE"])
        links = re.findall(r"\]\(([\w./-]+)\)", examples.text("../README", ".md"))
        self.assertEqual([it for it in links if not os.path.exists(os.path.join(tree, it))], [])
        self.assertEqual(called([os.path.join(tree, "koat"), "generate", "2"], **self.how), (0, "generate 2\n", ""))
        self.assertEqual(self.install(self.prefix, at=tree)[0], 0)
        shutil.rmtree(tree)
        self.assertEqual(self.koat("generate", "3")[1], "generate 3\n")


class Pages(unittest.TestCase):
    @unittest.skipUnless(shutil.which("man"), "man isn't there")
    def test_manual_pages(self):
        version = examples.text("../VERSION", "").strip()
        for name in ("koat", "koat-show"):
            page = os.path.join(examples.TOP, "share", "man", f"{name}.1")
            status, said, error = called(["man", "--warnings", "-l", page], env={**os.environ, "MANWIDTH": "80"})
            self.assertEqual((status, error), (0, ""))
            self.assertIn(version, said)


COMPLETIONS = os.path.join(examples.TOP, "share", "completions")


class Completions(unittest.TestCase):
    def completed(self, *words):
        line = ('. "$0"; COMP_WORDS=("$@"); COMP_CWORD=$(($# - 1)); _koat; printf "%s\\n" "${COMPREPLY[@]}"')
        ran = called(["bash", "-c", line, os.path.join(COMPLETIONS, "koat.bash"), *words], cwd=examples.TOP)
        return sorted(ran[1].split())

    def test_bash(self):
        self.assertEqual(self.completed("koat", "an"), ["analyse"])
        self.assertEqual(self.completed("koat", "--"), ["--help", "--version"])
        self.assertEqual(self.completed("koat", "facts", "--"), ["--pivots"])
        self.assertEqual(self.completed("koat", "be"), ["best"])
        self.assertEqual([self.completed("koat", it, "--") for it in ("best", "certify")], [["--pivots"]] * 2)
        self.assertEqual(self.completed("koat", "analyse", "examples/euc"), ["examples/euclid.koat"])
        self.assertEqual(self.completed("koat", "while", "examples/gc"), ["examples/gcd.while"])
        self.assertEqual(self.completed("koat", "replay", "examples/gcd.koat", "examples/gc"), ["examples/gcd.run"])
        self.assertEqual(self.completed("koat", "lasso", "examples/stay.koat", "examples/st"), ["examples/stay.lasso"])
        self.assertEqual(self.completed("koat", "lp", "examples/pri"), ["examples/prices.lp"])

    @unittest.skipUnless(shutil.which("fish"), "fish isn't there")
    def test_fish(self):
        line = f"source {COMPLETIONS}/koat.fish; complete -C 'koat an'; complete -C 'koat facts --'"
        said = called(["fish", "--no-config", "-c", line], cwd=examples.TOP)[1]
        self.assertEqual([it.split("\t")[0] for it in said.splitlines()], ["analyse", "--pivots"])

    @unittest.skipUnless(shutil.which("zsh"), "zsh isn't there")
    def test_zsh(self):
        for name in ("_koat", "_koat-show"):
            self.assertEqual(called(["zsh", "-n", os.path.join(COMPLETIONS, name)]), (0, "", ""))

    def test_each_shell_knows_each_command(self):
        for name in ("koat.bash", "_koat", "koat.fish"):
            with open(os.path.join(COMPLETIONS, name), encoding="utf-8") as file:
                said = file.read()
            for command in ("best", "certify", "facts", "analyse", "prove", "check", "replay", "generate", "selfrun", "lasso", "lp", "while",
                            "translate"):
                self.assertIn(command, said)


    def test_each_list_of_the_tools_knows_each_command(self):
        lists = [os.path.join(COMPLETIONS, it) for it in ("koat-show.bash", "_koat-show", "koat-show.fish")]
        lists += [os.path.join(examples.TOP, it) for it in ("launch/hints", "share/man/koat-show.1", "docs/running.md")]
        lacking = []
        for path in lists:
            with open(path, encoding="utf-8") as file:
                said = file.read()
            lacking += [(path, it) for it in command.COMMANDS if not re.search(rf"\b{it}\b", said)]
        self.assertEqual(lacking, [])


class Editors(unittest.TestCase):
    @unittest.skipUnless(shutil.which("vim"), "vim isn't there")
    def test_vim(self):
        folder = os.path.join(examples.TOP, "share", "editors", "vim")
        show = ("for at in [[1,12],[3,3],[3,8],[3,11],[3,17],[3,23],[3,28]] | "
                "call writefile([synIDattr(synID(at[0], at[1], 1), 'name')], '/dev/stdout', 'a') | endfor")
        with tempfile.TemporaryDirectory() as room:
            path = os.path.join(room, "p.koat")
            write(path, "(COMMENT a (b) c)\n(RULES\n  f(A) -> Com_1(g(A - 12)) :|: A > 0)\n")
            said = called(["vim", "-N", "-u", "NONE", "-es", "--cmd", f"set rtp^={folder}", "-c", "filetype on", "-c",
                           "syntax on", "-c", f"edit {path}", "-c", show, "-c", "qa!"])[1]
        self.assertEqual(said.split(), ["koatInner", "koatSymbol", "koatArrow", "koatTarget", "koatSymbol", "koatNumber",
                                        "koatArrow"])

    def test_patterns_of_the_grammar_for_vs_code(self):
        folder = os.path.join(examples.TOP, "share", "editors", "vscode")
        with open(os.path.join(folder, "syntaxes", "koat.tmLanguage.json"), encoding="utf-8") as file:
            patterns = [it for it in json.load(file)["patterns"] if "match" in it]
        found = {}
        for text in ("->", "}>", "&&", "Com_1", "Com_2", "TRUE", "f(", "A'", "12", ">=", "||"):
            found[text] = next(it["name"].split(".")[0] for it in patterns if re.match(it["match"], text))
        self.assertEqual(found, {"->": "keyword", "}>": "keyword", "&&": "keyword", "Com_1": "keyword",
                                 "Com_2": "invalid", "TRUE": "constant", "f(": "entity", "A'": "variable",
                                 "12": "constant", ">=": "keyword", "||": "invalid"})
        with open(os.path.join(folder, "package.json"), encoding="utf-8") as file:
            package = json.load(file)
        for path in (package["contributes"]["grammars"][0]["path"], package["contributes"]["languages"][0]["configuration"]):
            self.assertTrue(os.path.exists(os.path.join(folder, path)))
