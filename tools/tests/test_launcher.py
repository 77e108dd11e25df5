"""What the launcher says on standard error of words that the program refuses, and of files that it can't read."""

import os
import subprocess
import tempfile
import unittest

import examples

GCD = examples.path("gcd")
RUN = examples.path("gcd", ".run")

# Words, and the line that stands behind `koat: ` where the program ends with status 2.
WORDS = [
    ([], "a command is missing: begin with `koat best FILE`; `koat --help` names the others"),
    ([""],
     "`` is no command: they are best, analyse, prove, check, replay, generate, selfrun, facts, certify, lasso, lp, while, "
     "translate"),
    (["bset", GCD], "`bset` is no command; is `best` meant?"),
    (["best"], "`best` takes one FILE: FILE is missing"),
    (["best", "a", "b"], "`b` is one word too many: `best` takes one FILE; `tools/show many` takes several"),
    (["best", "--pivots", "x", "a"],
     "`--pivots` takes a number from 0 to 1000000 in plain digits, and not `x`"),
    (["--best", GCD], "`--best` is no command: `koat best FILE` is the command"),
    (["facts", "--best", GCD], "`facts` has no option `--best`: `koat best FILE` is the command"),
    (["certfy", GCD], "`certfy` is no command; is `certify` meant?"),
    (["certify", "a", "b"], "`b` is one word too many: `certify` takes one FILE"),
    (["analyze", GCD], "`analyze` is no command; is `analyse` meant?"),
    (["Analyse", GCD], "`Analyse` is no command; is `analyse` meant?"),
    (["anaylse", GCD], "`anaylse` is no command; is `analyse` meant?"),
    (["fact", GCD], "`fact` is no command; is `facts` meant?"),
    (["gen", "3"], "`gen` is no command; is `generate` meant?"),
    (["verify", GCD], "`verify` is no command; is `certify` meant?"),
    (["judge", GCD],
     "`judge` is no command: they are best, analyse, prove, check, replay, generate, selfrun, facts, certify, lasso, lp, "
     "while, translate"),
    (["explain", GCD], "`explain` is no command of koat, but one of its tools: `tools/show explain ..`"),
    (["exlpain", GCD], "`exlpain` is no command; is `tools/show explain` meant?"),
    (["help"], "`help` is no command; is `--help` meant?"),
    (["-h"], "`-h` is no command; is `--help` meant?"),
    (["-V"], "`-V` is no command; is `--version` meant?"),
    (["--pivots", "5", "analyse", GCD], "the command comes first: `koat analyse --pivots N FILE`"),
    (["x.koat", "prove"], "the command comes first: `koat prove x.koat`"),
    ([GCD], f"`{GCD}`"[:81]),
    (["analyse"], "`analyse` takes one FILE: FILE is missing"),
    (["check"], "`check` takes two files, FILE and PROOF: FILE is missing"),
    (["check", GCD], "`check` takes two files, FILE and PROOF: PROOF is missing"),
    (["replay", GCD], "`replay` takes two files, FILE and RUN: RUN is missing"),
    (["replay", "a", "b", "c"], "`c` is one word too many: `replay` takes two files, FILE and RUN"),
    (["generate"], "`generate` takes one number from 0 to 100: N is missing"),
    (["generate", "101"], "`generate` takes one number from 0 to 100, and not `101`"),
    (["generate", "007"], "`generate` takes one number from 0 to 100, and not `007`"),
    (["selfrun", "-1"], "`selfrun` takes one number from 0 to 100, and not `-1`"),
    (["lasso"], "`lasso` takes two files, FILE and RUN: FILE is missing"),
    (["lasso", GCD], "`lasso` takes two files, FILE and RUN: RUN is missing"),
    (["lasso", "a", "b", "c"], "`c` is one word too many: `lasso` takes two files, FILE and RUN"),
    (["lasso", "--pivots", "5", "a", "b"], "`lasso` has no option `--pivots`"),
    (["laso", GCD, RUN], "`laso` is no command; is `lasso` meant?"),
    (["lp"], "`lp` takes one FILE: FILE is missing"),
    (["lp", "a", "b"], "`b` is one word too many: `lp` takes one FILE"),
    (["lp", "--pivots=5", "a"], "`lp` has no option `--pivots`"),
    (["while"], "`while` takes one FILE: FILE is missing"),
    (["while", "a", "b"], "`b` is one word too many: `while` takes one FILE"),
    (["translate", "--pivots=5", "a"], "`translate` has no option `--pivots`"),
    (["translat", "a"], "`translat` is no command; is `translate` meant?"),
    (["--versoin"], "`--versoin` is no command; is `--version` meant?"),
    (["--hlep"], "`--hlep` is no command; is `--help` meant?"),
    (["--help", "facts"], "`--help` stands alone"),
    (["--facts", GCD], "`--facts` is no command: `koat facts FILE` is the command"),
    (["-q", "facts", GCD], "the command comes first: `koat best FILE`"),
    (["analyse", "--json", GCD], "`analyse` has no option `--json`; `tools/show json FILE` writes JSON"),
    (["facts", "--timeout", "5", GCD],
     "`facts` has no option `--timeout`: `timeout 60 koat facts FILE` sets a limit"),
    (["analyse", "a", "b"], "`b` is one word too many: `analyse` takes one FILE; `tools/show many` takes several"),
    (["analyse", "--help"], "`analyse` has no option `--help`; `koat --help` says what it takes"),
    (["analyse", "--facts", "a"], "`analyse` has no option `--facts`: `koat facts FILE` is the command"),
    (["analyse", "-p", "5", "a"], "`analyse` has no option `-p`; is `--pivots N` meant?"),
    (["analyse", "-a.koat"],
     "`analyse` has no option `-a.koat`: its file may stand behind `--`, as in `koat analyse -- -a.koat`"),
    (["analyse", "a", "--pivots"], "`--pivots` needs a number behind it"),
    (["analyse", "--pivots", "-5", "a"], "`--pivots` needs a number behind it, and not `-5`"),
    (["analyse", "--pivots", "many", "a"],
     "`--pivots` takes a number from 0 to 1000000 in plain digits, and not `many`"),
    (["facts", "--pivots=1000001", "a"],
     "`--pivots` takes a number from 0 to 1000000 in plain digits, and not `1000001`"),
    (["facts", "--pivots=1", "--pivots", "2", "a"], "`--pivots` may be given once"),
    (["check", "--pivots", "5", "a", "b"], "`check` has no option `--pivots`"),
    (["ana\x1b[2Jlyse", "a"], "`ana?[2Jlyse` is no command: they are"),
    (["*"], "`*` is no command: they are"),
    (["analyse", b"\xff.koat"], "a word isn't UTF-8, and the program takes no other: rename the file, or give it by -"),
    (["$(id)"], "`$(id)` is no command: they are"),
    (["%s%n%d%x"], "`%s%n%d%x` is no command: they are"),
    (["x" * 300], f"`{'x' * 80}` is no command: they are"),
]


def answered(words, status, given=b"", **how):
    """What the launcher says where the program ends with this status, and the status of the launcher."""
    with tempfile.TemporaryDirectory() as room:
        program = os.path.join(room, "program")
        with open(program, "w", encoding="utf-8") as file:
            file.write(f"#!/bin/sh\nexit {status}\n")
        os.chmod(program, 0o755)
        line = '. "$0"; answer "$@"'
        hints = os.path.join(examples.TOP, "launch", "hints")
        ran = subprocess.run(["sh", "-c", line, hints, program, *words], input=given, stdout=subprocess.PIPE,
                             stderr=subprocess.PIPE, check=False, **how)
    return ran.returncode, ran.stdout, ran.stderr.decode("utf-8", "replace")


class Words(unittest.TestCase):
    def test_words_that_are_refused_get_a_line(self):
        differ = []
        for words, wanted in WORDS:
            got = answered(words, 2)
            if got[:2] != (2, b"") or not got[2].startswith(f"koat: {wanted}") or got[2].count("\n") != 1:
                differ.append((words, got))
        self.assertEqual(differ, [])

    def test_the_program_decides(self):
        self.assertEqual([answered(["analyze", GCD], it) for it in (0, 1, 3, 6)],
                         [(it, b"", "") for it in (0, 1, 3, 6)])

    def test_words_that_are_a_command_line_get_none(self):
        taken = (["best", GCD], ["best", "--pivots=5", "-"], ["certify", GCD, "--pivots", "0"], ["analyse", GCD], ["facts", GCD, "--pivots", "0"], ["prove", "--pivots=1000000", "--", GCD],
                 ["check", GCD, RUN], ["replay", "--", GCD, RUN], ["lasso", GCD, "-"], ["lasso", "--", GCD, RUN],
                 ["generate", "0"], ["selfrun", "100"], ["lp", "-"], ["while", "--pivots=5", "-"],
                 ["translate", "-"], ["analyse", "-"], ["analyse", "gr\u00fc\u00dfe.koat"])
        self.assertEqual([answered(it, 2)[2] for it in taken], [""] * len(taken))


class Files(unittest.TestCase):
    def test_the_file_and_the_cause_are_named(self):
        folder = examples.HERE
        missing = os.path.join(folder, "missing")
        wanted = {
            ("analyse", missing): f"the program `{missing}` can't be read: there is no such file",
            ("facts", ""): "the program `` can't be read: there is no such file",
            ("lp", missing): f"the linear program `{missing}` can't be read: there is no such file",
            ("prove", folder): f"the program `{folder}` can't be read: it is a folder",
            ("check", GCD, missing): f"the proof `{missing}` can't be read: there is no such file",
            ("check", missing, missing): f"the program `{missing}` can't be read: there is no such file",
            ("replay", GCD, missing): f"the run `{missing}` can't be read: there is no such file",
            ("lasso", GCD, missing): f"the lasso `{missing}` can't be read: there is no such file",
            ("lasso", missing, missing): f"the program `{missing}` can't be read: there is no such file",
            ("analyse", f"{GCD}/x"): "can't be read: a file stands where its path needs a folder",
            ("analyse", GCD[:-5]): f"can't be read: there is no such file; is `{GCD}` meant?",
            ("analyse", "--", "-odd"): "the program `-odd` can't be read: there is no such file",
        }
        said = {words: answered(list(words), 3) for words in wanted}
        for words, (status, output, line) in said.items():
            self.assertEqual((status, output, line.count("\n")), (3, b"", 1))
            self.assertIn(wanted[words][-70:], line)

    def test_a_file_in_the_examples(self):
        line = answered(["analyse", "gcd.koat"], 3, cwd=examples.TOP)[2]
        self.assertEqual(line, "koat: the program `gcd.koat` can't be read: there is no such file; is "
                               "`examples/gcd.koat` meant?\n")

    def test_closed_input(self):
        hints = os.path.join(examples.TOP, "launch", "hints")
        ran = subprocess.run(["sh", "-c", '. "$0"; answer sh -c "exit 3" sh - <&-', hints], check=False,
                             stderr=subprocess.PIPE)
        self.assertEqual(ran.returncode, 3)
        line = 'prog() { return 3; }; . "$0"; answer prog analyse - <&-'
        ran = subprocess.run(["sh", "-c", line, hints], check=False, stderr=subprocess.PIPE)
        self.assertEqual(ran.stderr, b"koat: the program can't be read from standard input, which is closed\n")


class Launcher(unittest.TestCase):
    def test_help(self):
        ran = subprocess.run([os.path.join(examples.TOP, "koat"), "--help"], stdout=subprocess.PIPE, check=False)
        self.assertEqual((ran.returncode, ran.stdout.decode()), (0, examples.text("../launch/help", "")))

    def test_version(self):
        ran = subprocess.run([os.path.join(examples.TOP, "koat"), "--version"], stdout=subprocess.PIPE, check=False)
        lines = ran.stdout.decode().splitlines()
        self.assertEqual((ran.returncode, lines[0] + "\n"), (0, examples.text("../VERSION", "")))
        self.assertRegex(lines[1], "^sources: [0-9a-f]{64}$")
        self.assertRegex(lines[2], "^program: (proved|compiled without proof|none yet)")

    def test_help_names_the_usage_and_every_status(self):
        said = examples.text("../launch/help", "")
        for word in ("best", "certify", "analyse", "prove", "check", "replay", "generate", "selfrun", "facts", "lasso", "lp", "while",
                     "translate", "--pivots"):
            self.assertIn(word, said)
        for status in [*range(11), 70, 127]:
            self.assertRegex(said, rf"\b{status} ")
