"""Texts of random bytes, of random pieces of the formats, and damaged ones, for the script that tries the program.

`Programs`, `Runs` and `Proofs` are the kinds of texts. Of each, `made(rng)` gives the words of a call and a text for
its standard input; the call may end with a status among `statuses`; and `wanted(words, text)` is what a plain slow
reading, replay or checker says of it: all that has to be written, where that ends with a line feed, or else the first
line; or `TAKEN` where the text mustn't be refused.
"""

import glob
import os
import re

import slow_runs
from large_inputs import BAD_STEP, DONE, NO, PROOF_REFUSED, REFUSED, RUN_REFUSED, UNKNOWN
from slow_check import said
from slow_forms import Program
from slow_reading import Reading

EXAMPLES = os.path.join(os.path.dirname(os.path.dirname(os.path.abspath(__file__))), "examples")
GCD, GCD_RUN = (os.path.join(EXAMPLES, name) for name in ("gcd.koat", "gcd.run"))
PROVED = ("gcd", "stay", "nested", "phases", "flag")
TAKEN = "taken"
PIECES = ("( ) , -> :|: [ ] + - * ^ >= > <= < = == && /\\ || TRUE Com_1 COMMENT GOAL VAR RULES STARTTERM A f l0 0 1 "
          "-{ }> 4294967296 9223372036854775808 \n \t \r \0 \x7f \xff | & _ $ '").split(" ")
RUN_PIECES = ["koat-run 1\n", "start", "step ", "step 1\n", "step 2\n", " 1", " 0", " -1", " 30 12", "\n", "end\n", "1",
              "-", "0", " ", " 9223372036854775807", " 9223372036854775808", "\0", "\xff", "s",
              "koat-run 1\nstart 30 12\n"]
PROOF_PIECES = ["koat-proof 1\n", "koat-proof 2\n", "lemma ", "gap ", "end\n", "cite 1", "start", "empty 1 []",
                "never (", "weaken (start) to ", ") to A + 1", "rank ", " set [1]", " den 1", " forms [start [0 0 1]]",
                " moves [[]]", " floor []", " uses {start}", " uses {", "}", "spread 1.1", " up poly", "cycle [", "]",
                " low lin 1 [0 0 -1] []", "; ", "\n", " ", "-", "0", "1", "2", "\0", "\xff", "max(", "2^A", "A",
                "lemma start\n"]


def read(path):
    with open(path, "rb") as file:
        return file.read()


def broken(rng, text, pieces):
    """The text with a few bytes lost, doubled, changed or put in."""
    text = bytearray(text)
    at = rng.randrange(len(text) + 1)
    kind = rng.randrange(4)
    if kind == 0:
        del text[at:at + rng.randint(1, 9)]
    elif kind == 1:
        text[at:at] = text[at:at + rng.randint(1, 40)]
    elif kind == 2 and at < len(text):
        text[at] = rng.randrange(256)
    else:
        text[at:at] = rng.choice(pieces).encode("latin-1")
    return bytes(text)


def bent(rng, text, pieces):
    """The text with another number or name for one, or with two lines swapped, or one lost or doubled."""
    kind = rng.randrange(4)
    if kind < 2:
        words = list(re.finditer((rb"\d+", rb"\b[A-Za-z]\w*")[kind], text))
        if not words:
            return text
        word, other = rng.choice(words), rng.choice(words)[0]
        if kind == 0 and rng.randrange(2):
            other = b"%d" % rng.choice((0, 1, 2, 7, int(word[0]) + 1, 2**45, 2**56, 2**63 - 1))
        return text[:word.start()] + other + text[word.end():]
    lines = text.split(b"\n")
    one, other = rng.randrange(len(lines)), rng.randrange(len(lines))
    if kind == 2:
        lines[one], lines[other] = lines[other], lines[one]
    else:
        lines[one:one + 1] = [lines[one]] * rng.choice((0, 2))
    return b"\n".join(lines)


def text_of(rng, examples, pieces, between):
    """A text of one of four kinds; two thirds are of the last two."""
    kind = rng.choice((0, 1, 2, 2, 3, 3))
    if kind == 0:
        return rng.randbytes(rng.randrange(200))
    if kind == 1:
        return between.join(rng.choice(pieces).encode("latin-1") for _ in range(rng.randrange(80)))
    text, damage = rng.choice(examples), broken if kind == 2 else bent
    for _ in range(rng.choice((1, 1, 2, 3))):
        text = damage(rng, text, pieces)
    return text


class Programs:
    """Texts as a program, analysed, proved, analysed with facts, and with a run and a proof of another program."""

    name, statuses = "programs", {DONE, UNKNOWN, REFUSED, RUN_REFUSED, BAD_STEP, PROOF_REFUSED, NO}

    def __init__(self, proof):
        self.examples = [read(name) for name in sorted(glob.glob(os.path.join(EXAMPLES, "*.koat")))]
        self.proof = proof

    def made(self, rng):
        text = text_of(rng, self.examples, PIECES, b" ")
        command = rng.choice(("analyse", "prove", "facts", "replay", "check"))
        if command in ("replay", "check"):
            return [command, "-", GCD_RUN if command == "replay" else self.proof], text
        return [command, "--pivots", str(rng.choice((0, 3, 200))), "-"], text

    def wanted(self, words, text):
        program = Reading(text)
        verdict = program.verdict()
        if verdict != TAKEN or words[0] not in ("replay", "check"):
            return verdict
        return run_line(program, read(GCD_RUN)) if words[0] == "replay" else proof_lines(program, read(self.proof))


def run_line(program, text):
    """The first line that is said of a run's text."""
    told = slow_runs.verdict(program, text)
    return told if isinstance(told, str) else f"steps {told['steps']}"


def proof_lines(program, text):
    """What is said of a proof's text, whole."""
    return "\n".join([*said(Program(program), text.decode("latin-1")), ""])


class Runs:
    """Texts as a run of an example."""

    name, statuses = "runs", {DONE, RUN_REFUSED, BAD_STEP}

    def __init__(self):
        self.run, self.program = read(GCD_RUN), Reading(read(GCD))
        self.program.verdict()

    def made(self, rng):
        return ["replay", GCD, "-"], text_of(rng, [self.run], RUN_PIECES, b"")

    def wanted(self, words, text):
        return run_line(self.program, text)


class Proofs:
    """Texts as a proof of one of the examples whose proofs are given, by the path of the program."""

    name, statuses = "proofs", {DONE, PROOF_REFUSED, NO}

    def __init__(self, proofs):
        self.proofs, self.programs = proofs, {path: Reading(read(path)) for path in proofs}
        for program in self.programs.values():
            program.verdict()

    def made(self, rng):
        path = rng.choice(list(self.proofs))
        return ["check", path, "-"], text_of(rng, [self.proofs[path]], PROOF_PIECES, b"")

    def wanted(self, words, text):
        return proof_lines(self.programs[words[1]], text)
