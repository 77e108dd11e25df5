"""The trees that the text of a proof file stands for; the text is one that `slow_proofs.py` takes."""

import re
from typing import NamedTuple

from slow_bounds import Reader

WORD = re.compile(r"[A-Za-z]+")
NAME = re.compile(r"[A-Za-z_$][A-Za-z0-9_$'.]*")
NUMBER = re.compile(r"-?[0-9]+")


class Arm(NamedTuple):
    """A form over the left places over a denominator, with multipliers; or the polynomial of the update."""

    is_poly: bool
    den: int = 0
    form: list = None
    multipliers: list = None


class Member(NamedTuple):
    """A rule, a place of its target, and the two arms there."""

    rule: int
    place: int
    up: Arm
    low: Arm


class Node:
    """A node of a proof: its kind, what it rests on, and what its kind has."""

    def __init__(self, kind, uses=(), **parts):
        self.kind, self.uses = kind, uses
        self.__dict__.update(parts)


class Gap(NamedTuple):
    """A gap: points are their parts and then their denominator; shut places are pairs of a symbol and a place."""

    rule: int
    set: list
    shut: list
    moves: list
    floor: list
    kept: list


class Text:
    """Reads a proof file's text from the front."""

    def __init__(self, program, text):
        self.program, self.text, self.at = program, text, 0

    def take(self, words):
        assert self.text.startswith(words, self.at), (words, self.text[self.at:self.at + 40])
        self.at += len(words)

    def takes(self, words):
        is_there = self.text.startswith(words, self.at)
        self.at += len(words) if is_there else 0
        return is_there

    def match(self, pattern):
        found = pattern.match(self.text, self.at).group()
        self.at += len(found)
        return found

    def number(self, before=""):
        self.take(before)
        return int(self.match(NUMBER))

    def some(self, part, between, opens="[", closes="]"):
        """Parts in brackets."""
        self.take(opens)
        parts = []
        while not self.takes(closes):
            if parts:
                self.take(between)
            parts.append(part())
        return parts

    def numbers(self):
        return self.some(self.number, " ")

    def lists(self):
        return self.some(self.numbers, "; ")

    def form(self):
        name = self.match(NAME).encode()
        self.take(" ")
        return name, self.numbers()

    def place(self):
        name, _, place = self.match(NAME).rpartition(".")
        return name.encode(), int(place)

    def arm(self):
        if self.takes("poly"):
            return Arm(True)
        den = self.number("lin ")
        self.take(" ")
        form = self.numbers()
        self.take(" ")
        return Arm(False, den, form, self.numbers())

    def member(self):
        rule, place = self.number(), self.number(".")
        self.take(" up ")
        up = self.arm()
        self.take(" low ")
        return Member(rule, place, up, self.arm())

    def uses(self):
        self.take(" uses ")
        return self.some(self.proof, "; ", "{", "}")

    def proof(self):
        return getattr(self, "read_" + self.match(WORD))()

    def read_cite(self):
        return Node("cite", number=self.number(" "))

    def read_start(self):
        return Node("start")

    def read_empty(self):
        rule = self.number(" ")
        self.take(" ")
        return Node("empty", rule=rule, multipliers=self.numbers())

    def read_unreached(self):
        rule = self.number(" ")
        return Node("unreached", self.uses(), rule=rule)

    def child(self):
        self.take(" (")
        child = self.proof()
        self.take(")")
        return [child]

    def read_never(self):
        return Node("never", self.child())

    def read_weaken(self):
        child = self.child()
        self.take(" to ")
        reader = Reader(self.text, self.at, self.program.names)
        bound = reader.sum()
        self.at = reader.at
        return Node("weaken", child, bound=bound)

    def read_rank(self):
        parts = {"rule": self.number(" ")}
        for word, read in (("set", self.numbers), ("den", self.number), ("forms", lambda: self.some(self.form, "; ")),
                           ("moves", self.lists), ("floor", self.numbers)):
            self.take(f" {word} ")
            parts[word] = read()
        return Node("rank", self.uses(), **parts)

    def read_spread(self):
        self.take(" ")
        member = self.member()
        return Node("spread", self.uses(), members=[member])

    def read_cycle(self):
        self.take(" ")
        members = self.some(self.member, "; ")
        return Node("cycle", self.uses(), members=members)

    def read_cost(self):
        rule = self.number(" ")
        self.take(" ")
        if self.takes("empty "):
            parts = {"by": "empty", "multipliers": self.numbers()}
        elif self.takes("never"):
            parts = {"by": "never"}
        else:
            parts = {"by": "arm", "arm": self.arm()}
        return Node("cost", self.uses(), rule=rule, **parts)

    def gap(self):
        parts = [self.number()]
        for word, read in (("set", self.numbers), ("shut", lambda: self.some(self.place, " ")), ("moves", self.lists),
                           ("floor", self.numbers), ("kept", self.lists)):
            self.take(f" {word} ")
            parts.append(read())
        return Gap(*parts)

    def file(self):
        self.take("koat-proof ")
        self.number()
        self.take("\n")
        lemmas, gaps = [], []
        while self.takes("lemma "):
            lemmas.append(self.proof())
            self.take("\n")
        while self.takes("gap "):
            gaps.append(self.gap())
            self.take("\n")
        self.take("end\n")
        assert self.at == len(self.text)
        return lemmas, gaps


def tree_of(program, text):
    """The lemmas and the gaps of a file."""
    return Text(program, text).file()
