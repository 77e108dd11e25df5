"""Proof files as trees, as docs/proof-format.md describes them. koat alone says whether one is accepted.

Bounds are kept as their text.
"""

import re
from dataclasses import dataclass, field
from typing import List, NamedTuple, Optional, Tuple

NAME = re.compile(r"[A-Za-z_$][A-Za-z0-9_$'.]*")
NUMBER = re.compile(r"-?[0-9]+")
WORD = re.compile(r"[a-z]+")


class ProofError(ValueError):
    """A text that can't be read as a proof file here."""


class Arm(NamedTuple):
    """A form over left arguments, coefficients and then the constant, over a denominator; none for a polynomial."""

    denominator: int
    form: Optional[Tuple]
    multipliers: Tuple = ()


class Member(NamedTuple):
    rule: int
    place: int
    up: Arm
    low: Arm


class Point(NamedTuple):
    """A point of a rule in a gap, as reports have it."""

    rule: int
    parts: Tuple
    denominator: int


@dataclass
class Node:
    """A node: its kind, its rule where it has one, what it rests on, and what else its kind has."""

    kind: str
    rule: int = 0
    uses: List = field(default_factory=list)
    number: int = 0
    denominator: int = 1
    rules: List = field(default_factory=list)
    forms: List = field(default_factory=list)
    members: List = field(default_factory=list)
    bound: str = ""
    by: str = ""
    arm: Optional[Arm] = None
    moves: List = field(default_factory=list)
    multipliers: List = field(default_factory=list)


@dataclass
class Gap:
    rule: int
    rules: List
    shut: List
    moves: List
    floor: Point
    kept: List


@dataclass
class Proof:
    lemmas: List
    gaps: List


def read(text):
    """The lemmas and gaps of a proof file that koat wrote or read."""
    return Reader(text).file()


class Reader:
    def __init__(self, text):
        self.text, self.at = text, 0

    def takes(self, words):
        found = self.text.startswith(words, self.at)
        self.at += len(words) if found else 0
        return found

    def take(self, words):
        if not self.takes(words):
            raise ProofError(f"no {words.strip()!r} at byte {self.at}")

    def match(self, pattern):
        found = pattern.match(self.text, self.at)
        if not found:
            raise ProofError(f"something else stands at byte {self.at}")
        self.at = found.end()
        return found.group()

    def number(self, before=""):
        self.take(before)
        return int(self.match(NUMBER))

    def some(self, part, between, opening="[", closing="]"):
        self.take(opening)
        found = []
        while not self.takes(closing):
            if found:
                self.take(between)
            found.append(part())
        return found

    def numbers(self, before=""):
        self.take(before)
        return self.some(self.number, " ")

    def file(self):
        self.take("koat-proof ")
        self.number()
        self.take("\n")
        lemmas, gaps = [], []
        while self.takes("lemma "):
            lemmas.append(self.node())
            self.take("\n")
        while self.takes("gap "):
            gaps.append(self.gap())
            self.take("\n")
        self.take("end\n")
        return Proof(lemmas, gaps)

    def node(self):
        kind = self.match(WORD)
        if kind not in NODES:
            raise ProofError(f"no node is called {kind}")
        node = Node(kind)
        NODES[kind](self, node)
        return node

    def uses(self, node):
        self.take(" uses ")
        node.uses = self.some(self.node, "; ", "{", "}")

    def child(self, node):
        self.take(" (")
        node.uses = [self.node()]
        self.take(")")

    def cite(self, node):
        node.number = self.number(" ")

    def start(self, node):
        pass

    def empty(self, node):
        node.rule = self.number(" ")
        node.multipliers = self.numbers(" ")

    def unreached(self, node):
        node.rule = self.number(" ")
        self.uses(node)

    def never(self, node):
        self.child(node)

    def weaken(self, node):
        self.child(node)
        self.take(" to ")
        node.bound = self.bound()

    def bound(self):
        """The text up to what ends a bound: a bracket that closes none of its own, `;`, `}` or the line's end."""
        begun, depth = self.at, 0
        while self.at < len(self.text) and self.text[self.at] not in ";}\n" and (depth or self.text[self.at] != ")"):
            depth += {"(": 1, ")": -1}.get(self.text[self.at], 0)
            self.at += 1
        return self.text[begun:self.at]

    def form(self):
        name = self.match(NAME)
        return name, tuple(self.numbers(" "))

    def rank(self, node):
        node.rule = self.number(" ")
        node.rules = self.numbers(" set ")
        node.denominator = self.number(" den ")
        self.take(" forms ")
        node.forms = self.some(self.form, "; ")
        self.take(" moves ")
        node.moves = self.some(self.numbers, "; ")
        node.multipliers = self.numbers(" floor ")
        self.uses(node)

    def arm(self):
        if self.takes("poly"):
            return Arm(1, None)
        denominator = self.number("lin ")
        form = tuple(self.numbers(" "))
        return Arm(denominator, form, tuple(self.numbers(" ")))

    def member(self):
        rule, place = self.number(), self.number(".")
        self.take(" up ")
        up = self.arm()
        self.take(" low ")
        return Member(rule, place, up, self.arm())

    def spread(self, node):
        self.take(" ")
        node.members = [self.member()]
        self.uses(node)

    def cycle(self, node):
        self.take(" ")
        node.members = self.some(self.member, "; ")
        self.uses(node)

    def cost(self, node):
        node.rule = self.number(" ")
        self.take(" ")
        if self.takes("never"):
            node.by = "never"
        elif self.takes("empty"):
            node.by = "empty"
            node.multipliers = self.numbers(" ")
        else:
            node.by, node.arm = "arm", self.arm()
        self.uses(node)

    def place(self):
        symbol, _, place = self.match(NAME).rpartition(".")
        return {"symbol": symbol, "place": int(place)}

    def gap(self):
        rule = self.number()
        rules = self.numbers(" set ")
        self.take(" shut ")
        shut = self.some(self.place, " ")
        self.take(" moves ")
        moves = self.some(self.numbers, "; ")
        floor = self.numbers(" floor ")
        self.take(" kept ")
        kept = self.some(self.numbers, "; ")
        points = [[_point(*it) for it in zip(rules, found)] for found in (moves, kept)]
        return Gap(rule, rules, shut, points[0], _point(rule, floor), points[1])


def nodes(lemma):
    """The nodes of a lemma as the checker numbers them: each behind those that it rests on."""
    return [found for it in lemma.uses for found in nodes(it)] + [lemma]


def _point(rule, numbers):
    return Point(rule, tuple(numbers[:-1]), numbers[-1] if numbers else 0)


NODES = {"cite": Reader.cite, "start": Reader.start, "empty": Reader.empty, "unreached": Reader.unreached,
         "never": Reader.never, "weaken": Reader.weaken, "rank": Reader.rank, "spread": Reader.spread,
         "cycle": Reader.cycle, "cost": Reader.cost}
