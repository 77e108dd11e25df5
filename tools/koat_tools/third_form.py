"""Proof files of the third form as trees, as docs/proof-format.md describes them: a section that spells a refined program,
a plain part, signed lemmas and claims. koat alone says whether one is accepted."""

import re
from dataclasses import dataclass, field
from typing import List, NamedTuple, Optional, Tuple, Union

from . import bounds, proofs
from .proofs import NAME, WORD, ProofError

FIRST = "koat-proof 3\n"
# A word at the beginning of a line.
FIRST_WORD = re.compile(r"[A-Za-z0-9_$'.]*")


class Copy(NamedTuple):
    """A symbol of the refined program: its name, the symbol that it is a copy of, and forms that are at least 0 there."""

    name: str
    of: str
    facts: List


class End(NamedTuple):
    """Where a rule leads from a copy: to a copy, or nowhere."""

    target: Optional[str]


class Choice(NamedTuple):
    """Where it leads by whether a form over the rule's left and free variables is at least 0."""

    form: List
    then: Union[End, "Choice"]
    other: Union[End, "Choice"]


class Branch(NamedTuple):
    copy: str
    rule: int
    case: Union[End, Choice]


class Summand(NamedTuple):
    """What a certificate takes, and how often: a row, two rows multiplied, or a variable times a row."""

    number: int
    rows: Tuple
    variable: int = 0


class Move(NamedTuple):
    """What a rule does to the potential: whether it sets it anew, what it adds, and the fact that bounds that."""

    rule: int
    is_reset: bool
    gain: Tuple
    by: int
    certificate: List


class Pay(NamedTuple):
    rule: int
    amount: Tuple
    certificates: List


@dataclass
class Lemma:
    """A signed lemma: its kind, what else its kind has, and its bound. Polynomials are terms of a number and variables."""

    kind: str
    rule: int = 0
    polynomial: Tuple = ()
    functions: List = field(default_factory=list)
    second: List = field(default_factory=list)
    denominator: int = 1
    moves: List = field(default_factory=list)
    pays: List = field(default_factory=list)
    charges: List = field(default_factory=list)
    certificate: List = field(default_factory=list)
    most: int = 0
    by: List = field(default_factory=list)
    bound: object = None


@dataclass
class Claim:
    """A claim: its kind, its rule and place, and the facts that it rests on, one, or one for each copy of the rule."""

    kind: str
    rule: int = 0
    place: int = 0
    by: List = field(default_factory=list)
    is_by_copies: bool = False


@dataclass
class File:
    copies: List[Copy]
    branches: List[Branch]
    plain: proofs.Proof
    lemmas: List[Lemma]
    claims: List[Claim]


def is_third(text):
    """Whether a proof file's text is of the third form."""
    return re.match("koat-proof 3(?![0-9])", text) is not None


def stated(said):
    """What an accepted file states of the program, by the checker's lines: facts that hold at its symbols, and what its
    claims state, in order."""
    facts = [it for it in said[1:] if it.startswith("fact ")]
    return facts, [it for it in said[1:] if not it.startswith(("fact ", "gap "))]


def read(text, program, is_section_alone=False):
    """The parts of a proof file of the third form for a program; what is behind the section can only be read where that is
    accepted."""
    if not text.startswith(FIRST):
        raise ProofError("no line feed behind the first line")
    section, plain, signed, claims = _parts(text[len(FIRST):])
    inputs = program.inputs
    copies = [_Reader(it, inputs).whole("copy ", _Reader.copy) for it in section if it.startswith("copy")]
    branches = [_Reader(it, inputs).whole("from ", _Reader.branch) for it in section if it.startswith("from")]
    if is_section_alone:
        return File(copies, branches, proofs.Proof([], []), [], [])
    lemmas = [_Reader(it, inputs).whole("signed ", _Reader.lemma) for it in signed]
    return File(copies, branches, proofs.read("".join(plain)), lemmas,
                [_Reader(it, inputs).whole("claim ", _Reader.claim) for it in claims])


def _parts(text):
    """The lines of the four parts."""
    lines = text.splitlines(keepends=True)
    words = [FIRST_WORD.match(it).group() for it in lines]
    at = next((at for at, it in enumerate(words) if it not in ("copy", "from")), len(lines))
    end = next((to for to in range(at, len(lines)) if words[to] == "end"), len(lines) - 1) + 1
    last = next((to for to in range(end, len(lines)) if words[to] != "signed"), len(lines))
    return lines[:at], lines[at:end], lines[end:last], lines[last:]


class _Reader(proofs.Reader):
    """A line of a file, over the names of the program's start arguments."""

    def __init__(self, text, inputs):
        super().__init__(text)
        self.inputs = inputs

    def whole(self, word, part):
        self.take(word)
        found = part(self)
        if self.text[self.at:] not in ("\n", ""):
            raise ProofError(f"something else stands at byte {self.at} of a line")
        return found

    def name(self):
        return self.match(NAME)

    def copy(self):
        name = self.name()
        self.take(" of ")
        of = self.name()
        self.take(" facts ")
        return Copy(name, of, self.some(self.numbers, "; "))

    def branch(self):
        name = self.name()
        rule = self.number(" rule ")
        self.take(" ")
        return Branch(name, rule, self.case())

    def case(self):
        if self.takes("never "):
            self.numbers()
            return End(None)
        if self.takes("to "):
            name = self.name()
            self.take(" by ")
            self.some(self.numbers, "; ")
            return End(name)
        form = self.numbers("if ")
        self.take(" then (")
        then = self.case()
        self.take(") else (")
        other = self.case()
        self.take(")")
        return Choice(form, then, other)

    def polynomial(self):
        return tuple(self.some(self.term, "; "))

    def term(self):
        number, variables = self.number(), []
        while self.takes("*"):
            variables.append(self.number())
        return number, tuple(variables)

    def bound(self):
        """A bound, whose names are those of the start arguments."""
        if self.takes("part "):
            named = [(number, tuple(self.input(it) for it in found)) for number, found in self.polynomial()]
            lacks = [None in found for _, found in named]
            return bounds.Part(tuple((0, ()) if lack else it for lack, it in zip(lacks, named)) or ((0, ()),))
        for word, (kind, neutral) in JOINED.items():
            if self.takes(word + " "):
                parts = tuple(self.some(self.bound, "; ", "(", ")"))
                return kind(parts) if parts else bounds.Constant(neutral)
        if self.takes("quotient ("):
            of = self.bound()
            return bounds.Quotient(of, self.number(") by "))
        if self.takes("root ("):
            return bounds.Root(self.closed())
        if self.takes("power "):
            base = self.number()
            self.take(" to (")
            return bounds.Power(base, self.closed())
        return bounds.Constant(self.number())

    def closed(self):
        found = self.bound()
        self.take(")")
        return found

    def input(self, number):
        return self.inputs[number - 1] if 0 < number <= len(self.inputs) else None

    def certificate(self, before=" "):
        self.take(before)
        return self.some(self.summand, "; ", "{", "}")

    def summand(self):
        number = self.number()
        if self.takes(" rows "):
            return Summand(number, (self.number(), self.number(" ")))
        if self.takes(" row "):
            return Summand(number, (self.number(),))
        rows = (self.number(" zero "), self.number(" "))
        return Summand(number, rows, self.number(" by "))

    def lemma(self):
        kind = self.match(WORD)
        if kind not in LEMMAS:
            raise ProofError(f"no signed lemma is called {kind}")
        lemma = Lemma(kind)
        self.take(" ")
        LEMMAS[kind](self, lemma)
        self.take(" to ")
        lemma.bound = self.bound()
        return lemma

    def functions(self):
        self.take("functions ")
        return self.some(self.function, "; ")

    def function(self):
        name = self.name()
        self.take(" ")
        return name, self.polynomial()

    def table(self, lemma):
        lemma.functions = self.functions()
        lemma.denominator = self.number(" den ")
        self.take(" moves ")
        lemma.moves = self.some(self.move, "; ")

    def move(self):
        rule = self.number()
        is_reset = self.takes(" reset ")
        if not is_reset:
            self.take(" keep ")
        gain = self.polynomial()
        by = self.number() if self.takes(" by ") else 0
        return Move(rule, is_reset, gain, by, self.certificate())

    def pay(self):
        rule, amount = self.charge()
        return Pay(rule, amount, [self.certificate(), self.certificate()])

    def charge(self):
        rule = self.number()
        self.take(" ")
        return rule, self.polynomial()

    def fall(self, lemma):
        self.table(lemma)
        self.take(" pays ")
        lemma.pays = self.some(self.pay, "; ")

    def peak(self, lemma):
        lemma.rule, lemma.polynomial = self.charge()
        lemma.certificate = self.certificate()
        self.take(" ")
        self.table(lemma)

    def row(self, lemma):
        lemma.rule, lemma.polynomial = self.charge()
        lemma.certificate = self.certificate()
        lemma.most = self.number(" most ")

    def times(self, lemma):
        lemma.rule, lemma.polynomial = self.charge()
        lemma.by = [self.number(" by "), self.number(" ")]

    def two(self, lemma):
        lemma.by = [self.number(), self.number(" ")]

    def among(self, lemma):
        lemma.charges = self.some(self.charge, "; ")
        lemma.by = [self.number(" by ")]

    def sized(self, lemma):
        lemma.rule, lemma.polynomial = self.charge()
        lemma.by = self.numbers(" by ")

    def phases(self, lemma):
        lemma.functions = self.functions()
        self.take(" ")
        lemma.second = self.functions()
        lemma.denominator = self.number(" den ")
        self.take(" moves ")
        lemma.moves = self.some(lambda: Move(self.number(), False, (), 0, self.certificate() + self.certificate()), "; ")
        self.take(" counts ")
        lemma.pays = self.some(lambda: Pay(self.number(), ((1, ()),), [self.certificate(), []]), "; ")

    def claim(self):
        if self.takes("total by "):
            return self.support(Claim("total"))
        kind = self.match(WORD)
        if kind not in ("time", "cost", "above", "below"):
            raise ProofError(f"no claim is called {kind}")
        claim = Claim(kind, self.number(" "))
        if kind in ("above", "below"):
            claim.place = self.number(".")
        self.take(" by ")
        return self.support(claim)

    def support(self, claim):
        """The facts by which a claim is shown. Its bound is what the checker answers of it."""
        if not self.text.startswith("[", self.at):
            claim.by = [self.number()]
            return claim
        claim.by, claim.is_by_copies = self.numbers(), True
        self.take(" to ")
        self.bound()
        return claim


JOINED = {"sum": (bounds.Sum, 0), "product": (bounds.Product, 1), "maximum": (bounds.Maximum, 0),
          "minimum": (bounds.Minimum, 0)}
LEMMAS = {"fall": _Reader.fall, "peak": _Reader.peak, "row": _Reader.row, "times": _Reader.times, "least": _Reader.two,
          "add": _Reader.two, "among": _Reader.among, "sized": _Reader.sized, "phases": _Reader.phases}
