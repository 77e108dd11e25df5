"""A plain slow reading of proof files, by the format alone: nothing of the crates is used.

`Reading(program, text).verdict()` is `lemmas N, gaps N, same`, as a file that is taken is printed as the same bytes, or
the first refusal with its byte. Every refusal that stands against the text up to where it breaks off is noted, and then
the one at the least byte is taken, and there the one that comes first among the kinds.
"""

import re
from typing import NamedTuple

KINDS = ["Syntax", "NumberTooLarge", "TooDeep", "BadReference", "Limit"]
LEMMAS, GAPS, LEVELS, BOUND_LEVELS, BOUND_NODES = 100000, 1000, 64, 200, 4096
NUMBER, POINT, CONSTANT, BASE = 2**56, 2**45, 2**127 - 1, 2**64 - 1
NAME = re.compile(r"[A-Za-z_$][A-Za-z0-9_$'.]*")
DIGITS = re.compile(r"[0-9]+")


class Program(NamedTuple):
    """The names and places of symbols, the symbol to which each rule leads, and the start names."""

    symbols: list
    places: list
    targets: list
    start_names: list


class BreaksOff(Exception):
    """No token can follow."""


class Bound:
    """Reads the bound that begins at a byte, and notes what stands against it."""

    def __init__(self, text, at, names):
        self.text, self.at, self.names = text, at, names
        self.depth, self.nodes, self.refusals = 0, 0, set()
        self.whole = {"sum": False, "terms": []}

    def note(self, kind, at):
        self.refusals.add((at, KINDS.index(kind)))

    def breaks_off(self):
        self.note("Syntax", self.at)
        raise BreaksOff

    def token(self):
        """What comes next, with its text: `end` where the bound ends."""
        rest = self.text[self.at:self.at + 1]
        if not rest or rest in ";}\n" or (rest == ")" and self.depth == 0):
            return "end", ""
        name = NAME.match(self.text, self.at)
        if name:
            if self.text[name.end():name.end() + 1] == "(":
                return ("max", "max(") if name.group() == "max" else ("wrong", name.group())
            return "name", name.group()
        digits = DIGITS.match(self.text, self.at)
        if digits:
            text = digits.group()
            return ("wrong", text) if text[0] == "0" and len(text) > 1 else ("number", text)
        return rest, rest

    def count(self, nodes, at):
        self.nodes += nodes
        if self.nodes > BOUND_NODES:
            self.note("Limit", at)

    def read(self):
        """The refusals of the bound; reading then stands where it ends."""
        try:
            self.bound(self.whole)
            if self.token()[0] != "end":
                self.breaks_off()
        except BreaksOff:
            pass
        self.mark(self.whole, 1)
        while self.token()[0] != "end":
            kind, text = self.token()
            self.depth += 1 if kind in ("max", "(") else -1 if kind == ")" else 0
            self.at += len(text)
        return self.refusals

    def bound(self, tree):
        """Terms joined by ` + `."""
        while True:
            term = {"product": False, "factors": []}
            tree["terms"].append(term)
            self.term(term)
            if self.token()[0] != " ":
                return
            if not self.can_end(term):
                self.breaks_off()
            if not tree["sum"]:
                tree["sum"] = True
                if not tree.get("counted"):
                    self.count(1, self.at)
            for mark in " + ":
                if self.token()[0] != mark:
                    self.breaks_off()
                self.at += 1

    @staticmethod
    def can_end(term):
        factors = term["factors"]
        return not (len(factors) == 1 and factors[0]["kind"] == "sum")

    def product(self, term, at):
        if not term["product"]:
            term["product"] = True
            self.count(1, at)

    def term(self, term):
        """Factors joined by `*`."""
        while True:
            self.factor(term)
            if self.token()[0] != "*":
                return
            self.product(term, self.at)
            self.at += 1

    def number(self, text, base):
        value = int(text)
        if base and value < 2:
            self.note("Syntax", self.at)
        if value > CONSTANT or (base and value > BASE):
            self.note("NumberTooLarge", self.at)
        return value

    def variable(self, text, at):
        if text not in self.names:
            self.note("BadReference", at)

    def factor(self, term):
        kind, text = self.token()
        at, factors = self.at, term["factors"]
        if kind == "name":
            before = factors[-1] if factors else None
            if text in self.names and before and before["kind"] == "run" and before["name"] == text:
                self.breaks_off()
            self.variable(text, at)
            factors.append({"kind": "run", "name": text, "at": at})
            self.count(1, at)
            self.at += len(text)
            if self.token()[0] == "^":
                self.at += 1
                kind, text = self.token()
                if kind != "number" or int(text) < 2:
                    self.breaks_off()
                self.number(text, False)
                self.product(term, self.at)
                self.count(int(text) - 1, self.at)
                self.at += len(text)
        elif kind == "number":
            base = self.text[at + len(text):at + len(text) + 1] == "^"
            value = self.number(text, base)
            if base and value < 2:
                raise BreaksOff
            factors.append({"kind": "leaf", "at": at})
            self.count(1, at)
            self.at += len(text)
            if base:
                self.at += 1
                self.exponent(factors[-1])
        elif kind == "max":
            tree = {"kind": "max", "at": at, "parts": []}
            factors.append(tree)
            self.count(1, at)
            self.opened(4)
            self.arguments(tree)
        elif kind == "(":
            self.product(term, at)
            inside = {"sum": False, "terms": [], "counted": True}
            factors.append({"kind": "sum", "at": at, "inside": inside})
            self.count(1, at)
            self.opened(1)
            self.bound(inside)
            if self.token()[0] != ")" or not inside["sum"] or not self.can_end(inside["terms"][-1]):
                self.breaks_off()
            self.closed()
        else:
            self.breaks_off()

    def opened(self, length):
        self.depth += 1
        self.at += length

    def closed(self):
        self.at += 1
        self.depth -= 1

    def exponent(self, power):
        kind, text = self.token()
        inside = {"sum": False, "terms": [{"product": False, "factors": []}]}
        power["kind"], power["inside"] = "power", inside
        if kind == "number":
            self.number(text, False)
            inside["terms"][0]["factors"].append({"kind": "leaf", "at": self.at})
            self.count(1, self.at)
            self.at += len(text)
        elif kind == "name":
            self.variable(text, self.at)
            inside["terms"][0]["factors"].append({"kind": "leaf", "at": self.at})
            self.count(1, self.at)
            self.at += len(text)
        elif kind == "(":
            inside["terms"] = []
            self.opened(1)
            self.bound(inside)
            terms = inside["terms"]
            leaf = len(terms) == 1 and not terms[0]["product"] and terms[0]["factors"][0]["kind"] in ("leaf", "run")
            if self.token()[0] != ")" or leaf or not self.can_end(terms[-1]):
                self.breaks_off()
            self.closed()
        else:
            self.breaks_off()

    def arguments(self, tree):
        while True:
            part = {"sum": False, "terms": []}
            tree["parts"].append(part)
            self.bound(part)
            terms, mark = part["terms"], self.token()[0]
            maximum = len(terms) == 1 and not terms[0]["product"] and terms[0]["factors"][0]["kind"] == "max"
            if mark not in ",)" or maximum or not self.can_end(terms[-1]):
                self.breaks_off()
            if mark == ")":
                if len(tree["parts"]) == 1:
                    self.breaks_off()
                return self.closed()
            self.at += 1
            if self.token()[0] != " ":
                self.breaks_off()
            self.at += 1

    def mark(self, tree, level):
        """Notes each part that is too deep, in the tree as far as it was read."""
        level += 1 if tree["sum"] and not tree.get("counted") else 0
        for term in tree["terms"]:
            inner = level + (1 if term["product"] else 0)
            for factor in term["factors"]:
                if inner > BOUND_LEVELS:
                    self.note("TooDeep", factor["at"])
                if "inside" in factor:
                    self.mark(factor["inside"], inner + 1)
                for part in factor.get("parts", []):
                    self.mark(part, inner + 1)


class Reading:
    """Reads a proof file of a program, and notes each refusal as its byte and the number of its kind."""

    def __init__(self, program, text):
        self.program, self.text, self.at = program, text, 0
        self.refusals, self.lemmas, self.gaps, self.priced, self.paid = set(), 0, 0, False, False

    def note(self, kind, at):
        self.refusals.add((at, KINDS.index(kind)))

    def breaks_off(self):
        self.note("Syntax", self.at)
        raise BreaksOff

    def verdict(self):
        try:
            self.file()
        except BreaksOff:
            pass
        if self.refusals:
            at, kind = min(self.refusals)
            return f"{KINDS[kind]} at {at}"
        return f"lemmas {self.lemmas}, gaps {self.gaps}, same"

    def next(self):
        """The token that comes next."""
        if self.at == 0 and self.text.startswith("koat-proof"):
            if not re.match(r"[A-Za-z0-9_$'.]", self.text[10:11]):
                return "koat-proof"
        found = NAME.match(self.text, self.at) or DIGITS.match(self.text, self.at)
        return found.group() if found else self.text[self.at:self.at + 1]

    def take(self, *tokens):
        for token in tokens:
            if self.next() != token:
                self.breaks_off()
            self.at += len(token)

    def number(self, limit):
        """A number with its byte, which is refused over a limit."""
        text, at = self.next(), self.at
        if not (text.isascii() and text.isdigit()) or (text[0] == "0" and len(text) > 1):
            self.breaks_off()
        self.at += len(text)
        if int(text) > limit:
            self.note("NumberTooLarge", at)
        return int(text), at

    def rule(self, limit):
        value, at = self.number(limit)
        if not 1 <= value <= len(self.program.targets):
            self.note("BadReference", at)
        return value

    def listed(self, part, between, some=False):
        """Parts in square brackets, with these tokens between them."""
        self.take("[")
        if self.next() == "]" and not some:
            return self.take("]")
        part()
        while self.next() == between[0]:
            self.take(*between)
            part()
        return self.take("]")

    def numbers(self, limit=NUMBER):
        self.listed(lambda: self.number(limit), " ")

    def rules(self, limit):
        self.listed(lambda: self.rule(limit), " ")

    def integer(self):
        if self.next() == "-":
            self.take("-")
            if self.next() == "0":
                self.breaks_off()
        self.number(NUMBER)

    def integers(self):
        self.listed(self.integer, " ", True)

    def point(self):
        """Parts with signs, and a last number without one."""
        self.take("[")
        while True:
            signed = self.next() == "-"
            if signed:
                self.take("-")
                if self.next() == "0":
                    self.breaks_off()
            self.number(POINT)
            if signed or self.next() == " ":
                self.take(" ")
            else:
                return self.take("]")

    def file(self):
        self.take("koat-proof", " ")
        self.priced = self.next() == "2"
        self.take("2" if self.priced else "1", "\n")
        while self.next() == "lemma":
            if self.lemmas == LEMMAS:
                self.note("Limit", self.at)
            self.take("lemma", " ")
            self.proof(1)
            self.take("\n")
            self.lemmas += 1
        while self.next() == "gap":
            if self.gaps == GAPS:
                self.note("Limit", self.at)
            self.take("gap", " ")
            self.gap()
            self.take("\n")
            self.gaps += 1
        if self.next() == "end" and self.priced and not self.paid:
            self.breaks_off()
        self.take("end", "\n")
        if self.at < len(self.text):
            self.breaks_off()

    def proof(self, level):
        word, at = self.next(), self.at
        if word not in ("cite", "start", "empty", "unreached", "never", "rank", "spread", "cycle", "weaken", "cost"):
            self.breaks_off()
        if word == "cost" and not self.priced:
            self.breaks_off()
        if level > LEVELS:
            self.note("TooDeep", at)
            raise BreaksOff
        self.take(word)
        getattr(self, "proof_" + word)(level)

    def uses(self, level):
        self.take(" ", "uses", " ", "{")
        if self.next() == "}":
            return self.take("}")
        self.proof(level + 1)
        while self.next() == ";":
            self.take(";", " ")
            self.proof(level + 1)
        return self.take("}")

    def proof_cite(self, level):
        self.take(" ")
        value, at = self.number(NUMBER)
        if not 1 <= value <= self.lemmas:
            self.note("BadReference", at)

    def proof_start(self, level):
        pass

    def proof_empty(self, level):
        self.take(" ")
        self.rule(NUMBER)
        self.take(" ")
        self.numbers()

    def proof_unreached(self, level):
        self.take(" ")
        self.rule(NUMBER)
        self.uses(level)

    def proof_never(self, level):
        self.take(" ", "(")
        self.proof(level + 1)
        self.take(")")

    def form(self):
        name, at = self.next(), self.at
        if not NAME.fullmatch(name):
            self.breaks_off()
        if name not in self.program.symbols:
            self.note("BadReference", at)
        self.at += len(name)
        self.take(" ")
        self.integers()

    def proof_rank(self, level):
        self.take(" ")
        self.rule(NUMBER)
        self.take(" ", "set", " ")
        self.rules(NUMBER)
        self.take(" ", "den", " ")
        self.number(NUMBER)
        self.take(" ", "forms", " ")
        self.listed(self.form, "; ", True)
        self.take(" ", "moves", " ")
        self.listed(self.numbers, "; ", True)
        self.take(" ", "floor", " ")
        self.numbers()
        self.uses(level)

    def arm(self):
        if self.next() == "poly":
            return self.take("poly")
        self.take("lin", " ")
        self.number(NUMBER)
        self.take(" ")
        self.integers()
        self.take(" ")
        return self.numbers()

    def member(self):
        rule = self.rule(NUMBER)
        self.take(".")
        value, at = self.number(NUMBER)
        targets, places = self.program.targets, self.program.places
        if not (1 <= rule <= len(targets) and 1 <= value <= places[targets[rule - 1]]):
            self.note("BadReference", at)
        self.take(" ", "up", " ")
        self.arm()
        self.take(" ", "low", " ")
        self.arm()

    def proof_spread(self, level):
        self.take(" ")
        self.member()
        self.uses(level)

    def proof_cycle(self, level):
        self.take(" ")
        self.listed(self.member, "; ", True)
        self.uses(level)

    def proof_weaken(self, level):
        self.take(" ", "(")
        self.proof(level + 1)
        self.take(")", " ", "to", " ")
        bound = Bound(self.text, self.at, self.program.start_names)
        if bound.token()[0] == "end":
            self.breaks_off()
        self.refusals |= bound.read()
        self.at = bound.at

    def proof_cost(self, level):
        self.paid = True
        self.take(" ")
        self.rule(NUMBER)
        self.take(" ")
        if self.next() == "empty":
            self.take("empty", " ")
            self.numbers()
        elif self.next() == "never":
            self.take("never")
        else:
            self.arm()
        self.uses(level)

    def place(self):
        """A place that is shut: what stands behind the last dot is its number, where it is digits alone."""
        run, at = self.next(), self.at
        if not NAME.fullmatch(run):
            self.breaks_off()
        name, dot, behind = run.rpartition(".")
        numbered = dot and (not behind or (behind.isascii() and behind.isdigit()))
        if not numbered:
            name = run
        if name not in self.program.symbols:
            self.note("BadReference", at)
            raise BreaksOff
        at += len(name) + (1 if numbered else 0)
        if not numbered or not behind or (behind[0] == "0" and len(behind) > 1):
            self.note("Syntax", at)
            raise BreaksOff
        if int(behind) > POINT:
            self.note("NumberTooLarge", at)
        if not 1 <= int(behind) <= self.program.places[self.program.symbols.index(name)]:
            self.note("BadReference", at)
        self.at += len(run)

    def gap(self):
        self.rule(POINT)
        self.take(" ", "set", " ")
        self.rules(POINT)
        self.take(" ", "shut", " ")
        self.listed(self.place, " ")
        self.take(" ", "moves", " ")
        self.listed(self.point, "; ", True)
        self.take(" ", "floor", " ")
        self.point()
        self.take(" ", "kept", " ")
        self.listed(self.point, "; ", True)
