"""Plain slow readings of the lemmas and the claims of proof files of the third form, by their description alone:
nothing of the crates is used.

`lemmas(symbols, text)` and `claims(text)` are what a part's text says, or they raise `Refused` with the byte and the
kind of its first refusal. A text has a character for each byte.
"""

import re
from types import SimpleNamespace as Parts

KINDS = ["Syntax", "NumberTooLarge", "TooDeep", "BadReference", "Limit"]
NUMBER, NUMBERED, CONSTANT, BASE = 2**56, 2**32 - 1, 2**127 - 1, 2**64 - 1
LINES, BOUND_LEVELS, BOUND_NODES = 100000, 200, 4096
NAME = re.compile(r"[A-Za-z_$][A-Za-z0-9_$'.]*")
DIGITS = re.compile(r"[0-9]+")
LISTED = ("sum", "product", "maximum", "minimum")


class Refused(Exception):
    """The first refusal of a text: its byte and its kind."""


class BreaksOff(Exception):
    """No token can follow."""


class Text:
    """Reads tokens: names, rows of digits, and all other bytes one by one."""

    def __init__(self, text):
        self.text, self.at, self.refusals = text, 0, set()

    def note(self, kind, at):
        self.refusals.add((at, KINDS.index(kind)))

    def break_off(self, kind="Syntax"):
        self.note(kind, self.at)
        raise BreaksOff

    def next(self):
        found = NAME.match(self.text, self.at) or DIGITS.match(self.text, self.at)
        return found.group() if found else self.text[self.at:self.at + 1]

    def take(self, *tokens):
        for token in tokens:
            if self.next() != token:
                self.break_off()
            self.at += len(token)

    def takes(self, *tokens):
        """Whether the first of these tokens comes next; then all of them do."""
        if self.next() != tokens[0]:
            return False
        self.take(*tokens)
        return True

    def name(self):
        name, at = self.next(), self.at
        if not NAME.fullmatch(name):
            self.break_off()
        self.at += len(name)
        return name, at

    def number(self, limit, least=0):
        """A number, which is refused over a limit, and as a reference below a least one."""
        text, at = self.next(), self.at
        if not DIGITS.fullmatch(text) or (text[0] == "0" and len(text) > 1):
            self.break_off()
        if int(text) > limit:
            self.note("NumberTooLarge", at)
        if int(text) < least:
            self.note("BadReference", at)
        self.at += len(text)
        return int(text)

    def integer(self, limit=NUMBER):
        if not self.takes("-"):
            return self.number(limit)
        if self.next() == "0":
            self.break_off()
        return -self.number(limit)

    def some(self, part, between, opens="[", closes="]", least=0):
        """Parts in brackets, with these tokens between them."""
        self.take(opens)
        found = []
        if not least and self.takes(closes):
            return found
        found.append(part())
        while self.takes(*between):
            found.append(part())
        self.take(closes)
        return found

    def numbers(self, limit=NUMBER):
        return self.some(lambda: self.number(limit), " ")

    def integers(self):
        return self.some(self.integer, " ", least=1)

    def whole(self, read):
        """What a reading of the whole text gives."""
        found = None
        try:
            found = read()
            if self.at < len(self.text):
                self.break_off()
        except BreaksOff:
            pass
        if self.refusals:
            at, kind = min(self.refusals)
            raise Refused(at, KINDS[kind])
        return found


class SignedText(Text):
    """Reads lines of lemmas, or of claims."""

    def __init__(self, text, symbols=()):
        super().__init__(text)
        self.symbols, self.nodes = symbols, 0

    def lines(self, word, read):
        found = []
        while self.next() == word:
            if len(found) >= LINES:
                self.note("Limit", self.at)
            self.take(word, " ")
            found.append(read())
            self.take("\n")
        return found

    def count(self, at):
        self.nodes += 1
        if self.nodes > BOUND_NODES:
            self.note("Limit", at)

    def to_bound(self):
        self.take(" ", "to", " ")
        self.nodes = 0
        return self.bound(1)

    def bound(self, level):
        word = self.next()
        is_number = DIGITS.fullmatch(word) and (word == "0" or word[0] != "0")
        if not is_number and word not in LISTED + ("part", "quotient", "root", "power"):
            self.break_off()
        if level > BOUND_LEVELS:
            self.break_off("TooDeep")
        self.count(self.at)
        if is_number:
            return "const", self.number(CONSTANT)
        self.take(word, " ")
        part = lambda: self.bound(level + 1)
        if word == "part":
            return "part", self.polynomial(self.count)
        if word in LISTED:
            return word, tuple(self.some(part, "; ", "(", ")", least=int(word == "minimum")))
        if word == "power":
            base = self.number(BASE)
            self.take(" ", "to", " ")
        self.take("(")
        inner = part()
        self.take(")")
        if word == "root":
            return "root", inner
        if word == "power":
            return "power", base, inner
        self.take(" ", "by", " ")
        return "quotient", inner, self.number(CONSTANT)

    def polynomial(self, count=lambda at: None):
        return tuple(self.some(lambda: self.term(count), "; "))

    def term(self, count):
        count(self.at)
        coefficient, variables = self.integer(), []
        while self.next() == "*":
            self.take("*")
            count(self.at)
            variables.append(self.number(NUMBERED, 1) - 1)
        return coefficient, tuple(variables)

    def numbered(self):
        return self.number(NUMBERED)

    def certificate(self):
        return self.some(self.summand, "; ", "{", "}")

    def summand(self):
        is_negative = self.next() == "-"
        times = self.integer()
        self.take(" ")
        word = self.next()
        if word not in (("zero",) if is_negative else ("row", "rows", "zero")):
            self.break_off()
        self.take(word, " ")
        rows = [self.number(NUMBERED, 1)]
        if word != "row":
            self.take(" ")
            rows.append(self.number(NUMBERED, 1))
        if word == "zero":
            self.take(" ", "by", " ")
            return Parts(word=word, times=times, rows=rows, variable=self.number(NUMBERED, 1) - 1)
        return Parts(word=word, times=times, rows=rows)

    def functions(self):
        self.take("functions", " ")
        return self.some(self.function, "; ")

    def function(self):
        name, at = self.name()
        if name not in self.symbols:
            self.note("BadReference", at)
        self.take(" ")
        return name, self.polynomial()

    def table(self):
        functions = self.functions()
        self.take(" ", "den", " ")
        den = self.number(NUMBER)
        self.take(" ", "moves", " ")
        return Parts(functions=functions, den=den, moves=self.some(self.move, "; "))

    def move(self):
        rule = self.numbered()
        self.take(" ")
        word = self.next()
        if word not in ("keep", "reset"):
            self.break_off()
        self.take(word, " ")
        gain, cited = self.polynomial(), None
        self.take(" ")
        if self.takes("by", " "):
            cited = self.numbered()
            self.take(" ")
        return Parts(rule=rule, keeps=word == "keep", gain=gain, cited=cited, certificate=self.certificate())

    def blank(self, part):
        """A blank, and what a part behind it is."""
        self.take(" ")
        return part()

    def pay(self):
        return Parts(rule=self.numbered(), amount=self.blank(self.polynomial), floor=self.blank(self.certificate),
                     positive=self.blank(self.certificate))

    def charge(self):
        return self.numbered(), self.blank(self.polynomial)

    def lemma(self):
        kind = self.next()
        if kind not in ("fall", "peak", "row", "times", "least", "add", "among", "sized", "phases"):
            self.break_off()
        self.take(kind, " ")
        found = getattr(self, "lemma_" + kind)()
        found.kind, found.bound = kind, self.to_bound()
        return found

    def lemma_fall(self):
        table = self.table()
        self.take(" ", "pays", " ")
        return Parts(table=table, pays=self.some(self.pay, "; "))

    def lemma_peak(self):
        return Parts(rule=self.numbered(), form=self.blank(self.polynomial), floor=self.blank(self.certificate),
                     table=self.blank(self.table))

    def lemma_row(self):
        found = Parts(rule=self.numbered(), form=self.blank(self.polynomial), floor=self.blank(self.certificate))
        self.take(" ", "most", " ")
        found.most = self.number(NUMBER)
        return found

    def lemma_times(self):
        rule, form = self.charge()
        self.take(" ", "by", " ")
        return Parts(rule=rule, form=form, cited=[self.numbered(), self.blank(self.numbered)])

    def lemma_least(self):
        return Parts(cited=[self.numbered(), self.blank(self.numbered)])

    lemma_add = lemma_least

    def lemma_among(self):
        charges = self.some(self.charge, "; ")
        self.take(" ", "by", " ")
        return Parts(charges=charges, cited=[self.numbered()])

    def lemma_sized(self):
        rule, form = self.charge()
        self.take(" ", "by", " ")
        return Parts(rule=rule, form=form, cited=self.numbers(NUMBERED))

    def lemma_phases(self):
        found = Parts(firsts=self.functions(), seconds=self.blank(self.functions))
        self.take(" ", "den", " ")
        found.den = self.number(NUMBER)
        self.take(" ", "moves", " ")
        found.moves = self.some(lambda: Parts(rule=self.numbered(), first=self.blank(self.certificate),
                                              second=self.blank(self.certificate)), "; ")
        self.take(" ", "counts", " ")
        found.counts = self.some(lambda: Parts(rule=self.numbered(), floor=self.blank(self.certificate)), "; ")
        return found

    def claim(self):
        kind = self.next()
        if kind not in ("time", "cost", "total", "above", "below"):
            self.break_off()
        self.take(kind, " ")
        found = Parts(kind=kind, rule=0, place=0)
        if kind != "total":
            found.rule = self.numbered()
            if kind in ("above", "below"):
                self.take(".")
                found.place = self.numbered()
            self.take(" ")
        self.take("by", " ")
        if self.next() == "[" or kind in ("above", "below"):
            found.each, found.bound = self.numbers(NUMBERED), self.to_bound()
        else:
            found.each, found.one = None, self.numbered()
        return found


def lemmas(symbols, text):
    reader = SignedText(text, symbols)
    return reader.whole(lambda: reader.lines("signed", reader.lemma))


def claims(text):
    reader = SignedText(text)
    return reader.whole(lambda: reader.lines("claim", reader.claim))
