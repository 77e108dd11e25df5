"""A plain slow reading of the section of a proof file of the third form, by its description alone: nothing of the
crates is used.

`section(program, text)` is what a section's text says of a program of `slow_forms.py`, or it raises `Refused` with the
byte and the kind of its first refusal.
"""

from types import SimpleNamespace as Parts

from slow_third_text import NUMBER, Text

COPIES, BRANCHES, NAME_BYTES, CASE_LEVELS = 2000, 100000, 256, 64


class SectionText(Text):
    """Reads a section: copies, and branches with their cases."""

    def __init__(self, program, text):
        super().__init__(text)
        self.symbols, self.rules = [name.decode() for name in program.symbols], len(program.rules) - 1
        self.copies, self.names, self.branches = [], {}, []

    def section(self):
        while not self.copies or self.next() == "copy":
            self.copy()
        while self.next() == "from":
            self.branch()
        return Parts(copies=self.copies, branches=self.branches)

    def copy(self):
        at = self.at
        self.take("copy")
        if len(self.copies) >= COPIES:
            self.note("Limit", at)
        self.take(" ")
        name, at = self.name()
        if name in self.names:
            self.note("BadReference", at)
        if len(name) > NAME_BYTES:
            self.note("Limit", at)
        self.take(" ", "of", " ")
        symbol, at = self.name()
        if symbol not in self.symbols:
            self.note("BadReference", at)
        self.take(" ", "facts", " ")
        facts = self.some(self.integers, "; ")
        self.take("\n")
        self.names.setdefault(name, len(self.copies))
        self.copies.append(Parts(name=name, symbol=symbol.encode(), facts=facts))

    def named_copy(self):
        name, at = self.name()
        if name not in self.names:
            self.note("BadReference", at)
        return self.names.get(name)

    def branch(self):
        at = self.at
        self.take("from")
        if len(self.branches) >= BRANCHES:
            self.note("Limit", at)
        self.take(" ")
        copy = self.named_copy()
        self.take(" ", "rule", " ")
        at = self.at
        rule = self.number(NUMBER)
        if not 1 <= rule <= self.rules:
            self.note("BadReference", at)
        self.take(" ")
        self.branches.append(Parts(copy=copy, rule=rule, cases=self.cases(1)))
        self.take("\n")

    def cases(self, level):
        word = self.next()
        if word not in ("to", "never", "if"):
            self.break_off()
        if level > CASE_LEVELS:
            self.break_off("TooDeep")
        self.take(word, " ")
        if word == "never":
            return Parts(word=word, by=self.numbers())
        if word == "to":
            copy = self.named_copy()
            self.take(" ", "by", " ")
            return Parts(word=word, copy=copy, by=self.some(self.numbers, "; "))
        found = Parts(word=word, test=self.integers())
        self.take(" ", "then", " ", "(")
        found.yes = self.cases(level + 1)
        self.take(")", " ", "else", " ", "(")
        found.no = self.cases(level + 1)
        self.take(")")
        return found


def section(program, text):
    reader = SectionText(program, text)
    return reader.whole(reader.section)
