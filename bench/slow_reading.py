"""A plain slow reading of program texts, by the format alone: nothing of the crates is used.

`Reading(text).verdict()` is `taken`, or the line that `koat analyse` writes of the text's first refusal. Every refusal
that stands against the text up to where it breaks off is noted, and then the one at the least byte is taken, and there
the one that comes first among the kinds. Where it is taken, `rules` has its rules. Expressions are read by recursion: a
caller may have to raise Python's limit.
"""

import re
from collections import Counter
from typing import NamedTuple

KINDS = ["NotAscii", "Syntax", "MissingSection", "RepeatedSection", "ManyTargets", "LeftNotVariable", "LeftRepeated",
         "ArityDiffers", "NumberTooLarge", "Limit Rules", "Limit Arity", "Limit Variables", "Limit Atoms", "Limit Name",
         "Limit Tokens", "Limit Terms", "Limit Degree", "StartUnknown", "Disjunction"]
RULES, PLACES, VARIABLES, ATOMS, NAME, TOKENS, TERMS, DEGREE = 1000, 32, 64, 64, 256, 1024, 64, 8
GREATEST = 2**63 - 1

TOKEN = re.compile(rb"(?P<name>[A-Za-z_$][A-Za-z0-9_$'.]*)|(?P<number>[0-9]+)"
                   rb"|(?P<mark>:\|:|->|-\{|\}>|&&|/\\|\|\||>=|<=|==|[(),\[\]+*^><=-])|(?P<strange>[\x80-\xff])")
RELATIONS = (">=", ">", "<=", "<", "=", "==")
BEGINS_EXPRESSION = ("name", "number", "(", "-")


class Token(NamedTuple):
    """What a token is: `name`, `number`, the mark itself, `strange` over 127, `wrong` where none begins, or `end`."""

    kind: str
    text: bytes
    at: int
    end: int


def token_at(text, at):
    """The token that begins at or behind a byte."""
    while text[at:at + 1] in (b" ", b"\t", b"\r", b"\n"):
        at += 1
    if at == len(text):
        return Token("end", b"", at, at)
    match = TOKEN.match(text, at)
    if match is None:
        return Token("wrong", text[at:at + 1], at, at + 1)
    kind = match.group().decode() if match.lastgroup == "mark" else match.lastgroup
    return Token(kind, match.group(), at, match.end())


class Rule(NamedTuple):
    """A rule: its variables in order, of which the first `left` are the left side's; expressions are trees; an atom has
    a left side, a relation and a right side, or is none where it always holds; so is a cost that isn't written."""

    source: bytes
    left: int
    variables: list
    target: bytes
    updates: list
    atoms: list
    cost: tuple


class Unexpanded(Exception):
    """Why an expression can't be expanded."""


def within_limits(polynomial, exponent):
    """The polynomial, where its coefficients, its monomials and then its degree and the exponent keep their limits."""
    if any(abs(coefficient) > GREATEST for coefficient in polynomial.values()):
        raise Unexpanded("NumberTooLarge")
    if len(polynomial) > TERMS:
        raise Unexpanded("Limit Terms")
    if exponent > DEGREE or any(len(monomial) > DEGREE for monomial in polynomial):
        raise Unexpanded("Limit Degree")
    return polynomial


def sum_of(p, q, sign):
    """One polynomial and the other with a sign; a monomial is the sorted tuple of its variables."""
    total = Counter(p)
    for monomial, coefficient in q.items():
        total[monomial] += sign * coefficient
    return {monomial: coefficient for monomial, coefficient in total.items() if coefficient}


def product_of(p, q):
    total = Counter()
    for monomial, coefficient in p.items():
        for other, factor in q.items():
            total[tuple(sorted(monomial + other))] += coefficient * factor
    return {monomial: coefficient for monomial, coefficient in total.items() if coefficient}


def expanded(tree):
    """The polynomial of an expression: each operand, each lower power and then the whole is looked at."""
    word, *parts = tree
    if word == "number":
        return within_limits({(): parts[0]} if parts[0] else {}, 1)
    if word == "variable":
        return {(parts[0],): 1}
    if word == "opposite":
        return within_limits(sum_of({}, expanded(parts[0]), -1), 1)
    if word == "^":
        base, power = expanded(parts[0]), {(): 1}
        for exponent in range(1, parts[1] + 1):
            power = within_limits(product_of(power, base), exponent)
        return power
    left, right = expanded(parts[0]), expanded(parts[1])
    return within_limits(product_of(left, right) if word == "*" else sum_of(left, right, 1 if word == "+" else -1), 1)


class BreaksOff(Exception):
    """No token can follow."""


class Reading:
    """Reads a text by the grammar, token by token, and notes each refusal as its byte and the number of its kind."""

    def __init__(self, text):
        self.text, self.refusals = text, set()
        self.behind = 0  # the byte behind the last token
        self.starts, self.sections, self.arities, self.sources, self.rules = [], set(), {}, set(), []
        self.go_on_at(0)

    def note(self, kind, at):
        self.refusals.add((at, KINDS.index(kind)))

    def note_if(self, test, kind, at=None):
        if test:
            self.note(kind, self.next.at if at is None else at)

    def go_on_at(self, at):
        self.next = token_at(self.text, at)
        self.note_if(self.is_name() and len(self.next.text) > NAME, "Limit Name")

    def break_off(self, kind="Syntax"):
        self.note({"strange": "NotAscii", "||": "Disjunction"}.get(self.next.kind, kind), self.next.at)
        raise BreaksOff

    def is_name(self):
        return self.next.kind == "name"

    def is_next(self, *kinds):
        return self.next.kind in kinds

    def following(self):
        """What the token behind the next one is."""
        return token_at(self.text, self.next.end).kind

    def take(self, kind=None, text=None):
        """The next token, which must be of a kind or say a text, where one is given."""
        token = self.next
        if (kind is not None and token.kind != kind) or (text is not None and token.text != text):
            self.break_off()
        self.behind = token.end
        self.go_on_at(token.end)
        return token

    def verdict(self):
        """What is said of the text: `taken`, or its first refusal."""
        try:
            self.whole_text()
        except BreaksOff:
            pass
        if not self.refusals:
            return "taken"
        at, kind = min(self.refusals)
        return f"program refused at {at}: {KINDS[kind]}"

    def whole_text(self):
        while not self.is_next("end"):
            self.section()
        if self.refusals:
            return
        if not self.starts or "RULES" not in self.sections:
            self.note("MissingSection", len(self.text))
        elif self.starts[0].text not in self.sources:
            self.note("StartUnknown", self.starts[0].at)

    def section(self):
        opening = self.take("(")
        if not self.is_name():
            self.break_off()
        word = self.next.text.decode()
        self.note_if(word in self.sections, "RepeatedSection", opening.at)
        if word == "COMMENT":
            self.comment()
            return
        if word not in ("GOAL", "STARTTERM", "VAR", "RULES"):
            self.break_off()
        self.sections.add(word)
        self.take()
        if word == "GOAL":
            self.take("name", b"COMPLEXITY")
        elif word == "STARTTERM":
            self.take("(")
            self.take("name", b"FUNCTIONSYMBOLS")
            self.starts.append(self.take("name"))
            self.take(")")
        while word == "VAR" and self.is_name():
            self.take()
        while word == "RULES" and self.is_name():
            self.rule()
        self.take(")")

    def comment(self):
        at, depth = self.next.end, 1
        while depth and at < len(self.text):
            depth += {b"(": 1, b")": -1}.get(self.text[at:at + 1], 0)
            at += 1
        self.behind = at
        if depth:
            self.next = Token("end", b"", at, at)
            self.break_off()
        self.go_on_at(at)

    def rule(self):
        self.note_if(len(self.rules) >= RULES, "Limit Rules")
        source = self.take("name").text
        self.sources.add(source)
        self.take("(")
        self.variables, self.updates, self.guards = [], [], []
        self.list_of(self.left_argument)
        left = len(self.variables)
        self.close_term(source, left)
        cost = self.arrow()
        within = self.is_next("name") and self.next.text == b"Com_1"
        if within:
            self.take()
            self.take("(")
        if not self.is_name():
            self.break_off()
        if re.fullmatch(rb"Com_[0-9]+", self.next.text) and self.following() == "(":
            self.note("Syntax" if self.next.text == b"Com_1" else "ManyTargets", self.next.at)
        target = self.take().text
        self.take("(")
        self.close_term(target, self.list_of(self.right_argument))
        if within:
            self.take(")")
        self.guard(0 if cost is None else 1)
        self.rules.append(Rule(source, left, self.variables, target, self.updates, self.guards, cost))

    def arrow(self):
        """The cost that the arrow has, which counts as an atom of its rule."""
        if not self.is_next("-{"):
            self.take("->")
            return None
        self.take()
        cost = self.expression()
        self.note_unexpanded([cost])
        self.take("}>")
        return cost

    def list_of(self, argument):
        """How many arguments there are up to the closing bracket."""
        count = 0
        if self.is_next(")"):
            return count
        while True:
            argument(count)
            count += 1
            if not self.is_next(","):
                return count
            self.take()

    def close_term(self, name, arity):
        if not self.is_next(")"):
            self.break_off()
        self.note_if(self.arities.setdefault(name, arity) != arity, "ArityDiffers")
        self.take()

    def left_argument(self, count):
        if not self.is_name():
            self.break_off("LeftNotVariable" if self.is_next(*BEGINS_EXPRESSION) else "Syntax")
        self.note_if(self.following() in ("+", "-", "*", "^"), "LeftNotVariable")
        self.note_if(self.next.text in self.variables, "LeftRepeated")
        self.note_if(count >= PLACES, "Limit Arity")
        self.variables.append(self.take().text)

    def right_argument(self, count):
        self.note_if(count >= PLACES and self.is_next(*BEGINS_EXPRESSION), "Limit Arity")
        self.updates.append(self.expression())
        self.note_unexpanded(self.updates[-1:])

    def note_unexpanded(self, trees):
        """What keeps the first of some expressions from being expanded, at the last byte that was read."""
        try:
            for tree in trees:
                expanded(tree)
        except Unexpanded as error:
            self.note(str(error), self.behind - 1)

    def guard(self, counted):
        if self.is_next(":|:"):
            self.take()
            if not self.is_next(")") and not (self.is_name() and self.following() == "("):
                self.atoms(counted)
        elif self.is_next("["):
            self.take()
            if not self.is_next("]"):
                self.atoms(counted)
            self.take("]")

    def atoms(self, count):
        while True:
            self.note_if(count >= ATOMS and self.is_next(*BEGINS_EXPRESSION), "Limit Atoms")
            self.atom()
            count += 1
            if not self.is_next("&&", "/\\"):
                return
            self.take()

    def atom(self):
        if self.next.text in (b"TRUE", b"true") and self.following() not in ("+", "-", "*", "^", *RELATIONS):
            self.take()
            self.guards.append(None)
            return
        left = self.expression()
        if not self.is_next(*RELATIONS):
            self.break_off()
        relation = self.take().kind
        right = self.expression()
        self.guards.append((left, relation, right))
        up, down = ("-", left, right), ("-", right, left)
        one = ("number", 1)
        self.note_unexpanded({">=": [up], ">": [("-", up, one)], "<=": [down], "<": [("-", down, one)]}
                             .get(relation, [up, down]))

    def expression(self):
        self.count = 0
        return self.sum()

    def take_counted(self):
        """The next token, as one more of an expression."""
        self.note_if(self.count >= TOKENS, "Limit Tokens")
        self.count += 1
        self.note_if(self.is_next("number") and int(self.next.text) > GREATEST, "NumberTooLarge")
        return self.take()

    def sum(self):
        tree = self.product()
        while self.is_next("+", "-"):
            tree = (self.take_counted().kind, tree, self.product())
        return tree

    def product(self):
        tree = self.factor()
        while self.is_next("*"):
            tree = (self.take_counted().kind, tree, self.factor())
        return tree

    def factor(self):
        if self.is_next("-"):
            self.take_counted()
            return ("opposite", self.factor())
        tree = self.base()
        if self.is_next("^"):
            self.take_counted()
            if not self.is_next("number"):
                self.break_off()
            tree = ("^", tree, min(int(self.take_counted().text), DEGREE + 1))
        return tree

    def base(self):
        if not self.is_next(*BEGINS_EXPRESSION):
            self.break_off()
        if self.is_next("number"):
            return ("number", int(self.take_counted().text))
        if self.is_name():
            name = self.next.text
            if name not in self.variables:
                self.note_if(len(self.variables) >= VARIABLES, "Limit Variables")
                self.variables.append(name)
            self.take_counted()
            return ("variable", name)
        self.take_counted()
        tree = self.sum()
        if not self.is_next(")"):
            self.break_off()
        self.take_counted()
        return tree
