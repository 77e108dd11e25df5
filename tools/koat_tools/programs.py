"""The text of a program: its tokens with their bytes, its rules as they are written, and positions as line and column.

koat alone says whether a text is a program. What stands here reads texts that koat took, and cuts those that it refused
into tokens. Texts are decoded as Latin-1, so that a position in them is the number of a byte.
"""

import re
from dataclasses import dataclass, field
from typing import Dict, List, NamedTuple, Optional

DEPTHS = {"(": 1, ")": -1}
SECTIONS = ("GOAL", "STARTTERM", "VAR", "RULES", "COMMENT")
NAME = r"[A-Za-z_$][A-Za-z0-9_$'.]*"
TOKEN = re.compile(rf"[ \t\r\n]*(?:(?P<name>{NAME})|(?P<number>[0-9]+)"
                   r"|(?P<sign>->|-\{|\}>|:\|:|&&|/\\|\|\||>=|<=|==|[()\[\],+*^<>=-])|(?P<other>[^ \t\r\n]))")


class ProgramError(ValueError):
    """A text that can't be read as a program here."""


class Token(NamedTuple):
    kind: str
    text: str
    at: int

    @property
    def end(self):
        return self.at + len(self.text)


def tokens(text):
    """The tokens of the text without white space; a comment is one token, also where it isn't closed."""
    found, at, depth = [], 0, 0
    while match := TOKEN.match(text, at):
        number, at = match.lastindex, match.end()
        token = Token(match.lastgroup, match.group(number), match.start(number))
        depth += DEPTHS.get(token.text, 0)
        if token.text == "COMMENT" and depth == 1 and found[-1].text == "(":
            depth = 0
            opening = found.pop()
            at = comment_end(text, at)
            token = Token("comment", text[opening.at:at], opening.at)
        found.append(token)
    return found


def comment_end(text, at):
    """The position behind the bracket that closes the comment whose keyword ends at `at`, or the text's end."""
    depth = 1
    while at < len(text) and depth > 0:
        depth += DEPTHS.get(text[at], 0)
        at += 1
    return at


@dataclass
class Place:
    """A position as people count it: lines and columns from 1, a column being a character."""

    line: int
    column: int
    text: str


def place(data, at):
    """Line, column and line of the byte with the number `at` of these bytes; the end of the bytes is a place too."""
    start = data.rfind(b"\n", 0, at) + 1
    end = data.find(b"\n", at)
    line = data[start:len(data) if end < 0 else end].rstrip(b"\r").decode("utf-8", "replace")
    column = len(data[start:at].decode("utf-8", "replace")) + 1
    return Place(data.count(b"\n", 0, at) + 1, column, line)


def columns(data, ascending):
    """Line and column of each of these positions, which ascend; the bytes are gone through once."""
    line, start, column = 1, 0, 1
    for at in ascending:
        passed = data[start:at]
        line += passed.count(b"\n")
        end = passed.rfind(b"\n") + 1
        column = (1 if end else column) + len(passed[end:].decode("utf-8", "replace"))
        start = at
        yield line, column


@dataclass
class Rule:
    number: int
    at: int
    end: int
    source: Token
    left: List[Token]
    cost: Optional[str]
    target: Token
    updates: List[str]
    guard: str
    names: List[Token]
    text: str

    @property
    def left_names(self):
        return [it.text for it in self.left]

    @property
    def free(self):
        """The free variables, in order of first occurrence."""
        found: Dict[str, Token] = {}
        lefts = set(self.left_names)
        for it in self.names:
            if it.text not in lefts:
                found.setdefault(it.text, it)
        return list(found.values())


@dataclass
class Program:
    start: str
    variables: List[str]
    rules: List[Rule] = field(default_factory=list)
    constants: List[Token] = field(default_factory=list)

    @property
    def inputs(self):
        """The names in bounds: the arguments of the first rule that leaves the start symbol."""
        for rule in self.rules:
            if rule.source.text == self.start:
                return rule.left_names
        return []

    def rule(self, number):
        return self.rules[number - 1]


def read(data):
    """The program of a text that koat took."""
    text = data.decode("latin-1")
    reader = _Reader(text, [it for it in tokens(text) if it.kind != "comment"])
    try:
        return reader.program()
    except IndexError as fault:
        raise ProgramError("the text ends too early") from fault


class _Reader:
    def __init__(self, text, found):
        self.text, self.tokens, self.at = text, found, 0

    def take(self, wanted: Optional[str] = None):
        token = self.tokens[self.at]
        if wanted is not None and token.text != wanted:
            raise ProgramError(f"no {wanted} at byte {token.at}")
        self.at += 1
        return token

    def follows(self, *texts):
        """Whether these tokens come next; None stands for any name."""
        ahead = self.tokens[self.at:self.at + len(texts)]
        return len(ahead) == len(texts) and all(
            token.text == text if text else token.kind == "name" for token, text in zip(ahead, texts))

    def program(self):
        program = Program("", [])
        while self.at < len(self.tokens):
            self.take("(")
            self.section(self.take().text, program)
            self.take(")")
        program.constants = [it for it in self.tokens if it.kind == "number"]
        return program

    def section(self, word, program):
        if word == "RULES":
            while not self.follows(")"):
                program.rules.append(self.rule(len(program.rules) + 1))
        elif word == "STARTTERM":
            self.take("(")
            self.take("FUNCTIONSYMBOLS")
            program.start = self.take().text
            self.take(")")
        else:
            while not self.follows(")"):
                program.variables.append(self.take().text)

    def rule(self, number):
        first = self.at
        source, left, _ = self.term()
        cost, cost_names = self.arrow()
        wrapped = self.follows("Com_1", "(")
        if wrapped:
            self.at += 2
        target, names, updates = self.term()
        if wrapped:
            self.take(")")
        guard, guard_names = self.guard()
        start, end = self.tokens[first].at, self.tokens[self.at - 1].end
        return Rule(number, start, end, source, left, cost, target, updates, guard, cost_names + names + guard_names,
                    self.text[start:end])

    def arrow(self):
        """The cost as it is written, where there is one, and its names."""
        if not self.follows("-{"):
            self.take("->")
            return None, []
        self.take()
        first, names = self.at, []
        self.expression(names, ("}>",))
        cost = self.text[self.tokens[first].at:self.tokens[self.at - 1].end]
        self.take("}>")
        return cost, names

    def term(self):
        """A symbol, the names in its arguments, and the arguments as they are written."""
        symbol = self.take()
        self.take("(")
        names, arguments = [], []
        while not self.follows(")"):
            first = self.at
            self.expression(names, (",", ")"))
            arguments.append(self.text[self.tokens[first].at:self.tokens[self.at - 1].end])
            if self.follows(","):
                self.take()
        self.take(")")
        return symbol, names, arguments

    def expression(self, names, ends):
        depth = 0
        while depth > 0 or self.tokens[self.at].text not in ends:
            token = self.take()
            depth += DEPTHS.get(token.text, 0)
            if token.kind == "name":
                names.append(token)

    def guard(self):
        if self.follows("["):
            self.take()
            first = self.at
            names = self.atoms("]")
            text = self.text[self.tokens[first].at:self.tokens[self.at - 1].end] if self.at > first else ""
            self.take("]")
            return text, names
        if not self.follows(":|:"):
            return "", []
        self.take()
        if self.follows(None, "(") or self.follows(")"):
            return "", []
        first = self.at
        names = self.atoms(")")
        return self.text[self.tokens[first].at:self.tokens[self.at - 1].end], names

    def next_rule(self):
        """Whether a rule begins here: behind a comparison no name can stand, so one before a bracket is a symbol."""
        return self.follows(None, "(")

    def atoms(self, close):
        """The names of a guard, up to what closes it: this sign, or the next rule. An atom that is TRUE reads none."""
        names, depth = [], 0
        while depth > 0 or self.tokens[self.at].text != close:
            token = self.tokens[self.at]
            if token.kind == "name" and depth == 0 and close == ")" and self.next_rule():
                break
            self.at += 1
            depth += DEPTHS.get(token.text, 0)
            if token.kind == "name" and not self.is_truth(token, self.at - 1):
                names.append(token)
        return names

    def is_truth(self, token, at):
        if token.text not in ("TRUE", "true"):
            return False
        behind = self.tokens[at + 1].text if at + 1 < len(self.tokens) else ""
        before = self.tokens[at - 1].text
        return (before in (":|:", "[", "&&", "/\\")
                and behind not in (">=", ">", "<=", "<", "=", "==", "+", "-", "*", "^"))


def symbol_arities(program):
    """The number of places of each symbol, in order of first occurrence."""
    found = {}
    for rule in program.rules:
        found.setdefault(rule.source.text, len(rule.left))
        found.setdefault(rule.target.text, len(rule.updates))
    return found


def unknowns(rule, count, is_of_cost=False):
    """Names for the numbers of a point: left arguments, free variables, then new values of degree 2 or more. A point that
    is about a rule's cost has the cost in place of new values."""
    names = rule.left_names + [it.text for it in rule.free]
    if is_of_cost:
        return (names + ["the cost"])[:count]
    return names + [f"new value {number}" for number in range(1, count - len(names) + 1)]
