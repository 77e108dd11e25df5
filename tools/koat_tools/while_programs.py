"""Programs of the while language: their statements, where these begin, and which rules of the translation are theirs.

koat alone reads them: `koat while` says at which byte each statement begins, and `koat translate` which rules there
are; the rules of statement K leave the symbol `pK`.
"""

import re
from dataclasses import dataclass
from typing import List

from . import bounds, growth, programs

ENDING = ".while"
# What the bytes of a point line are, and those of all that stand first.
POINT = re.compile(rb"point ([0-9]+) at ([0-9]+)\n")


@dataclass
class Statement:
    """A statement with its number, its place, how it begins, and the numbers of its rules."""

    point: int
    at: int
    line: int
    column: int
    text: str
    rules: List[int]


@dataclass
class Source:
    """The text of a program of the while language with its statements, in order."""

    data: bytes
    statements: List[Statement]

    def of_rule(self, number):
        """The statement that a rule is of."""
        return next(it for it in self.statements if number in it.rules)


def is_named(name):
    """Whether a file of this name has a program of the while language."""
    return name.endswith(ENDING)


def split(output):
    """The bytes at which statements begin, and the report behind these lines."""
    positions, at = [], 0
    while match := POINT.match(output, at):
        positions.append(int(match.group(2)))
        at = match.end()
    return positions, output[at:]


def source(data, positions, program):
    """The statements that begin at these bytes, with their rules."""
    text, leaving = data.decode("latin-1"), {}
    for rule in program.rules:
        leaving.setdefault(rule.source.text, []).append(rule.number)
    places = zip(positions, programs.columns(data, positions))
    return Source(data, [Statement(point, at, *where, begins(text, at), leaving.get(f"p{point}", []))
                         for point, (at, where) in enumerate(places)])


def begins(text, at):
    """How a statement begins: up to its semicolon, or to the bracket that closes its test."""
    test = re.compile(r"(?:while|if)[ \t\r\n]*\(").match(text, at)
    end = text.find(";", at) + 1
    if test:
        depth, end = 1, test.end()
        while depth and end < len(text):
            depth += programs.DEPTHS.get(text[end], 0)
            end += 1
    return " ".join(text[at:end].split())


def place(statement):
    return f"line {statement.line}, column {statement.column}"


def step(answer, number):
    """Which step of which statement a rule is, in words."""
    statement, rule = answer.source.of_rule(number), answer.program.rule(number)
    text = f"{place(statement)}: `{statement.text}`"
    if not re.match(r"(while|if)[ (]", statement.text):
        return text
    return text + (", where it holds" if number == statement.rules[0] else f", where `{rule.guard}`")


def bound(statement, report):
    """How often a statement is executed at most, as text and as a tree: the sum of its rules' times; none where one of
    them is missing."""
    times = [report.times[number - 1] for number in statement.rules]
    if any(it.text is None for it in times):
        return None, None
    parts = [it for it in times if it.text != "0"] or times[:1]
    tree = parts[0].bound if len(parts) == 1 else bounds.Sum(tuple(it.bound for it in parts))
    return " + ".join(it.text for it in parts), tree


def lines(answer, written=None):
    """A line for each statement: its place, how it begins, and how often it is executed at most, or what `written` makes
    of that bound's text and tree."""
    found = []
    for statement in answer.source.statements:
        text, tree = bound(statement, answer.report)
        shown = "unknown" if text is None else written(text, tree) if written else f"at most {text} times"
        found.append(f"{place(statement)}, {statement.text.rstrip(';')}: {shown}")
    return found


def as_json(answer):
    """The statements as plain data."""
    found = []
    for it in answer.source.statements:
        text, tree = bound(it, answer.report)
        known = None if text is None else {"text": text, "class": growth.text(growth.growth(tree)),
                                           "tree": bounds.as_json(tree)}
        found.append({"point": it.point, "byte": it.at, "line": it.line, "column": it.column, "text": it.text,
                      "rules": it.rules, "bound": known})
    return found
