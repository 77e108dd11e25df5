"""Writes proof files of the third form with certificates that are searched: nothing of the crates is used.

`Builder(program, facts)` is a file for a program's text with facts of its symbols, each symbol with one copy of its own
name, or without a section where there are none. Its methods add lines; `text()` is the file. Polynomials and bounds are
written as in such files. `Unproved` is raised where no whole certificate is found.
"""

from types import SimpleNamespace as Parts

import slow_third_section as sections
import slow_third_text as texts
from slow_reading import Reading, expanded
from slow_third_bounds import polynomial_tree
from slow_third_lemmas import Ground, Table
from slow_third_search import certificate, refuting


class Unproved(Exception):
    """No whole certificate is found."""


def polynomial(text):
    return texts.SignedText(text).polynomial()


def numbers_text(numbers):
    return f"[{' '.join(map(str, numbers))}]"


class Builder:
    def __init__(self, program, facts=None, plain=()):
        self.reading = Reading(program)
        assert self.reading.verdict() == "taken", self.reading.verdict()
        self.section, self.plain, self.signed, self.claims = [], list(plain), [], []
        above = self.reading
        if facts is not None:
            above = self.make_section(facts)
        self.ground = Ground(sections.program_of(above), above.rules)

    def make_section(self, facts):
        copies = [Parts(name=symbol.decode(), symbol=symbol, facts=facts.get(symbol.decode(), []))
                  for symbol in self.reading.arities]
        copies.sort(key=lambda copy: copy.symbol != self.reading.starts[0].text)
        names = [copy.symbol for copy in copies]
        self.section = [f"copy {copy.name} of {copy.name} facts [{'; '.join(map(numbers_text, copy.facts))}]"
                        for copy in copies]
        branches = []
        for at, copy in enumerate(copies):
            for number, rule in enumerate(self.reading.rules, 1):
                if rule.source == copy.symbol:
                    branches.append(self.branch(copies, at, number, names.index(rule.target)))
        return sections.spelled(self.reading, Parts(copies=copies, branches=branches))[0]

    def branch(self, copies, at, number, to):
        goal = Parts(word="to", copy=to, by=[[] for _ in copies[to].facts])
        branch = Parts(copy=at, rule=number, cases=goal)
        one = Parts(copies=copies, branches=[branch])
        rule = self.reading.rules[number - 1]
        owed = sections.obligations(self.reading, one, sections.ends_of(self.reading, one)[0])
        goal.by = [refuting(sections.rows(rule, atoms)) for atoms, _, _ in owed]
        if None in goal.by:
            raise Unproved(f"a fact of {copies[to].name} after rule {number}")
        self.section.append(f"from {copies[at].name} rule {number} to {copies[to].name} by "
                            f"[{'; '.join(map(numbers_text, goal.by))}]")
        return branch

    def certificate(self, rule, goal):
        found = certificate([expanded(row) for row in self.ground.rows(rule)], expanded(goal),
                            self.ground.variables(rule))
        if found is None:
            raise Unproved(f"rule {rule}")
        return found

    def table(self, functions, den, moves, amounts):
        """A table with a move for each rule that leads to a symbol with a function; what isn't given keeps it."""
        ordered = sorted(functions, key=self.ground.symbols.index)
        forms = [(name, polynomial(functions[name])) for name in ordered]
        table, found = Table(self.ground, forms, den, []), []
        for rule in self.ground.program.numbers():
            if self.ground.target(rule) in functions:
                usual = "keep" if self.ground.source(rule) in functions else "reset"
                kind, gain, by = (moves.get(rule, (usual, "[]")) + ("",))[:3]
                before = table.before(rule) if kind == "keep" else polynomial_tree(())
                paid = table.times_den(polynomial(amounts.get(rule, "[]")))
                goal = ("-", ("+", before, polynomial_tree(polynomial(gain))), ("+", table.behind(rule), paid))
                by = f" by {by}" if by else ""
                found.append(f"{rule} {kind} {gain}{by} {self.certificate(rule, goal)}")
        written = "; ".join(f"{name} {functions[name]}" for name in ordered)
        return table, f"functions [{written}] den {den} moves [{'; '.join(found)}]"

    def over(self, table, rule, form):
        return self.certificate(rule, ("-", table.before(rule), table.times_den(polynomial(form))))

    def fall(self, functions, pays, bound, den=1, moves=()):
        table, text = self.table(functions, den, dict(moves), pays)
        paid = [f"{rule} {amount} {self.over(table, rule, amount)} "
                f"{self.certificate(rule, polynomial_tree(polynomial(amount)))}" for rule, amount in pays.items()]
        self.signed.append(f"fall {text} pays [{'; '.join(paid)}] to {bound}")

    def peak(self, rule, form, functions, bound, den=1, moves=()):
        table, text = self.table(functions, den, dict(moves), {})
        self.signed.append(f"peak {rule} {form} {self.over(table, rule, form)} {text} to {bound}")

    def text(self):
        lines = ["koat-proof 3", *self.section, "koat-proof 1", *self.plain, "end"]
        lines += ["signed " + line for line in self.signed] + ["claim " + line for line in self.claims]
        return "".join(line + "\n" for line in lines)
