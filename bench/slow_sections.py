"""A plain slow judge of sections of a program, and what they spell, by their description alone: nothing of the crates
is used.

A program is a list of rules and arities by symbol, the start symbol being 0. A section has copies of its symbols, each
with facts (affine forms over its places, at least 0 there), and branches, one for each copy and each rule that leaves
its symbol, with cases: a tree whose tests are affine forms over the rule's variables, and whose leaves name a copy,
with a list of multipliers for each of its facts, or say that the rule is never enabled there, with one list.
`fault(program, section)` is what is wrong first with a section, or None; `spelled(program, section)` the program that
it spells, with the number of the rule below each of its rules.
"""

from typing import NamedTuple

from slow_check import implies
from slow_forms import differences, forms_of
from slow_reading import Unexpanded

LIMIT, ATOMS, RULES = 2**56, 64, 1000


class Rule(NamedTuple):
    """Symbols by their numbers, names of variables of which the first `left` are the places of the source, trees of
    expressions for updates, atoms: a left side, a relation and a right side, or None for one that always holds; and the
    expression of a cost, where one is written."""

    source: int
    target: int
    left: int
    variables: list
    atoms: list
    updates: list
    cost: object = None


class Program(NamedTuple):
    arities: list
    rules: list


class Copy(NamedTuple):
    """A symbol, and forms: a coefficient for each place, and the constant."""

    over: int
    facts: list


class To(NamedTuple):
    copy: int
    by: list


class Never(NamedTuple):
    by: list


class If(NamedTuple):
    test: list
    yes: object
    no: object


class Branch(NamedTuple):
    """A copy, the number of a rule, from 1, and cases."""

    copy: int
    rule: int
    cases: object


class Section(NamedTuple):
    copies: list
    branches: list


class End(NamedTuple):
    """The end of a path through the cases of a branch, with the atoms of the facts of its copy and along the path."""

    copy: int
    rule: int
    atoms: list
    leaf: object


def number_tree(number):
    return ("number", number) if number >= 0 else ("opposite", ("number", -number))


def tree_of(form, variables):
    """A form as an expression: its constant, then the products of coefficients that aren't 0."""
    tree = number_tree(form[-1])
    for coefficient, name in zip(form[:-1], variables):
        if coefficient:
            tree = ("+", tree, ("*", number_tree(coefficient), ("variable", name)))
    return tree


def moved(tree, updates):
    """An expression over places, which are numbers here, with updates in their place."""
    word, *parts = tree
    if word == "number":
        return tree
    if word == "variable":
        return updates[parts[0]]
    if word == "^":
        return ("^", moved(parts[0], updates), parts[1])
    return (word, *(moved(part, updates) for part in parts))


def passes(form, variables):
    return (tree_of(form, variables), ">=", ("number", 0))


def fails(form, variables):
    return (tree_of(form, variables), "<", ("number", 0))


def leaving(program, symbol):
    return [number for number, rule in enumerate(program.rules, 1) if rule.source == symbol]


def due(program, section):
    """The branches that are due, each as a copy and a rule."""
    return [(number, rule) for number, copy in enumerate(section.copies) for rule in leaving(program, copy.over)]


def tests_of(cases):
    return [cases.test, *tests_of(cases.yes), *tests_of(cases.no)] if isinstance(cases, If) else []


def leaves(atoms, cases, variables):
    """The leaves of cases, in order, with the atoms along the way."""
    if not isinstance(cases, If):
        return [(atoms, cases)]
    return (leaves(atoms + [passes(cases.test, variables)], cases.yes, variables)
            + leaves(atoms + [fails(cases.test, variables)], cases.no, variables))


def ends_of(program, section):
    found = []
    for branch in section.branches:
        rule = program.rules[branch.rule - 1]
        begun = [passes(fact, rule.variables) for fact in section.copies[branch.copy].facts]
        found += [End(branch.copy, branch.rule, *it) for it in leaves(begun, branch.cases, rule.variables)]
    return found


def denied(fact, rule):
    """That a fact of the rule's target fails at the new values."""
    places = tree_of(fact, range(len(fact) - 1))
    return (moved(places, rule.updates), "<", ("number", 0))


def expands(atom):
    """Whether the difference of a comparison can be expanded."""
    try:
        return atom is None or bool(differences(*atom))
    except Unexpanded:
        return False


def is_within(rule, atoms):
    """Whether a rule with these atoms is within the limits: at most 64 atoms, its cost counted as one, each of which
    can be expanded."""
    return len(atoms) + (rule.cost is not None) <= ATOMS and all(map(expands, atoms))


def rows_of(rule, atoms):
    return forms_of(rule.source, rule.target, rule.left, rule.variables, atoms, rule.updates).rows


def is_empty(rows, by):
    """Whether the rows, each times its multiplier, add up to at most -1."""
    width = len(rows[0]) if rows else 1
    return implies(rows, by, [0] * (width - 1) + [-1])


def obligations(section, rule, end):
    """The atoms that have to be unmet, the multipliers that are to show so, and the words of the fault."""
    guard = rule.atoms + end.atoms
    if isinstance(end.leaf, Never):
        return [(guard, end.leaf.by, "never")]
    facts = section.copies[end.leaf.copy].facts
    return [(guard + [denied(fact, rule)], by, f"fact {place}")
            for place, (fact, by) in enumerate(zip(facts, end.leaf.by), 1)]


def shape_fault(program, section):
    """What is wrong first with the start, the facts, the branches or their tests."""
    if not section.copies or section.copies[0].over or section.copies[0].facts:
        return "start"
    for number, copy in enumerate(section.copies, 1):
        if any(len(fact) != program.arities[copy.over] + 1 for fact in copy.facts):
            return f"facts {number}"
    wanted, found = due(program, section), [(it.copy, it.rule) for it in section.branches]
    if wanted != found:
        same = [one == other for one, other in zip(wanted, found)]
        return f"from {same.index(False) + 1 if False in same else min(len(wanted), len(found)) + 1}"
    for number, branch in enumerate(section.branches, 1):
        width = len(program.rules[branch.rule - 1].variables) + 1
        if any(len(test) != width for test in tests_of(branch.cases)):
            return f"if {number}"
    return None


def has_shape(program, section, end):
    if isinstance(end.leaf, Never):
        return True
    if end.leaf.copy >= len(section.copies):
        return False
    copy = section.copies[end.leaf.copy]
    return copy.over == program.rules[end.rule - 1].target and len(end.leaf.by) == len(copy.facts)


def ends_fault(program, section):
    """What is wrong first with the ends: their shape, how many there are, their limits or their multipliers."""
    ends = ends_of(program, section)
    for number, end in enumerate(ends, 1):
        if not has_shape(program, section, end):
            return f"shape {number}"
    used = [end for end in ends if isinstance(end.leaf, To)]
    if len(used) > RULES or not any(end.copy == 0 for end in used):
        return "rules"
    for number, end in enumerate(ends, 1):
        rule = program.rules[end.rule - 1]
        guards = [rule.atoms + end.atoms, *(atoms for atoms, _, _ in obligations(section, rule, end))]
        if not all(is_within(rule, atoms) for atoms in guards):
            return f"limit {number}"
    for number, end in enumerate(ends, 1):
        rule = program.rules[end.rule - 1]
        for atoms, by, words in obligations(section, rule, end):
            rows = rows_of(rule, atoms)
            if len(by) != len(rows) or any(many > LIMIT for many in by):
                return f"shape {number}"
            if not is_empty(rows, by):
                return f"{words.split()[0]} {number}{words[4:]}" if words != "never" else f"never {number}"
    return None


def fault(program, section):
    return shape_fault(program, section) or ends_fault(program, section)


def spelled(program, section):
    """The program that a section spells: its copies are the symbols. With it the rules below its rules, by number."""
    rules, below = [], []
    for end in ends_of(program, section):
        if isinstance(end.leaf, To):
            rule = program.rules[end.rule - 1]
            rules.append(rule._replace(source=end.copy, target=end.leaf.copy, atoms=rule.atoms + end.atoms))
            below.append(end.rule)
    return Program([program.arities[copy.over] for copy in section.copies], rules), below


def value_of(tree, values):
    """The value of an expression."""
    word, *parts = tree
    if word == "number":
        return parts[0]
    if word == "variable":
        return values[parts[0]]
    if word == "^":
        return value_of(parts[0], values) ** parts[1]
    numbers = [value_of(part, values) for part in parts]
    if word == "opposite":
        return -numbers[0]
    left, right = numbers
    return left + right if word == "+" else left - right if word == "-" else left * right


def holds(atom, values):
    if atom is None:
        return True
    left, right = value_of(atom[0], values), value_of(atom[2], values)
    return {">=": left >= right, ">": left > right, "<=": left <= right, "<": left < right}.get(atom[1], left == right)


def after(rule, now, free):
    """The values behind a step by a rule, or none where its guard doesn't hold."""
    values = dict(zip(rule.variables, now + free))
    if not all(holds(atom, values) for atom in rule.atoms):
        return None
    return [value_of(update, values) for update in rule.updates]
