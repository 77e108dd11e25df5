"""What a section of a proof file of the third form spells, and whether it is accepted, by its description alone:
nothing of the crates is used.

`fault(reading, section)` is the first answer against a section of a program, or none; `spelled(reading, section)` is
the program that an accepted section spells, with the rule below each of its rules; `symbol_facts(reading, section)` the
lines of the facts that all copies of a symbol have. A program is a `Reading` of `slow_reading.py` that was taken.
"""

from types import SimpleNamespace as Parts

from slow_check import implies
from slow_forms import Program, differences, forms_of
from slow_reading import Rule, Token, Unexpanded, expanded

RULES, ATOMS = 1000, 64


def form_tree(form, trees):
    """A form over some expressions."""
    whole = ("number", form[-1])
    for number, tree in reversed(list(zip(form, trees))):
        whole = ("+", ("*", ("number", number), tree), whole)
    return whole


def variables_of(rule):
    return [("variable", name) for name in rule.variables]


def passes(form, trees):
    return form_tree(form, trees), ">=", ("number", 0)


def fails(form, trees):
    return form_tree(form, trees), "<", ("number", 0)


def ends_of_cases(cases, rule, path=()):
    """The ends of cases in order, each with the atoms along its path."""
    if cases.word != "if":
        return [(cases, list(path))]
    variables = variables_of(rule)
    return (ends_of_cases(cases.yes, rule, path + (passes(cases.test, variables),))
            + ends_of_cases(cases.no, rule, path + (fails(cases.test, variables),)))


def tests_of(cases):
    return [cases.test] + tests_of(cases.yes) + tests_of(cases.no) if cases.word == "if" else []


def ends_of(reading, section):
    """The ends of all branches in order: the copy that is left, the number of the rule, the end and the atoms that the
    guard has along its path."""
    found = []
    for branch in section.branches:
        rule, copy = reading.rules[branch.rule - 1], section.copies[branch.copy]
        known = [passes(fact, variables_of(rule)) for fact in copy.facts]
        found += [Parts(copy=branch.copy, rule=branch.rule, goal=goal, atoms=rule.atoms + known + path)
                  for goal, path in ends_of_cases(branch.cases, rule)]
    return found


def obligations(reading, section, end):
    """What an end owes: guards that no values meet, with their multipliers and what is said where these don't show
    it."""
    rule = reading.rules[end.rule - 1]
    if end.goal.word == "never":
        return [(end.atoms, end.goal.by, "never")]
    facts = section.copies[end.goal.copy].facts
    return [(end.atoms + [fails(fact, rule.updates)], by, f"fact {number}")
            for number, (fact, by) in enumerate(zip(facts, end.goal.by), 1)]


def is_within_limits(rule, atoms):
    try:
        for atom in atoms:
            differences(*atom) if atom else None
    except Unexpanded:
        return False
    return len(atoms) + (rule.cost is not None) <= ATOMS


def rows(rule, atoms):
    return forms_of(rule.source, rule.target, rule.left, rule.variables, atoms, rule.updates).rows


def is_shown(found, by):
    width = len(found[0]) - 1 if found else 0
    return implies(found, by, [0] * width + [-1])


def fault(reading, section):
    copies, rules, arities = section.copies, reading.rules, reading.arities
    if copies[0].symbol != reading.starts[0].text or copies[0].facts:
        return "no refinement: start"
    for copy in copies:
        if any(len(fact) != arities[copy.symbol] + 1 for fact in copy.facts):
            return f"no refinement: facts {copy.name}"
    due = [(at, number) for at, copy in enumerate(copies)
           for number, rule in enumerate(rules, 1) if rule.source == copy.symbol]
    given = [(branch.copy, branch.rule) for branch in section.branches]
    for number in range(1, max(len(due), len(given)) + 1):
        if due[number - 1:number] != given[number - 1:number]:
            return f"no refinement: from {number}"
    for number, branch in enumerate(section.branches, 1):
        width = len(rules[branch.rule - 1].variables) + 1
        if any(len(test) != width for test in tests_of(branch.cases)):
            return f"no refinement: if {number}"
    return fault_of_ends(reading, section)


def fault_of_ends(reading, section):
    ends, copies = ends_of(reading, section), section.copies
    goals = [end for end in ends if end.goal.word == "to"]
    for number, end in enumerate(ends, 1):
        if end in goals and (copies[end.goal.copy].symbol != reading.rules[end.rule - 1].target
                             or len(copies[end.goal.copy].facts) != len(end.goal.by)):
            return f"no end {number}: shape"
    if len(goals) > RULES or not any(end.copy == 0 for end in goals):
        return "no refinement: rules"
    for number, end in enumerate(ends, 1):
        guards = [end.atoms] + [atoms for atoms, _, _ in obligations(reading, section, end)]
        if not all(is_within_limits(reading.rules[end.rule - 1], atoms) for atoms in guards):
            return f"no end {number}: limit"
    for number, end in enumerate(ends, 1):
        for atoms, by, word in obligations(reading, section, end):
            found = rows(reading.rules[end.rule - 1], atoms)
            if len(found) != len(by):
                return f"no end {number}: shape"
            if not is_shown(found, by):
                return f"no end {number}: {word}"
    return None


def spelled(reading, section):
    """The program that an accepted section spells, and for each of its rules the number of the rule that it copies."""
    names = [copy.name.encode() for copy in section.copies]
    rules, below = [], []
    for end in ends_of(reading, section):
        if end.goal.word == "to":
            rule = reading.rules[end.rule - 1]
            rules.append(Rule(names[end.copy], rule.left, rule.variables, names[end.goal.copy], rule.updates,
                              end.atoms, rule.cost))
            below.append(end.rule)
    arities = {name: reading.arities[copy.symbol] for name, copy in zip(names, section.copies)}
    start = Token("name", names[0], 0, 0)
    return Parts(starts=[start], arities=arities, rules=rules), below


def common_facts(copies):
    """The coefficients of the first copy's facts, each once, that all copies have; and of the strongest constants the
    weakest."""
    for coefficients in dict.fromkeys(tuple(fact[:-1]) for fact in copies[0].facts):
        constants = [[fact[-1] for fact in copy.facts if tuple(fact[:-1]) == coefficients] for copy in copies]
        if all(constants):
            yield coefficients, max(map(min, constants))


def form_text(coefficients):
    """A sum of multiples of places: what is added comes before what is subtracted."""
    places = [(number, f"x{place}") for place, number in enumerate(coefficients, 1)]
    parts = [(number, name) for number, name in places if number > 0] + [it for it in places if it[0] < 0]
    text = "".join((" + " if number > 0 else " - ") + (f"{abs(number)}*" if abs(number) > 1 else "") + name
                   for number, name in parts)
    return (text[3:] if text.startswith(" + ") else text.replace(" - ", "-", 1)) or "0"


def symbol_facts(reading, section):
    lines = []
    for symbol in program_of(reading).symbols:
        copies = [copy for copy in section.copies if copy.symbol == symbol]
        lines += [f"fact {symbol.decode()}: {form_text(coefficients)} >= {-constant}"
                  for coefficients, constant in (common_facts(copies) if copies else ())]
    return lines


def monomials(tree, rule):
    """An expression of a rule as a polynomial over its variables by number, its monomials in order."""
    found = [(coefficient, tuple(sorted(map(rule.variables.index, monomial))))
             for monomial, coefficient in expanded(tree).items()]
    return tuple(sorted(found, key=lambda it: it[1]))


def program_of(reading):
    return Program(reading)
