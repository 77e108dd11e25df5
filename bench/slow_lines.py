"""Reads the lines of `refined_tests`: a call, and behind it copies, branches and rules, divided by semicolons.

`answer(line)` is what a plain slow judge says of a line that begins with `accept` or `rules`, and of others nothing.
"""

import slow_sections
from slow_reading import Reading
from slow_sections import Branch, Copy, If, Never, Program, Rule, Section, To


def numbers(text):
    return [int(word) for word in text.split()]


def program_of(rules):
    reading = Reading(f"(STARTTERM (FUNCTIONSYMBOLS a))(RULES {rules})".encode())
    if reading.verdict() != "taken":
        return None
    places = {name: place for place, name in enumerate(reading.arities)}
    found = [Rule(places[it.source], places[it.target], it.left, it.variables, it.atoms, it.updates, it.cost)
             for it in reading.rules]
    return Program(list(reading.arities.values()), found)


def leaf_of(text):
    goal, *lists = text.split(",")
    lists = [numbers(it) for it in lists if it.strip()]
    word, *copy = goal.split()
    return To(int(copy[0]), lists) if copy else Never(lists[0] if lists else [])


def cases_of(text):
    test, mark, leaves = text.partition("?")
    if not mark:
        return leaf_of(text)
    yes, _, no = leaves.partition(":")
    return If(numbers(test), leaf_of(yes), leaf_of(no))


def section_of(copies, branches):
    found = []
    for part in filter(str.strip, copies.split("|")):
        head, *facts = part.split(",")
        found.append(Copy(int(head.split()[1]), [numbers(fact) for fact in facts]))
    listed = []
    for part in filter(str.strip, branches.split("|")):
        copy, rule, cases = part.split(None, 2)
        listed.append(Branch(int(copy), int(rule), cases_of(cases)))
    return Section(found, listed)


def answer(line):
    call, _, rest = line.partition(" ")
    if call not in ("accept", "rules"):
        return None
    copies, branches, rules = rest.split(";", 2)
    program, section = program_of(rules), section_of(copies, branches)
    if call == "accept":
        return slow_sections.fault(program, section) or "accepted"
    above, _ = slow_sections.spelled(program, section)
    ways = "".join(f" {rule.source}>{rule.target}" for rule in above.rules)
    return f"{len(above.arities)} symbols:{ways}"
