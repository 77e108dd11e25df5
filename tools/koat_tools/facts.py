"""The program with facts at its locations put into the guards of its rules, as `koat facts` analyses it."""

import re

from . import polynomials, sentences

# A guard has room for so many comparisons; a cost counts as one of them.
ROOM = 64


def with_facts(program, facts):
    """The text of the program with these facts in its guards, as far as there is room, in order."""
    found = {}
    for it in facts:
        symbol, fact = it.rsplit(": ", 1)
        found.setdefault(symbol, []).append(fact)
    lines = ["(GOAL COMPLEXITY)", f"(STARTTERM (FUNCTIONSYMBOLS {program.start}))", "(RULES"]
    lines += [f"  {_rule(rule, found.get(rule.source.text, []))}" for rule in program.rules]
    return "\n".join([*lines, ")", ""]).encode("latin-1")


def _rule(rule, facts):
    room = ROOM - len(polynomials.comparisons(rule.guard)) - (rule.cost is not None)
    guard = [rule.guard] if rule.guard else []
    guard += [_named(it, rule) for it in facts[:max(room, 0)]]
    arrow = "->" if rule.cost is None else f"-{{{rule.cost}}}>"
    left, right = ", ".join(rule.left_names), ", ".join(it.strip() for it in rule.updates)
    told = f"{rule.source.text}({left}) {arrow} Com_1({rule.target.text}({right}))"
    return told + (" :|: " + " && ".join(" ".join(it.split()) for it in guard) if guard else "")


def _named(fact, rule):
    """The fact with the names that the rule has for its places."""
    return re.sub(r"x([0-9]+)", lambda match: rule.left_names[int(match.group(1)) - 1], fact)


def shown(program, symbol, fact):
    """The fact with the names that a symbol's arguments mostly have."""
    names = sentences.names(program, symbol, 32)
    names += [f"x{number}" for number in range(len(names) + 1, 33)]
    told = re.sub(r"x([0-9]+)", lambda match: names[int(match.group(1)) - 1], fact)
    return re.sub(r"^-(.+) >= (-?[0-9]+)$", lambda match: f"{match.group(1)} <= {-int(match.group(2))}", told)
