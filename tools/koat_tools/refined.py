"""The refined program that the section of a proof file of the third form spells: its symbols are copies with facts."""

from typing import NamedTuple, Tuple

from . import polynomials, programs, sentences
from .third_form import Copy, End


class SpelledRule(NamedTuple):
    """A rule of the refined program: the copy that it leaves, the program's rule, the one that it leads to, and the forms
    along its path with whether they are at least 0."""

    copy: Copy
    rule: int
    target: str
    path: Tuple


def spelled_rules(file):
    """The rules of the refined program, in order."""
    copies = {it.name: it for it in file.copies}
    return [SpelledRule(copies[branch.copy], branch.rule, target, path)
            for branch in file.branches for target, path in ways(branch.case) if target is not None]


def ways(case, path=()):
    """Where the ends of a case lead, in order, each with its path."""
    if isinstance(case, End):
        return [(case.target, path)]
    return ways(case.then, path + ((case.form, True),)) + ways(case.other, path + ((case.form, False),))


def spelled(file, program):
    """The program that the section spells, or the program itself where there is no section."""
    if not file.copies:
        return program
    lines = ["(GOAL COMPLEXITY)", f"(STARTTERM (FUNCTIONSYMBOLS {file.copies[0].name}))", "(RULES"]
    lines += [_rule(it, program.rule(it.rule)) for it in spelled_rules(file)]
    return programs.read("\n".join([*lines, ")", ""]).encode("latin-1"))


def _rule(it, rule):
    names = rule.left_names
    guard = [rule.guard] if rule.guard else []
    guard += [f"{sentences.form_text(form, names)} >= 0" for form in it.copy.facts]
    guard += [path_text(form, is_kept, rule) for form, is_kept in it.path]
    arrow = "->" if rule.cost is None else f"-{{{rule.cost}}}>"
    head = f"{it.copy.name}({', '.join(names)}) {arrow} Com_1({it.target}({', '.join(rule.updates)}))"
    return head + (" :|: " + " && ".join(guard) if guard else "")


def path_text(form, is_kept, rule):
    """What holds on one side of a choice."""
    names = rule.left_names + [it.text for it in rule.free]
    return f"{sentences.form_text(form, names)} {'>=' if is_kept else '<'} 0"


def rows(rule):
    """The rows that certificates name: those of the guard, and then the rows of squares: five for each update with just
    one term of degree 2 or more, which is c times a variable z times itself, since z*z exceeds none of 0, z, -z, 2*z - 1
    and -2*z - 1."""
    found = [row for row, _ in polynomials.rows(rule)]
    for update, value in zip(rule.updates, polynomials.new_values(rule)):
        expanded = polynomials.read(update)
        high = [(names, number) for names, number in expanded.monomials.items() if len(names) > 1]
        if len(high) == 1 and len(high[0][0]) == 2 and high[0][0][0] == high[0][0][1]:
            (names, number), z, one = high[0], polynomials.variable(high[0][0][0]), polynomials.constant(1)
            rest = value - polynomials.Polynomial({key: it for key, it in expanded.monomials.items() if key != names})
            least = (polynomials.constant(0), z, -z, z + z - one, -(z + z) - one)
            whole = [rest - polynomials.constant(number) * it for it in least]
            found += whole if number > 0 else [-it for it in whole]
    return found


def polynomial(terms, names):
    """A polynomial over names, as `polynomials` has them. What isn't there is 0."""
    found = polynomials.constant(0)
    for number, variables in terms:
        product = polynomials.constant(number)
        for it in variables:
            product = product * (polynomials.variable(names[it - 1]) if 0 < it <= len(names) else polynomials.constant(0))
        found = found + product
    return found
