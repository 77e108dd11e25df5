"""What koat's checker doesn't accept in a proof, in words: the node, its goal, and what its multipliers leave over."""

import re

from . import polynomials, proofs, sentences

LINE = re.compile(r"no (lemma|gap) ([0-9]+)(?: node ([0-9]+))?: (.*)")
KINDS = {"cite": "a reference", "start": "the start", "empty": "a guard that contradicts itself",
         "unreached": "a rule that isn't reached", "never": "the sizes after a rule that is never used",
         "weaken": "a weaker bound", "rank": "a ranking function", "spread": "a size", "cycle": "the sizes of a loop",
         "cost": "a cost"}


def named(line):
    """What a line of the checker names: a lemma or a gap, with its number."""
    found = LINE.fullmatch(line)
    return f"{found.group(1)} {found.group(2)}" if found else None


def whole(program, text, said):
    """A proof file of the first or second form in sentences, then whether koat's checker accepts it, and what that means;
    by what the checker said, line by line."""
    is_accepted = said[0] == "accepted"
    stated = [it for it in said[1:] if not it.startswith("gap ")] if is_accepted else None
    proof = proofs.read(text)
    told = sentences.lines(program, proof, stated, None if is_accepted else named(said[0]))
    if is_accepted:
        return told + ["koat's checker accepts this proof", sentences.tally(program, stated)]
    return told + [f"koat's checker does not accept it: {said[0]}"] + [f"  {it}" for it in lines(program, proof, said[0])]


def lines(program, proof, line):
    """Sentences on a line of the checker."""
    found = LINE.fullmatch(line)
    if not found:
        return []
    kind, number, node, reason = found.groups()
    if kind == "gap":
        return _gap(proof.gaps[int(number) - 1], reason)
    one = proofs.nodes(proof.lemmas[int(number) - 1])[int(node) - 1]
    rule = f" of rule {one.rule}" if one.rule else ""
    return [f"Node {node} of lemma {number} is {KINDS[one.kind]}{rule}."] + _reason(program, one, reason)


def _reason(program, node, reason):
    word, _, rest = reason.partition(" ")
    numbers = [int(it) for it in re.findall("[0-9]+", rest)]
    if word == "move":
        return _shown(program, numbers[0], *_of_move(program, node, numbers[0]))
    if word == "floor":
        least = _at_rule(program, node, node.rule) - polynomials.constant(node.denominator)
        return _shown(program, node.rule, "the function is at least its denominator before the rule", least,
                      node.multipliers)
    if word == "arm":
        return _arm(program, node, numbers, rest.split()[-1])
    if word == "empty":
        return _shown(program, node.rule, "no point meets the guard", polynomials.constant(-1), node.multipliers)
    if word == "missing":
        return [_missing(program, node, rest, numbers)]
    if word == "large":
        return [f"The bound that it composes has {numbers[0]} nodes: 4,096 nodes in 200 levels are the most."]
    if word == "shape":
        return _shape(program, node)
    return [OTHERS.get(word, "docs/proof-format.md says when this comes.").format(*numbers)]


OTHERS = {
    "zero": "The bound that it rests on has to be 0.",
    "weaker": "The bound that it states isn't seen to be at least the one that it rests on: parts are compared in "
              "order.",
    "bent": "Argument {1} after rule {0} is multiplied by itself or by another argument of the loop there.",
    "reached": "A path from the start symbol leads to the rule's source by rules that aren't shown to be unused.",
}


def _form(program, symbol, form, values):
    """A form of a function at these values of a symbol's arguments."""
    total = polynomials.constant(form[-1])
    for coefficient, value in zip(form, values):
        total = total + polynomials.constant(coefficient) * value
    return total


def _variables(rule):
    return [polynomials.variable(it) for it in rule.left_names]


def _at_rule(program, node, number):
    rule = program.rule(number)
    return _form(program, rule.source.text, dict(node.forms)[rule.source.text], _variables(rule))


def _of_move(program, node, number):
    rule = program.rule(number)
    after = _form(program, rule.target.text, dict(node.forms)[rule.target.text], polynomials.new_values(rule))
    falls = node.denominator if number == node.rule else 0
    what = f"the function falls by at least {falls} with rule {number}" if falls else \
        f"the function doesn't rise by rule {number}"
    goal = _at_rule(program, node, number) - after - polynomials.constant(falls)
    return what, goal, node.moves[node.rules.index(number)]


def _shown(program, number, what, goal, multipliers):
    """The goal, the rows with their multipliers, and what is left over, which has to be a constant of at least 0."""
    rows, rest, taken = polynomials.rows(program.rule(number)), goal, []
    for (row, _), multiplier in zip(rows, multipliers):
        rest = rest - polynomials.constant(multiplier) * row
        if multiplier:
            taken.append(f"{multiplier} times `{polynomials.text(row)} >= 0`")
    told = [f"Its goal is that {what}: `{polynomials.text(goal)} >= 0`."]
    told.append("Its multipliers take " + (", ".join(taken) if taken else "none of the guard's rows") + ".")
    has_names = rest.degree > 0
    why = "variables are left" if has_names else "it is below 0"
    return told + [f"Left over is `{polynomials.text(rest)}`, which should be a number of at least 0: {why}."]


def _arm(program, node, numbers, side):
    rule, place = numbers
    member = next((it for it in node.members if (it.rule, it.place) == (rule, place)), None)
    arm = node.arm if member is None else member.up if side == "up" else member.low
    if arm is None or arm.form is None:
        return ["`poly` is for a new value of degree 2 or more that reads left arguments alone."]
    one = program.rule(rule)
    value = polynomials.read(one.cost) if member is None else polynomials.new_values(one)[place - 1]
    value = value * polynomials.constant(arm.denominator)
    form = _form(program, one.source.text, arm.form, _variables(one))
    what = f"argument {place} after rule {rule}" if member is not None else f"the cost of rule {rule}"
    what += " is at most the form" if side == "up" else " is at least the form's negation"
    return _shown(program, rule, what, form - value if side == "up" else form + value, arm.multipliers)


def _missing(program, node, rest, numbers):
    what = f"the time of rule {numbers[0]}" if rest.startswith("time") else \
        f"the size of argument {numbers[1]} after rule {numbers[0]}"
    where = "the start" if numbers[0] == 0 else f"rule {numbers[0]}"
    over = f" over the rules {', '.join(map(str, node.rules))}" if node.rules else ""
    return f"It needs {what}{over}, since runs come by {where}; no node that it rests on states that."


def _shape(program, node):
    """What lengths a node has to have, and which it has."""
    told = ["A list has a wrong length or doesn't ascend, or a number is out of range."]
    for number, multipliers in zip(node.rules, node.moves):
        told += _length(program, number, multipliers)
    if node.rule and node.kind in ("rank", "empty") and node.multipliers:
        told += _length(program, node.rule, node.multipliers)
    if node.kind == "rank" and node.rules != sorted(set(node.rules)):
        told.append(f"The set {node.rules} doesn't ascend.")
    if node.kind == "rank" and node.rule not in node.rules:
        told.append(f"The set {node.rules} hasn't rule {node.rule} itself.")
    if node.kind == "rank" and len(node.moves) != len(node.rules):
        told.append(f"There are {len(node.moves)} lists of multipliers for {len(node.rules)} rules.")
    for member in node.members:
        for arm in (member.up, member.low):
            if arm.form is not None:
                told += _length(program, member.rule, arm.multipliers)
    return told


def _length(program, number, multipliers):
    rows = polynomials.rows(program.rule(number))
    if len(rows) == len(multipliers):
        return []
    names = ", ".join(f"`{polynomials.text(row)} >= 0`" for row, _ in rows) or "none"
    return [f"Rule {number} has {len(rows)} rows ({names}), and {len(multipliers)} multipliers are given."]


def _gap(gap, reason):
    word, _, rest = reason.partition(" ")
    shut = ", ".join(f"{it['symbol']}.{it['place']}" for it in gap.shut) or "none"
    rules = ", ".join(map(str, gap.rules))
    told = [f"The gap is of rule {gap.rule} over the rules {rules}, without the places: {shut}."]
    return told + [GAPS.get(word, "docs/proof-format.md says when this comes.").format(rest)]


GAPS = {
    "shape": "The set doesn't ascend or hasn't the rule, or a point has another number of parts than its rule has "
             "unknowns.",
    "move": "The point that moves by rule {} doesn't meet the rows of that rule's guard.",
    "floor": "The floor doesn't meet the rows of the rule.",
    "kept": "The point at which rule {} is kept doesn't meet the rows of its guard, or has the denominator 0.",
    "balance": "What the moves take from {} and what they bring there, with the floor, don't cancel out.",
    "nothing": "The denominators of the rule's move and of the floor are both 0, so that nothing is shown.",
}
