"""A proof in sentences: what each lemma states, and what shows it. The facts are those that koat's checker writes."""

import re

from . import programs, reasons

FACT = re.compile(r"(time|size|cost) ([0-9]+)(?:\.([0-9]+))?: (.*)")


class FactsError(ValueError):
    """Lines that aren't the facts of the lemmas."""


def lines(program, proof, facts, refused=None):
    """The sentences of a proof with the lines of its facts in order; without facts where it isn't accepted. `refused`
    is the lemma or the gap that the checker names then, such as `lemma 2`."""
    left, stated, told = list(facts or []), [], []
    for number, node in enumerate(proof.lemmas, 1):
        stated.append(places(program, node, stated))
        if len(left) < len(stated[-1]) and facts is not None:
            raise FactsError("there are fewer facts than the lemmas state")
        own, left = (left[:len(stated[-1])], left[len(stated[-1]):]) if facts is not None else (stated[-1], [])
        told.append(f"lemma {number}: {joined([fact(it) for it in own])}" + _mark(f"lemma {number}", refused))
        told += [f"  {it}" for it in shown(program, node)]
    for number, gap in enumerate(proof.gaps, 1):
        told.append(f"gap {number}: {_gap(gap)}" + _mark(f"gap {number}", refused))
        facts_of_gap = {"rules": gap.rules, "shut": gap.shut, "moves": gap.moves, "floor": gap.floor}
        told += [f"  {it}" for it in reasons.gap_words(facts_of_gap, gap.rule, program, of_file=True)]
    return told


def _mark(name, refused):
    return "   <-- not accepted" if name == refused else ""


def _gap(gap):
    """What a gap says: the rule, its set, and the places that functions may not use."""
    shut = joined([f"argument {it['place']} of {it['symbol']}" for it in gap.shut])
    without = f" that leaves out {shut}" if gap.shut else ""
    return f"rule {gap.rule} is ranked by no affine function over {_rules(gap.rules)}{without}"


def tally(program, facts):
    """How many rules have a time by the facts of a proof that was accepted, and how many steps a run has by that."""
    found = [FACT.match(it) for it in facts]
    times = {}
    for it in found:
        if it.group(1) == "time" and it.group(2) != "0":
            times.setdefault(int(it.group(2)), it.group(4))
    count = len(program.rules)
    if len(times) < count:
        return f"It states a time for {len(times)} of {count} rules, so it bounds no number of steps."
    parts = [times[it.number] for it in program.rules if times[it.number] != "0"]
    return f"It states a time for each rule: a run has at most {' + '.join(parts) or '0'} steps."


def places(program, node, stated):
    """What a node states, in order, as the beginnings of lines of facts."""
    if node.kind == "cite":
        return stated[node.number - 1]
    if node.kind == "start":
        return ["time 0", *(f"size 0.{place}" for place in range(1, len(program.inputs) + 1))]
    if node.kind == "weaken":
        return places(program, node.uses[0], stated)
    if node.kind == "never":
        found = FACT.match(places(program, node.uses[0], stated)[0] + ": 0")
        rule = int(found.group(2))
        return [f"size {rule}.{place}" for place in range(1, len(program.rule(rule).updates) + 1)]
    if node.members:
        return [f"size {it.rule}.{it.place}" for it in node.members]
    return [f"{'cost' if node.kind == 'cost' else 'time'} {node.rule}"]


def fact(line):
    """A line of a fact as a clause; without a bound where there is none."""
    found = FACT.match(line) or FACT.match(line + ": ")
    kind, rule, place, bound = found.group(1), int(found.group(2)), found.group(3), found.group(4)
    if kind == "size":
        what = f"argument {place} after rule {rule}" if rule else f"start argument {place}"
        most = "is 0" if bound == "0" else f"is at most {bound} in absolute value" if bound else "has a size"
        return f"{what} {most}"
    if kind == "cost":
        return f"the steps by rule {rule} " + ("have a cost" if not bound else f"cost at most {bound} together")
    if not rule:
        return "the start occurs once" if bound in ("", "1") else f"the start occurs at most {_times(bound)}"
    if bound == "0":
        return f"rule {rule} is never used"
    return f"rule {rule} is used at most {_times(bound)}" if bound else f"rule {rule} has a time"


def _times(bound):
    return "once" if bound == "1" else f"{bound} times"


def joined(parts, last="and"):
    return parts[0] if len(parts) == 1 else ", ".join(parts[:-1]) + f" {last} {parts[-1]}" if parts else "nothing"


def _rules(numbers, last="and"):
    texts = [str(it) for it in numbers]
    return f"rule {texts[0]}" if len(texts) == 1 else f"rules {joined(texts, last)}"


def form_text(form, names, denominator=1):
    """A form over names, coefficients and then the constant, over a denominator."""
    told = ""
    for number, name in zip(form, [*names, ""]):
        if number:
            size = str(abs(number)) if not name else name if abs(number) == 1 else f"{abs(number)}*{name}"
            told += (" - " if number < 0 else " + ") + size if told else ("-" if number < 0 else "") + size
    told = told or "0"
    return told if denominator == 1 else f"({told})/{denominator}"


def names(program, symbol, count):
    """The names of a symbol's arguments: those of the first rule that leaves it, else x1, x2 and so on."""
    found = (rule.left_names for rule in program.rules if rule.source.text == symbol)
    return next(found, [f"x{number}" for number in range(1, count + 1)])


def shown(program, node):
    """What shows a node, and then what shows those below it that are neither cited nor the start."""
    told = SHOWN[node.kind](program, node)
    below = [it for it in node.uses if it.kind not in ("cite", "start")]
    for it in below:
        told.append(f"By {NOUNS[it.kind]}, in which:")
        told += [f"  {line}" for line in shown(program, it)]
    if node.uses and not (below and len(node.uses) == 1):
        told.append(f"This rests on {_rests(node)}.")
    return told


def _rests(node):
    """What a node rests on, each once: lemmas by number, the start, and nodes of its own."""
    cited = sorted({it.number for it in node.uses if it.kind == "cite"})
    parts = ["the start"] if any(it.kind == "start" for it in node.uses) else []
    if cited:
        parts.append(("lemma " if len(cited) == 1 else "lemmas ") + joined([str(it) for it in cited]))
    if any(it.kind not in ("cite", "start") for it in node.uses):
        parts.append("the above")
    return joined(parts)


def _of_rank(program, node):
    others = [it for it in node.rules if it != node.rule]
    fall = f"{node.denominator}" if node.denominator > 1 else "1"
    told = [f"A function falls by at least {fall} with each use of rule {node.rule}, and is at least {fall} before it"
            + (f"; it never rises by {_rules(others, 'or')}." if others else ".")]
    told.append("It is " + joined([f"{form_text(form, names(program, symbol, len(form) - 1))} at {symbol}"
                                    for symbol, form in node.forms]) + ".")
    sources = {program.rule(it).source.text for it in node.rules}
    entries = [it.number for it in program.rules if it.number not in node.rules and it.target.text in sources]
    first = ["the start"] if program.start in sources else []
    ways = joined(first + ([_rules(entries)] if entries else []))
    whole = f" over {fall}" if fall != "1" else ""
    them = "these rules" if others else "this rule"
    return told + [f"Runs come to {them} by {ways}: as often as that happens, times what the function is then at "
                   f"most{whole}, gives the bound."]


def _of_member(program, member):
    """What a value becomes, and between what it lies: the low arm bounds its negation."""
    rule = program.rule(member.rule)
    new, between = rule.updates[member.place - 1].strip(), []
    if member.low.form is not None:
        opposite = [-number for number in member.low.form]
        between.append(f"at least {form_text(opposite, rule.left_names, member.low.denominator)}")
    if member.up.form is not None:
        between.append(f"at most {form_text(member.up.form, rule.left_names, member.up.denominator)}")
    if len(between) < 2:
        between.append("in absolute value at most the same with absolute values and coefficients")
    return f"By rule {member.rule} argument {member.place} becomes {new}, which is {joined(between)}."


def _of_spread(program, node):
    return [_of_member(program, node.members[0]),
            "At the sizes after each rule that can come before, this gives the bound."]


def _of_cycle(program, node):
    way = "This value comes back to itself" if len(node.members) == 1 else "These values go round"
    return [_of_member(program, it) for it in node.members] + [
        way + " in a loop: what comes in from outside, and what each use of a rule adds, times what each use "
        "multiplies by, gives the bound."]


def _of_cost(program, node):
    if node.by == "never":
        return [f"Rule {node.rule} is never used."]
    if node.by == "empty":
        return ["Where the guard holds, the cost is below 0, which counts as 0."]
    cost, most = program.rule(node.rule).cost.strip(), "the same with absolute values and coefficients"
    if node.arm.form is not None:
        most = form_text(node.arm.form, program.rule(node.rule).left_names, node.arm.denominator)
    return [f"A step costs {cost}, which is at most {most}; times how often rule {node.rule} is used, that gives the "
            "bound."]


SHOWN = {
    "cite": lambda program, node: [f"Lemma {node.number} says so."],
    "start": lambda program, node: ["So each run begins."],
    "empty": lambda program, node: ["The comparisons of degree 1 in its guard contradict each other."],
    "unreached": lambda program, node: ["Its source isn't reached by rules that may be used."],
    "never": lambda program, node: ["No run comes there, since the rule is never used."],
    "weaken": lambda program, node: [f"A smaller bound was shown, and {node.bound} is no less."],
    "rank": _of_rank,
    "spread": _of_spread,
    "cycle": _of_cycle,
    "cost": _of_cost,
}
NOUNS = {"empty": "a contradiction", "unreached": "a rule that isn't reached", "never": "a rule that is never used",
         "weaken": "a weaker bound", "rank": "a ranking function", "spread": "a size", "cycle": "sizes of a loop",
         "cost": "a cost"}
