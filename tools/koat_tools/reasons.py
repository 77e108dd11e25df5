"""Why a bound is missing, in plain words, with the points that show it."""

from . import polynomials, programs

QUESTIONS = {
    "rank": "the search for a ranking function of rule {rule}",
    "empty": "the test whether rule {rule} can be used at all",
    "local": "the search for how large argument {place} can become by rule {rule}",
    "cost": "the search for how much a step by rule {rule} can cost",
}

LIMITS = {
    "range": "met a number of 2^31 or more after {number} {pivots}. Look for a large constant in the guards: leave the "
             "guard out where it only limits a range (more runs, so bounds stay true), or make the constant a start "
             "argument",
    "budget": "needed more than {number} {pivots}. Give it more with --pivots N, up to 1,000,000",
    "wide": "would need a table of {number} entries, which is more than is taken on. Split the program, or leave out "
            "arguments that nothing depends on",
    "scale": "ended with fractions whose common denominator is too large. Smaller factors may help, or inequalities in "
             "place of equations",
}


def words(report, entry, program):
    """Sentences on why the entry has no bound, each a line."""
    return WORDS[entry.why.kind](report, entry, program)


def _rules(numbers, joined):
    texts = [str(it) for it in numbers]
    if len(texts) == 1:
        return f"rule {texts[0]}"
    return "rules " + ", ".join(texts[:-1]) + f" {joined} {texts[-1]}"


def _argument(rule, place):
    return f"argument {place} after rule {rule}"


def point(one, rule, is_of_cost=False):
    """A point as values of the rule's variables, or as the way that they go where it is a direction."""
    names = programs.unknowns(rule, len(one.parts), is_of_cost)
    if one.denominator == 0:
        told = [f"{name} {part:+d}" for name, part in zip(names, one.parts) if part]
        return ", ".join(told) if told else "nothing changes"
    told = [f"{name} = {_over(part, one.denominator)}" for name, part in zip(names, one.parts)]
    return ", ".join(told) if told else "(no variables)"


def _over(part, denominator):
    whole, rest = divmod(part, denominator)
    return str(whole) if rest == 0 else f"{part}/{denominator}"


def _gap(report, entry, program):
    return gap_words(entry.why.facts, entry.rule, program) + _ignored(entry.why.facts["rules"], program) + [ADVICE]


def _ignored(rules, program):
    """The comparisons of these rules that the search doesn't look at."""
    told = [f"`{it.text}` of rule {number}" for number in rules
            for it in polynomials.comparisons(program.rule(number).guard) if it.degree > 1]
    if not told:
        return []
    one = len(told) == 1
    return [f"{', '.join(told)} {'has' if one else 'have'} degree 2 or more, and {'is' if one else 'are'} not looked "
            "at: where a run ends by that, say it by a comparison of degree 1."]


def gap_words(facts, rule, program, of_file=False):
    """Why no function ranks a rule, by the facts of a gap: its rules, its shut places, its moves and its floor. A proof
    file may shut places whose sizes are known."""
    shut = [] if of_file else _shut(facts["shut"])
    return _no_function(rule, facts["rules"]) + shut + _moves(facts, rule, program)


ADVICE = ("Where no run gets there, a comparison of degree 1 is missing from the guard: add what holds of the "
          "arguments. Where runs get there, the loop may have no end, or a bound that no affine function shows.")


def _no_function(rule, rules):
    others = [it for it in rules if it != rule]
    told = ("Over fractions, with each new value of degree 2 or more as any number, no affine function of the "
            f"arguments falls with each use of rule {rule}")
    if not others:
        return [told + " and is bounded from below before it."]
    return [told + f", is bounded from below before it, and never rises by {_rules(others, 'or')}."]


def _shut(places):
    return [f"The function may not use argument {it['place']} of {it['symbol']}: it has no size bound where the rules "
            "above are entered, so a function with it would give no time. See `why size` of the rules that lead there."
            for it in places]


def _moves(facts, rule, program):
    """The points of a gap: together they change nothing, or lead along its floor, which is always a direction."""
    moves = "; ".join(_move(it, program) for it in facts["moves"] if it.denominator or any(it.parts))
    floor = facts["floor"]
    if facts["shut"]:
        return [f"Consider {moves}: no function of the arguments that are left falls by all of this and has a lower "
                "bound."]
    if not any(floor.parts):
        change = "together they change" if len(facts["rules"]) > 1 else "this changes"
        return [f"Consider {moves}: {change} nothing."]
    return [f"Consider {moves}: this leads along {point(floor, program.rule(rule))}, where the comparisons of "
            f"degree 1 of rule {rule} hold without end, so that what falls has no lower bound by them."]


def _move(one, program):
    where = point(one, program.rule(one.rule))
    if one.denominator == 0:
        return f"rule {one.rule} along {where}"
    return f"rule {one.rule} at {where}" + (f" ({one.denominator} times)" if one.denominator > 1 else "")


def _limit(report, entry, program):
    facts = entry.why.facts
    question = QUESTIONS[facts["question"]].format(rule=facts["rule"], place=facts.get("place"))
    pivots = "pivot" if facts.get("number") == 1 else "pivots"
    limit = LIMITS[facts["limit"]].format(number=facts.get("number"), pivots=pivots)
    return [f"{question[0].upper()}{question[1:]} {limit}."]


def _large(report, entry, program):
    return [f"There is a bound, but its formula is too large to be kept: it has {entry.why.facts['nodes']} nodes, and "
            "4,096 in 200 levels are kept."]


def _loose(report, entry, program):
    rule, facts = program.rule(entry.rule), entry.why.facts
    side = "upwards" if facts["side"] == "up" else "downwards"
    free = [it.text for it in rule.free]
    what = "the cost of a step" if entry.kind == "cost" else f"the new value of {_argument(entry.rule, entry.place)}"
    told = [f"No affine function of the arguments of rule {entry.rule} limits {what} {side}, where one of degree 2 or more "
            "is taken as any number."]
    kept, ray = (point(facts[it], rule, entry.kind == "cost") for it in ("kept", "ray"))
    told.append(f"From {kept} it goes without end along {ray}.")
    if free:
        told.append(f"Free here, so any integer: {', '.join(free)}. Limit it in the guard by arguments of the left.")
    return told


def _missing(report, entry, program):
    facts = entry.why.facts
    return [f"It depends on {_argument(facts['rule'], facts['place'])}, which has no size bound itself."]


def _bent(report, entry, program):
    facts = entry.why.facts
    return [f"{_argument(facts['rule'], facts['place']).capitalize()} is computed in a loop from its own earlier value "
            "by a product or a power: no formula for this growth is kept."]


def _untimed(report, entry, program):
    told = f"Its bound is computed from how often rule {entry.why.facts['rule']} is used, and that rule has no time bound."
    return [told + ("" if entry.kind == "cost" else " The value itself need not grow.")]


WORDS = {"no ranking function": _gap, "limit": _limit, "large": _large, "loose": _loose, "missing": _missing,
         "bent": _bent, "untimed": _untimed}
