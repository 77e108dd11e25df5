"""What koat takes without a word and is often a slip: names, dead ends, rules that never occur, costs that are never
over 0, large constants; and what is good to know."""

from collections import namedtuple

from . import polynomials, programs

# Linear programs multiply and add numbers below 2^31. The product of two numbers from 46,341 on passes that.
LARGE, SQUARE = 2**29, 46341

# `is_slip` tells what is likely wrong from what is merely good to know.
Finding = namedtuple("Finding", "at is_slip text")


def findings(program, report):
    found = _variables(program) + _symbols(program) + _times(program, report)
    found += _constants(program, report)
    found += _costs(program, report) + _ignored(program)
    return sorted(found, key=lambda it: (it.at, it.text))


def is_near(one, other):
    """Whether two names may be one that was spelled in two ways: by capitals, by `_`, or by one slip of a letter."""
    if one == other:
        return False
    if one.lower().replace("_", "") == other.lower().replace("_", ""):
        return True
    # Short words that differ in a letter, as `stop` and `step`, are mostly meant.
    return max(len(one), len(other)) >= (5 if len(one) == len(other) else 4) and _one_slip(one, other)


def _one_slip(one, other):
    start = 0
    while start < min(len(one), len(other)) and one[start] == other[start]:
        start += 1
    one, other = one[start:], other[start:]
    while one and other and one[-1] == other[-1]:
        one, other = one[:-1], other[:-1]
    # Names that differ in a digit or a prime are meant to differ.
    letters = all(it.isalpha() for it in one + other)
    return letters and (max(len(one), len(other)) <= 1 or (len(one) == 2 and one == other[::-1]))


def _variables(program):
    lefts = {name for rule in program.rules for name in rule.left_names}
    found = []
    for rule in program.rules:
        for token in rule.free:
            near = [it for it in rule.left_names if is_near(it, token.text)]
            if near:
                found.append(Finding(token.at, True, f"rule {rule.number}: `{token.text}` isn't on the left, so it is "
                                     f"any integer; is `{near[0]}` meant?"))
            elif token.text not in lefts and token.text not in program.variables:
                found.append(Finding(token.at, True, f"rule {rule.number}: `{token.text}` is on no left side and not "
                                     "in VAR; koat takes it as any integer"))
    return found


def _symbols(program):
    left, led_to = {}, {}
    for rule in program.rules:
        left.setdefault(rule.source.text, rule.source)
        led_to.setdefault(rule.target.text, rule.target)
    found = []
    for name, token in led_to.items():
        if name in left:
            continue
        near = [it for it in left if is_near(it, name)]
        also = f"; is `{near[0]}` meant?" if near else ""
        found.append(Finding(token.at, bool(near), f"no rule leaves `{name}`: runs end there{also}"))
    reached = _reached(program)
    for name, token in left.items():
        if name not in reached:
            found.append(Finding(token.at, True, f"no rule leads to `{name}` from the start symbol"))
    return found


def _reached(program):
    targets = {}
    for rule in program.rules:
        targets.setdefault(rule.source.text, []).append(rule.target.text)
    reached, left = {program.start}, [program.start]
    while left:
        found = set(targets.get(left.pop(), [])) - reached
        reached |= found
        left += found
    return reached


def _times(program, report):
    reached, found = _reached(program), []
    for entry in report.times:
        rule = program.rule(entry.rule)
        if entry.text == "0" and rule.source.text in reached:
            found.append(Finding(rule.at, True, f"rule {entry.rule} never occurs: koat says `time {entry.rule}: 0`; "
                                 "its guard can't hold, or no run gets to it"))
    return found


def _costs(program, report):
    """Costs of rules that may occur which are never over 0, though they aren't written as 0."""
    times, found = {it.rule: it.text for it in report.times}, []
    for entry in report.costs:
        rule = program.rule(entry.rule)
        if entry.text == "0" and times[entry.rule] != "0" and rule.cost.strip() != "0":
            found.append(Finding(rule.at, True, f"rule {entry.rule} costs `{rule.cost.strip()}`, which is never over 0: "
                                 "its steps cost nothing"))
    return found


def _constants(program, report):
    """Numbers that may take a linear program out of its range: a slip where one left it, or from 2^29 on."""
    is_left = any(it.why and it.why.facts.get("limit") == "range" for it in report.entries())
    found = []
    for token in program.constants:
        number = int(token.text.lstrip("0") or "0")
        if number < SQUARE:
            continue
        which = "2^29 or more" if number >= LARGE else "46,341 or more, so that its square passes 2^31"
        lost = "koat lost bounds by numbers of this size here" if is_left else \
            "koat may lose bounds by numbers of this size"
        found.append(Finding(token.at, is_left or number >= LARGE, f"the number {token.text} is {which}: {lost}; leave "
                             "it out, or make it a start argument"))
    return found


def _ignored(program):
    """Comparisons that koat doesn't look at: of what stands in a guard only degree 1 gives rows."""
    return [Finding(rule.at, False, f"rule {rule.number}: `{it.text}` has degree {it.degree}, and koat's search looks "
                    "at comparisons of degree 1 alone: its bounds hold without this one, too")
            for rule in program.rules for it in polynomials.comparisons(rule.guard) if it.degree > 1]
