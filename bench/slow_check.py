"""A plain slow checker of proof files, by their description alone: nothing of the crates is used.

`said(program, text)` is what `koat check` writes of a proof's text, line by line: its first refusal; or that the file
is accepted, with its facts and gaps; or the first node or gap that isn't, and why. The program is one of
`slow_forms.py`. Nodes are judged one by one, each by its checks in order; facts are looked up along a list.
"""

import slow_proofs
from slow_bounds import ONE, ZERO, below, is_large, nodes, rewritten, text_of
from slow_trees import tree_of

UP, LOW = "up", "low"


class No(Exception):
    """Why a node or a gap isn't accepted."""


def needs(test, reason):
    if not test:
        raise No(reason)


def implies(rows, multipliers, goal):
    """The rows, each times its multiplier, add up to the goal, but for a constant that may be less."""
    rest = [goal[at] - sum(many * row[at] for many, row in zip(multipliers, rows)) for at in range(len(goal))]
    return not any(rest[:-1]) and rest[-1] >= 0


def widened(form, width):
    """A form over the left places, over so many unknowns."""
    return form[:-1] + [0] * (width - len(form) + 1) + form[-1:]


def at_news(form, forms):
    """A form over the places of a rule's target, over the unknowns of the rule."""
    whole = [sum(number * new[at] for number, new in zip(form, forms.news)) for at in range(forms.unknowns + 1)]
    return whole[:-1] + [whole[-1] + form[-1]]


def rounded(number, den):
    return -(-number // den)


def form_bound(form, den, size, left_out=()):
    """A form over a denominator as a bound, with a bound for each place, but for those that are left out."""
    parts = [("const", rounded(max(form[-1], 0), den))]
    parts += [("prod", (("const", rounded(abs(number), den)), size(place))) for place, number in enumerate(form[:-1], 1)
              if number and place not in left_out]
    return "sum", tuple(parts)


def stated(composed):
    """A composed bound as it is stated, where it isn't large."""
    needs(not is_large(composed), f"large {nodes(composed)}")
    again = rewritten(composed)
    needs(not is_large(again), f"large {nodes(again)}")
    return again


def ascends(items):
    return all(one < other for one, other in zip(items, items[1:]))


class Sided:
    """An arm of a rule's new value at a place: how it reads, and whether it is accepted."""

    def __init__(self, forms, place, side, arm):
        self.forms, self.place, self.side, self.arm = forms, place, side, arm
        self.polynomial = forms.polynomials[place - 1]

    def has_shape(self):
        arm, forms = self.arm, self.forms
        return arm.is_poly or (arm.den >= 1 and len(arm.form) == forms.left + 1
                               and len(arm.multipliers) == len(forms.rows))

    def is_accepted(self):
        if self.arm.is_poly:
            read = [number for monomial, _ in self.polynomial or () for number in monomial]
            return self.polynomial is not None and all(number < self.forms.left for number in read)
        sign = -1 if self.side == UP else 1
        goal = [one + sign * self.arm.den * value for one, value in
                zip(widened(self.arm.form, self.forms.unknowns), self.forms.news[self.place - 1])]
        return implies(self.forms.rows, self.arm.multipliers, goal)

    def reads(self):
        """The places that it reads, from 1."""
        if self.arm.is_poly:
            return sorted({number + 1 for monomial, _ in self.polynomial for number in monomial})
        return [place for place, number in enumerate(self.arm.form[:-1], 1) if number]

    def bound(self, size, left_out=()):
        if self.arm.is_poly:
            return "sum", tuple(("prod", (("const", number),) + tuple(size(it + 1) for it in monomial))
                                for monomial, number in self.polynomial)
        return form_bound(self.arm.form, self.arm.den, size, left_out)

    def slope(self, inside):
        """How often it takes the places inside."""
        if self.arm.is_poly:
            return 0
        return sum(rounded(abs(number), self.arm.den) for place, number in enumerate(self.arm.form[:-1], 1)
                   if place in inside)


class Facts:
    """Facts in order: each a kind, a rule, a place or 0, and a bound."""

    def __init__(self, facts):
        self.facts = facts

    def of(self, *key):
        return next((fact[3] for fact in self.facts if fact[:3] == key), None)

    def need_time(self, rule):
        needs(self.of("time", rule, 0) is not None, f"missing time {rule}")
        return self.of("time", rule, 0)

    def need_sizes(self, rule, places):
        for place in places:
            needs(self.of("size", rule, place) is not None, f"missing size {rule}.{place}")

    def after(self, rule):
        """The bound of each place after a rule."""
        return lambda place: self.of("size", rule, place)


class Checker:
    """Judges the nodes of lemmas, and what they state."""

    def __init__(self, program):
        self.program, self.lemmas = program, []

    def facts_of(self, node):
        """The facts of a node, where it and all that it rests on is accepted; each node is counted behind those."""
        joined = [fact for child in node.uses for fact in self.facts_of(child)]
        self.count += 1
        return getattr(self, "judge_" + node.kind)(node, Facts(joined))

    def judge_cite(self, node, known):
        return self.lemmas[node.number - 1]

    def judge_start(self, node, known):
        places = range(1, self.program.arities[self.program.start] + 1)
        return [("time", 0, 0, ONE)] + [("size", 0, place, ("var", place - 1)) for place in places]

    def judge_empty(self, node, known):
        rows = self.program.rules[node.rule].rows
        needs(len(node.multipliers) == len(rows), "shape")
        self.need_empty(rows, node.multipliers, node.rule)
        return [("time", node.rule, 0, ZERO)]

    def need_empty(self, rows, multipliers, rule):
        unknowns = len(rows[0]) - 1 if rows else 0
        needs(implies(rows, multipliers, [0] * unknowns + [-1]), "empty")

    def judge_unreached(self, node, known):
        never = {fact[1] for fact in known.facts if fact[0] == "time" and fact[3] == ZERO}
        needs(not self.program.is_reached(self.program.rules[node.rule].source, never), "reached")
        return [("time", node.rule, 0, ZERO)]

    def judge_never(self, node, known):
        needs(len(known.facts) == 1 and known.facts[0][0] == "time" and known.facts[0][1] > 0, "shape")
        needs(known.facts[0][3] == ZERO, "zero")
        rule = known.facts[0][1]
        places = range(1, self.program.arities[self.program.target(rule)] + 1)
        return [("size", rule, place, ZERO) for place in places]

    def judge_weaken(self, node, known):
        needs(len(known.facts) == 1 and below(known.facts[0][3], node.bound), "weaker")
        return [known.facts[0][:3] + (node.bound,)]

    def has_rank_shape(self, node):
        rules, forms = self.program.rules, node.forms
        if not ascends(node.set) or node.rule not in node.set or node.den < 1 or len(node.moves) != len(node.set):
            return False
        names = [name for name, _ in forms]
        return (names == self.program.symbols_of(node.set)
                and all(len(form) == self.program.arities[name] + 1 for name, form in forms)
                and all(len(move) == len(rules[rule].rows) for rule, move in zip(node.set, node.moves))
                and len(node.floor) == len(rules[node.rule].rows))

    def judge_rank(self, node, known):
        needs(self.has_rank_shape(node), "shape")
        forms = dict(node.forms)
        for rule, move in zip(node.set, node.moves):
            of, loss = self.program.rules[rule], node.den if rule == node.rule else 0
            before, behind = widened(forms[of.source], of.unknowns), at_news(forms[of.target], of)
            falls = [one - two for one, two in zip(before, behind)]
            needs(implies(of.rows, move, falls[:-1] + [falls[-1] - loss]), f"move {rule}")
        of = self.program.rules[node.rule]
        here = widened(forms[of.source], of.unknowns)
        needs(implies(of.rows, node.floor, here[:-1] + [here[-1] - node.den]), "floor")
        entries = self.program.entries(node.set)
        times = [known.need_time(entry) for entry in entries]
        for entry in entries:
            form = forms[self.program.target(entry)]
            known.need_sizes(entry, [place for place, number in enumerate(form[:-1], 1) if number])
        parts = [("prod", (time, form_bound(forms[self.program.target(entry)], node.den, known.after(entry))))
                 for time, entry in zip(times, entries)]
        return [("time", node.rule, 0, stated(("sum", tuple(parts))))]

    def arms(self, member):
        forms = self.program.rules[member.rule]
        return Sided(forms, member.place, UP, member.up), Sided(forms, member.place, LOW, member.low)

    def need_arms(self, members):
        for at, side in enumerate((UP, LOW)):
            for member in members:
                needs(self.arms(member)[at].is_accepted(), f"arm {member.rule}.{member.place} {side}")

    def judge_spread(self, node, known):
        member, (up, low) = node.members[0], self.arms(node.members[0])
        needs(up.has_shape() and low.has_shape(), "shape")
        self.need_arms([member])
        before = self.program.before(member.rule)
        for entry in before:
            known.need_sizes(entry, up.reads())
            known.need_sizes(entry, low.reads())
        parts = [("max", (up.bound(known.after(entry)), low.bound(known.after(entry)))) for entry in before]
        return [("size", member.rule, member.place, stated(("max", tuple(parts))))]

    def flows(self, members):
        """What flows into the members: the member, the rule before, the arm, and the places after that rule that are
        members."""
        for member in members:
            for entry in self.program.before(member.rule):
                inside = [it.place for it in members if it.rule == entry]
                for arm in self.arms(member):
                    yield member, entry, arm, inside

    def judge_cycle(self, node, known):
        members = node.members
        needs(ascends([(member.rule, member.place) for member in members]), "shape")
        needs(all(arm.has_shape() for member in members for arm in self.arms(member)), "shape")
        self.need_arms(members)
        for _, entry, arm, inside in self.flows(members):
            known.need_sizes(entry, [place for place in arm.reads() if place not in inside])
        for member, _, arm, inside in self.flows(members):
            is_bent = arm.arm.is_poly and set(arm.reads()) & set(inside)
            needs(not is_bent, f"bent {member.rule}.{member.place}")
        size = self.loop_bound(members, known)
        return [("size", member.rule, member.place, size) for member in members]

    def loop_bound(self, members, known):
        outer, slopes, added = [], {}, {}
        for member, entry, arm, inside in self.flows(members):
            slope, offset = arm.slope(inside), arm.bound(known.after(entry), inside)
            if slope:
                slopes[member.rule] = max(slopes.get(member.rule, 1), slope)
                added.setdefault(member.rule, []).append(offset)
            else:
                outer.append(offset)
        powers, parts = [], [("max", tuple(outer))]
        for rule in sorted({member.rule for member in members}):
            most = ("max", tuple(added.get(rule, ())))
            adds = rewritten(most) != ZERO
            time = known.need_time(rule) if slopes.get(rule, 1) > 1 or adds else None
            powers += [("power", slopes[rule], time)] if slopes.get(rule, 1) > 1 else []
            parts += [("prod", (time, most))] if adds else []
        return stated(("prod", tuple(powers) + (("sum", tuple(parts)),)))

    def judge_cost(self, node, known):
        forms = self.program.costs[node.rule]
        needs(forms is not None, "shape")
        if node.by == "empty":
            needs(len(node.multipliers) == len(forms.rows), "shape")
            self.need_empty(forms.rows, node.multipliers, node.rule)
            return [("cost", node.rule, 0, ZERO)]
        if node.by == "never":
            needs(known.need_time(node.rule) == ZERO, "zero")
            return [("cost", node.rule, 0, ZERO)]
        arm = Sided(forms, 1, UP, node.arm)
        needs(arm.has_shape(), "shape")
        needs(arm.is_accepted(), f"arm {node.rule}.0 up")
        time, before = known.need_time(node.rule), self.program.before(node.rule)
        for entry in before:
            known.need_sizes(entry, arm.reads())
        most = ("max", tuple(arm.bound(known.after(entry)) for entry in before))
        return [("cost", node.rule, 0, stated(("prod", (time, most))))]


def value_at(form, point):
    """A form at a scaled point, times its denominator."""
    return sum(number * part for number, part in zip(form, point))


def judge_gap(program, gap):
    rules, of = program.rules, program.rules[gap.rule]
    needs(ascends(gap.set) and gap.rule in gap.set and len(gap.moves) == len(gap.kept) == len(gap.set), "shape")
    points = list(zip(gap.set, gap.moves)) + list(zip(gap.set, gap.kept)) + [(gap.rule, gap.floor)]
    needs(all(len(point) == rules[rule].unknowns + 1 for rule, point in points), "shape")
    for rule, point in zip(gap.set, gap.moves):
        needs(all(value_at(row, point) >= 0 for row in rules[rule].rows), f"move {rule}")
    needs(all(value_at(row, gap.floor) >= 0 for row in of.rows), "floor")
    for rule, point in zip(gap.set, gap.kept):
        needs(all(value_at(row, point) >= 0 for row in rules[rule].rows) and point[-1] >= 1, f"kept {rule}")
    for name in program.symbols_of(gap.set):
        for place in range(program.arities[name] + 1):
            if (name, place) not in gap.shut:
                needs(balance(program, gap, name, place) == 0, f"balance {name.decode()}.{place}")
    strict = gap.moves[gap.set.index(gap.rule)]
    needs(strict[-1] or gap.floor[-1], "nothing")


def balance(program, gap, name, place):
    """What leaves a place of a symbol, less what arrives, and the floor there; place 0 is the constant."""
    whole = 0
    for rule, point in zip(gap.set, gap.moves):
        of = program.rules[rule]
        whole += point[place - 1] if of.source == name else 0
        if of.target == name:
            whole -= value_at(of.news[place - 1], point) if place else point[-1]
    return whole + (gap.floor[place - 1] if program.rules[gap.rule].source == name else 0)


def fact_line(names, fact):
    kind, rule, place, bound = fact
    return f"{kind} {rule}{f'.{place}' if kind == 'size' else ''}: {text_of(bound, names)}"


def said(program, text):
    refusal = slow_proofs.Reading(program.known, text).verdict()
    if not refusal.startswith("lemmas "):
        kind, _, at = refusal.partition(" at ")
        return [f"proof refused at {at}: {kind}"]
    lemmas, gaps = tree_of(program, text)
    checker = Checker(program)
    for number, lemma in enumerate(lemmas, 1):
        checker.count = 0
        try:
            checker.lemmas.append(checker.facts_of(lemma))
        except No as reason:
            return [f"no lemma {number} node {checker.count}: {reason}"]
    for number, gap in enumerate(gaps, 1):
        try:
            judge_gap(program, gap)
        except No as fault:
            return [f"no gap {number}: {fault}"]
    facts = [fact_line(program.names, fact) for facts in checker.lemmas for fact in facts]
    return ["accepted", *facts, *(f"gap {gap.rule}" for gap in gaps)]
