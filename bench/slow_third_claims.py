"""When claims of a proof file of the third form are accepted, by the description alone: nothing of the crates is used.

`Claims(reading, ground, below, facts).stated(claim)` is the line of what an accepted claim states, over the program's
own start names; or it raises `No` with the reason.
"""

from slow_check import No, needs
from slow_third_bounds import ONE_FORM, ZERO, text_of, within
from slow_third_lemmas import Facts
from slow_third_section import monomials


class Claims:
    """Judges claims on a program, by facts of a program whose rules are copies of the rules below."""

    def __init__(self, reading, ground, below, facts):
        self.reading, self.ground, self.below, self.facts = reading, ground, below, Facts(facts)
        first = next(rule for rule in reading.rules if rule.source == reading.starts[0].text)
        self.names = [name.decode() for name in first.variables[:first.left]]

    def rule(self, number):
        needs(1 <= number <= len(self.reading.rules), "rule")
        return self.reading.rules[number - 1]

    def copies(self, number):
        return [copy for copy, below in enumerate(self.below, 1) if below == number]

    def stated(self, claim):
        bound = getattr(self, "judge_" + claim.kind)(claim)
        place = {"total": "", "above": f" {claim.rule}.{claim.place}", "below": f" {claim.rule}.{claim.place}"}
        return f"{claim.kind}{place.get(claim.kind, f' {claim.rule}')}: {text_of(bound, self.names)}"

    def judge_time(self, claim):
        self.rule(claim.rule)
        return self.sum_bound(claim, [(copy, ONE_FORM) for copy in self.copies(claim.rule)])

    def judge_cost(self, claim):
        rule = self.rule(claim.rule)
        needs(rule.cost is not None, "cost")
        form = monomials(rule.cost, rule)
        return self.sum_bound(claim, [(copy, form) for copy in self.copies(claim.rule)])

    def judge_total(self, claim):
        return self.sum_bound(claim, [self.ground.cost_charge(rule) for rule in self.ground.program.numbers()])

    def judge_above(self, claim):
        return self.value_bound(claim, lambda update: update)

    def judge_below(self, claim):
        return self.value_bound(claim, lambda update: ("opposite", update))

    def sum_bound(self, claim, charges):
        """A bound on a sum of charges: that of one fact on all, or what those of a fact on each come to."""
        if claim.each is None:
            bound = self.facts.sum(claim.one, tuple(charges))
            needs(bound is not None, "lemma")
            return bound
        needs(len(claim.each) == len(charges), "lemma")
        parts = tuple(self.charge_bound(charge, cited) for charge, cited in zip(charges, claim.each))
        needs(within(1, ("sum", parts), claim.bound), "bound")
        return claim.bound

    def charge_bound(self, charge, cited):
        if cited == 0:
            return self.never(charge[0])
        bound = self.facts.sum(cited, (charge,))
        needs(bound is not None, "lemma")
        return bound

    def never(self, rule):
        needs(self.facts.is_never(rule), "lemma")
        return ZERO

    def value_bound(self, claim, signed):
        """A bound on a new value, or its opposite, at all copies: by peaks of it, or by sizes of the place."""
        rule = self.rule(claim.rule)
        needs(1 <= claim.place <= len(rule.updates), "place")
        form = monomials(signed(rule.updates[claim.place - 1]), rule)
        copies = self.copies(claim.rule)
        needs(len(claim.each) == len(copies), "lemma")
        bounds = [self.head_bound(copy, claim.place, form, cited) for copy, cited in zip(copies, claim.each)]
        for bound in bounds:
            needs(within(1, bound, claim.bound), "bound")
        return claim.bound

    def head_bound(self, copy, place, form, cited):
        if cited == 0:
            return self.never(copy)
        peak = self.facts.peak(cited, copy, form)
        bound = peak if peak is not None else self.facts.size(cited, copy, place)
        needs(bound is not None, "lemma")
        return bound
