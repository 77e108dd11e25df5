"""A proof of the third form in sentences: the refined program, its lemmas, and what is claimed of the program."""

import re

from . import polynomials, refined, sentences, signed_bounds

# The amount of a charge that is 1 at each step, and of one that is the cost of the step.
ONE, COST = ((1, ()),), None


class Words:
    """A file of the third form for a program, in sentences. The lines of the checker, but for those of facts at symbols,
    are what its claims state; without them where it isn't accepted, and then `refused` is what the checker names, such as
    `signed lemma 2`."""

    def __init__(self, program, file, stated=None, refused=None):
        self.program, self.file, self.refused = program, file, refused
        self.stated = stated and [it for it in stated if not it.startswith("fact ")]
        is_spelled = not (refused or "").startswith(("refinement", "end"))
        self.spelled = refined.spelled(file, program) if is_spelled else program
        self.plain = _plain_labels(self.spelled, file.plain)
        self.states = []
        for it in file.lemmas:
            self.states.append(self.states_of(it))

    def lines(self):
        """All of it, line by line."""
        plain = sentences.lines(self.spelled, self.file.plain, None, self.refused)
        head = ["lemmas speak of the rules of the refined program"] if plain and self.file.copies else []
        return self.section() + head + plain + self.lemmas() + self.claims()

    def section(self):
        """The refined program: its copies, and where each rule leads from each."""
        if not self.file.copies:
            return []
        texts = ["the refined program:"]
        for it in self.file.copies:
            known = " and ".join(f"{fact} >= 0" for fact in self.facts(it)) or "nothing is known"
            texts.append(f"  {it.name} is a copy of {it.of} where {known}")
        texts[0] += self.mark("refinement")
        number = end = 0
        for branch in self.file.branches:
            rule, ways = self.program.rule(branch.rule), refined.ways(branch.case)
            for target, path in ways:
                number, end = number + (target is not None), end + 1
                texts.append(f"  rule {branch.rule} leads from {branch.copy}" + _path(path, rule)
                            + (f" to {target}: refined rule {number}" if target else
                               " nowhere: no values meet its guard there") + self.mark(f"end {end}"))
        return texts

    def facts(self, copy):
        names = sentences.names(self.program, copy.of, max([len(it) - 1 for it in copy.facts], default=0))
        return [sentences.form_text(it, names) for it in copy.facts]

    def lemmas(self):
        """The signed lemmas, each with what it states and what shows it."""
        texts = []
        for number in range(1, len(self.file.lemmas) + 1):
            texts += self.lemma(number)
        return texts

    def lemma(self, number):
        node, name = self.file.lemmas[number - 1], f"signed lemma {number}"
        fact = len(self.plain) + number
        return [f"{name}, fact {fact}: {self.statement(number)}{self.mark(name)}"] + [
            f"  {it}" for it in SHOWN[node.kind](self, node)]

    def mark(self, name):
        return "   <-- not accepted" if name == self.refused else ""

    def statement(self, number):
        """What a signed lemma states, with its bound."""
        bound = signed_bounds.text(self.file.lemmas[number - 1].bound)
        charges, peak = self.states[number - 1]
        if peak:
            rule, terms = peak
            return f"at each step by {self.rule(rule)}, {self.at_rule(rule, terms)} is at most {bound}"
        return self.charged(charges, bound)

    def states_of(self, node):
        """The charges of a sum, or the peak, that a lemma states: `(charges, None)` or `(None, (rule, terms))`."""
        if node.kind in ("fall", "phases"):
            return [(it.rule, it.amount) for it in node.pays], None
        if node.kind in ("peak", "row", "sized"):
            return None, (node.rule, node.polynomial)
        if node.kind == "times":
            return [(node.rule, node.polynomial)], None
        if node.kind == "among":
            return node.charges, None
        first = self.fact_states(node.by[0])
        if node.kind == "least" or first[1]:
            return first
        return first[0] + (self.fact_states(node.by[1])[0] or []), None

    def fact_states(self, number):
        """The same of an earlier fact. Of the plain part those on absolute values have neither."""
        at = number - len(self.plain) - 1
        if 0 <= at < len(self.states):
            return self.states[at]
        kind, _, rule = (self.plain[number - 1] if 0 < number <= len(self.plain) else "").partition(" ")
        return [(int(rule), ONE if kind == "time" else COST)] if kind in ("time", "cost") else [], None

    def charged(self, charges, bound):
        """What a sum of charges states: how often rules are used together, or what amounts come to."""
        if all(amount == ONE for _, amount in charges):
            rules = [rule for rule, _ in charges]
            often = "never" if bound == "0" else "at most once" if bound == "1" else f"at most {bound} times"
            return f"{self.rules(rules)} {'is' if len(rules) == 1 else 'are together'} used {often}"
        parts = [f"{'the cost' if amount == COST else self.at_rule(rule, amount)} over all steps by {self.rule(rule)}"
                 for rule, amount in charges]
        return f"{sentences.joined(parts)}, where it is positive, comes to at most {bound}"

    def at_rule(self, rule, terms):
        """The text of a polynomial over the unknowns of a rule."""
        return text(self.over_rule(rule, terms))

    def over_rule(self, rule, terms):
        """A polynomial over the unknowns of a rule."""
        names = polynomials.unknowns(self.spelled.rule(rule)) if 0 < rule <= len(self.spelled.rules) else []
        return refined.polynomial(terms, names)

    def rule(self, number):
        return f"refined rule {number}" if self.file.copies else f"rule {number}"

    def rules(self, numbers):
        if len(numbers) == 1:
            return self.rule(numbers[0])
        return ("refined " if self.file.copies else "") + "rules " + sentences.joined([str(it) for it in numbers])

    def potential(self, functions, what="The potential"):
        """The functions of a potential, each with the symbols at which it is that."""
        symbols = {}
        for symbol, terms in functions:
            names = sentences.names(self.spelled, symbol, 64)
            symbols.setdefault(text(refined.polynomial(terms, names)), []).append(symbol)
        parts = [f"{form} at {sentences.joined(its)}" for form, its in symbols.items()]
        between = "; " if any(len(its) > 1 for its in symbols.values()) else ", "
        return f"{what} is {between.join(parts) or '0'}."

    def moves(self, node):
        """What each rule does to the potential, and by what its guard shows that. The rules that keep it without either
        are named together, where the first of them stands."""
        pays = {it.rule: it for it in node.pays}
        keeping = [it.rule for it in node.moves if self.only_keeps(it, pays)]
        texts = []
        for it in node.moves:
            if it.rule not in keeping:
                texts.append(self.move(it, pays.get(it.rule), node.denominator))
            elif it.rule == keeping[0]:
                texts.append(f"{_upper(self.rules(keeping))} {'doesn' if len(keeping) == 1 else 'don'}'t raise it.")
        return texts

    def only_keeps(self, move, pays):
        """Whether a rule keeps the potential, adds and takes nothing, and needs no row to show that."""
        adds = self.at_rule(move.rule, move.gain) != "0"
        return not (move.is_reset or adds or move.rule in pays or self.taken(move.rule, move.certificate))

    def move(self, move, pay, denominator):
        gain = self.at_rule(move.rule, move.gain)
        by = f", which fact {move.by} bounds" if move.by else ""
        does = ["doesn't raise it"] if gain == "0" and not pay else []
        if move.is_reset:
            does = [f"sets it anew, to at most {gain}{by}"]
        elif gain != "0":
            does = [f"adds at most {gain}{by}"]
        if pay:
            does.append(f"takes {self.paid(pay, denominator)} out of it")
        return f"{_upper(self.rule(move.rule))} {', and '.join(does)}{self.taken(move.rule, move.certificate)}."

    def paid(self, pay, denominator):
        """What a rule takes out of the potential."""
        return self.at_rule(pay.rule, tuple((denominator * number, found) for number, found in pay.amount))

    def pays(self, node):
        """That what is taken is there before."""
        moved, texts = {it.rule for it in node.moves}, []
        for it in node.pays:
            paid = self.paid(it, node.denominator)
            lead = "" if it.rule in moved else f"{_upper(self.rule(it.rule))} takes {paid} out of it. "
            texts.append(f"{lead}Before {self.rule(it.rule)} at least {paid} is there"
                        f"{self.taken(it.rule, it.certificates[0])}.")
        return texts

    def taken(self, rule, certificate):
        """By which rows of a rule's guard a certificate shows its goal."""
        used = self.used(rule, certificate)
        return f", by {' and '.join(used)}" if used else ""

    def used(self, rule, certificate):
        """The rows of a rule that a certificate takes, each once."""
        if not 0 < rule <= len(self.spelled.rules):
            return []
        rows = refined.rows(self.spelled.rule(rule))
        return list(dict.fromkeys(f"{text(rows[number - 1])} >= 0" for it in certificate for number in it.rows
                                  if it.number and 0 < number <= len(rows)))

    def claims(self):
        """The claims, each with what it states of the program, and the facts that it rests on."""
        return [self.claim(number) for number in range(1, len(self.file.claims) + 1)]

    def claim(self, number):
        it, name = self.file.claims[number - 1], f"claim {number}"
        bound = self.stated[number - 1].split(": ", 1)[1] if self.stated and number <= len(self.stated) else None
        return f"{name}: {claimed(it, bound, self.program)}, by {_facts(it.by)}{self.mark(name)}"

    def whys(self):
        """For each label of a claim what shows it: the lemmas that state the facts that it rests on."""
        found = {}
        for number, it in enumerate(self.file.claims, 1):
            has_copies = it.is_by_copies and self.file.copies
            texts = [f"It rests on {_facts(it.by)}" + (", one for each copy of the rule." if has_copies else ".")]
            told = dict.fromkeys(it.by)
            for fact in told:
                texts += self.fact(fact)
            for cited in dict.fromkeys(one for fact in told for one in self.cited(fact)):
                texts += self.fact(cited)[:1] if cited not in told else []
            label, bound = self.stated[number - 1].split(": ", 1)
            found[label, bound] = texts
        return found

    def cited(self, number):
        """The facts that the lemma of a fact cites."""
        at = number - len(self.plain)
        if not 0 < at <= len(self.file.lemmas):
            return []
        node = self.file.lemmas[at - 1]
        return [it for it in [*node.by, *(move.by for move in node.moves)] if it]

    def fact(self, number):
        """What states a fact, and what shows it."""
        at = number - len(self.plain)
        if number == 0:
            return ["A copy that is never used needs none."]
        if 0 < at <= len(self.file.lemmas):
            return [it.strip() for it in self.lemma(at)]
        return [f"Fact {number} is of the lemmas in absolute values."]


def _plain_labels(program, proof):
    """What the lemmas of a plain part state, in order, without their bounds."""
    stated = []
    for node in proof.lemmas:
        stated.append(sentences.places(program, node, stated))
    return [it for labels in stated for it in labels]


def text(polynomial):
    return signed_bounds.polynomial([(number, names) for names, number in polynomial.monomials.items()])


def _upper(text):
    return text[0].upper() + text[1:]


def _path(path, rule):
    texts = " and ".join(refined.path_text(form, is_kept, rule) for form, is_kept in path)
    return f" where {texts}" if texts else ""


def _facts(numbers):
    found = [str(it) for it in dict.fromkeys(numbers) if it]
    if not found:
        return "no fact"
    return ("fact " if len(found) == 1 else "facts ") + sentences.joined(found)


def claimed(it, bound, program):
    """What a claim states, by the bound that the checker answers; without one where the file isn't accepted."""
    most = f"at most {bound}" if bound else None
    if it.kind == "time":
        if bound in ("0", "1"):
            return f"rule {it.rule} is {'never used' if bound == '0' else 'used at most once'}"
        return f"rule {it.rule} is used {most} times" if most else f"rule {it.rule} has a time"
    if it.kind == "cost":
        return f"the steps by rule {it.rule} " + (f"cost {most} together" if most else "have a cost")
    if it.kind == "total":
        has_costs = any(one.cost is not None for one in program.rules)
        whole = "all steps cost" if has_costs else "a run has"
        return f"{whole} {most} {'together' if has_costs else 'steps'}" if most else "all steps have a bound"
    what = f"argument {it.place} after rule {it.rule}"
    if not most:
        return f"{what} is bounded from {it.kind}"
    if it.kind == "above":
        return f"{what} is {most}"
    is_one_part = re.fullmatch(r"\[[^\[\]]*\]|[0-9]+", bound)
    return f"{what} is at least " + ("0" if bound == "0" else f"-{bound}" if is_one_part else f"-({bound})")


def _over(node):
    return f", divided by {node.denominator}," if node.denominator > 1 else ""


def _of_fall(words, node):
    return [words.potential(node.functions), *words.moves(node), *words.pays(node),
            f"What is there at the start and what is put in{_over(node)} bound what is taken out."]


def _of_peak(words, node):
    terms = tuple((node.denominator * number, found) for number, found in node.polynomial)
    return [words.potential(node.functions), *words.moves(node),
            f"Before {words.rule(node.rule)} it is at least {words.at_rule(node.rule, terms)}"
            f"{words.taken(node.rule, node.certificate)}.",
            f"What is there at the start or anew and what is put in{_over(node)} bound that."]


def _of_row(words, node):
    return [f"The guard of {words.rule(node.rule)} limits it{words.taken(node.rule, node.certificate)}."]


def _of_phases(words, node):
    rules, one = words.rules([it.rule for it in node.pays]), len(node.pays) == 1
    return [words.potential(node.functions, "The first function"),
            words.potential(node.second, "The second one"),
            f"{_upper(rules)} {'lowers' if one else 'lower'} the first one by {node.denominator} each time, and the "
            f"second one is at least {node.denominator} before: it may rise by what the first one is, less "
            f"{node.denominator}, and so falls ever faster once the first one is negative. Other rules raise neither."]


SHOWN = {
    "fall": _of_fall,
    "peak": _of_peak,
    "row": _of_row,
    "times": lambda words, node: [f"How often it is used, fact {node.by[0]}, times how large that is each time, fact "
                                  f"{node.by[1]}, gives the bound."],
    "least": lambda words, node: [f"It is the least of what facts {node.by[0]} and {node.by[1]} state."],
    "add": lambda words, node: [f"It is the sum of what facts {node.by[0]} and {node.by[1]} state."],
    "among": lambda words, node: [f"They are among what fact {node.by[0]} bounds."],
    "sized": lambda words, node: [f"It is so by the absolute values that {_facts(node.by)} bound."],
    "phases": _of_phases,
}
