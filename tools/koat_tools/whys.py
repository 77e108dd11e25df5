"""What shows each bound, with its arithmetic: from the lemmas of a proof that koat's checker accepted."""

import re

from . import polynomials, sentences

FACT = re.compile(r"((?:time|size|cost) [0-9]+(?:\.[0-9]+)?): (.*)")


def whys(program, proof, stated, written=None):
    """For each label of a bound that a lemma states, the sentences on what shows it. Where the program has facts in its
    guards, `written` is the one without them."""
    left, found, of_lemmas = list(stated), {}, []
    for rule, own in zip(program.rules, (written or program).rules):
        rule.written = {" ".join(it.text.split()) for it in polynomials.comparisons(own.guard)}
    for lemma in proof.lemmas:
        labels = sentences.places(program, lemma, of_lemmas)
        own, left = left[:len(labels)], left[len(labels):]
        facts = dict(FACT.fullmatch(it).groups() for it in own)
        told = _Lemma(program, [it.facts for it in of_lemmas]).lines(lemma)
        of_lemmas.append(_Stated(labels, facts))
        found.update({label: told + [f"So the bound is {bound}."] for label, bound in facts.items()})
    return found


class _Stated(list):
    """The labels of what a lemma states, and its bounds."""

    def __init__(self, labels, facts):
        super().__init__(labels)
        self.facts = facts


class _Lemma:
    """A lemma that is put into words, behind what earlier ones state."""

    def __init__(self, program, earlier):
        self.program, self.earlier = program, earlier

    def lines(self, node):
        if node.kind == "rank":
            return self.rank(node)
        if node.kind in ("spread", "cycle"):
            return self.sizes(node)
        if node.kind == "weaken":
            return self.lines(node.uses[0])
        return sentences.shown(self.program, node)

    def uses(self, node):
        """The bounds that a node rests on, by label."""
        found = {"time 0": "1"}
        found.update({f"size 0.{place}": name for place, name in enumerate(self.program.inputs, 1)})
        for facts in self.earlier:
            found.update(facts)
        for it in reversed(node.uses):
            if it.kind == "cite":
                found.update(self.earlier[it.number - 1])
        return found

    def rank(self, node):
        program, forms = self.program, dict(node.forms)
        shown = {symbol: form for symbol, form in forms.items() if any(form)}
        parts = [f"{self.form(symbol, form)} at {symbol}" for symbol, form in shown.items()]
        told = ["Ranking function: " + (", ".join(parts) or "0") + "."]
        told.append(self.falls(node, program.rule(node.rule), forms))
        told.append(self.floor(node, program.rule(node.rule), forms))
        told += [self.stays(node, program.rule(it), forms) for it in node.rules if it != node.rule]
        return told + self.entries(node, forms)

    def form(self, symbol, form):
        return sentences.form_text(form, sentences.names(self.program, symbol, len(form) - 1))

    def values(self, rule, forms):
        """The function before and after a rule, as polynomials."""
        before = _form(forms[rule.source.text], [polynomials.variable(it) for it in rule.left_names])
        return before, _form(forms[rule.target.text], polynomials.new_values(rule))

    def falls(self, node, rule, forms):
        before, after = self.values(rule, forms)
        multipliers = node.moves[node.rules.index(rule.number)]
        return (f"Rule {rule.number} lowers it: {_difference(before, after)} >= {node.denominator}"
                + _by(rule, multipliers) + ".")

    def floor(self, node, rule, forms):
        before, _ = self.values(rule, forms)
        return (f"Before rule {rule.number} it is bounded from below: {polynomials.text(before)} >= {node.denominator}"
                + _by(rule, node.multipliers) + ".")

    def stays(self, node, rule, forms):
        before, after = self.values(rule, forms)
        multipliers = node.moves[node.rules.index(rule.number)]
        return f"Rule {rule.number} doesn't raise it: {_difference(before, after)} >= 0" + _by(rule, multipliers) + "."

    def entries(self, node, forms):
        """How runs come to the rules of the set: how often, and what the function is then at most."""
        program, known, told = self.program, self.uses(node), []
        sources = {program.rule(it).source.text for it in node.rules}
        ways = [(0, program.start)] if program.start in sources else []
        ways += [(it.number, it.target.text) for it in program.rules
                 if it.number not in node.rules and it.target.text in sources]
        over = f", over {node.denominator}" if node.denominator > 1 else ""
        for number, symbol in ways:
            way, often = f"rule {number}", _times(known.get(f"time {number}"))
            if number == 0:
                way, often = "the start", "once"
            form = forms[symbol]
            names = sentences.names(program, symbol, len(form) - 1)
            sizes = [f"{name} at most {known.get(f'size {number}.{place}', '?')}"
                     for place, name in enumerate(names, 1) if form[place - 1]]
            value = f"it is {self.form(symbol, form)}{over}"
            value += f", with {', '.join(sizes)} in absolute value" if sizes else ""
            told.append(f"Runs come in by {way}, {often}; then {value}.")
        return told

    def sizes(self, node):
        program, known, told = self.program, self.uses(node), []
        for member in node.members:
            rule = program.rule(member.rule)
            told += self.member(rule, member)
            ways = ([0] if rule.source.text == program.start else []) + [
                it.number for it in program.rules if it.target.text == rule.source.text]
            read = {place for arm in (member.up, member.low) for place in range(1, len(rule.left) + 1)
                    if arm.form is None or arm.form[place - 1]}
            members = {(it.rule, it.place) for it in node.members}
            for place in sorted(read):
                before = [f"{known[f'size {way}.{place}']} after {'the start' if way == 0 else f'rule {way}'}"
                          for way in ways if f"size {way}.{place}" in known and (way, place) not in members]
                if before:
                    told.append(f"Before it, {rule.left_names[place - 1]} is at most {', '.join(before)}, in absolute "
                                "value.")
        if node.kind == "cycle":
            told.append("The value goes round in a loop: what comes in from outside, and what each use of a rule adds, "
                        "times what each multiplies by, gives the bound.")
        return told

    def member(self, rule, member):
        """The new value of a place, and between what it lies."""
        new = " ".join(rule.updates[member.place - 1].split())
        if member.up.form is None or member.low.form is None:
            return [f"Rule {rule.number} makes it {new}: in absolute value at most the same with absolute values and "
                    "coefficients."]
        told = []
        for arm, sign, word in ((member.low, -1, "at least"), (member.up, 1, "at most")):
            form = sentences.form_text([sign * it for it in arm.form], rule.left_names, arm.denominator)
            told.append(f"{word} {form}" + _by(rule, arm.multipliers))
        return [f"Rule {rule.number} makes it {new}, which is {told[0]}, and {told[1]}."]


def _times(bound):
    return "some times" if bound is None else "at most once" if bound == "1" else f"at most {bound} times"


def _form(form, values):
    total = polynomials.constant(form[-1])
    for coefficient, value in zip(form, values):
        total = total + polynomials.constant(coefficient) * value
    return total


def _difference(before, after):
    """Before less after, and what that is."""
    second = polynomials.text(after)
    second = f"({second})" if re.search(r"[ -]", second) else second
    written, result = f"{polynomials.text(before)} - {second}", polynomials.text(before - after)
    return written if written == result else f"{written} = {result}"


def _by(rule, multipliers):
    """The comparisons of the guard that show it, and the facts."""
    used = {text: True for (_, text), it in zip(polynomials.rows(rule), multipliers) if it}
    if not used:
        return ""
    guard = [it for it in used if " ".join(it.split()) in rule.written]
    facts = [it for it in used if it not in guard]
    return ", by " + " and ".join([f"the guard's {it}" if at == 0 else it for at, it in enumerate(guard)]
                                  + [f"the fact {it}" if at == 0 else it for at, it in enumerate(facts)])
