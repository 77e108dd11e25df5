"""What koat's checker doesn't accept in a proof of the third form, in words."""

import re

from . import polynomials, refined, refusals, third_form, third_sentences

LINE = re.compile("no (refinement|end|lemma|gap|claim)(?: ([0-9]+))?( node [0-9]+)?: (.*)")


def lines(program, text, said):
    """A proof file of the third form in sentences, then whether koat's checker accepts it, and what that means; by what
    the checker said, line by line."""
    words, (facts, claimed) = words_of(program, text, said), third_form.stated(said)
    if said[0] == "accepted":
        return words.lines() + ["koat's checker accepts this proof"] + _known(facts) + [tally(program, claimed)]
    return words.lines() + [f"koat's checker does not accept it: {said[0]}"] + [f"  {it}" for it in _why(words, said[0])]


def words_of(program, text, said):
    """A proof file of the third form that can be told, by what the checker said of it."""
    is_accepted = said[0] == "accepted"
    refused = None if is_accepted else named(said[0])
    file = third_form.read(text, program, refused == "refinement" or (refused or "").startswith("end "))
    return third_sentences.Words(program, file, third_form.stated(said)[1] if is_accepted else None, refused)


def _known(facts):
    """Facts at symbols, as the checker writes them, behind a line that says what they are."""
    return ["Whenever a run of the program itself is at one of these symbols:"] + [f"  {it}" for it in facts] if facts else []


def named(line):
    """What a line of the checker names, such as `signed lemma 2`."""
    found = LINE.fullmatch(line)
    if not found:
        return None
    kind, number, node, _ = found.groups()
    signed = "signed " if kind == "lemma" and not node else ""
    return f"{signed}{kind}" + (f" {number}" if number else "")


def tally(program, stated):
    """How many rules have a time by the claims of an accepted file, and whether all steps together are bounded."""
    times = {it.split(":")[0] for it in stated if it.startswith("time ")}
    total = next((it[len("total: "):] for it in stated if it.startswith("total: ")), None)
    texts = f"It claims a time for {len(times)} of {len(program.rules)} rules"
    what = "cost" if any(it.cost is not None for it in program.rules) else "number"
    return texts + (f", and that the {what} of all steps is at most {total}." if total is not None else
                   ", and nothing of all steps together.")


def _why(words, line):
    found = LINE.fullmatch(line)
    if not found:
        return []
    kind, number, node, reason = found.groups()
    if node or kind == "gap":
        return refusals.lines(words.spelled, words.file.plain, line)
    if kind == "lemma":
        return _lemma(words, words.file.lemmas[int(number) - 1], reason)
    word, _, rest = reason.partition(" ")
    return [OF[kind].get(word, "docs/proof-format.md says when this comes.").format(rest)]


OF = {
    "refinement": {
        "start": "The first copy has to be one of the start symbol, and to have no facts.",
        "facts": "A fact of the copy {} hasn't a coefficient for each place of its symbol.",
        "from": "Line {} of those that begin with `from` isn't the one that is due: there is one for each copy and each "
                "rule that leaves its symbol, by copy, then by rule.",
        "if": "A form in line {} of those that begin with `from` hasn't a coefficient for each left and each free variable "
              "of its rule.",
        "rules": "More than 1,000 ends lead to a copy, or none leaves the first copy.",
        "names": "A copy has no name, or that of an earlier one.",
    },
    "end": {
        "shape": "It leads to a copy of another symbol, or has not as many lists of multipliers as the copy has facts, or a "
                 "list has not a multiplier for each row of the guard.",
        "limit": "The rule with the facts and the choices in its guard passes a limit of docs/format.md.",
        "never": "The multipliers don't show that no values meet the guard.",
        "fact": "The multipliers don't show fact {} of the copy that it leads to.",
    },
    "claim": {
        "rule": "The program has no such rule.",
        "cost": "The rule has no cost.",
        "place": "The rule's target has no such place.",
        "lemma": "A fact that it cites isn't there or states something else, or there are too few or too many.",
        "bound": "Its bound isn't seen to be at least what its facts come to.",
    },
}
REASONS = {
    "shape": "A limit is passed, or an order, a symbol, a variable or a cited fact is wrong.",
    "missing": "Rule {} leads to a symbol with a function and isn't shown to be unused: it needs a move.",
    "gain": "What rule {} adds may be over 0, and no fact is cited that bounds it.",
    "bound": "Its bound isn't seen to be at least what follows.",
    "amount": "It isn't shown that what rule {} takes is at least 0.",
    "move": "The certificate of rule {} doesn't show that the function rises by no more than is said.",
    "floor": "The certificate of rule {} doesn't show that what is needed is there before it.",
}


def _lemma(words, node, reason):
    word, _, rest = reason.partition(" ")
    number = int(rest.split()[-1]) if rest else 0
    texts = [REASONS.get(word, "docs/proof-format.md says when this comes.").format(number)]
    if word in ("move", "floor") and node.kind in ("fall", "peak") and 0 < number <= len(words.spelled.rules):
        texts += _goal(words, node, word, number)
    return texts


def _goal(words, node, word, number):
    """The goal of a certificate, what that takes, and what is left over."""
    rule = words.spelled.rule(number)
    move = next((it for it in node.moves if it.rule == number), None)
    pay = next((it for it in node.pays if it.rule == number), None)
    variables = [polynomials.variable(it) for it in rule.left_names]
    before = _at(node, rule.source.text, variables)
    whole = polynomials.constant(node.denominator)
    names = polynomials.unknowns(rule)
    paid = refined.polynomial(pay.amount, names) if pay else polynomials.constant(0)
    if word == "floor":
        amount = refined.polynomial(node.polynomial, names) if node.kind == "peak" else paid
        goal, taken = before - whole * amount, pay.certificates[0] if pay else node.certificate
    else:
        if move is None:
            return []
        after, gain = _at(node, rule.target.text, polynomials.new_values(rule)), refined.polynomial(move.gain, names)
        goal = gain - after if move.is_reset else before + gain - after - whole * paid
        taken = move.certificate
    rest, parts = goal, []
    rows = refined.rows(rule)
    for it in taken:
        factors = [rows[at - 1] if 0 < at <= len(rows) else polynomials.constant(0) for at in it.rows]
        if it.variable:
            factors = [polynomials.variable(names[it.variable - 1]) if it.variable <= len(names) else
                       polynomials.constant(0), factors[0]]
        product = polynomials.constant(it.number)
        for factor in factors:
            product = product * factor
        rest = rest - product
        parts.append(f"{it.number} times " + " times ".join(f"`{third_sentences.text(one)}`" for one in factors))
    return [f"Its goal is `{third_sentences.text(goal)} >= 0`.",
            f"Its certificate takes {', '.join(parts) or 'nothing'}.",
            f"Left over is `{third_sentences.text(rest)}`, which has to be a number of at least 0, or to have no negative "
            "coefficient and each variable an even number of times in each product."]


def _at(node, symbol, values):
    """The function of a symbol at these values; 0 where it has none."""
    found = polynomials.constant(0)
    for number, variables in dict(node.functions).get(symbol, ()):
        product = polynomials.constant(number)
        for it in variables:
            product = product * (values[it - 1] if 0 < it <= len(values) else polynomials.constant(0))
        found = found + product
    return found
