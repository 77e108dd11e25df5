"""A proof file of the third form as plain data: the refined program, the signed lemmas with their potentials, and what each
claim rests on. docs/report.schema.json describes it, with the names of docs/proof-format.md."""

from . import polynomials, refined, reports, sentences, signed_bounds, third_form, third_refusals, third_sentences

# Where in the checker's line on a fact at a symbol its symbol begins.
BEHIND_FACT = len("fact ")


def as_json(program, text, said):
    """What a file has, by what the checker said of it, line by line."""
    words, (facts, _) = third_refusals.words_of(program, text, said), third_form.stated(said)
    spelled = [] if words.spelled is program else refined.spelled_rules(words.file)
    # The program's rule of which each rule is that lemmas speak of.
    origins = [it.rule for it in spelled] or [it.number for it in program.rules]
    return {
        "facts_at_symbols": [reports.fact_json(it[BEHIND_FACT:]) for it in facts],
        "copies": [{"symbol": it.name, "of": it.of, "facts": _facts(words, it)} for it in words.file.copies],
        "rules": [_rule(*it) for it in zip(spelled, words.spelled.rules)],
        "plain": [{"fact": number, "label": it} for number, it in enumerate(words.plain, 1)],
        "lemmas": [_lemma(words, number) for number in range(1, len(words.file.lemmas) + 1)],
        "claims": [_claim(words, number, origins) for number in range(1, len(words.file.claims) + 1)],
    }


def _facts(words, copy):
    """The forms that are at least 0 at a copy, over the names of its symbol's places."""
    found = []
    for form in copy.facts:
        terms = [(number, (place,)) for place, number in enumerate(form[:-1], 1)] + [(it, ()) for it in form[-1:]]
        found.append(_polynomial(refined.polynomial(terms, sentences.names(words.program, copy.of, len(form) - 1))))
    return found


def _rule(spelled, rule):
    """A rule that the section spells."""
    return {"rule": rule.number, "of": spelled.rule, "source": spelled.copy.name, "target": spelled.target,
            "guard": rule.guard or None}


def _polynomial(found):
    return {"text": third_sentences.text(found),
            "terms": [{"coefficient": str(number), "names": list(names)} for names, number in found.monomials.items()]}


def _lemma(words, number):
    """A signed lemma: what it states, its bound, the facts that it cites, and what else its kind has."""
    node = words.file.lemmas[number - 1]
    fact = len(words.plain) + number
    return {"lemma": number, "fact": fact, "kind": node.kind, "text": words.statement(number),
            **_states(words, *words.states[number - 1]),
            "bound": reports.bound_json(signed_bounds.text(node.bound), node.bound),
            "by": node.by or list(dict.fromkeys(words.cited(fact))), **OF_KIND.get(node.kind, _nothing)(words, node)}


def _states(words, charges, peak):
    """The sum of charges that a lemma bounds, or the peak: an expression at each step by a rule."""
    if peak is None:
        return {"sum": [{"rule": rule, "amount": _amount(words, rule, amount)} for rule, amount in charges]}
    rule, terms = peak
    expression = words.over_rule(rule, terms)
    return {"peak": {"rule": rule, "expression": _polynomial(expression), "values": _values(words, rule, expression)}}


def _amount(words, rule, amount):
    is_cost = amount is third_sentences.COST
    return _polynomial(polynomials.read(words.spelled.rule(rule).cost) if is_cost else words.over_rule(rule, amount))


def _values(words, rule, expression):
    """The values after a rule that an expression is, from above, or of which it is the negation, from below."""
    updates = words.spelled.rule(rule).updates if 0 < rule <= len(words.spelled.rules) else []
    found = []
    for place, update in enumerate(updates, 1):
        value = polynomials.read(update)
        found += [{"place": place, "side": side} for side, it in (("above", value), ("below", -value))
                  if it.monomials == expression.monomials]
    return found


def _functions(words, functions):
    """The function at each symbol that has one, with the names of the symbol's places, in order."""
    found = []
    for symbol, terms in functions:
        count = next((len(it.updates) for it in words.spelled.rules if it.target.text == symbol), 0)
        names = sentences.names(words.spelled, symbol, count)
        found.append({"symbol": symbol, "arguments": names, "function": _polynomial(refined.polynomial(terms, names))})
    return found


def _move(words, move):
    return {"rule": move.rule, "kind": "reset" if move.is_reset else "keep",
            "gain": _polynomial(words.over_rule(move.rule, move.gain)), "by": move.by or None,
            "rows": words.used(move.rule, move.certificate)}


def _pay(words, pay):
    return {"rule": pay.rule, "amount": _polynomial(words.over_rule(pay.rule, pay.amount)),
            "rows": words.used(pay.rule, pay.certificates[0])}


def _table(words, node):
    """What the lemmas with potentials have."""
    return {"functions": _functions(words, node.functions), "denominator": str(node.denominator),
            "moves": [_move(words, it) for it in node.moves]}


def _pays(words, node):
    return {"pays": [_pay(words, it) for it in node.pays]}


def _rows(words, node):
    """What shows the expression of a peak to be within the function, or within a number."""
    return {"rows": words.used(node.rule, node.certificate)}


def _nothing(_words, _node):
    return {}


OF_KIND = {
    "fall": lambda words, node: {**_table(words, node), **_pays(words, node)},
    "peak": lambda words, node: {**_table(words, node), **_rows(words, node)},
    "phases": lambda words, node: {**_table(words, node), "second_functions": _functions(words, node.second),
                                   **_pays(words, node)},
    "row": lambda words, node: {"most": str(node.most), **_rows(words, node)},
}


def _claim(words, number, origins):
    """A claim with the bound that the checker answers, and the facts that it rests on, each with the rules of which it is."""
    it = words.file.claims[number - 1]
    rule = {} if it.kind == "total" else {"rule": it.rule}
    place = {"place": it.place} if it.place else {}
    stated = words.stated[number - 1].split(": ", 1)[1] if words.stated else None
    bound = stated and reports.bound_json(stated, signed_bounds.read(stated))
    return {"claim": number, "kind": it.kind, **rule, **place, "bound": bound, "by": _support(it, origins)}


def _support(claim, origins):
    rules = [number for number, of in enumerate(origins, 1) if claim.kind == "total" or of == claim.rule]
    if not claim.is_by_copies:
        return [{"fact": claim.by[0], "rules": rules}]
    return [{"fact": fact or None, "rules": rules[at:at + 1]} for at, fact in enumerate(claim.by)]
