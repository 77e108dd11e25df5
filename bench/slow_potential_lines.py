"""Reads and writes the lines of `potential_tests`: facts, lemmas and rules.

`answer(line)` is what the plain slow judge of `slow_potentials.py` says of a line with a call, and of others nothing.
`line_of(rules, facts, lemma)` is the line by which the program judges a lemma, and `said(refusal, count)` the answer;
`prepared(rules)` is what is known of the steps of these rules, or none where they aren't taken.
"""

import re

import slow_forms
import slow_potentials as slow
from slow_reading import Reading, expanded

WORDS = {"BadShape": "shape", "MissingTime": "missing", "BadMove": "move", "BadFloor": "floor",
         "BadAmount": "amount", "BadGain": "gain", "LowBound": "bound"}
LETTERS = "abcdefgh"


def term_of(row):
    """A row, its constant last, as an expression."""
    *coefs, constant = row
    return slow.form_term([(c, (i,)) for i, c in enumerate(coefs)] + [(constant, ())])


def rows_of(forms, rule):
    """The rows of a rule, those of squares last."""
    updates = [{tuple(sorted(map(rule.variables.index, m))): c for m, c in expanded(it).items()} for it in rule.updates]
    return [term_of(row) for row in forms.rows] + slow.square_rows(len(rule.variables), updates)


class Prepared(slow.Ground):
    """What is known of the steps of rules: their rows and new values as `slow_forms.py` reads them, and rows of
    squares."""

    def __init__(self, reading):
        forms = slow_forms.Program(reading).rules[1:]
        symbols = {name: n for n, name in enumerate(reading.arities)}
        rules = [{"source": symbols[it.source], "target": symbols[it.target], "free": len(rule.variables) - rule.left,
                  "updates": [term_of(row) for row in it.news]} for it, rule in zip(forms, reading.rules)]
        program = {"start": symbols[reading.starts[0].text], "places": list(reading.arities.values()), "rules": rules}
        super().__init__(program, [rows_of(it, rule) for it, rule in zip(forms, reading.rules)])
        self.widths = [(rule.left, len(rule.variables)) for rule in reading.rules]


def prepared(rules):
    reading = Reading(f"(STARTTERM (FUNCTIONSYMBOLS a))(RULES {rules})".encode())
    return Prepared(reading) if reading.verdict() == "taken" else None


# reading

def cut(text, mark):
    before, _, after = text.partition(mark)
    return before, after


def number(text):
    return int(text) if text.strip().isdigit() else 0


def form_of(text):
    found = []
    for part in text.split("+"):
        coef, *variables = part.strip().split("*")
        if re.fullmatch(r"-?\d+", coef) and int(coef):
            found.append((int(coef), tuple(map(number, variables))))
    return found


def certificate_of(text):
    found = []
    for word in text.split():
        times, *rows = map(int, word.split("."))
        found.append((("one", "two", "zero")[len(rows) - 1], times, *rows))
    return found


def bound_of(text):
    stack = []

    def last():
        return stack.pop() if stack else ("const", 0)

    def taken(count):
        return [last() for _ in range(number(count))][::-1]

    for word in text.split():
        if word[0] == "[":
            made = ("part", form_of(word[1:]))
        elif word[0] in "+*":
            made = ("sum" if word[0] == "+" else "prod", taken(word[1:]))
        elif word[0] == "/":
            made = ("quot", last(), number(word[1:]))
        elif word == "root":
            made = ("root", last())
        elif word[:3] == "max":
            made = ("max", taken(word[3:]))
        elif word[:3] == "min":
            *others, first = taken(word[3:])
            made = ("min", first, others)
        else:
            made = ("const", number(word))
        stack.append(made)
    return last()


def pairs(text):
    """Parts between commas, each a number and what comes after it."""
    parts = [part.strip().partition(" ") for part in text.split(",")]
    return [(number(first), rest) for first, blank, rest in parts if blank]


def forms_of(text):
    return [(first, form_of(rest)) for first, rest in pairs(text)]


def move_of(rule, text):
    head, shown = cut(text, ":")
    kind, gain = cut(head.strip(), " ")
    form, cited = cut(gain.strip(), " ")
    return {"rule": rule, "keeps": kind == "keep", "gain": form_of(form), "cited": number(cited) or None,
            "shown": certificate_of(shown)}


def payment_of(rule, text):
    amount, floor, positive = (text.split(":") + ["", ""])[:3]
    return {"rule": rule, "amount": form_of(amount), "floor": certificate_of(floor),
            "positive": certificate_of(positive)}


def table_of(functions, den, moves):
    return {"functions": forms_of(functions), "den": number(den), "moves": [move_of(*it) for it in pairs(moves)]}


def phases_of(firsts, seconds, den, moves, counted):
    moves = [it.split(":") for it in moves.split(",") if ":" in it]
    counted = [cut(it, ":") for it in counted.split(",") if ":" in it]
    return {"firsts": forms_of(firsts), "seconds": forms_of(seconds), "den": number(den),
            "moves": [{"rule": number(rule), "first": certificate_of(first), "second": certificate_of(second)}
                      for rule, first, second in moves],
            "counted": [(number(rule), certificate_of(floor)) for rule, floor in counted]}


def rule_and_form(text):
    """A rule, a form, the words after it, and a certificate."""
    head, shown = cut(text, ":")
    rule, form, *words = head.split()
    return number(rule), form_of(form), [number(word) for word in words], certificate_of(shown)


def node_of(kind, parts):
    if kind == "fall":
        return kind, {"table": table_of(*parts[:3]), "payments": [payment_of(*it) for it in pairs(parts[3])]}
    if kind == "peak":
        rule, form, _, floor = rule_and_form(parts[0])
        return kind, {"table": table_of(*parts[1:4]), "rule": rule, "form": form, "floor": floor}
    if kind == "row":
        rule, form, (least,), shown = rule_and_form(parts[0])
        return kind, {"rule": rule, "form": form, "number": least, "shown": shown}
    if kind == "sized":
        rule, form, cited, _ = rule_and_form(parts[0])
        return kind, {"rule": rule, "form": form, "cited": cited}
    if kind == "phases":
        return kind, phases_of(*parts)
    first, rest = cut(parts[0].strip(), " ")
    if kind == "times":
        form, time, peak = rest.split()
        return "combined", (kind, number(first), form_of(form), number(time), number(peak))
    return "combined", (kind, forms_of(rest), number(first)) if kind == "among" else (kind, number(first), number(rest))


def lemma_of(text):
    kind, rest = cut(text.strip(), " ")
    *parts, bound = rest.split("|")
    return node_of(kind, parts), bound_of(bound)


def fact_of(text):
    kind, rest = cut(text.strip(), " ")
    stated, bound = cut(rest, "|")
    first, second = cut(stated.strip(), " ")
    if kind == "sum":
        return kind, forms_of(stated), bound_of(bound)
    return kind, number(first), number(second) if kind == "size" else form_of(second), bound_of(bound)


def answer(line):
    call, rest = cut(line, " ")
    if call not in ("check", "given"):
        return None
    given, text = cut(rest, " check ") if call == "given" else ("", rest)
    lemmas, rules = cut(text, " over ")
    facts = [fact_of(it) for it in given.split(";") if it.strip()]
    refusal, found = slow.first_refusal(prepared(rules), facts, 1, [lemma_of(it) for it in lemmas.split(";")])
    return said(refusal, len(found))


def said(refusal, count):
    """The answer for a refusal, its number and its reason, or for so many facts."""
    if refusal is None:
        return f"accepted {count}"
    n, (word, *rule) = refusal
    return " ".join(map(str, [n, WORDS[word], *rule]))


# writing

def form_text(form):
    return "+".join("*".join(map(str, (c, *vs))) for c, vs in form) or "0"


def certificate_text(summands):
    return " ".join(".".join(map(str, it[1:])) for it in summands)


def bound_text(b):
    kind = b[0]
    if kind == "const":
        return str(b[1])
    if kind == "part":
        return "[" + form_text(b[1])
    if kind in ("sum", "prod", "max"):
        return " ".join([*map(bound_text, b[1]), {"sum": "+", "prod": "*", "max": "max"}[kind] + str(len(b[1]))])
    if kind == "min":
        return " ".join([*map(bound_text, b[2]), bound_text(b[1]), f"min{len(b[2]) + 1}"])
    return f"{bound_text(b[1])} /{b[2]}" if kind == "quot" else f"{bound_text(b[1])} root"


def listed(forms):
    return ", ".join(f"{n} {form_text(form)}" for n, form in forms)


def table_text(table):
    moves = ", ".join(f"{m['rule']} {'keep' if m['keeps'] else 'set'} {form_text(m['gain'])} {m['cited'] or 0} : "
                      + certificate_text(m["shown"]) for m in table["moves"])
    return f"{listed(table['functions'])} | {table['den']} | {moves}"


def phases_text(n):
    moves = ", ".join(f"{m['rule']} : {certificate_text(m['first'])} : {certificate_text(m['second'])}"
                      for m in n["moves"])
    counted = ", ".join(f"{t} : {certificate_text(floor)}" for t, floor in n["counted"])
    return f"phases {listed(n['firsts'])} | {listed(n['seconds'])} | {n['den']} | {moves} | {counted}"


def node_text(node):
    kind, n = node
    if kind == "fall":
        paid = ", ".join(f"{y['rule']} {form_text(y['amount'])} : {certificate_text(y['floor'])} : "
                         + certificate_text(y["positive"]) for y in n["payments"])
        return f"fall {table_text(n['table'])} | {paid}"
    if kind == "peak":
        return f"peak {n['rule']} {form_text(n['form'])} : {certificate_text(n['floor'])} | {table_text(n['table'])}"
    if kind == "row":
        return f"row {n['rule']} {form_text(n['form'])} {n['number']} : {certificate_text(n['shown'])}"
    if kind == "sized":
        return " ".join(map(str, ["sized", n["rule"], form_text(n["form"]), *n["cited"]]))
    if kind == "phases":
        return phases_text(n)
    if n[0] == "times":
        return f"times {n[1]} {form_text(n[2])} {n[3]} {n[4]}"
    return f"among {n[2]} {listed(n[1])}" if n[0] == "among" else f"{n[0]} {n[1]} {n[2]}"


def lemma_text(lemma):
    node, bound = lemma
    return f"{node_text(node)} | {bound_text(bound)}"


def fact_text(fact):
    kind = fact[0]
    stated = listed(fact[1]) if kind == "sum" else f"{fact[1]} {fact[2] if kind == 'size' else form_text(fact[2])}"
    return f"{kind} {stated} | {bound_text(fact[-1])}"


def expression_text(t):
    """An expression over letters from `a` on."""
    kind = t[0]
    if kind in ("lit", "var"):
        return f"({t[1]})" if kind == "lit" else LETTERS[t[1]]
    if kind == "neg":
        return f"(-{expression_text(t[1])})"
    sign = {"add": "+", "sub": "-", "mul": "*"}[kind]
    return f"({expression_text(t[1])}{sign}{expression_text(t[2])})"


def rule_text(rule, places):
    left = ",".join(LETTERS[:places[rule["source"]]])
    updates = ",".join(map(expression_text, rule.get("values", rule["updates"])))
    guard = " && ".join(f"{expression_text(g)} >= 0" for g in rule["guard"])
    names = [LETTERS[rule[key]] for key in ("source", "target")]
    return f"{names[0]}({left}) -> {names[1]}({updates})" + (f" :|: {guard}" if guard else "")


def rules_text(program):
    return " ".join(rule_text(rule, program["places"]) for rule in program["rules"])


def is_read_alike(program, rules, ground):
    """Whether rules are read as the program that they are written from: symbols in the order of their first mention,
    each variable used, and the same rows."""
    if ground is None or ground.program["places"] != program["places"] or ground.program["start"] != 0:
        return False
    for t, rule in enumerate(program["rules"], 1):
        mine = ground.rule(t)
        rows = [slow.expanded(row) for row in rule["guard"] + rule.get("squares", [])]
        if (any(mine[key] != rule[key] for key in ("source", "target", "free"))
                or rows != [slow.expanded(row) for row in ground.rows(t)]):
            return False
    return True


def line_of(rules, facts, lemma):
    """The line by which the program judges a lemma behind facts."""
    given = f"given {'; '.join(map(fact_text, facts))} " if facts else ""
    return f"{given}check {lemma_text(lemma)} over {rules}"
