"""When signed lemmas of a proof file of the third form are accepted, by their description alone: nothing of the crates
is used.

`Lemmas(ground, facts).fact_of(lemma)` is the fact of an accepted lemma, or it raises `No` with the first reason against
it. A fact is `("sum", charges, bound)`, `("peak", rule, form, bound)` or `("size", rule, place, bound)`.
"""

from slow_check import No, needs
from slow_reading import expanded
from slow_third_bounds import (ONE_FORM, ZERO, exceeds_limits, is_safe, number, polynomial_tree, signed_of, variable,
                               within)
from slow_third_section import monomials

TERMS, FACTORS, SUMMANDS, CHARGES, UNKNOWNS = 64, 8, 1024, 4096, 96


class Ground:
    """The rules of a program as lemmas see them: rows, new values, variables and places."""

    def __init__(self, program, rules):
        self.program, self.rules = program, rules
        self.symbols = [name.decode() for name in program.symbols]

    def forms(self, rule):
        return self.program.rules[rule] if 1 <= rule < len(self.program.rules) else None

    def tree(self, form):
        terms = [(many, (at,)) for at, many in enumerate(form[:-1]) if many]
        return polynomial_tree(terms + ([(form[-1], ())] if form[-1] else []))

    def rows(self, rule):
        return [self.tree(row) for row in self.forms(rule).rows] + self.squares(rule) if self.forms(rule) else []

    def squares(self, rule):
        """What an update that is affine but for a square is at least, or at most, by lines below the square."""
        names, found, own = self.rules[rule - 1].variables, [], len(self.rules[rule - 1].variables)
        for update in self.rules[rule - 1].updates:
            terms = [(many, tuple(sorted(map(names.index, monomial)))) for monomial, many in expanded(update).items()]
            higher = [(many, factors) for many, factors in terms if len(factors) > 1]
            if higher:
                (many, factors), new = higher[0], variable(own)
                own += 1
                if len(higher) == 1 and len(factors) == 2 and len(set(factors)) == 1:
                    rest = polynomial_tree(sorted((it for it in terms if len(it[1]) < 2), key=lambda it: it[1]))
                    for slope, more in ((0, 0), (1, 0), (-1, 0), (2, -1), (-2, -1)):
                        line = ("+", ("*", number(slope), variable(factors[0])), number(more))
                        row = ("-", ("-", new, rest), ("*", number(many), line))
                        found.append(row if many > 0 else ("opposite", row))
        return found

    def news(self, rule):
        return [self.tree(new) for new in self.forms(rule).news]

    def variables(self, rule):
        return len(self.rules[rule - 1].variables) if self.forms(rule) else 0

    def left(self, rule):
        return self.forms(rule).left if self.forms(rule) else 0

    def places(self, symbol):
        return self.program.arities[symbol.encode()]

    def source(self, rule):
        return self.forms(rule).source.decode() if self.forms(rule) else None

    def target(self, rule):
        return self.forms(rule).target.decode() if self.forms(rule) else None

    def cost_charge(self, rule):
        if not self.forms(rule):
            return rule, ()
        cost = self.rules[rule - 1].cost
        return rule, monomials(cost, self.rules[rule - 1]) if cost else ONE_FORM


def of_plain(ground, fact):
    """A fact of the plain part as one over start values."""
    kind, rule, place, bound = fact
    if kind == "size":
        return "size", rule, place, signed_of(bound)
    charge = ground.cost_charge(rule) if kind == "cost" else (rule, ONE_FORM)
    return "sum", (charge,), signed_of(bound)


def summand_tree(rows, summand):
    at = lambda row: rows[row - 1] if row <= len(rows) else number(0)
    first = at(summand.rows[0])
    if summand.word == "rows":
        first = ("*", first, at(summand.rows[1]))
    if summand.word == "zero":
        first = ("*", variable(summand.variable), first)
    return ("*", number(summand.times), first)


def is_affine(tree):
    """Whether an expression is affine in the unknowns, as it is written: of each product one factor is a number."""
    word, *operands = tree
    if word == "number":
        return True
    if word == "variable":
        return operands[0] < UNKNOWNS
    if word == "*":
        one, other = operands
        return one[0] == "number" and is_affine(other) or other[0] == "number" and is_affine(one)
    return word != "^" and all(map(is_affine, operands))


def small_value(tree, one):
    """The value of an affine expression where one unknown is 1 and the others are 0; None where a part passes 128 bits."""
    word, *operands = tree
    if word == "number":
        found = operands[0]
    elif word == "variable":
        found = int(operands[0] == one)
    else:
        values = [small_value(operand, one) for operand in operands]
        if None in values:
            return None
        found = (-values[0] if word == "opposite" else values[0] + values[1] if word == "+"
                 else values[0] - values[1] if word == "-" else values[0] * values[1])
    return found if -2**127 <= found < 2**127 else None


def is_natural_constant(tree):
    """Whether an expression is affine and has the same natural number as its value everywhere."""
    if not is_affine(tree):
        return False
    origin = small_value(tree, None)
    return origin is not None and origin >= 0 and all(small_value(tree, one) == origin for one in range(UNKNOWNS))


def is_never_negative(tree):
    return is_safe(tree) or is_natural_constant(tree)


def shows(rows, certificate, goal):
    """Whether a certificate shows that an expression is at least 0 where the rows are."""
    at = lambda row: rows[row - 1] if row <= len(rows) else number(0)
    for summand in certificate:
        if summand.word == "zero":
            one, other = map(at, summand.rows)
            if not is_never_negative(("opposite", ("+", one, other))):
                return False
    for summand in certificate:
        goal = ("-", goal, summand_tree(rows, summand))
    return is_never_negative(goal)


def reads_below(count, polynomial):
    return all(place < count for _, variables in polynomial for place in variables)


def is_small(polynomial):
    return len(polynomial) <= TERMS and all(len(variables) <= FACTORS for _, variables in polynomial)


def ascends(items):
    return all(one < other for one, other in zip(items, items[1:]))


class Facts:
    """Facts by their numbers from 1."""

    def __init__(self, facts):
        self.facts = facts

    def at(self, cited):
        return self.facts[cited - 1] if 1 <= cited <= len(self.facts) else None

    def sum(self, cited, charges):
        fact = self.at(cited)
        return fact[2] if fact and fact[:2] == ("sum", charges) else None

    def peak(self, cited, rule, form):
        fact = self.at(cited)
        return fact[3] if fact and fact[:3] == ("peak", rule, form) else None

    def size(self, cited, rule, place):
        fact = self.at(cited)
        return fact[3] if fact and fact[:3] == ("size", rule, place) else None

    def is_never(self, rule):
        return ("sum", ((rule, ONE_FORM),), ZERO) in self.facts


class Table:
    """Functions of symbols over a denominator, and moves of rules."""

    def __init__(self, ground, functions, den, moves):
        self.ground, self.functions, self.den, self.moves = ground, dict(functions), den, moves
        self.symbols = [ground.symbols.index(name) for name, _ in functions]
        self.by_rule = {move.rule: move for move in moves}

    def need_shape(self):
        needs(self.den >= 1 and ascends(self.symbols) and ascends([move.rule for move in self.moves]), "shape")
        for name, form in self.functions.items():
            needs(reads_below(self.ground.places(name), form), "shape")
        for move in self.moves:
            needs(self.ground.target(move.rule) in self.functions, "shape")
            needs(not move.keeps or self.ground.source(move.rule) in self.functions, "shape")
            needs(reads_below(self.ground.variables(move.rule), move.gain), "shape")

    def need_moves(self, facts):
        for rule in self.ground.program.numbers():
            needs(self.ground.target(rule) not in self.functions or rule in self.by_rule or facts.is_never(rule),
                  f"missing move {rule}")

    def before(self, rule):
        return polynomial_tree(self.functions.get(self.ground.source(rule), ()))

    def behind(self, rule):
        news = self.ground.news(rule)
        put = lambda place: news[place] if place < len(news) else number(0)
        return polynomial_tree(self.functions[self.ground.target(rule)], put)

    def times_den(self, form):
        return ("*", number(self.den), polynomial_tree(form))

    def is_shown(self, move, certificate, amount):
        goal = ("-", polynomial_tree(move.gain), self.behind(move.rule))
        if move.keeps:
            goal = ("-", ("+", self.before(move.rule), polynomial_tree(move.gain)),
                    ("+", self.behind(move.rule), self.times_den(amount)))
        return shows(self.ground.rows(move.rule), certificate, goal)

    def is_over(self, rule, certificate, form):
        """Whether the function before a rule's step is shown to be at least the form, times the denominator."""
        return shows(self.ground.rows(rule), certificate, ("-", self.before(rule), self.times_den(form)))

    def start(self):
        name = self.ground.program.start.decode()
        return ("part", self.functions[name]) if name in self.functions else ZERO

    def need_gains(self):
        for move in self.moves:
            is_none = move.cited is None and not is_safe(("opposite", polynomial_tree(move.gain)))
            needs(not is_none, f"gain {move.rule}")


def gain_sums(facts, moves):
    found = [facts.sum(move.cited, ((move.rule, move.gain),)) for move in moves if move.cited is not None]
    needs(None not in found, "shape")
    return found


class Lemmas:
    """Judges a lemma behind facts."""

    def __init__(self, ground, facts):
        self.ground, self.facts = ground, Facts(facts)

    def fact_of(self, lemma):
        self.need_limits(lemma)
        return getattr(self, "judge_" + lemma.kind)(lemma)

    def need_limits(self, lemma):
        parts = vars(lemma)
        table = parts.get("table")
        functions = (table.functions if table else []) + parts.get("firsts", []) + parts.get("seconds", [])
        moves, pays = (table.moves if table else []), parts.get("pays", [])
        forms = ([form for _, form in functions] + [move.gain for move in moves] + [pay.amount for pay in pays]
                 + [form for _, form in parts.get("charges", [])] + [parts.get("form", ())])
        certificates = ([move.certificate for move in moves] + [parts.get("floor", [])]
                        + [it for pay in pays for it in (pay.floor, pay.positive)]
                        + [it for move in parts.get("moves", []) for it in (move.first, move.second)]
                        + [count.floor for count in parts.get("counts", [])])
        needs(all(map(is_small, forms)) and all(len(it) <= SUMMANDS for it in certificates)
              and not exceeds_limits(lemma.bound), "shape")

    def judge_fall(self, lemma):
        table, pays = Table(self.ground, lemma.table.functions, lemma.table.den, lemma.table.moves), lemma.pays
        table.need_shape()
        needs(ascends([pay.rule for pay in pays]), "shape")
        for pay in pays:
            needs(self.ground.source(pay.rule) in table.functions
                  and reads_below(self.ground.variables(pay.rule), pay.amount), "shape")
        gains = gain_sums(self.facts, table.moves)
        table.need_moves(self.facts)
        amounts = {pay.rule: pay.amount for pay in pays}
        for move in table.moves:
            needs(table.is_shown(move, move.certificate, amounts.get(move.rule, ())), f"move {move.rule}")
        for pay in pays:
            needs(table.is_over(pay.rule, pay.floor, pay.amount), f"floor {pay.rule}")
        for pay in pays:
            needs(shows(self.ground.rows(pay.rule), pay.positive, polynomial_tree(pay.amount)), f"amount {pay.rule}")
        table.need_gains()
        needs(within(table.den, ("sum", (table.start(), *gains)), lemma.bound), "bound")
        return "sum", tuple((pay.rule, pay.amount) for pay in pays), lemma.bound

    def judge_peak(self, lemma):
        table = Table(self.ground, lemma.table.functions, lemma.table.den, lemma.table.moves)
        table.need_shape()
        needs(self.ground.source(lemma.rule) in table.functions
              and reads_below(self.ground.variables(lemma.rule), lemma.form), "shape")
        gains = gain_sums(self.facts, [move for move in table.moves if move.keeps])
        heads = [self.facts.peak(move.cited, move.rule, move.gain) for move in table.moves
                 if not move.keeps and move.cited is not None]
        needs(None not in heads, "shape")
        table.need_moves(self.facts)
        for move in table.moves:
            needs(table.is_shown(move, move.certificate, ()), f"move {move.rule}")
        needs(table.is_over(lemma.rule, lemma.floor, lemma.form), f"floor {lemma.rule}")
        table.need_gains()
        for head in [table.start()] + heads:
            needs(within(table.den, ("sum", (head, *gains)), lemma.bound), "bound")
        return "peak", lemma.rule, lemma.form, lemma.bound

    def judge_row(self, lemma):
        needs(reads_below(self.ground.variables(lemma.rule), lemma.form), "shape")
        goal = ("-", number(lemma.most), polynomial_tree(lemma.form))
        needs(shows(self.ground.rows(lemma.rule), lemma.floor, goal), f"floor {lemma.rule}")
        needs(within(1, ("const", lemma.most), lemma.bound), "bound")
        return "peak", lemma.rule, lemma.form, lemma.bound

    def with_bound(self, fact, lemma):
        needs(fact is not None, "shape")
        needs(within(1, fact[-1], lemma.bound), "bound")
        return fact[:-1] + (lemma.bound,)

    def judge_times(self, lemma):
        often = self.facts.sum(lemma.cited[0], ((lemma.rule, ONE_FORM),))
        high = self.facts.peak(lemma.cited[1], lemma.rule, lemma.form)
        needs(often is not None and high is not None, "shape")
        return self.with_bound(("sum", ((lemma.rule, lemma.form),), ("product", (often, high))), lemma)

    def judge_least(self, lemma):
        one, other = map(self.facts.at, lemma.cited)
        is_same = one and other and one[0] != "size" and one[:-1] == other[:-1]
        return self.with_bound(one[:-1] + (("minimum", (one[-1], other[-1])),) if is_same else None, lemma)

    def judge_add(self, lemma):
        one, other = map(self.facts.at, lemma.cited)
        are_sums = one and other and one[0] == other[0] == "sum" and len(one[1]) + len(other[1]) <= CHARGES
        whole = ("sum", one[1] + other[1], ("sum", (one[2], other[2]))) if are_sums else None
        return self.with_bound(whole, lemma)

    def judge_among(self, lemma):
        fact, charges = self.facts.at(lemma.cited[0]), lemma.charges
        needs(fact and fact[0] == "sum", "shape")
        left = list(fact[1])
        for charge in charges:
            needs(charge in left, "shape")
            left.remove(charge)
        return self.with_bound(("sum", tuple(charges), fact[2]), lemma)

    def form_size(self, lemma, rule):
        found = []
        for coefficient, variables in lemma.form:
            needs(len(variables) <= 1, "shape")
            if not variables:
                found.append(("const", max(0, coefficient)))
                continue
            size = next((it for it in (self.facts.size(cited, rule, variables[0] + 1) for cited in lemma.cited) if it),
                        None)
            needs(size is not None, "shape")
            found.append(("product", (("const", abs(coefficient)), size)))
        return "sum", tuple(found)

    def judge_sized(self, lemma):
        needs(reads_below(self.ground.left(lemma.rule), lemma.form), "shape")
        before = self.ground.program.before(lemma.rule) if self.ground.forms(lemma.rule) else []
        for size in [self.form_size(lemma, rule) for rule in before]:
            needs(within(1, size, lemma.bound), "bound")
        return "peak", lemma.rule, lemma.form, lemma.bound

    def judge_phases(self, lemma):
        counted = [count.rule for count in lemma.counts]
        firsts, seconds = self.phase_tables(lemma, counted)
        firsts.need_shape()
        seconds.need_shape()
        needs([name for name, _ in lemma.firsts] == [name for name, _ in lemma.seconds] and ascends(counted), "shape")
        for rule in counted:
            needs(self.ground.source(rule) in firsts.functions, "shape")
        firsts.need_moves(self.facts)
        amount = lambda rule: ONE_FORM if rule in counted else ()
        for move, one, other in zip(lemma.moves, firsts.moves, seconds.moves):
            needs(firsts.is_shown(one, move.first, amount(move.rule))
                  and seconds.is_shown(other, move.second, amount(move.rule)), f"move {move.rule}")
        for count in lemma.counts:
            needs(seconds.is_over(count.rule, count.floor, ONE_FORM), f"floor {count.rule}")
        needs(within(lemma.den, self.phases_bound(firsts, seconds, lemma.den), lemma.bound), "bound")
        return "sum", tuple((rule, ONE_FORM) for rule in counted), lemma.bound

    def phase_tables(self, lemma, counted):
        """Both functions as potentials that all moves keep: the first without gains, the second, at counted rules,
        with the first function as gain."""
        like = type(lemma)
        move = lambda it, gain: like(rule=it.rule, keeps=True, gain=gain, cited=None)
        own = dict(lemma.firsts)
        gains = [own.get(self.ground.source(it.rule), ()) if it.rule in counted else () for it in lemma.moves]
        return (Table(self.ground, lemma.firsts, lemma.den, [move(it, ()) for it in lemma.moves]),
                Table(self.ground, lemma.seconds, lemma.den, list(map(move, lemma.moves, gains))))

    def phases_bound(self, firsts, seconds, den):
        name = self.ground.program.start.decode()
        first, second = firsts.functions.get(name, ()), seconds.functions.get(name, ())
        root = ("root", ("product", (("const", 2 * den), ("part", ((-den, ()),) + second))))
        return "sum", (("const", den), ("product", (("const", 2), ("part", first))), root)
