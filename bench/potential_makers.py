"""Makes random programs, and random lemmas about potentials of them, for the script that compares lemmas with runs.

`Case(rnd)` is a random program of a few rules; `lemma(case, facts, rnd)` makes a lemma of some kind behind facts, or
raises `NotShown` where no small certificate shows one of its conditions. Where a condition has a least number, that one
is taken, so that a condition that asked too little would show. The judge `slow_potentials.py` says whether a lemma is
accepted; what is computed here of its conditions only finds certificates.
"""

import slow_potentials as slow
from potential_certificates import (Certificates, added, affine, as_dict, as_pairs, composed, is_square, multiplied,
                                    plus, scaled)
from slow_potentials import ONE

# How often a condition that isn't shown is left to the judge, so that each of its reasons comes.
LEFT_TO_THE_JUDGE = 0.03


class NotShown(Exception):
    """A condition of a lemma has no small certificate."""


class Case:
    """A random program."""

    def __init__(self, rnd):
        self.width = rnd.choice((1, 2, 2, 2))
        self.symbols = symbols = rnd.choice((1, 2, 2, 3))
        rules = [self.rule(rnd, 0)]
        while len(rules) < rnd.choice((2, 3, 3, 4)):
            rules.append(self.rule(rnd, rnd.randrange(symbols)))
        self.program = {"start": 0, "places": [self.width] * symbols, "rules": rules}
        rows = [r["guard"] + r["squares"] for r in rules]
        self.ground = slow.Ground(self.program, rows)
        self.rows = [[slow.expanded(row) for row in it] for it in rows]
        self.tried = [self.rows_tried(rnd, r) for r in rules]
        self.new_values = [[slow.expanded(u) for u in r["updates"]] for r in rules]
        self.known = {}

    def rows_tried(self, rnd, rule):
        """The rows of a rule of which certificates are made: those of its guard, and behind them two of squares."""
        count = len(rule["guard"])
        squares = range(count, count + len(rule["squares"]))
        return [*range(count), *rnd.sample(squares, min(2, len(squares)))]

    def rule(self, rnd, source):
        free = rnd.choice((0, 0, 0, 0, 1))
        width = self.width + free
        updates, values, own = [], [], width
        for i in range(self.width):
            if rnd.random() < 0.08:
                v = rnd.randrange(width)
                rest = affine([rnd.choice((-1, 0, 0, 1)) for _ in range(width)], rnd.choice((-1, 0, 1)))
                values.append(slow.form_term([(rnd.choice((-1, 1, 1, 2)), (v, v))] + rest))
                updates.append(slow.variable(own))
                own += 1
                continue
            kind = rnd.randrange(8)
            if kind < 5:
                p = affine([int(j == i) for j in range(width)], rnd.choice((-1, 0, 0, 1, -1)))
            elif kind == 5:
                p = affine([int(j == rnd.randrange(width)) for j in range(width)], rnd.choice((-1, 0, 1)))
            elif kind == 6:
                p = affine([rnd.choice((-1, 0, 1)) for _ in range(width)], rnd.choice((-1, 0, 1)))
            else:
                p = affine([0] * width, rnd.choice((0, 1, 2)))
            updates.append(slow.form_term(p))
            values.append(updates[-1])
        guard = []
        for _ in range(rnd.choice((0, 1, 1, 2))):
            p = affine([rnd.choice((-1, 0, 1, 1)) for _ in range(width)], rnd.choice((-2, -1, -1, 0, 1)))
            guard.append(slow.form_term(p))
            if rnd.random() < 0.1:
                guard.append(slow.form_term([(-c, vs) for c, vs in p]))
        return {"source": source, "target": rnd.randrange(self.symbols), "free": free, "updates": updates,
                "values": values, "guard": guard, "squares": slow.square_rows(width, map(slow.expanded, values))}

    def numbers(self):
        return range(1, len(self.program["rules"]) + 1)

    def shown(self, t, goal, products=False):
        """A certificate of a goal by the rows of a rule, or by those and their products, or none."""
        if (t, products) not in self.known:
            rows, tried = self.rows[t - 1], self.tried[t - 1]
            choices = [(("one", i), rows[i]) for i in tried]
            if products:
                choices += [(("two", i, j), multiplied(rows[i], rows[j])) for i in tried for j in tried if i <= j]
            self.known[t, products] = Certificates(choices[:4])
        return self.known[t, products].of(goal)

    def move_goal(self, table, amount, move):
        """What a move has to show: that the function with its gain is at least what is paid and what comes after."""
        t = move["rule"]
        rule = self.program["rules"][t - 1]
        after = composed(slow.function_at(table, rule["target"]) or [], self.new_values[t - 1])
        goal = added(scaled(after, -1), {}, move["gain"])
        if not move["keeps"]:
            return goal
        return added(added(goal, {}, amount, -table["den"]), {}, slow.function_at(table, rule["source"]) or [])

    def floor_goal(self, table, t, form):
        return added(as_dict(slow.source_form(self.ground, table, t)), {}, form, -table["den"])


def needed(shown, rnd):
    """A certificate that a lemma needs. Without one the lemma is given up, or, at times, left to the judge."""
    if shown is None and rnd.random() >= LEFT_TO_THE_JUDGE:
        raise NotShown
    return shown or []


def some_form(case, width, rnd, squares=False):
    p = affine([rnd.choice((-1, 0, 0, 1, 1, 2)) for _ in range(width)], rnd.choice((-1, 0, 0, 1, 2)))
    if squares and width:
        i = rnd.randrange(width)
        p = p + [(rnd.choice((1, 1, -1)), (i, rnd.randrange(i, width)))]
    return p


def left_rows(case, t):
    """The rows of a rule over its left variables."""
    rows = [as_pairs(row) for row in case.rows[t - 1]]
    return [p for p in rows if slow.reads_below(case.width, p)]


def from_rows(case, rnd):
    """A row of some rule over its left variables, and a number: what a loop's guard makes fall."""
    rows = left_rows(case, rnd.choice(case.numbers()))
    if not rows:
        return some_form(case, case.width, rnd)
    return plus(rnd.choice(rows), [(rnd.choice((1, 1, 1, 0, 2)), ())])


def citable(facts, t, with_peaks):
    """The forms at a rule whose sums, or whose peaks, a fact bounds, with the facts' numbers; constants come first."""
    found = {}
    for n, fact in enumerate(facts, 1):
        if fact[0] == "peak" and with_peaks and fact[1] == t:
            found.setdefault(tuple(fact[2]), []).append(n)
        elif fact[0] == "sum" and not with_peaks and len(fact[1]) == 1 and fact[1][0][0] == t:
            found.setdefault(tuple(fact[1][0][1]), []).append(n)
    return sorted(found.items(), key=lambda it: ([vs for _, vs in it[0]] != [()], it[0]))


def gains_to_try(case, facts, move, bare, with_peaks, rnd):
    """Gains of a move with the facts that can be cited for them: none, those that are bounded, and at times one that
    isn't, which may be just what the move lacks."""
    yield [], []
    for form, numbers in citable(facts, move["rule"], with_peaks):
        yield list(form), numbers
    if rnd.random() < LEFT_TO_THE_JUDGE:
        i = rnd.randrange(case.ground.variables(move["rule"]))
        yield rnd.choice(([(1, ())], [(2, ())], as_pairs(scaled(bare, -1)), [(1, (i,))])), []


def cited_sum(facts, t, gain):
    return [n for n, f in enumerate(facts, 1) if f[0] == "sum" and slow.same_charges(f[1], [(t, gain)])]


def table_of(case, facts, amounts, rnd, peak=False, function=None):
    """A random table whose moves are shown, with the least gain that was tried."""
    if function is not None:
        table = {"functions": [(s, function) for s in range(case.symbols)], "den": 1, "moves": []}
        return with_moves(case, facts, table, amounts, rnd, peak)
    squares = rnd.random() < 0.15
    symbols = [s for s in range(case.symbols) if rnd.random() < 0.8] or [0]
    one = from_rows(case, rnd) if rnd.random() < 0.7 else some_form(case, case.width, rnd, squares)
    alike = rnd.random() < 0.7
    functions = [(s, one if alike or rnd.random() < 0.5 else plus(one, [(rnd.choice((-1, 1)), ())])) for s in symbols]
    table = {"functions": functions, "den": rnd.choice((1, 1, 1, 2, 3)), "moves": []}
    return with_moves(case, facts, table, amounts, rnd, peak)


def with_moves(case, facts, table, amounts, rnd, peak):
    """The table with its moves; `amounts` says what is paid at a rule."""
    for t, r in enumerate(case.program["rules"], 1):
        if slow.function_at(table, r["target"]) is None or slow.is_never(facts, t):
            continue
        if rnd.random() < 0.02:
            continue
        kinds = [True, False] if slow.function_at(table, r["source"]) is not None else [False]
        if rnd.random() < 0.15:
            kinds.reverse()
        table["moves"].append(move_of(case, facts, table, amounts, t, kinds, rnd, peak))
    return table


def move_of(case, facts, table, amounts, t, kinds, rnd, peak):
    for keeps in kinds:
        plain = {"rule": t, "keeps": keeps, "gain": [], "cited": None, "shown": []}
        bare = case.move_goal(table, amounts(t), plain)
        for gain, cited in gains_to_try(case, facts, plain, bare, peak and not keeps, rnd):
            shown = case.shown(t, added(bare, {}, gain), rnd.random() < 0.3)
            if shown is not None:
                is_free = all(c <= 0 and is_square(vs) for c, vs in gain)
                number = rnd.choice(cited) if cited and not (is_free and rnd.random() < 0.5) else None
                return dict(plain, gain=gain, cited=number, shown=shown)
    needed(None, rnd)
    return {"rule": t, "keeps": rnd.random() < 0.5, "gain": [], "cited": None, "shown": []}


def bound_near(bound, den, rnd):
    """What is composed, a looser bound, or a lower one."""
    whole = bound if den == 1 else ("quot", bound, den)
    kind = rnd.randrange(8)
    if kind < 4:
        return whole
    if kind == 4:
        return ("sum", [whole, ("const", 1)])
    if kind == 5:
        return ("max", [whole, ("const", rnd.randrange(3))])
    parts = bound[1]
    if kind == 6 and den == 1 and len(parts) > 1:
        i = rnd.randrange(len(parts))
        return ("sum", parts[:i] + parts[i + 1:])
    if parts and parts[0][0] == "part":
        lower = ("part", plus(parts[0][1], [(rnd.choice((-1, 1)), ())]))
        lowered = ("sum", [lower] + parts[1:])
        return lowered if den == 1 else ("quot", lowered, den)
    return ("sum", [("quot", p, den) for p in parts])


def payment(case, table, t, amount, rnd):
    floor = needed(case.shown(t, case.floor_goal(table, t, amount), rnd.random() < 0.3), rnd)
    return {"rule": t, "amount": amount, "floor": floor, "positive": needed(case.shown(t, as_dict(amount)), rnd)}


def fall_lemma(case, facts, table, payments, rnd):
    whole = ("sum", [slow.start_bound(case.ground, table)] + slow.gain_parts(facts, table["moves"]))
    return ("fall", {"table": table, "payments": payments}), bound_near(whole, table["den"], rnd)


def a_fall(case, facts, rnd):
    paid = sorted(rnd.sample(case.numbers(), rnd.choice((1, 1, 1, 2, len(case.numbers())))))
    amounts = {t: ONE if rnd.random() < 0.75 else some_form(case, case.ground.variables(t), rnd) for t in paid}
    table = table_of(case, facts, lambda t: amounts.get(t, []), rnd)
    return fall_lemma(case, facts, table, [payment(case, table, t, amounts[t], rnd) for t in paid], rnd)


def a_time(case, facts, rnd):
    """How often a rule occurs, or the sum of a form at its steps, by a row of its own."""
    t = rnd.choice(case.numbers())
    rows = left_rows(case, t) or [[]]
    amount = ONE if rnd.random() < 0.8 else from_rows(case, rnd)
    function = plus(rnd.choice(rows), amount, rnd.choice((1, 1, 1, 2)))
    table = table_of(case, facts, lambda u: amount if u == t else [], rnd, False, function)
    return fall_lemma(case, facts, table, [payment(case, table, t, amount, rnd)], rnd)


def a_peak(case, facts, rnd):
    t = rnd.choice(case.numbers())
    form = some_form(case, case.ground.variables(t), rnd)
    table = table_of(case, facts, lambda t: [], rnd, True)
    if rnd.random() < 0.6:
        form = slow.source_form(case.ground, table, t) if table["den"] == 1 else form
    floor = needed(case.shown(t, case.floor_goal(table, t, form)), rnd)
    kept = slow.gain_parts(facts, [m for m in table["moves"] if m["keeps"]])
    peaks = [slow.peak_cited(facts, m) for m in table["moves"] if not m["keeps"]]
    heads = [slow.start_bound(case.ground, table)] + [p for p in peaks if p is not None]
    whole = ("sum", [("max", heads) if len(heads) > 1 else heads[0]] + kept)
    return ("peak", {"table": table, "rule": t, "form": form, "floor": floor}), bound_near(whole, table["den"], rnd)


def a_row(case, facts, rnd):
    t = rnd.choice(case.numbers())
    form = some_form(case, case.ground.variables(t), rnd)
    number = rnd.choice((0, 0, 1, 2))
    shown = needed(case.shown(t, added({(): number} if number else {}, {}, form, -1)), rnd)
    bound = ("const", number + rnd.choice((0, 0, 0, 1, -1)) if number else 0)
    return ("row", {"rule": t, "form": form, "number": number, "shown": shown}), bound


def a_sized(case, facts, rnd):
    cited = [n for n, f in enumerate(facts, 1) if f[0] == "size"] or needed(None, rnd)
    bound = ("sum", [("const", rnd.randrange(4)), ("max", [("part", [(1, (0,))]), ("part", [(-1, (0,))])])])
    node = {"rule": rnd.choice(case.numbers()), "form": some_form(case, case.width, rnd), "cited": cited}
    return ("sized", node), bound


def a_combination(case, facts, rnd):
    if not facts:
        raise NotShown
    kind = rnd.randrange(5)
    pick = lambda: rnd.randrange(len(facts)) + 1
    if kind < 2:
        peaks = [(n, f) for n, f in enumerate(facts, 1) if f[0] == "peak"]
        if not peaks:
            raise NotShown
        n, f = rnd.choice(peaks)
        node = ("times", f[1], f[2], rnd.choice(cited_sum(facts, f[1], ONE) or [pick()]), n)
    elif kind == 2:
        node = ("least", pick(), pick())
    elif kind == 3:
        node = ("add", pick(), pick())
    else:
        n = pick()
        goal = list(facts[n - 1][1]) if facts[n - 1][0] == "sum" else []
        rnd.shuffle(goal)
        node = ("among", goal[:rnd.randrange(len(goal) + 1)], n)
    fact = slow.composed_fact(facts, node)
    if fact is None:
        return ("combined", node), ("const", needed(None, rnd) or 3)
    return ("combined", node), fact[-1] if rnd.random() < 0.8 else bound_near(("sum", [fact[-1]]), 1, rnd)


def a_phases(case, facts, rnd):
    g = case.ground
    firsts = some_form(case, case.width, rnd)
    seconds = from_rows(case, rnd) if rnd.random() < 0.7 else some_form(case, case.width, rnd)
    t, symbols = rnd.choice(case.numbers()), range(case.symbols)
    n = {"firsts": [(s, firsts) for s in symbols], "seconds": [(s, seconds) for s in symbols],
         "den": rnd.choice((1, 1, 1, 2)), "moves": [], "counted": [(t, [])]}
    first, second = slow.phases_fall(n)["table"], slow.second_table(g, n)
    n["counted"] = [(t, needed(case.shown(t, case.floor_goal(second, t, ONE)), rnd))]
    for u in case.numbers():
        amount, gain = (ONE, slow.source_form(g, first, u)) if u == t else ([], [])
        plain = {"rule": u, "keeps": True, "gain": [], "cited": None, "shown": []}
        one = needed(case.shown(u, case.move_goal(first, amount, plain)), rnd)
        two = needed(case.shown(u, case.move_goal(second, amount, dict(plain, gain=gain))), rnd)
        n["moves"].append({"rule": u, "first": one, "second": two})
    return ("phases", n), bound_near(slow.phases_signed(g, n), n["den"], rnd)


KINDS = [a_time] * 10 + [a_fall] * 8 + [a_peak] * 5 + [a_row] + [a_sized] + [a_combination] * 3 + [a_phases] * 14


def lemma(case, facts, rnd):
    """A lemma of a random kind behind facts."""
    return rnd.choice(KINDS)(case, facts, rnd)


def true_facts(case, rnd):
    """Facts that hold by themselves: the sizes of the inputs at the start."""
    facts = [("size", 0, i + 1, ("max", [("part", [(1, (i,))]), ("part", [(-1, (i,))])])) for i in range(case.width)]
    return facts if rnd.random() < 0.5 else []
