"""A plain slow reading of potentials with gains: signed bounds, their comparison, certificates, nodes and what is checked
of them, written from the definitions and sharing nothing with the program.

A polynomial is a list of pairs (coefficient, variables), an expression a nested tuple, a bound a nested tuple:
    ("const", n)  ("part", polynomial)  ("sum", parts)  ("prod", parts)  ("max", parts)  ("min", first, parts)
    ("quot", bound, n)  ("root", bound)  ("pow", base, bound)
A program is a dictionary with `start`, `places` (of each symbol) and `rules`, each a dictionary with `source`, `target`,
`free`, `updates` and `guard` (expressions that are at least 0). Rules are numbered from 1, symbols and variables from 0.
"""

import math

COEFFICIENT_LIMIT = 2 ** 63 - 1
CONSTANT_LIMIT = 2 ** 127 - 1
MONOMIAL_LIMIT, DEGREE_LIMIT = 64, 8
NODE_LIMIT, DEPTH_LIMIT = 4096, 200
PRODUCT_LIMIT, EXPANSION_LIMIT, COMPARISON_LIMIT, QUOTIENT_LIMIT, SUMMAND_LIMIT = 4096, 262144, 131072, 16, 1024
CHARGE_LIMIT = 4096
UNKNOWN_LIMIT, VALUE_LIMIT = 96, 2 ** 127


class Fault(Exception):
    """An expression that isn't expanded, or has no value: a number, the number of monomials or the degree is too large."""


# expressions

def literal(n):
    return ("lit", n)


def variable(i):
    return ("var", i)


def within_limits(p):
    if any(abs(c) > COEFFICIENT_LIMIT for c in p.values()):
        raise Fault
    if len(p) > MONOMIAL_LIMIT or any(len(m) > DEGREE_LIMIT for m in p):
        raise Fault
    return p


def collected(pairs):
    total = {}
    for m, c in pairs:
        total[m] = total.get(m, 0) + c
    return {m: c for m, c in total.items() if c != 0}


def expanded(t):
    """The monomials of an expression, each subexpression being within the limits."""
    kind = t[0]
    if kind == "lit":
        return within_limits(collected([((), t[1])]))
    if kind == "var":
        return {(t[1],): 1}
    if kind == "neg":
        return within_limits({m: -c for m, c in expanded(t[1]).items()})
    a, b = expanded(t[1]), expanded(t[2])
    if kind == "add":
        return within_limits(collected(list(a.items()) + list(b.items())))
    if kind == "sub":
        return within_limits(collected(list(a.items()) + [(m, -c) for m, c in b.items()]))
    return within_limits(collected([(tuple(sorted(m + n)), c * d) for m, c in a.items() for n, d in b.items()]))


def is_safe(t):
    """Whether an expression expands to squares with coefficients of at least 0."""
    try:
        p = expanded(t)
    except Fault:
        return False
    return all(c >= 0 and all(m.count(v) % 2 == 0 for v in m) for m, c in p.items())


def is_affine(t):
    """Whether an expression is affine in the unknowns of a rule, as it is written."""
    kind = t[0]
    if kind == "lit":
        return True
    if kind == "var":
        return t[1] < UNKNOWN_LIMIT
    if kind == "neg":
        return is_affine(t[1])
    if kind == "mul":
        return (t[1][0] == "lit" and is_affine(t[2])) or (t[2][0] == "lit" and is_affine(t[1]))
    return is_affine(t[1]) and is_affine(t[2])


def value_within(t, env):
    """The value of an expression, that of each subexpression being within 128 bits."""
    if t[0] in ("lit", "var"):
        found = value(t, env)
    elif t[0] == "neg":
        found = -value_within(t[1], env)
    else:
        a, b = value_within(t[1], env), value_within(t[2], env)
        found = a + b if t[0] == "add" else a - b if t[0] == "sub" else a * b
    if not -VALUE_LIMIT <= found < VALUE_LIMIT:
        raise Fault
    return found


def is_natural_constant(t):
    """Whether an expression is affine, and at all unknowns 0, and at each one 1 and the others 0, the same natural number."""
    if not is_affine(t):
        return False
    try:
        origin = value_within(t, [0] * UNKNOWN_LIMIT)
        units = ([int(i == j) for j in range(UNKNOWN_LIMIT)] for i in range(UNKNOWN_LIMIT))
        return origin >= 0 and all(value_within(t, unit) == origin for unit in units)
    except Fault:
        return False


def is_never_negative(t):
    return is_safe(t) or is_natural_constant(t)


def product_term(put, variables):
    return literal(1) if not variables else ("mul", put(variables[0]), product_term(put, variables[1:]))


def polynomial_term(put, p):
    if not p:
        return literal(0)
    return ("add", ("mul", literal(p[0][0]), product_term(put, list(p[0][1]))), polynomial_term(put, p[1:]))


def form_term(p):
    return polynomial_term(variable, list(p))


def term_at(terms, i):
    return terms[i] if 0 <= i < len(terms) else literal(0)


def form_after(new_values, p):
    return polynomial_term(lambda i: term_at(new_values, i), p)


def reads_below(n, p):
    return all(v < n for _, vs in p for v in vs)


def value(t, env):
    kind = t[0]
    if kind == "lit":
        return t[1]
    if kind == "var":
        return env[t[1]] if t[1] < len(env) else 0
    if kind == "neg":
        return -value(t[1], env)
    a, b = value(t[1], env), value(t[2], env)
    return a + b if kind == "add" else a - b if kind == "sub" else a * b


def polynomial_value(p, env):
    return sum(c * math.prod(env[v] if v < len(env) else 0 for v in vs) for c, vs in p)


# bounds

def signed_value(b, x):
    kind = b[0]
    if kind == "const":
        return b[1]
    if kind == "part":
        return max(0, polynomial_value(b[1], x))
    if kind == "sum":
        return sum(signed_value(c, x) for c in b[1])
    if kind == "prod":
        return math.prod(signed_value(c, x) for c in b[1])
    if kind == "max":
        return max([0] + [signed_value(c, x) for c in b[1]])
    if kind == "min":
        return min([signed_value(b[1], x)] + [signed_value(c, x) for c in b[2]])
    if kind == "quot":
        return signed_value(b[1], x) // b[2] if b[2] else 0
    if kind == "root":
        return math.isqrt(signed_value(b[1], x))
    return b[1] ** signed_value(b[2], x)


def parts_of(b):
    kind = b[0]
    if kind in ("sum", "prod", "max"):
        return list(b[1])
    if kind == "min":
        return [b[1]] + list(b[2])
    if kind in ("quot", "root"):
        return [b[1]]
    return [b[2]] if kind == "pow" else []


def node_count(b):
    own = 1 + (sum(1 + len(vs) for _, vs in b[1]) if b[0] == "part" else 0)
    return own + sum(node_count(c) for c in parts_of(b))


def depth_of(b):
    return 1 + max([0] + [depth_of(c) for c in parts_of(b)])


def has_large_constant(b):
    if b[0] == "const" and b[1] > CONSTANT_LIMIT or b[0] == "quot" and b[2] > CONSTANT_LIMIT:
        return True
    return any(has_large_constant(c) for c in parts_of(b))


def exceeds_limits(b):
    return node_count(b) > NODE_LIMIT or depth_of(b) > DEPTH_LIMIT or has_large_constant(b)


# their comparison

def is_below(f, h):
    return is_safe(("sub", form_term(h), form_term(f)))


def weighted_difference(n, f, m, h):
    return ("sub", ("mul", literal(m), form_term(h)), ("mul", literal(n), form_term(f)))


def fits(a, b):
    if a[0] != b[0]:
        return False
    kind = a[0]
    if kind == "const":
        return a[1] <= b[1]
    if kind == "part":
        return is_below(a[1], b[1])
    if kind in ("sum", "prod", "max"):
        return all_fit(a[1], b[1])
    if kind == "min":
        return fits(a[1], b[1]) and all_fit(a[2], b[2])
    if kind == "quot":
        return a[2] == b[2] and fits(a[1], b[1])
    if kind == "root":
        return fits(a[1], b[1])
    return 1 <= a[1] <= b[1] and fits(a[2], b[2])


def all_fit(xs, ys):
    return len(xs) == len(ys) and all(fits(x, y) for x, y in zip(xs, ys))


def is_equal(a, b):
    return fits(a, b) and fits(b, a)


def maximum_parts(b):
    return b[1] if b[0] == "max" else []


def factor_fits(a, b):
    return fits(a, b) or any(fits(a, c) for c in maximum_parts(b))


def without_first(test, bs):
    for i, b in enumerate(bs):
        if test(b):
            return bs[:i] + bs[i + 1:]
    return None


def without_equal(a, bs):
    return without_first(lambda b: is_equal(a, b), bs)


def without_fitting(a, bs):
    found = without_equal(a, bs)
    return without_first(lambda b: factor_fits(a, b), bs) if found is None else found


def are_matched(without, fs, gs):
    for f in fs:
        gs = without(f, gs)
        if gs is None:
            return False
    return not gs


def factors_equal(fs, gs):
    return are_matched(without_equal, fs, gs)


def factors_fit(fs, gs):
    return are_matched(without_fitting, fs, gs)


def used_up(test, n, fs, qs):
    """How often the factors are missing, and the products once they are taken."""
    left = []
    for times, gs in qs:
        if test(fs, gs):
            left.append((max(0, times - n), gs))
            n = max(0, n - times)
        else:
            left.append((times, gs))
    return n, left


def constant_part(p):
    """The positive part of a polynomial that is written as a number."""
    if not p:
        return 0
    if len(p) == 1 and not p[0][1]:
        return max(0, p[0][0])
    return None


def products_of(b):
    kind = b[0]
    if kind == "const":
        return [(b[1], [])]
    if kind == "part" and constant_part(b[1]) is not None:
        return [(constant_part(b[1]), [])]
    if kind == "sum":
        return [p for c in b[1] for p in products_of(c)]
    if kind == "prod":
        products = [(1, [])]
        for c in b[1]:
            factors = products_of(c)
            products = [(n * m, fs + gs) for n, fs in products for m, gs in factors]
        return products
    return [(1, [b])]


def product_count(b):
    if b[0] == "sum":
        return max(1, sum(product_count(c) for c in b[1]))
    return math.prod(product_count(c) for c in b[1]) if b[0] == "prod" else 1


def number_sum(b):
    if b[0] == "const":
        return max(1, b[1])
    if b[0] == "part":
        return max(1, constant_part(b[1]) or 0)
    if b[0] == "sum":
        return max(1, sum(number_sum(c) for c in b[1]))
    return math.prod(number_sum(c) for c in b[1]) if b[0] == "prod" else 1


def is_expandable(b):
    return product_count(b) <= PRODUCT_LIMIT and product_count(b) * node_count(b) <= EXPANSION_LIMIT


def is_multipliable(n, b):
    return is_expandable(b) and n * number_sum(b) <= CONSTANT_LIMIT


def factor_total(ps):
    return sum(1 + sum(node_count(f) for f in fs) for _, fs in ps)


def whole_polynomial(fs):
    if not fs:
        return [(1, ())]
    return fs[0][1] if len(fs) == 1 and fs[0][0] == "part" else None


def fits_whole(n, fs, m, gs):
    f, h = whole_polynomial(fs), whole_polynomial(gs)
    if f is not None and h is not None and is_safe(weighted_difference(n, f, m, h)):
        return True
    if fs or len(gs) != 1:
        return False
    return any(c[0] == "const" and n <= m * c[1] for c in maximum_parts(gs[0]))


def without_product(p, qs):
    missing, left = used_up(factors_fit, p[0], p[1], qs)
    if missing == 0:
        return left
    for i, (m, gs) in enumerate(qs):
        if fits_whole(p[0], p[1], m, gs):
            return qs[:i] + [(0, gs)] + qs[i + 1:]
    return None


def covers(ps, qs):
    if factor_total(ps) * factor_total(qs) > COMPARISON_LIMIT:
        return False
    missing = []
    for n, fs in ps:
        left, qs = used_up(factors_equal, n, fs, qs)
        missing.append((left, fs))
    for p in missing:
        qs = without_product(p, qs)
        if qs is None:
            return False
    return True


def numerator(den, q):
    n, fs = q
    return fs[0][1] if n >= 1 and len(fs) == 1 and fs[0][0] == "quot" and fs[0][2] == den else None


def scaled(n, ps):
    return [(n * m, fs) for m, fs in ps]


def within(den, a, b):
    """Whether each number that is at most a, den times, is at most b, by their shape or by a comparison of products."""
    return den == 1 and fits(a, b) or is_covered(den, a, b)


def is_covered(den, a, b):
    if not (is_multipliable(1, a) and is_multipliable(den, b)):
        return False
    ps, qs = products_of(a), products_of(b)
    if covers(ps, [(max(0, den - 1), [])] + scaled(den, qs)):
        return True
    if sum(numerator(den, q) is not None for q in qs) > QUOTIENT_LIMIT:
        return False
    for i, (n, fs) in enumerate(qs):
        c = numerator(den, (n, fs))
        if c is not None and is_multipliable(1, c):
            others = qs[:i] + [(n - 1, fs)] + qs[i + 1:]
            if covers(ps, products_of(c) + scaled(den, others)):
                return True
    return False


# certificates: ("one", m, i), ("two", m, i, j), ("zero", m, i, k, u)

def summand_term(rows, s):
    if s[0] == "one":
        return ("mul", literal(s[1]), term_at(rows, s[2]))
    if s[0] == "two":
        return ("mul", literal(s[1]), ("mul", term_at(rows, s[2]), term_at(rows, s[3])))
    return ("mul", literal(s[1]), ("mul", variable(s[4]), term_at(rows, s[2])))


def shows(rows, summands, goal):
    for s in summands:
        if s[0] == "zero" and not is_never_negative(("neg", ("add", term_at(rows, s[2]), term_at(rows, s[3])))):
            return False
    for s in summands:
        goal = ("sub", goal, summand_term(rows, s))
    return is_never_negative(goal)


# rows of squares

LINES = ((0, 0), (1, 0), (-1, 0), (2, -1), (-2, -1))


def square_rows(first, updates):
    """The rows of squares of updates, each a dictionary from monomials to coefficients, where those of degree 2 or more
    have the unknowns from a number on."""
    rows, unknown = [], first
    for update in updates:
        higher = [m for m in update if len(m) > 1]
        if not higher:
            continue
        own, unknown = variable(unknown), unknown + 1
        if len(higher) > 1 or len(higher[0]) > 2 or higher[0][0] != higher[0][1]:
            continue
        c, v = update[higher[0]], higher[0][0]
        rest = form_term([(update[m], m) for m in sorted(update) if len(m) < 2])
        for slope, offset in LINES:
            line = ("add", ("mul", literal(slope), variable(v)), literal(offset))
            row = ("sub", ("sub", own, rest), ("mul", literal(c), line))
            rows.append(row if c >= 0 else ("neg", row))
    return rows


# what is known of the steps of a program: rows, new values and variables of a rule, places of a symbol

class Ground:
    def __init__(self, program, rows):
        self.program, self.row_lists = program, rows

    def rule(self, t):
        rules = self.program["rules"]
        return rules[t - 1] if 1 <= t <= len(rules) else None

    def source(self, t):
        r = self.rule(t)
        return None if r is None else r["source"]

    def target(self, t):
        r = self.rule(t)
        return None if r is None else r["target"]

    def rows(self, t):
        return self.row_lists[t - 1] if self.rule(t) is not None else []

    def new_values(self, t):
        r = self.rule(t)
        return [] if r is None else r["updates"]

    def variables(self, t):
        r = self.rule(t)
        return 0 if r is None else self.program["places"][r["source"]] + r["free"]

    def places(self, s):
        places = self.program["places"]
        return places[s] if 0 <= s < len(places) else 0


# facts: ("sum", charges, bound), ("peak", rule, form, bound), ("size", rule, place, bound); a charge is (rule, form)

def same_form(p, q):
    return [(c, tuple(v)) for c, v in p] == [(c, tuple(v)) for c, v in q]


def same_charges(cs, ds):
    return len(cs) == len(ds) and all(c[0] == d[0] and same_form(c[1], d[1]) for c, d in zip(cs, ds))


def numbered(facts, n):
    return facts[n - 1] if n is not None and 1 <= n <= len(facts) else None


def sum_bound(facts, goal, n):
    fact = numbered(facts, n)
    return fact[2] if fact and fact[0] == "sum" and same_charges(goal, fact[1]) else None


def peak_bound(facts, rule, form, n):
    fact = numbered(facts, n)
    return fact[3] if fact and fact[0] == "peak" and fact[1] == rule and same_form(form, fact[2]) else None


ONE = [(1, ())]


def is_never(facts, t):
    return any(f[0] == "sum" and f[2] == ("const", 0) and same_charges([(t, ONE)], f[1]) for f in facts)


# tables: a dictionary with functions [(symbol, form)], den, moves; a move is a dictionary with rule, keeps, gain, cited,
# shown

def function_at(table, s):
    return next((f for t, f in table["functions"] if t == s), None) if s is not None else None


def move_at(table, t):
    return next((m for m in table["moves"] if m["rule"] == t), None)


def ascends(numbers):
    return all(a < b for i, a in enumerate(numbers) for b in numbers[i + 1:])


def table_shape(g, table):
    yield 1 <= table["den"]
    yield ascends([s for s, _ in table["functions"]])
    yield ascends([m["rule"] for m in table["moves"]])
    for s, f in table["functions"]:
        yield reads_below(g.places(s), f)
    for m in table["moves"]:
        yield (function_at(table, g.target(m["rule"])) is not None
               and (not m["keeps"] or function_at(table, g.source(m["rule"])) is not None)
               and reads_below(g.variables(m["rule"]), m["gain"]))


def missing_checks(g, table, never):
    for t, r in enumerate(g.program["rules"], 1):
        holds = function_at(table, r["target"]) is None or move_at(table, t) is not None or never(t)
        yield ("MissingTime", t), holds


def times_den(table, form):
    return ("mul", literal(table["den"]), form_term(form))


def source_form(g, table, t):
    return function_at(table, g.source(t)) or []


def behind(g, table, t):
    return form_after(g.new_values(t), function_at(table, g.target(t)) or [])


def move_goal(g, table, amount, m):
    t = m["rule"]
    if m["keeps"]:
        return ("sub", ("add", form_term(source_form(g, table, t)), form_term(m["gain"])),
                ("add", behind(g, table, t), times_den(table, amount)))
    return ("sub", form_term(m["gain"]), behind(g, table, t))


def move_check(g, table, amount_at, m):
    t = m["rule"]
    return ("BadMove", t), shows(g.rows(t), m["shown"], move_goal(g, table, amount_at(t), m))


def floor_goal(g, table, t, form):
    return ("sub", form_term(source_form(g, table, t)), times_den(table, form))


def start_bound(g, table):
    f = function_at(table, g.program["start"])
    return ("const", 0) if f is None else ("part", f)


def gain_check(m):
    holds = m["cited"] is not None or is_safe(("neg", form_term(m["gain"])))
    return ("BadGain", m["rule"]), holds


def sum_cited(facts, m):
    return sum_bound(facts, [(m["rule"], m["gain"])], m["cited"])


def peak_cited(facts, m):
    return peak_bound(facts, m["rule"], m["gain"], m["cited"])


def gain_parts(facts, moves):
    return [b for b in (sum_cited(facts, m) for m in moves) if b is not None]


def shape(holds):
    return ("BadShape",), holds


def fall_checks(g, facts, n, b):
    """n: a dictionary with table and payments; a payment is a dictionary with rule, amount, floor, positive."""
    table, payments = n["table"], n["payments"]
    def amount_at(t):
        return next((y["amount"] for y in payments if y["rule"] == t), [])
    for holds in table_shape(g, table):
        yield shape(holds)
    yield shape(ascends([y["rule"] for y in payments]))
    for y in payments:
        yield shape(function_at(table, g.source(y["rule"])) is not None
                    and reads_below(g.variables(y["rule"]), y["amount"]))
    for m in table["moves"]:
        yield shape(m["cited"] is None or sum_cited(facts, m) is not None)
    yield from missing_checks(g, table, lambda t: is_never(facts, t))
    for m in table["moves"]:
        yield move_check(g, table, amount_at, m)
    for y in payments:
        yield (("BadFloor", y["rule"]),
               shows(g.rows(y["rule"]), y["floor"], floor_goal(g, table, y["rule"], y["amount"])))
    for y in payments:
        yield ("BadAmount", y["rule"]), shows(g.rows(y["rule"]), y["positive"], form_term(y["amount"]))
    for m in table["moves"]:
        yield gain_check(m)
    composed = ("sum", [start_bound(g, table)] + gain_parts(facts, table["moves"]))
    yield ("LowBound",), within(table["den"], composed, b)


def peak_checks(g, facts, n, b):
    """n: a dictionary with table, rule, form, floor."""
    table, rule, form = n["table"], n["rule"], n["form"]
    for holds in table_shape(g, table):
        yield shape(holds)
    yield shape(function_at(table, g.source(rule)) is not None and reads_below(g.variables(rule), form))
    for m in table["moves"]:
        cited = sum_cited(facts, m) if m["keeps"] else peak_cited(facts, m)
        yield shape(m["cited"] is None or cited is not None)
    yield from missing_checks(g, table, lambda t: is_never(facts, t))
    for m in table["moves"]:
        yield move_check(g, table, lambda t: [], m)
    yield ("BadFloor", rule), shows(g.rows(rule), n["floor"], floor_goal(g, table, rule, form))
    for m in table["moves"]:
        yield gain_check(m)
    kept = gain_parts(facts, [m for m in table["moves"] if m["keeps"]])
    peaks = [peak_cited(facts, m) for m in table["moves"] if not m["keeps"]]
    for head in [start_bound(g, table)] + [p for p in peaks if p is not None]:
        yield ("LowBound",), within(table["den"], ("sum", [head] + kept), b)


def row_checks(g, n, b):
    """n: a dictionary with rule, form, number, shown."""
    yield shape(reads_below(g.variables(n["rule"]), n["form"]))
    yield (("BadFloor", n["rule"]),
           shows(g.rows(n["rule"]), n["shown"], ("sub", literal(n["number"]), form_term(n["form"]))))
    yield ("LowBound",), within(1, ("const", n["number"]), b)


def without_charge(c, ds):
    for i, d in enumerate(ds):
        if c[0] == d[0] and same_form(c[1], d[1]):
            return ds[:i] + ds[i + 1:]
    return None


def are_among(cs, ds):
    for c in cs:
        ds = without_charge(c, ds)
        if ds is None:
            return False
    return True


def composed_fact(facts, n):
    """n: ("times", rule, form, time, peak), ("least", a, b), ("add", a, b) or ("among", goal, a)."""
    if n[0] == "times":
        often, high = sum_bound(facts, [(n[1], ONE)], n[3]), peak_bound(facts, n[1], n[2], n[4])
        if often is None or high is None:
            return None
        return ("sum", [(n[1], n[2])], ("prod", [often, high]))
    if n[0] == "among":
        a = numbered(facts, n[2])
        return ("sum", n[1], a[2]) if a and a[0] == "sum" and are_among(n[1], list(a[1])) else None
    a, b = numbered(facts, n[1]), numbered(facts, n[2])
    if not a or not b:
        return None
    if n[0] == "add":
        if a[0] != "sum" or b[0] != "sum" or len(a[1]) + len(b[1]) > CHARGE_LIMIT:
            return None
        return ("sum", list(a[1]) + list(b[1]), ("sum", [a[2], b[2]]))
    if a[0] == b[0] == "sum" and same_charges(a[1], b[1]):
        return ("sum", a[1], ("min", a[2], [b[2]]))
    if a[0] == b[0] == "peak" and a[1] == b[1] and same_form(a[2], b[2]):
        return ("peak", a[1], a[2], ("min", a[3], [b[3]]))
    return None


def combination_checks(g, facts, n, b):
    fact = composed_fact(facts, n)
    yield shape(fact is not None)
    yield ("LowBound",), fact is not None and within(1, fact[-1], b)


def predecessors(program, t):
    """The rules that can come just before a rule, the virtual entry being rule 0."""
    rules = program["rules"]
    if not 1 <= t <= len(rules):
        return []
    source = rules[t - 1]["source"]
    entry = [0] if program["start"] == source else []
    return entry + [e for e, r in enumerate(rules, 1) if r["target"] == source]


def monomial_size(size, c, vs):
    if not vs:
        return ("const", max(0, c))
    if len(vs) > 1 or size(vs[0]) is None:
        return None
    return ("prod", [("const", abs(c)), size(vs[0])])


def form_size(facts, n, e):
    def size(i):
        for k in n["cited"]:
            f = numbered(facts, k)
            if f and f[0] == "size" and f[1] == e and f[2] == i + 1:
                return f[3]
        return None
    parts = [monomial_size(size, c, list(vs)) for c, vs in n["form"]]
    return None if any(p is None for p in parts) else ("sum", parts)


def sized_checks(g, facts, n, b):
    """n: a dictionary with rule, form, cited."""
    rule = g.rule(n["rule"])
    yield shape(reads_below(0 if rule is None else g.program["places"][rule["source"]], n["form"]))
    before = predecessors(g.program, n["rule"])
    for e in before:
        yield shape(form_size(facts, n, e) is not None)
    for e in before:
        parts = form_size(facts, n, e)
        yield ("LowBound",), parts is not None and within(1, parts, b)


def phases_fall(n):
    """The first functions as a potential that pays 1 for each counted rule."""
    moves = [{"rule": m["rule"], "keeps": True, "gain": [], "cited": None, "shown": m["first"]} for m in n["moves"]]
    payments = [{"rule": t, "amount": ONE, "floor": floor, "positive": []} for t, floor in n["counted"]]
    return {"table": {"functions": n["firsts"], "den": n["den"], "moves": moves}, "payments": payments}


def second_table(g, n):
    first, counted = phases_fall(n)["table"], [t for t, _ in n["counted"]]
    moves = [{"rule": m["rule"], "keeps": True, "cited": None, "shown": m["second"],
              "gain": source_form(g, first, m["rule"]) if m["rule"] in counted else []} for m in n["moves"]]
    return {"functions": n["seconds"], "den": n["den"], "moves": moves}


def phases_signed(g, n):
    first, second, start, den = phases_fall(n)["table"], second_table(g, n), g.program["start"], n["den"]
    under = [(-den, ())] + (function_at(second, start) or [])
    return ("sum", [("const", den), ("prod", [("const", 2), ("part", function_at(first, start) or [])]),
                    ("root", ("prod", [("const", 2 * den), ("part", under)]))])


def phases_checks(g, facts, n, b):
    """n: a dictionary with firsts, seconds, den, moves (rule, first, second) and counted [(rule, floor)]."""
    fall, second = phases_fall(n), second_table(g, n)
    first, counted = fall["table"], [t for t, _ in n["counted"]]
    def amount_at(t):
        return ONE if t in counted else []
    for holds in list(table_shape(g, first)) + list(table_shape(g, second)):
        yield shape(holds)
    yield shape([s for s, _ in n["firsts"]] == [s for s, _ in n["seconds"]])
    yield shape(ascends(counted))
    for y in fall["payments"]:
        yield shape(function_at(first, g.source(y["rule"])) is not None
                    and reads_below(g.variables(y["rule"]), y["amount"]))
    for table in (first, second):
        yield from missing_checks(g, table, lambda t: is_never(facts, t))
    for m, h in zip(first["moves"], second["moves"]):
        yield ("BadMove", m["rule"]), (move_check(g, first, amount_at, m)[1] and move_check(g, second, amount_at, h)[1])
    for y in fall["payments"]:
        yield (("BadFloor", y["rule"]),
               shows(g.rows(y["rule"]), y["floor"], floor_goal(g, second, y["rule"], y["amount"])))
    yield ("LowBound",), within(n["den"], phases_signed(g, n), b)


# limits, lemmas and lists of lemmas; a node is (kind, n) with the kinds below

CHECKS = {"fall": fall_checks, "peak": peak_checks, "combined": combination_checks, "sized": sized_checks,
          "phases": phases_checks}


def forms_and_certificates(node):
    kind, n = node
    if kind in ("fall", "peak"):
        table = n["table"]
        forms = [f for _, f in table["functions"]] + [m["gain"] for m in table["moves"]]
        shown = [m["shown"] for m in table["moves"]]
        if kind == "peak":
            return forms + [n["form"]], shown + [n["floor"]]
        for y in n["payments"]:
            forms, shown = forms + [y["amount"]], shown + [y["floor"], y["positive"]]
        return forms, shown
    if kind == "row":
        return [n["form"]], [n["shown"]]
    if kind == "sized":
        return [n["form"]], []
    if kind == "combined":
        return {"times": lambda: [n[2]], "among": lambda: [f for _, f in n[1]]}.get(n[0], list)(), []
    forms = [f for _, f in n["firsts"]] + [f for _, f in n["seconds"]]
    return forms, [c for m in n["moves"] for c in (m["first"], m["second"])] + [floor for _, floor in n["counted"]]


def is_within_limits(node, b):
    forms, certificates = forms_and_certificates(node)
    return (all(len(p) <= MONOMIAL_LIMIT and all(len(vs) <= DEGREE_LIMIT for _, vs in p) for p in forms)
            and all(len(c) <= SUMMAND_LIMIT for c in certificates) and not exceeds_limits(b))


def lemma_checks(g, facts, lemma):
    node, b = lemma
    yield shape(is_within_limits(node, b))
    yield from row_checks(g, node[1], b) if node[0] == "row" else CHECKS[node[0]](g, facts, node[1], b)


def refusal(g, facts, lemma):
    """The first reason for which a lemma isn't accepted, or None."""
    return next((reason for reason, holds in lemma_checks(g, facts, lemma) if not holds), None)


def fact_of(g, facts, lemma):
    (kind, n), b = lemma
    if kind == "fall":
        return ("sum", [(y["rule"], y["amount"]) for y in n["payments"]], b)
    if kind == "phases":
        return ("sum", [(t, ONE) for t, _ in n["counted"]], b)
    if kind == "combined":
        fact = composed_fact(facts, n)
        return ("sum", [], b) if fact is None else fact[:-1] + (b,)
    return ("peak", n["rule"], n["form"], b)


def first_refusal(g, facts, n, lemmas):
    """The number and the reason of the first lemma that isn't accepted, and the facts behind those before it."""
    facts = list(facts)
    for k, lemma in enumerate(lemmas, n):
        reason = refusal(g, facts, lemma)
        if reason is not None:
            return (k, reason), facts
        facts.append(fact_of(g, facts, lemma))
    return None, facts
