"""Bounds over start values, plainly and slowly, by their description alone: nothing of the crates is used.

A polynomial is a tuple of monomials, each a coefficient and a tuple of variables from 0. A bound is a tuple:
`("const", n)`, `("part", polynomial)`, `("quotient", bound, n)`, `("root", bound)`, `("power", base, bound)`, or
`("sum", parts)` and likewise `product`, `maximum` and `minimum` with a tuple of bounds. `is_safe` says whether an
expression is a sum of squares, `within` compares two bounds, `text_of` writes one as answers do.
"""

from functools import lru_cache

from slow_reading import Unexpanded, expanded

CONSTANT, NODES, LEVELS = 2**127 - 1, 4096, 200
PRODUCTS, EXPANSION, COMPARISON, QUOTIENTS = 4096, 262144, 131072, 16
ZERO, ONE_FORM = ("const", 0), ((1, ()),)
LISTED = ("sum", "product", "maximum", "minimum")


def number(value):
    return ("number", value)


def variable(place):
    return ("variable", place)


def polynomial_tree(polynomial, put=variable):
    """A polynomial as an expression, with an expression in the place of each variable."""
    tree = number(0)
    for coefficient, variables in reversed(polynomial):
        factors = number(1)
        for place in reversed(variables):
            factors = ("*", put(place), factors)
        tree = ("+", ("*", number(coefficient), factors), tree)
    return tree


def is_safe(tree):
    """Whether an expression expands within the limits, to squares with coefficients of at least 0."""
    try:
        found = expanded(tree)
    except Unexpanded:
        return False
    return all(coefficient >= 0 and all(monomial.count(it) % 2 == 0 for it in monomial)
               for monomial, coefficient in found.items())


def parts(bound):
    if bound[0] in LISTED:
        return bound[1]
    return (bound[1],) if bound[0] in ("quotient", "root") else (bound[2],) if bound[0] == "power" else ()


def nodes(bound):
    if bound[0] == "part":
        return 1 + sum(1 + len(variables) for _, variables in bound[1])
    return 1 + sum(map(nodes, parts(bound)))


def levels(bound):
    return 1 + max(map(levels, parts(bound)), default=0)


def has_large_number(bound):
    own = {"const": bound[1], "quotient": bound[-1]}.get(bound[0], 0)
    return own > CONSTANT or any(map(has_large_number, parts(bound)))


def exceeds_limits(bound):
    return nodes(bound) > NODES or levels(bound) > LEVELS or has_large_number(bound)


def signed_of(bound):
    """A bound over absolute start values as one over start values."""
    if bound[0] == "const":
        return bound
    if bound[0] == "var":
        return "maximum", (("part", ((1, (bound[1],)),)), ("part", ((-1, (bound[1],)),)))
    if bound[0] == "power":
        return "power", bound[1], signed_of(bound[2])
    return {"sum": "sum", "prod": "product", "max": "maximum"}[bound[0]], tuple(map(signed_of, bound[1]))


@lru_cache(maxsize=100000)
def fits(one, other):
    """Whether a bound is at most another one by its shape."""
    if one[0] != other[0]:
        return False
    if one[0] == "const":
        return one[1] <= other[1]
    if one[0] == "part":
        return is_safe(("-", polynomial_tree(other[1]), polynomial_tree(one[1])))
    if one[0] == "quotient" and one[2] != other[2]:
        return False
    if one[0] == "power" and not 1 <= one[1] <= other[1]:
        return False
    return len(parts(one)) == len(parts(other)) and all(map(fits, parts(one), parts(other)))


def is_equal(one, other):
    return fits(one, other) and fits(other, one)


def factor_fits(one, other):
    return fits(one, other) or (other[0] == "maximum" and any(fits(one, part) for part in other[1]))


# A bound as a sum of products: pairs of how often a product is taken and its factors.


def products_of(bound):
    if bound[0] == "const":
        return [(bound[1], ())]
    if bound[0] == "part" and constant_part(bound[1]) is not None:
        return [(constant_part(bound[1]), ())]
    if bound[0] == "sum":
        return [product for part in bound[1] for product in products_of(part)]
    if bound[0] == "product":
        found = [(1, ())]
        for part in bound[1]:
            others = products_of(part)
            found = [(n * m, fs + gs) for n, fs in found for m, gs in others]
        return found
    return [(1, (bound,))]


def constant_part(polynomial):
    """The positive part of a polynomial that is written as a number."""
    if not polynomial:
        return 0
    if len(polynomial) == 1 and not polynomial[0][1]:
        return max(0, polynomial[0][0])
    return None


def measured(bound, leaf):
    """What a bound comes to where a sum is one of its parts, at least 1, and a product one of its parts."""
    if bound[0] == "sum":
        return max(1, sum(measured(part, leaf) for part in bound[1]))
    if bound[0] == "product":
        whole = 1
        for part in bound[1]:
            whole *= measured(part, leaf)
        return whole
    return leaf(bound)


def number_of(bound):
    found = bound[1] if bound[0] == "const" else constant_part(bound[1]) if bound[0] == "part" else None
    return max(1, found or 0)


def is_multipliable(times, bound):
    count = measured(bound, lambda leaf: 1)
    return (count <= PRODUCTS and count * nodes(bound) <= EXPANSION
            and times * measured(bound, number_of) <= CONSTANT)


def matched(fs, gs, tests):
    """Whether each of the first factors takes one of the second, the first by the first test that finds one, and none
    is left."""
    left = list(gs)
    for one in fs:
        found = next((at for test in tests for at, other in enumerate(left) if test(one, other)), None)
        if found is None:
            return False
        left.pop(found)
    return not left


def factors_equal(fs, gs):
    return matched(fs, gs, (is_equal,))


def factors_fit(fs, gs):
    return matched(fs, gs, (is_equal, factor_fits))


def taken(test, product, others):
    """How often a product is still missing after it is taken from those that pass the test, and what is left."""
    (times, factors), left = product, []
    for many, gs in others:
        use = min(times, many) if test(factors, gs) else 0
        times -= use
        left.append((many - use, gs))
    return times, left


def whole_polynomial(factors):
    if not factors:
        return ONE_FORM
    return factors[0][1] if len(factors) == 1 and factors[0][0] == "part" else None


def fits_whole(one, other):
    (n, fs), (m, gs) = one, other
    first, second = whole_polynomial(fs), whole_polynomial(gs)
    if first is not None and second is not None and is_safe(
            ("-", ("*", number(m), polynomial_tree(second)), ("*", number(n), polynomial_tree(first)))):
        return True
    return (not fs and len(gs) == 1 and gs[0][0] == "maximum"
            and any(part[0] == "const" and n <= m * part[1] for part in gs[0][1]))


def covers(ones, others):
    """Whether a sum of products is at most another one, product by product."""
    size = lambda products: sum(1 + sum(map(nodes, factors)) for _, factors in products)
    if size(ones) * size(others) > COMPARISON:
        return False
    missing = []
    for product in ones:
        times, others = taken(factors_equal, product, others)
        missing.append((times, product[1]))
    for product in missing:
        times, left = taken(factors_fit, product, others)
        if times:
            at = next((at for at, other in enumerate(others) if fits_whole(product, other)), None)
            if at is None:
                return False
            left = others[:at] + [(0, others[at][1])] + others[at + 1:]
        others = left
    return True


def scaled(times, products):
    return [(times * many, factors) for many, factors in products]


def is_covered(den, one, other):
    if not (is_multipliable(1, one) and is_multipliable(den, other)):
        return False
    ones, others = products_of(one), products_of(other)
    if covers(ones, [(den - 1, ())] + scaled(den, others)):
        return True
    quotients = [at for at, (times, factors) in enumerate(others)
                 if times and len(factors) == 1 and factors[0][0] == "quotient" and factors[0][2] == den]
    if len(quotients) > QUOTIENTS:
        return False
    for at in quotients:
        times, factors = others[at]
        inner = factors[0][1]
        rest = others[:at] + [(times - 1, factors)] + others[at + 1:]
        if is_multipliable(1, inner) and covers(ones, products_of(inner) + scaled(den, rest)):
            return True
    return False


def within(den, one, other):
    """Whether each number that is, times den, at most a bound is at most another one."""
    return (den == 1 and fits(one, other)) or is_covered(den, one, other)


def monomial_text(coefficient, variables, names):
    factors = [names[place] if place < len(names) else "0" for place in variables]
    return "*".join(([] if factors and coefficient == 1 else [str(coefficient)]) + factors)


def polynomial_text(polynomial, names):
    """Products first, then single variables, then numbers, of each what is added before what is subtracted."""
    kind = lambda it: (min(2, len(it[1])) * -1, it[0] < 0)
    text = ""
    for coefficient, variables in sorted(polynomial, key=kind):
        sign = (" - " if coefficient < 0 else " + ") if text else "-" if coefficient < 0 else ""
        text += sign + monomial_text(abs(coefficient), variables, names)
    return f"[{text or 0}]"


def text_of(bound, names):
    kind = bound[0]
    if kind == "const":
        return str(bound[1])
    if kind == "part":
        return polynomial_text(bound[1], names)
    told = [text_of(part, names) for part in parts(bound)]
    if kind == "quotient":
        return f"({told[0]})/{bound[2]}"
    if kind == "root":
        return f"root({told[0]})"
    if kind == "power":
        return f"{bound[1]}^({told[0]})"
    if kind == "product":
        return "*".join(f"({text})" if part[0] in ("sum", "quotient") else text
                        for part, text in zip(bound[1], told)) or "1"
    if kind == "sum":
        return " + ".join(told) or "0"
    return f"{kind[:3]}({', '.join(told)})" if told else "0"
