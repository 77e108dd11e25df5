"""Bounds, plainly and slowly, by their description alone: nothing of the crates is used.

A bound is a tuple: `("const", n)`, `("var", place)` from 0, `("power", base, exponent)`, or `("sum", parts)`,
`("prod", parts)` and `("max", parts)` with a tuple of bounds. `rewritten` applies the table of cases, `below` is the
test by the look of two bounds, `is_large` measures, `text_of` prints and `Reader` reads.
"""

import re

CONSTANT = 2**127 - 1
NODES, LEVELS, PARTS, PASSES = 4096, 200, 64, 16
STRUCTURAL = {"const": 0, "var": 1, "sum": 2, "prod": 3, "max": 4, "power": 5}
AS_FACTOR = {"const": 0, "power": 1, "var": 2, "max": 3, "sum": 4, "prod": 5}
ZERO, ONE = ("const", 0), ("const", 1)


def listed(bound):
    """Whether it is a sum, a product or a maximum."""
    return bound[0] in ("sum", "prod", "max")


def nodes(bound):
    if listed(bound):
        return 1 + sum(nodes(part) for part in bound[1])
    return 1 + nodes(bound[2]) if bound[0] == "power" else 1


def levels(bound):
    if listed(bound):
        return 1 + max((levels(part) for part in bound[1]), default=0)
    return 1 + levels(bound[2]) if bound[0] == "power" else 1


def is_large(bound):
    return nodes(bound) > NODES or levels(bound) > LEVELS


def structural(bound):
    """What bounds are ordered by: the kind, then numbers, lists part by part, the base before the exponent."""
    kind = STRUCTURAL[bound[0]]
    if listed(bound):
        return kind, tuple(structural(part) for part in bound[1])
    if bound[0] == "power":
        return kind, bound[1], structural(bound[2])
    return kind, bound[1]


def term(part):
    """A constant and a list of factors."""
    if part[0] == "const":
        return part[1], ()
    if part[0] != "prod":
        return 1, (part,)
    if part[1] and part[1][0][0] == "const":
        return part[1][0][1], part[1][1:]
    return 1, part[1]


def is_factor_below(one, other):
    if one[0] == "var" and other[0] == "var":
        return one == other
    if one[0] == "power" and other[0] == "power":
        return one[1] <= other[1] and below(one[2], other[2])
    return (one[0] in ("max", "sum") or other[0] in ("max", "sum")) and below(one, other)


def is_term_below(one, other):
    (constant, factors), (limit, others) = term(one), term(other)
    if constant > limit or any(factor[0] == "const" for factor in factors + others):
        return False
    taken, at = set(), 0
    for factor in factors:
        while at < len(others) and not is_factor_below(factor, others[at]):
            at += 1
        if at == len(others):
            return False
        taken.add(at)
        at += 1
    kept = [others[place] for place in taken]
    return all(place in taken or factor[0] == "power" or (factor[0] == "var" and factor in kept)
               for place, factor in enumerate(others))


def below(one, other):
    if one == ZERO:
        return True
    if one[0] == "max":
        return all(below(part, other) for part in one[1])
    if other[0] == "max":
        return any(below(one, part) for part in other[1])
    parts = list(other[1]) if other[0] == "sum" else [other]
    for part in one[1] if one[0] == "sum" else (one,):
        while parts and not is_term_below(part, parts[0]):
            parts.pop(0)
        if not parts:
            return False
        parts.pop(0)
    return True


def small_power(base, exponent):
    """The power, where it is a constant that may stand; a base of 2 or more passes the limit soon."""
    if base > 1 and exponent > 127:
        return None
    power = base**exponent
    return power if power <= CONSTANT else None


def flat(bound):
    if not listed(bound):
        return bound
    parts = []
    for part in bound[1]:
        parts += part[1] if part[0] == bound[0] else [part]
    return bound[0], tuple(parts)


def folded(bound):
    if not listed(bound):
        return bound
    constants = [part[1] for part in bound[1] if part[0] == "const"]
    if len(constants) < 2:
        return bound
    whole = {"sum": sum, "max": max}.get(bound[0], product)(constants)
    if whole > CONSTANT:
        return bound
    first = bound[1].index(("const", constants[0]))
    rest = [part for part in bound[1][first:] if part[0] != "const"]
    return bound[0], bound[1][:first] + (("const", whole),) + tuple(rest)


def product(numbers):
    whole = 1
    for number in numbers:
        whole *= number
    return whole


def without_zero(bound):
    return ZERO if bound[0] == "prod" and ZERO in bound[1] else bound


def without_neutral(bound):
    if not listed(bound):
        return bound
    neutral = ONE if bound[0] == "prod" else ZERO
    return bound[0], tuple(part for part in bound[1] if part != neutral)


def constant_power(bound):
    if bound[0] == "power" and bound[2][0] == "const":
        power = small_power(bound[1], bound[2][1])
        return bound if power is None else ("const", power)
    return bound


def shifted_power(bound):
    if bound[0] != "power" or bound[2][0] != "sum" or not bound[2][1] or bound[2][1][0][0] != "const":
        return bound
    power, others = small_power(bound[1], bound[2][1][0][1]), bound[2][1][1:]
    if power is None:
        return bound
    exponent = others[0] if len(others) == 1 else ("sum", others)
    return "prod", (("const", power), ("power", bound[1], exponent))


def runs(parts, key):
    """Neighbouring parts with one key, which isn't None."""
    made = []
    for part in parts:
        if made and key(part) is not None and key(made[-1][-1]) == key(part):
            made[-1].append(part)
        else:
            made.append([part])
    return made


def merged_powers(bound):
    if bound[0] != "prod":
        return bound
    parts = []
    for run in runs(bound[1], lambda part: part[1] if part[0] == "power" else None):
        exponents = []
        for part in run if len(run) > 1 else ():
            exponents += part[2][1] if part[2][0] == "sum" else [part[2]]
        parts.append(("power", run[0][1], ("sum", tuple(exponents))) if len(run) > 1 else run[0])
    return "prod", tuple(parts)


def distributed(bound):
    if bound[0] != "prod":
        return bound
    sums = [place for place, part in enumerate(bound[1]) if part[0] == "sum"]
    if not sums or product(len(bound[1][place][1]) for place in sums) > PARTS:
        return bound
    before, behind, parts = bound[1][:sums[0]], bound[1][sums[0] + 1:], []
    for part in bound[1][sums[0]][1]:
        factors = before + (part[1] if part[0] == "prod" else (part,)) + behind
        parts.append(factors[0] if len(factors) == 1 else ("prod", factors))
    whole = ("sum", tuple(parts))
    return whole if nodes(whole) <= NODES else bound


def sorted_term(part):
    """What the parts of a sum or a maximum are sorted by."""
    constant, factors = term(part)
    counts = [sum(factor[0] in kinds for factor in factors) for kinds in (("power",), ("max", "sum"), ("var",))]
    return [-count for count in counts], [structural(factor) for factor in factors], -constant


def ordered(bound):
    if bound[0] == "prod":
        return "prod", tuple(sorted(bound[1], key=lambda part: (AS_FACTOR[part[0]], structural(part))))
    if listed(bound):
        return bound[0], tuple(sorted(bound[1], key=sorted_term))
    return bound


def joined_likes(bound):
    if bound[0] != "sum":
        return bound
    parts = []
    for run in runs(bound[1], lambda part: term(part)[1] or None):
        whole = sum(term(part)[0] for part in run)
        joins = len(run) > 1 and whole <= CONSTANT
        parts += [("prod", (("const", whole),) + term(run[0])[1])] if joins else run
    return "sum", tuple(parts)


def without_dominated(bound):
    if bound[0] != "max":
        return bound
    kept, at = list(bound[1]), 0
    while at < len(kept):
        if any(place != at and below(kept[at], other) for place, other in enumerate(kept)):
            kept.pop(at)
        else:
            at += 1
    return "max", tuple(kept)


def few(bound):
    if not listed(bound) or len(bound[1]) > 1:
        return bound
    return bound[1][0] if bound[1] else ONE if bound[0] == "prod" else ZERO


CASES = (flat, folded, without_zero, without_neutral, constant_power, shifted_power, merged_powers, distributed,
         ordered, joined_likes, without_dominated, few)


def one_pass(bound):
    """The bound rebuilt from the leaves up, each case once at each node as it then stands."""
    if listed(bound):
        bound = bound[0], tuple(one_pass(part) for part in bound[1])
    elif bound[0] == "power":
        bound = "power", bound[1], one_pass(bound[2])
    for case in CASES:
        bound = case(bound)
    return bound


def rewritten(bound):
    for _ in range(PASSES):
        again = one_pass(bound)
        if again == bound:
            break
        bound = again
    return bound


def text_of(bound, names):
    kind = bound[0]
    if kind == "const":
        return str(bound[1])
    if kind == "var":
        return names[bound[1]]
    if kind == "power":
        exponent = text_of(bound[2], names)
        return f"{bound[1]}^{exponent if bound[2][0] in ('const', 'var') else f'({exponent})'}"
    if kind == "prod":
        told = []
        for run in runs(bound[1], lambda part: part if part[0] == "var" else None):
            text = text_of(run[0], names)
            told.append(f"{text}^{len(run)}" if len(run) > 1 else f"({text})" if run[0][0] == "sum" else text)
        return "*".join(told)
    told = [text_of(part, names) for part in bound[1]]
    return " + ".join(told) if kind == "sum" else f"max({', '.join(told)})"


class Reader:
    """Reads a bound's text that is known to be one, from a place on; `at` is then where it ends."""

    TOKEN = re.compile(r"max\(|[A-Za-z_$][A-Za-z0-9_$'.]*|[0-9]+")

    def __init__(self, text, at, names):
        self.text, self.at, self.names = text, at, names

    def takes(self, mark):
        if not self.text.startswith(mark, self.at):
            return False
        self.at += len(mark)
        return True

    def joined(self, kind, part, mark):
        parts = [part()]
        while self.takes(mark):
            parts.append(part())
        return parts[0] if len(parts) == 1 else (kind, tuple(parts))

    def sum(self):
        return self.joined("sum", self.product, " + ")

    def product(self):
        factors = list(self.factor())
        while self.takes("*"):
            factors += self.factor()
        return factors[0] if len(factors) == 1 else ("prod", tuple(factors))

    def factor(self):
        """The factors that are written as one: several where a variable has an exponent."""
        if self.takes("("):
            inside = self.sum()
            self.at += 1
            return [inside]
        token = self.TOKEN.match(self.text, self.at).group()
        self.at += len(token)
        if token == "max(":
            parts = self.joined("max", self.sum, ", ")
            self.at += 1
            return [parts]
        has_exponent = self.takes("^")
        if not token.isdigit():
            count = self.factor()[0][1] if has_exponent else 1
            return [("var", self.names.index(token))] * count
        return [("power", int(token), self.factor()[0]) if has_exponent else ("const", int(token))]
