"""Polynomials, and certificates with small multipliers for goals of lemmas about potentials.

A polynomial is a list of pairs (coefficient, variables) in lemmas, and here a dictionary from monomials to
coefficients.
"""

import itertools


def affine(coefs, constant):
    p = [(c, (i,)) for i, c in enumerate(coefs) if c]
    return p + ([(constant, ())] if constant else [])


def as_dict(p):
    return added({}, {}, p)


def added(p, q, pairs=(), times=1):
    """The sum of two polynomials, and of pairs, each pair so many times."""
    total = dict(p)
    for m, c in q.items():
        total[m] = total.get(m, 0) + c
    for c, vs in pairs:
        total[tuple(vs)] = total.get(tuple(vs), 0) + times * c
    return {m: c for m, c in total.items() if c}


def scaled(p, times):
    return {m: times * c for m, c in p.items()} if times else {}


def multiplied(p, q):
    total = {}
    for m, c in p.items():
        for n, d in q.items():
            key = tuple(sorted(m + n))
            total[key] = total.get(key, 0) + c * d
    return {m: c for m, c in total.items() if c}


def composed(pairs, values):
    """A polynomial at new values, which are polynomials."""
    total = {}
    for c, vs in pairs:
        product = {(): c}
        for v in vs:
            product = multiplied(product, values[v])
        total = added(total, product)
    return total


def plus(p, q, times=1):
    return as_pairs(added({}, {}, list(p) + [(times * c, vs) for c, vs in q]))


def as_pairs(p):
    return [(c, vs) for vs, c in sorted(p.items())]


def is_square(monomial):
    return all(monomial.count(v) % 2 == 0 for v in monomial)


class Certificates:
    """The sums of some rows, and of products of two rows, with small multipliers. A goal is shown by a sum that leaves
    squares over whose coefficients are at least 0: so the monomials that are no squares have to agree."""

    def __init__(self, choices):
        self.names = [name for name, _ in choices]
        monomials = {m for _, p in choices for m in p}
        self.odd = sorted(m for m in monomials if not is_square(m))
        self.even = sorted(m for m in monomials if is_square(m))
        self.sums = {}
        for numbers in itertools.product((0, 1, 2, 3) if len(choices) < 3 else (0, 1, 2), repeat=len(choices)):
            total = {}
            for number, (_, p) in zip(numbers, choices):
                total = added(total, scaled(p, number))
            key = tuple(total.get(m, 0) for m in self.odd)
            self.sums.setdefault(key, []).append((numbers, total))

    def of(self, goal):
        """The first certificate of a goal, or none."""
        if any(not is_square(m) and m not in self.odd for m in goal):
            return None
        for numbers, total in self.sums.get(tuple(goal.get(m, 0) for m in self.odd), ()):
            if all(c >= total.get(m, 0) for m, c in goal.items()) and all(
                    m in goal or total.get(m, 0) <= 0 for m in self.even):
                return [(name[0], n) + name[1:] for n, name in zip(numbers, self.names) if n]
        return None
