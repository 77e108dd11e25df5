"""Makes random programs, and sections of them with certificates, for the script that compares their runs.

`Maker(rng).case()` is a program and a section of it, more often damaged than whole. Facts are those of a few candidates
that are kept by all rules; what refutes a guard is found by Fourier and Motzkin's elimination.
"""

from slow_sections import (LIMIT, Branch, Copy, If, Never, Program, Rule, Section, To, denied, fails, leaving, passes,
                           rows_of)

NAMES, LARGEST = "ABC", 2**63 - 1


def refuting(rows):
    """Multipliers by which the rows add up to a number below 0, or None where none are found."""
    many = len(rows)
    found = [(row, [int(at == place) for at in range(many)]) for place, row in enumerate(rows)]
    for column in range(len(rows[0]) - 1 if rows else 0):
        up = [it for it in found if it[0][column] > 0]
        down = [it for it in found if it[0][column] < 0]
        found = [it for it in found if not it[0][column]]
        for row, by in up:
            for other, others in down:
                one, two = -other[column], row[column]
                found.append(([one * a + two * b for a, b in zip(row, other)],
                              [one * a + two * b for a, b in zip(by, others)]))
        if len(found) > 40:
            return None
    return next((by for row, by in found if row[-1] < 0), None)


class Maker:
    def __init__(self, rng):
        self.rng = rng

    def form(self, width, least=-2, most=2):
        return [self.rng.choice([0, 0, 1, 1, -1, 2]) for _ in range(width)] + [self.rng.randint(least, most)]

    def tree(self, variables):
        kind = self.rng.random()
        name = ("variable", self.rng.choice(variables))
        if kind < 0.3:
            return name
        if kind < 0.6:
            return (self.rng.choice("+-"), name, ("number", self.rng.randint(0, 2)))
        if kind < 0.7:
            return ("opposite", name)
        if kind < 0.78:
            return ("*", name, ("variable", self.rng.choice(variables)))
        if kind < 0.88:
            return ("+", name, ("variable", self.rng.choice(variables)))
        return ("number", self.rng.randint(0, 3))

    def rule(self, arities, source, target):
        left = arities[source]
        variables = list(NAMES[:left + self.rng.choice([0, 0, 1])]) or ["A"]
        left = min(left, len(variables))
        relation = lambda: self.rng.choice([">=", "<=", ">", "<", "="] if self.rng.random() < 0.3 else [">=", "<="])
        atoms = [(self.tree(variables), relation(), ("number", self.rng.randint(0, 2)))
                 for _ in range(self.rng.choice([0, 1, 1, 1, 2]))]
        updates = [self.tree(variables) for _ in range(arities[target])]
        return Rule(source, target, left, variables, atoms, updates)

    def program(self):
        arities = [self.rng.randint(1, 2) for _ in range(self.rng.randint(1, 3))]
        pairs = [(0, self.rng.randrange(len(arities)))]
        pairs += [(self.rng.randrange(len(arities)), self.rng.randrange(len(arities)))
                  for _ in range(self.rng.randint(1, 4))]
        return Program(arities, [self.rule(arities, *pair) for pair in pairs])

    def copies(self, program):
        """Copies of symbols, and for each rule and copy of its source the copies of its target to choose among."""
        kind = self.rng.randrange(3)
        copies, ways = [Copy(0, [])], {}
        if kind == 0:
            by_rule = {number: len(copies) + place for place, number in enumerate(range(1, len(program.rules) + 1))}
            copies += [Copy(rule.target, []) for rule in program.rules]
            choose = lambda copy, number: [by_rule[number]]
        else:
            rounds = kind
            own = {}
            for symbol in range(len(program.arities)):
                own[symbol] = [len(copies) + turn for turn in range(rounds)]
                copies += [Copy(symbol, []) for _ in range(rounds)]
            def choose(copy, number):
                symbol = program.rules[number - 1].target
                if copy in own[symbol]:
                    return [own[symbol][min(rounds - 1, own[symbol].index(copy) + 1)]]
                return own[symbol][:1]
        for copy, it in enumerate(copies):
            for number in leaving(program, it.over):
                ways[copy, number] = choose(copy, number)
        return copies, ways

    def candidates(self, arity):
        found = []
        for place in range(arity):
            for sign in (1, -1):
                unit = [sign * (at == place) for at in range(arity)]
                found += [unit + [constant] for constant in (0, -1, 1)]
        if arity == 2:
            found += [[1, -1, 0], [-1, 1, 0]]
        return self.rng.sample(found, min(len(found), self.rng.randint(0, 4)))

    def tested(self, program, copy, number):
        """Cases of a rule without their ends: a test, or none."""
        rule = program.rules[number - 1]
        if self.rng.random() < 0.6:
            return None
        return self.form(len(rule.variables))

    def section(self, program):
        copies, ways = self.copies(program)
        facts = [[] if not place else self.candidates(program.arities[it.over]) for place, it in enumerate(copies)]
        tests = {key: self.tested(program, *key) for key in ways}
        paths = {key: self.paths(program, key, tests[key]) for key in ways}
        self.kept(program, ways, facts, paths)
        copies = [Copy(it.over, own) for it, own in zip(copies, facts)]
        branches = []
        for key in sorted(ways):
            leaves = [self.leaf(program, facts, key, path, ways[key][0]) for path in paths[key]]
            cases = If(tests[key], *leaves) if tests[key] else leaves[0]
            branches.append(Branch(*key, cases))
        return Section(copies, branches)

    def paths(self, program, key, test):
        variables = program.rules[key[1] - 1].variables
        return [[]] if not test else [[passes(test, variables)], [fails(test, variables)]]

    def guard(self, program, facts, key, path):
        rule = program.rules[key[1] - 1]
        return rule.atoms + [passes(fact, rule.variables) for fact in facts[key[0]]] + path

    def shown(self, program, facts, key, path, fact):
        rule = program.rules[key[1] - 1]
        return refuting(rows_of(rule, self.guard(program, facts, key, path) + [denied(fact, rule)]))

    def kept(self, program, ways, facts, paths):
        """Drops facts that some path doesn't keep, until none is dropped."""
        while True:
            dropped = False
            for key, targets in ways.items():
                for path in paths[key]:
                    target = targets[0]
                    good = [it for it in facts[target] if self.shown(program, facts, key, path, it) is not None]
                    dropped |= len(good) < len(facts[target])
                    facts[target] = good
            if not dropped:
                return

    def leaf(self, program, facts, key, path, target):
        rule = program.rules[key[1] - 1]
        by = refuting(rows_of(rule, self.guard(program, facts, key, path)))
        if by is not None and self.rng.random() < 0.8:
            return Never(by)
        return To(target, [self.shown(program, facts, key, path, it) for it in facts[target]])

    def damaged(self, program, section):
        copies, branches = [Copy(it.over, [list(f) for f in it.facts]) for it in section.copies], list(section.branches)
        kind = self.rng.randrange(5)
        if kind < 2 or not branches:
            self.damage_copy(program, copies, kind == 0)
        elif kind == 2:
            del branches[self.rng.randrange(len(branches))]
        else:
            place = self.rng.randrange(len(branches))
            branch = branches[place]
            width = len(program.rules[branch.rule - 1].variables)
            branches[place] = branch._replace(cases=self.damaged_cases(branch.cases, width, len(copies)))
        return Section(copies, branches)

    def damage_copy(self, program, copies, moves):
        """Changes a number of a fact, or else the symbol of a copy; a number may become too large for a rule."""
        at = self.rng.randrange(len(copies))
        if copies[at].facts and moves:
            fact = self.rng.choice(copies[at].facts)
            place = self.rng.randrange(len(fact))
            fact[place] = self.rng.choice([fact[place] - 1, fact[place] + 1, LARGEST])
        else:
            copies[at] = Copy(self.rng.randrange(len(program.arities)), copies[at].facts)

    def damaged_cases(self, cases, width, copies):
        """Cases that lead nowhere, lead elsewhere, have other multipliers or other tests, or one test more."""
        kind = self.rng.randrange(5)
        if kind == 0:
            return Never([1] * self.rng.randint(0, 3))
        if isinstance(cases, If):
            if kind == 1:
                return cases._replace(test=cases.test + [0])
            if kind == 2:
                return cases._replace(test=cases.test[:-1] + [LARGEST])
            return cases._replace(yes=self.damaged_leaf(cases.yes, copies))
        return If(self.form(width), cases, cases) if kind == 1 else self.damaged_leaf(cases, copies)

    def damaged_leaf(self, leaf, copies):
        """A leaf that names another copy, or has other multipliers."""
        if isinstance(leaf, Never):
            return Never(self.other_numbers(leaf.by))
        if not leaf.by or self.rng.random() < 0.4:
            return leaf._replace(copy=self.rng.randrange(copies + 1))
        at = self.rng.randrange(len(leaf.by))
        return leaf._replace(by=leaf.by[:at] + [self.other_numbers(leaf.by[at])] + leaf.by[at + 1:])

    def other_numbers(self, numbers):
        kind = self.rng.randrange(4)
        if kind == 0 or not numbers:
            return numbers + [0]
        at = self.rng.randrange(len(numbers))
        changed = {1: numbers[at] + 1, 2: LIMIT + 1, 3: 0}[kind]
        return numbers[:at] + [changed] + numbers[at + 1:]

    def case(self):
        program = self.program()
        section = self.section(program)
        return program, section if self.rng.random() < 0.4 else self.damaged(program, section)
