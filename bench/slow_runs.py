"""A plain slow reading of run files and a plain slow replay, by the format alone: nothing of the crates is used.

`verdict(program, text)` is the line that `koat replay` writes where it refuses a run's text, or whose steps are no run;
else the run's tally, as a dictionary from the labels of the report's lines to numbers. The program is a `Reading` of
`slow_reading.py` that took its text.
"""

from slow_reading import GREATEST

BYTES, STEPS = 67108864, 1000000
PAST = 2**127


class Refused(Exception):
    """A run's text is refused at a byte, for a kind."""

    def __init__(self, kind, at):
        super().__init__(f"run refused at {at}: {kind}")


class BadStep(Exception):
    """What keeps a step from being one; and then, with the number of the first such step, the line that says so."""


class Text:
    """A run's text, read byte by byte."""

    def __init__(self, text):
        self.text, self.at = text, 0

    def next(self):
        return self.text[self.at:self.at + 1]

    def take(self, wanted):
        """Takes this text, or refuses the first byte that differs from it."""
        for byte in wanted:
            if self.next() != bytes([byte]):
                raise Refused("Syntax", self.at)
            self.at += 1

    def digits(self):
        """The number that is written here: 0, or digits without a 0 before them."""
        begun = self.at
        if self.next() == b"0":
            self.at += 1
        else:
            while self.next() and self.next() in b"0123456789":
                self.at += 1
        if self.at == begun:
            raise Refused("Syntax", self.at)
        return int(self.text[begun:self.at])

    def rule(self, count):
        """The number of one of so many rules."""
        begun = self.at
        number = self.digits()
        if not 1 <= number <= count:
            raise Refused("BadReference", begun)
        return number

    def value(self):
        begun = self.at
        sign = 1
        if self.next() == b"-":
            self.at += 1
            sign = -1
            if self.next() == b"0":
                raise Refused("Syntax", self.at)
        value = sign * self.digits()
        if abs(value) > GREATEST:
            raise Refused("NumberTooLarge", begun)
        return value

    def line(self, count):
        """The values of a line that has to have so many, and its line feed."""
        values = []
        while self.next() == b" ":
            self.at += 1
            values.append(self.value())
        if self.next() == b"\n" and len(values) != count:
            raise Refused("ArityDiffers", self.at)
        self.take(b"\n")
        return values


def read(program, text):
    """The start values and the steps, each a rule's number and its free values, of a run of the program."""
    free = [len(rule.variables) - rule.left for rule in program.rules]
    written, steps = Text(text), []
    written.take(b"koat-run 1\nstart")
    start = written.line(program.arities[program.starts[0].text])
    while written.next() == b"s":
        if len(steps) == STEPS:
            raise Refused("Limit", written.at)
        written.take(b"step ")
        rule = written.rule(len(free))
        steps.append((rule, written.line(free[rule - 1])))
    written.take(b"end\n")
    if written.next():
        raise Refused("Syntax", written.at)
    return start, steps


def within(number):
    """The number, where 128 bits hold it."""
    if not -PAST <= number < PAST:
        raise BadStep("value passes 128 bits")
    return number


def value_of(tree, values):
    """The value of an expression, each part of which is within 128 bits."""
    word, *parts = tree
    if word == "number":
        return parts[0]
    if word == "variable":
        return values[parts[0]]
    if word == "^":
        return within(value_of(parts[0], values) ** parts[1])
    numbers = [value_of(part, values) for part in parts]
    if word == "opposite":
        return within(-numbers[0])
    left, right = numbers
    return within({"+": left + right, "-": left - right, "*": left * right}[word])


def holds(atom, values):
    if atom is None:
        return True
    left, relation, right = value_of(atom[0], values), atom[1], value_of(atom[2], values)
    return {">=": left >= right, ">": left > right, "<=": left <= right, "<": left < right}.get(relation, left == right)


def after(rule, symbol, now, free):
    """The values behind a step by a rule, from these values at a symbol."""
    if rule.source != symbol:
        raise BadStep("wrong rule")
    values = dict(zip(rule.variables, now + free))
    for number, atom in enumerate(rule.atoms, 1):
        if not holds(atom, values):
            raise BadStep(f"atom {number}")
    behind = [value_of(tree, values) for tree in rule.updates]
    spent(rule, now, free)
    return behind


def spent(rule, now, free):
    """What a step by a rule costs, from these values."""
    if rule.cost is None:
        return 1
    return max(0, value_of(rule.cost, dict(zip(rule.variables, now + free))))


def tally(program, start, steps):
    """How many steps there are, how often each rule occurs, what the steps of each rule with a cost and what all steps
    cost, each up to 2^127, and the greatest absolute values behind each rule."""
    counted = {"steps": len(steps), "total": 0}
    for number, rule in enumerate(program.rules, 1):
        counted[f"time {number}"] = 0
        counted.update({} if rule.cost is None else {f"cost {number}": 0})
        counted.update({f"size {number}.{place}": 0 for place in range(1, len(rule.updates) + 1)})
    symbol, now = program.starts[0].text, start
    for step, (number, free) in enumerate(steps, 1):
        rule = program.rules[number - 1]
        try:
            behind = after(rule, symbol, now, free)
        except BadStep as error:
            raise BadStep(f"not a run at step {step}: {error}") from None
        for label in {"total", f"cost {number}"} & set(counted):
            counted[label] = min(PAST, counted[label] + spent(rule, now, free))
        now = behind
        symbol = rule.target
        counted[f"time {number}"] += 1
        for place, value in enumerate(now, 1):
            label = f"size {number}.{place}"
            counted[label] = max(counted[label], abs(value))
    return counted


def verdict(program, text):
    """The line that tells why a text is no run, or the tally of its run."""
    if len(text) > BYTES:
        return "run refused: too long"
    try:
        return tally(program, *read(program, text))
    except (Refused, BadStep) as error:
        return str(error)
