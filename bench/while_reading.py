"""A plain slow reading of texts of the while language, by docs/while.md alone: nothing of the crates is used.

`read(text)` is the names, the statements and their positions, and none; or none and the first refusal, such as
`UnknownName at 9`. Every fault up to where the text breaks off is listed, and then the one at the least position is
taken, and there the one that comes first among the kinds. A statement is `("assign", x, e)`, `("any", x)`, `("skip",)`,
`("while", test, block)` or `("if", test, block, other)`, where x is the number of an input; an expression
`("num", n)`, `("var", x)`, `("neg", e)`, `("^", e, n)` or an operator with two expressions; an atom `("true",)` or a
relation with two expressions. Expressions are read by recursion: a caller may have to raise Python's limit.
"""

import re

LIMITS = ["Name", "Tokens", "Terms", "Degree", "Atoms", "Variables", "Depth", "Rules"]
NUMBER = {"NotAscii": 1, "Syntax": 2, "NumberTooLarge": 3, "UnknownName": 4, "RepeatedName": 5}
NUMBER.update({"Limit " + name: 6 + k for k, name in enumerate(LIMITS)})
KEYWORDS = {b"input", b"skip", b"while", b"if", b"else", b"TRUE", b"true"}
SIGNS = [b":=", b"&&", b"/\\", b">=", b"<=", b"==", b"(", b")", b"{", b"}", b",", b";", b"?", b">", b"<", b"=",
         b"+", b"-", b"*", b"^"]
RELATIONS = {b">=": ">=", b">": ">", b"<=": "<=", b"<": "<", b"=": "=", b"==": "="}
NEGATED = {">=": ["<"], ">": ["<="], "<=": [">"], "<": [">="], "=": ["<", ">"]}
LARGEST = 2 ** 63 - 1


class Break(Exception):
    """The text can't go on at this position."""


class Unexpanded(Exception):
    """An expression can't be expanded, for this reason."""


class Reading:
    def __init__(self, text):
        self.text, self.at, self.faults = text, 0, []
        self.names, self.positions, self.rules, self.depth = [], [], 0, 0

    def fault(self, kind, at):
        self.faults.append((at, NUMBER[kind], kind))

    def white(self):
        while self.at < len(self.text) and self.text[self.at] in b" \t\r\n":
            self.at += 1

    def peek(self):
        """The next token, as its sort and its bytes."""
        self.white()
        rest = self.text[self.at:]
        if not rest:
            return None, b""
        word = re.match(rb"[A-Za-z_$][A-Za-z0-9_$'.]*", rest)
        if word:
            return ("word" if word.group() in KEYWORDS else "name"), word.group()
        digits = re.match(rb"[0-9]+", rest)
        if digits:
            return "number", digits.group()
        for sign in SIGNS:
            if rest.startswith(sign):
                return "sign", sign
        return "none", rest[:1]

    def off(self):
        sort, token = self.peek()
        strange = sort == "none" and token[0] > 127
        self.fault("NotAscii" if strange else "Syntax", self.at)
        raise Break()

    def take(self, sort, token=None):
        found, spelled = self.peek()
        if found != sort or token is not None and spelled != token:
            self.off()
        at = self.at
        self.at += len(spelled)
        self.last = self.at - 1
        return spelled, at

    def name(self, known):
        spelled, at = self.take("name")
        if len(spelled) > 256:
            self.fault("Limit Name", at)
        if known and spelled not in self.names:
            self.fault("UnknownName", at)
        return spelled, at

    # expressions

    def token(self):
        self.tokens += 1
        if self.tokens > 1024:
            self.fault("Limit Tokens", self.at)

    def sum(self):
        left = self.product()
        while self.peek()[1] in (b"+", b"-"):
            self.token()
            sign = self.take("sign")[0]
            left = (sign.decode(), left, self.product())
        return left

    def product(self):
        left = self.factor()
        while self.peek()[1] == b"*":
            self.token()
            self.take("sign")
            left = ("*", left, self.factor())
        return left

    def factor(self):
        minuses = 0
        while self.peek()[1] == b"-":
            self.token()
            self.take("sign")
            minuses += 1
        made = self.power()
        for _ in range(minuses):
            made = ("neg", made)
        return made

    def power(self):
        base = self.base()
        if self.peek()[1] == b"^":
            self.token()
            self.take("sign")
            if self.peek()[0] != "number":
                self.off()
            return ("^", base, self.number())
        return base

    def number(self):
        self.token()
        digits, at = self.take("number")
        if int(digits) > LARGEST:
            self.fault("NumberTooLarge", at)
            self.large = True
        return int(digits)

    def base(self):
        sort, token = self.peek()
        if sort == "number":
            return ("num", self.number())
        if sort == "name":
            self.token()
            spelled, _ = self.name(True)
            return ("var", self.names.index(spelled) if spelled in self.names else len(self.names))
        if token == b"(":
            self.token()
            self.take("sign")
            made = self.sum()
            if self.peek()[1] == b")":
                self.token()
            self.take("sign", b")")
            return made
        self.off()

    def side(self):
        self.tokens = 0
        return self.sum()

    # statements

    def text_read(self):
        self.take("word", b"input")
        self.input()
        while self.peek()[1] == b",":
            self.take("sign")
            self.input()
        self.take("sign", b";")
        body = [self.statement()]
        while self.begins_statement():
            body.append(self.statement())
        if self.peek()[0] is not None:
            self.off()
        return body

    def input(self):
        spelled, at = self.name(False)
        if spelled in self.names:
            self.fault("RepeatedName", at)
        if len(self.names) >= 32:
            self.fault("Limit Variables", at)
        self.names.append(spelled)

    def begins_statement(self):
        sort, token = self.peek()
        return sort == "name" or token in (b"skip", b"while", b"if")

    def statement(self):
        if not self.begins_statement():
            self.off()
        sort, token = self.peek()
        first = self.at
        if self.rules >= 1000:
            self.fault("Limit Rules", first)
        self.positions.append(first)
        self.rules += 1
        if sort == "name":
            return self.assignment()
        self.take("word")
        if token == b"skip":
            self.take("sign", b";")
            return ("skip",)
        test = self.test(first)
        block = self.block()
        if token == b"while":
            return ("while", test, block)
        other = []
        if self.peek()[1] == b"else":
            self.take("word")
            other = self.block()
        return ("if", test, block, other)

    def assignment(self):
        spelled, _ = self.name(True)
        x = self.names.index(spelled) if spelled in self.names else len(self.names)
        self.take("sign", b":=")
        if self.peek()[1] == b"?":
            self.take("sign")
            self.take("sign", b";")
            return ("any", x)
        self.large = False
        value = self.side()
        if not self.large:
            self.expanded([value], self.last)
        self.take("sign", b";")
        return ("assign", x, value)

    def expanded(self, forms, at):
        """Of the faults of some forms the least one, and of each the first of its own."""
        found = []
        for form in forms:
            try:
                expand(form)
            except Unexpanded as reason:
                found.append(str(reason))
        if found:
            self.fault(min(found, key=lambda kind: NUMBER[kind]), at)

    def test(self, first):
        self.take("sign", b"(")
        atoms = [self.atom(first, 0)]
        while self.peek()[1] in (b"&&", b"/\\"):
            self.take("sign")
            atoms.append(self.atom(first, len(atoms)))
        self.take("sign", b")")
        return atoms

    def atom(self, first, before):
        sort, token = self.peek()
        if token in (b"TRUE", b"true") and sort == "word":
            if before >= 64:
                self.fault("Limit Atoms", self.at)
            self.take("word")
            return ("true",)
        if before >= 64 and (sort in ("name", "number") or token in (b"-", b"(")):
            self.fault("Limit Atoms", self.at)
        self.large = False
        left = self.side()
        sort, token = self.peek()
        if token not in RELATIONS:
            self.off()
        self.take("sign")
        relation = RELATIONS[token]
        right = self.side()
        if not self.large:
            own = differences(left, relation, right)
            fault = first_fault(own)
            faults = [fault] + [first_fault(differences(left, other, right)) for other in NEGATED[relation]]
            faults = [kind for kind in faults if kind]
            if faults:
                self.fault(min(faults, key=lambda kind: NUMBER[kind]), self.last)
        self.rules += len(NEGATED[relation])
        if self.rules > 1000:
            self.fault("Limit Rules", first)
        return (relation, left, right)

    def block(self):
        if self.peek()[1] == b"{" and self.depth >= 64:
            self.fault("Limit Depth", self.at)
        self.take("sign", b"{")
        self.depth += 1
        body = []
        while self.begins_statement():
            body.append(self.statement())
        self.take("sign", b"}")
        self.depth -= 1
        return body


def differences(left, relation, right):
    one = ("num", 1)
    return {
        ">=": [("-", left, right)], ">": [("-", ("-", left, right), one)], "<=": [("-", right, left)],
        "<": [("-", ("-", right, left), one)], "=": [("-", left, right), ("-", right, left)],
    }[relation]


def first_fault(forms):
    for form in forms:
        try:
            expand(form)
        except Unexpanded as reason:
            return str(reason)
    return None


def checked(poly, exponent=1):
    if any(abs(c) > LARGEST for c in poly.values()):
        raise Unexpanded("NumberTooLarge")
    if len(poly) > 64:
        raise Unexpanded("Limit Terms")
    if exponent > 8 or any(len(m) > 8 for m in poly):
        raise Unexpanded("Limit Degree")
    return poly


def added(a, b, sign):
    made = dict(a)
    for m, c in b.items():
        made[m] = made.get(m, 0) + sign * c
    return {m: c for m, c in made.items() if c}


def times(a, b):
    made = {}
    for m, c in a.items():
        for n, d in b.items():
            key = tuple(sorted(m + n))
            made[key] = made.get(key, 0) + c * d
    return {m: c for m, c in made.items() if c}


def expand(e):
    if e[0] == "num":
        return checked({(): e[1]} if e[1] else {})
    if e[0] == "var":
        return checked({(e[1],): 1})
    if e[0] == "neg":
        return checked({m: -c for m, c in expand(e[1]).items()})
    if e[0] == "^":
        base, made = expand(e[1]), {(): 1}
        checked(made, 0)
        for k in range(1, min(e[2], 9) + 1):
            made = times(made, base)
            checked(made, k)
        return made
    a, b = expand(e[1]), expand(e[2])
    return checked(times(a, b) if e[0] == "*" else added(a, b, 1 if e[0] == "+" else -1))


def read(text):
    """The names, the statements and their positions, or the first fault."""
    reading = Reading(text)
    body = None
    try:
        body = reading.text_read()
    except Break:
        pass
    if reading.faults:
        at, _, kind = min(reading.faults)
        return None, f"{kind} at {at}"
    return (reading.names, body, reading.positions), None


def point_lines(text):
    """The lines that `koat while` writes of the statements of a text that it takes, in front of the report."""
    return "".join(f"point {number} at {at}\n" for number, at in enumerate(read(text)[0][2]))
