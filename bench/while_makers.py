"""Makes texts of the while language for the script that compares readings and executions: random programs, damaged
ones, small programs whose executions are followed, and texts at the edges of limits and of what may follow what.

Texts are in a short notation: `%3:A#,%` is `A0,A1,A2,`, and two hexadecimal digits follow a backquote.
"""

import re

LARGEST = 2**63 - 1
RELATIONS = [">=", ">", "<=", "<", "=", "=="]


def unfolded(written):
    """The bytes of a text in the short notation."""
    text = b""
    for k, part in enumerate(written.encode().split(b"%")):
        if k % 2 == 0:
            text += re.sub(rb"`([0-9a-f]{2})", lambda m: bytes([int(m.group(1), 16)]), part)
        else:
            count, _, body = part.partition(b":")
            text += b"".join(body.replace(b"#", str(i).encode()) for i in range(int(count)))
    return text


class Maker:
    """Random texts; with large numbers, high powers, unknown names and keywords among them."""

    NAMES, MOST_INPUTS = ["A", "B", "C", "h", "x'", "whileA", "p0"], 4

    def __init__(self, rng):
        self.rng, self.names = rng, rng.sample(self.NAMES, rng.randint(1, self.MOST_INPUTS))

    def likely(self, share):
        return self.rng.random() < share

    def name(self):
        return "Z" if self.likely(0.01) else self.rng.choice(self.names)

    def number(self):
        small = [0, 1, 2, 7]
        return str(self.rng.choice(small + [2**62, LARGEST, LARGEST + 1] if self.likely(0.1) else small))

    def sum(self, depth):
        kind = self.rng.random()
        if depth == 0 or kind < 0.45:
            return self.name() if self.likely(0.6) else self.number()
        if kind < 0.55:
            return f"({self.sum(depth - 1)})"
        if kind < 0.65:
            return f"-{self.sum(depth - 1)}"
        if kind < 0.75:
            return f"{self.name()}^{self.rng.choice([0, 1, 2, 3, 8, 9])}"
        return f"{self.sum(depth - 1)} {self.rng.choice('+-*')} {self.sum(depth - 1)}"

    def atom(self):
        if self.likely(0.1):
            return self.rng.choice(["TRUE", "true"])
        return f"{self.sum(2)} {self.rng.choice(RELATIONS)} {self.sum(2)}"

    def test(self):
        joint = self.rng.choice([" && ", " /\\ ", "&&"])
        return joint.join(self.atom() for _ in range(self.rng.randint(1, 3)))

    def block(self, depth):
        return " ".join(self.statement(depth) for _ in range(self.rng.choice([0, 1, 1, 2, 3])))

    def plain_statement(self):
        return self.rng.choice([f"{self.name()} := {self.sum(3)};", f"{self.name()} := ?;", "skip;"])

    def statement(self, depth):
        kind = self.rng.random()
        if depth == 0 or kind < 0.5:
            return self.plain_statement()
        if kind < 0.75:
            return f"while ({self.test()}) {{ {self.block(depth - 1)} }}"
        other = f" else {{ {self.block(depth - 1)} }}" if self.likely(0.5) else ""
        return f"if ({self.test()}) {{ {self.block(depth - 1)} }}{other}"

    def text(self):
        body = " ".join(self.statement(3) for _ in range(self.rng.randint(1, 4)))
        return f"input {', '.join(self.names)}; {body}"

    def damaged(self, text):
        """The text with one or two places changed."""
        pieces = list(" ;,(){}?<>=+-*^&/|!:.'$_09azA") + "`ff := && else skip TRUE input -> ||".split()
        for _ in range(self.rng.randint(1, 2)):
            at = self.rng.randrange(len(text) + 1)
            upto = at + self.rng.choice([0, 0, 1, 1, 2, 5])
            if "`" in text[max(0, at - 3):upto + 3]:
                continue
            text = text[:at] + (self.rng.choice(pieces) if self.likely(0.6) else "") + text[upto:]
        return text


class SmallMaker(Maker):
    """Programs whose executions can be followed: few inputs, small steps, tests that are often met."""

    NAMES, MOST_INPUTS = ["A", "B", "h"], 2

    def name(self):
        return self.rng.choice(self.names)

    def sum(self, depth):
        kind = self.rng.random()
        if kind < 0.5:
            return f"{self.name()} {self.rng.choice('+-')} {self.rng.choice('112')}"
        if kind < 0.9:
            return self.rng.choice([self.name(), self.rng.choice("0123")])
        return self.rng.choice([f"-{self.name()}", f"{self.name()}*{self.name()}", f"({self.name()} - {self.name()})^2",
                                f"{self.name()} - (1 - {self.name()})"])

    def atom(self):
        if self.likely(0.12):
            return "TRUE"
        other = self.rng.choice(["0", "1", "2", self.name()])
        return f"{self.name()} {self.rng.choice(RELATIONS + ['>=', '<='])} {other}"

    def plain_statement(self):
        kind = self.rng.random()
        return f"{self.name()} := ?;" if kind < 0.12 else "skip;" if kind < 0.25 else f"{self.name()} := {self.sum(1)};"


# edges

# What may follow an argument or an atom, and what may not.
BEHIND_VALUE = [";", " ;", " }", " + ;", " + 1;", "^2;", " )", " `ff", " -> 1;", " A;", " 1;", " (", "", " :=", " ?;"]
BEHIND_ATOM = [") {}", " ) {", " && A0 >= 1) {}", " && ;", " >= 1) {}", " + ;", "^2) {}", " `ff", "", " {}",
               " || A0 >= 1) {}"]
# Texts in which something can't follow, or only seems to be a keyword.
ODD_TEXTS = """input A, A; skip;
input A, B, A, B; skip;
input A;
input;
input A, ; skip;
input
`ff
skip;
input A; B = 1;
input A; B : 1;
input A; A := ? ;
input A; A := ? + 1;
input A; A := 1 + ?;
input A; skip
input A; skip;;
input A; { skip; }
input A; skip; }
input A; else { skip; }
input A; if (TRUE) {} else if (TRUE) {}
input A; if (TRUE) {} else {} else {}
input A; while () {}
input A; while (TRUE) skip;
input A; while TRUE {}
input A; while (TRUE + 1 >= 0) {}
input A; while (TRUE >= 1) {}
input A; while (A >= TRUE) {}
input A; while ((A >= 1)) {}
input A; while (A >= B >= 1) {}
input A; skip; (COMMENT none)
input A; A := A->1;
input A; A := A-{;
input A; A := 1 }> 2;
input A; while (A >= 1 | A >= 2) {}
input A; while (A >= 1 || A >= 2) {}
input A; while [A >= 1] {}""".splitlines()
ODD_NAMES = "input skip while if else TRUE true whileA input' true. Com_1 p0 1A `ff".split()
# Statements behind others whose rules reach the limit.
LAST_STATEMENTS = """skip;
A := 1;
A := ?;
B := 1;
while (A >= 1) {}
while (A = 1) {}
while (TRUE) {}
while (A >= 1 && A >= 2) {}
while (B >= 1 && A >= 1) {}
while (B >= 1 && ;
while (A >= 1 ;
while (A >= ;
if (A >= 1) { skip; } else { skip; }
if (TRUE) { skip; } else { B := 1; }
%257:n% := 1;
A := A^9;
while (A^9 >= 1) {}
while (A >= 1 && A^9 >= 1) {}
}
`ff""".splitlines()


def sum_of_terms(count, names=32):
    """A sum of so many terms, no two alike."""
    terms = [f"A{i % names}" if i < names else f"A{i % names}*A{(i // names - 1 + i) % names}" for i in range(count)]
    return " + ".join(terms)


def values_at_limits():
    """Arguments about the limits on terms, degrees, literals and tokens."""
    yield from "A0^8 A0^9 A0^4*A0^4 A0^4*A0^5 A0^9^2 (A0^2)^9 A0^9-A0^9 (A0^9) -A0^9 2^62 2^63".split()
    yield from (str(LARGEST), str(LARGEST + 1), f"0 - {LARGEST} - 1", f"{LARGEST} + 1", f"A0 + {LARGEST + 1}")
    yield f"A0^{LARGEST + 1}"
    for count in (63, 64, 65):
        yield sum_of_terms(count)
    for count in (511, 512, 513):
        yield f"A0%{count}: + A0%"
        yield f"A0%{count}: + A0% + {LARGEST + 1}"
    for count in (1022, 1023, 1024, 1025):
        yield f"%{count}:-%A0"
        yield f"%{count // 2}:(%A0%{count // 2}:)%"
    yield f"%1023:-%{LARGEST + 1}"
    yield "%1023:-%A0^9"
    yield f"%1024:-%{LARGEST + 1}"


def edges():
    """Texts at the edges, in the short notation."""
    inputs = "input %31:A#,%A31;"
    for value in values_at_limits():
        for behind in BEHIND_VALUE:
            yield f"{inputs} A0 := {value}{behind}"
        for relation in (">=", "="):
            for behind in BEHIND_ATOM:
                yield f"{inputs} while ({value} {relation} A1{behind}"
            yield f"{inputs} if (A1 {relation} {value}) {{}}"
    yield from names_and_inputs()
    yield from counted()
    yield from rules_and_depths()


def names_and_inputs():
    for length in (255, 256, 257):
        yield f"input %{length}:n%; skip;"
        yield f"input A, %{length}:n%; %{length}:n% := 1;"
        yield f"input A; %{length}:n% := 1;"
        yield f"input A; A := %{length}:n%;"
    for count in (30, 31, 32, 33):
        yield f"input %{count}:A#,%B; skip;"
        yield f"input %{count}:A#,%A0; skip;"
        yield f"input %{count}:A#,%B, %257:n%; skip;"
        yield f"input %{count}:A#,%skip; skip;"
    for name in ODD_NAMES:
        yield from (f"input {name}; skip;", f"input A; {name} := 1;", f"input A; A := {name};")
        yield from (f"input A; while ({name}) {{}}", f"input A, {name}; skip;", f"input A {name}; skip;")
    yield from ["", " ", *ODD_TEXTS]


def counted():
    for count in (62, 63, 64, 65):
        for last in ("TRUE", "A >= 1", "B >= 1", "A = 1", ")", ";", "-", "(A >= 1", "%257:n% >= 1"):
            yield f"input A; while (%{count}:TRUE && %{last}) {{}}"
    for count in (63, 64, 65):
        for inside in ("skip;", "", "B := 1;", ";", "{"):
            yield f"input A; %{count}:while (TRUE) {{%{inside}%{count}:}}%"
            yield f"input A; %{count}:if (A >= 1) {{}} else {{%{inside}%{count}:}}%"
    yield "input A; %63:if (TRUE) {% if (TRUE) {} else { skip; } %63:}%"
    yield "input A; %64:if (TRUE) {% if (TRUE) {} else { skip; } %64:}%"


def rules_and_depths():
    for count in (996, 997, 998, 999, 1000, 1001):
        for last in ["", *LAST_STATEMENTS]:
            yield f"input A; %{count}:skip;%{last}"
    for atoms in (15, 16, 17):
        yield f"input A; %60:while ({'A >= 1 && ' * atoms}TRUE) {{}}%"


def random_texts(rng, count):
    """So many texts in the short notation, three in four of them damaged."""
    for _ in range(count):
        maker = Maker(rng)
        text = maker.text()
        yield maker.damaged(text) if maker.likely(0.75) else text
