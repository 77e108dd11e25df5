"""Makes random programs with proof files of the third form, whole ones and spoiled ones: nothing of the crates is used.

`files(count, seed)` are so many pairs of a program's and a proof's text. Each 20th proof is made whole, for a program
at random with what certificates are found of facts, lemmas and claims; the others are one of those, or of the files in
`bench/third`, with one number, one name, one line or one byte changed, or cut off.
"""

import random
import re
from pathlib import Path

from slow_third_builder import Builder, Unproved

WHOLE_EACH = 20
NUMBER = re.compile(rb"(?<![A-Za-z0-9_.$'])-?[0-9]+")
NAME = re.compile(rb"[A-Za-z_$][A-Za-z0-9_$'.]*")
EDGES = [0, 1, 2, 3, 7, 64, 2**32 - 1, 2**32, 2**56, 2**56 + 1, 2**63, 2**64 - 1, 2**64, 2**127 - 1, 2**127]


def counted(text):
    return "[" + "; ".join(f"{many}*{place}" if place else str(many) for many, place in text) + "]"


class Maker:
    def __init__(self, rng):
        self.rng = rng

    def program(self):
        """A start rule, and one or two symbols with loops that count a place down or up to another one."""
        rng = self.rng
        self.places = rng.randint(1, 3)
        self.names = [f"x{place}" for place in range(1, self.places + 1)]
        symbols = ["l", "m"][:rng.randint(1, 2)]
        guard = f" :|: {rng.choice(self.names)} >= {rng.randint(0, 2)}" if rng.random() < 0.5 else ""
        rules = [self.rule("start", symbols[0], {}, guard)]
        for at, symbol in enumerate(symbols):
            for _ in range(rng.randint(1, 2)):
                rules.append(self.loop(symbol, rng.choice(symbols[at:])))
            if at + 1 < len(symbols):
                rules.append(self.rule(symbol, symbols[at + 1], {}, f" :|: {rng.choice(self.names)} <= 0"))
        if rng.random() < 0.3:
            rules.append(self.rule(symbols[-1], "stop", {}, ""))
        return "(STARTTERM (FUNCTIONSYMBOLS start))\n(RULES\n" + "".join(f"  {rule}\n" for rule in rules) + ")\n"

    def rule(self, source, target, updates, guard):
        cost = self.rng.choice(["->"] * 6 + [f"-{{{self.rng.choice(self.names)}}}>", "-{2}>"])
        news = ", ".join(updates.get(name, name) for name in self.names)
        return f"{source}({', '.join(self.names)}) {cost} Com_1({target}({news})){guard}"

    def loop(self, source, target):
        rng, name = self.rng, self.rng.choice(self.names)
        others = [it for it in self.names if it != name]
        updates, guard = {name: f"{name} - {rng.randint(1, 2)}"}, f" :|: {name} >= {rng.randint(1, 2)}"
        if others and rng.random() < 0.3:
            updates, guard = {name: f"{name} + 1"}, f" :|: {name} < {rng.choice(others)}"
        elif others and rng.random() < 0.4:
            other = rng.choice(others)
            updates[other] = rng.choice([f"{other} + 1", name, "0", f"{other} + {name}", "y", f"{name}*{name}"])
        return self.rule(source, target, updates, guard)

    def builder(self, program):
        """With facts of symbols that all rules keep, where some are found."""
        plain = self.rng.choice([[], ["lemma start"], ["lemma start", "lemma cite 1"]])
        for _ in range(3):
            facts = {name: [[int(at == place) for at in range(self.places)] + [0]] for place in range(self.places)
                     for name in ("l", "m") if self.rng.random() < 0.4}
            try:
                return Builder(program, facts, plain)
            except Unproved:
                pass
        return Builder(program, self.rng.choice([None, {}]), plain)

    def functions(self, made):
        """The same function at all symbols, or at some of them."""
        rng, place = self.rng, self.rng.randint(1, self.places)
        form = [(rng.choice([1, 1, 1, 2]), place)]
        if self.places > 1 and rng.random() < 0.3:
            form.append((rng.choice([-1, 1]), rng.choice([it for it in range(1, self.places + 1) if it != place])))
        if rng.random() < 0.4:
            form.append((rng.choice([-1, 1, 2]), 0))
        form = counted(form) if rng.random() < 0.8 else "[1]"
        chosen = made.ground.symbols if rng.random() < 0.7 else rng.sample(made.ground.symbols, 1)
        return {name: form for name in chosen}

    def whole(self):
        """A program and a proof of what is found of it."""
        program = self.program().encode()
        made = self.builder(program)
        self.count = len([line for line in made.plain]) * (1 + self.places)
        self.sums, self.peaks = {}, []
        rules = list(made.ground.program.numbers())
        for _ in range(self.rng.randint(2, 8)):
            self.try_fall(made, self.rng.choice(rules), self.functions(made))
        for _ in range(self.rng.randint(0, 3)):
            self.try_peak(made, self.rng.choice(rules), self.functions(made))
        self.compose(made)
        self.claim(made)
        return program, made.text().encode()

    def stated(self, bound):
        self.count += 1
        return self.count, bound

    def try_fall(self, made, rule, functions):
        """A fall that pays 1 for a rule, with a gain at each rule that needs one and whose time is known."""
        den, moves, start = self.rng.choice([1, 1, 1, 2]), {}, made.ground.program.start.decode()
        if made.ground.source(rule) not in functions:
            return
        for _ in range(4):
            heads = [f"part {functions[start]}"] if start in functions else []
            bounds = heads + [self.sums[it][1] for it in moves]
            bound = bounds[0] if len(bounds) == 1 else f"sum ({'; '.join(bounds)})"
            if den == 2 and self.rng.random() < 0.5:
                bound = f"quotient ({bound}) by 2"
            try:
                made.fall(functions, {rule: "[1]"}, bound, den, moves)
                self.sums[rule] = self.stated(bound)
                return
            except Unproved as why:
                word, _, number = str(why).partition(" ")
                failed = int(number)
                if word != "rule" or failed not in self.sums or failed in moves:
                    return
                kind = "keep" if made.ground.source(failed) in functions else "reset"
                moves[failed] = (kind, "[1]", str(self.sums[failed][0]))

    def try_peak(self, made, rule, functions):
        start, form = made.ground.program.start.decode(), functions.get(made.ground.source(rule))
        if form and start in functions:
            try:
                made.peak(rule, form, functions, f"part {functions[start]}")
                self.peaks.append((rule, form) + self.stated(f"part {functions[start]}"))
            except Unproved:
                pass

    def compose(self, made):
        """Lemmas that are composed of others."""
        rng = self.rng
        for rule, form, number, bound in self.peaks:
            if rule in self.sums and rng.random() < 0.7:
                often = self.sums[rule]
                made.signed.append(f"times {rule} {form} by {often[0]} {number} to product ({often[1]}; {bound})")
                self.stated("")
            if rng.random() < 0.3:
                made.signed.append(f"least {number} {number} to minimum ({bound}; {bound})")
                self.stated("")
        if len(self.sums) > 1:
            (one, first), (other, second) = rng.sample(sorted(self.sums.items()), 2)
            bound = f"sum ({first[1]}; {second[1]})"
            made.signed.append(f"add {first[0]} {second[0]} to {bound}")
            number, _ = self.stated(bound)
            made.signed.append(f"among [{other} [1]] by {number} to {bound}")
            self.stated("")
        if made.plain and rng.random() < 0.5:
            made.signed.append("sized 1 [2*1; 3] by [2] to sum (product (2; maximum (part [1*1]; part [-1*1])); 3)")
            self.stated("")
        if rng.random() < 0.3:
            made.signed.append(f"row 1 [{rng.randint(-1, 2)}] {{}} most 2 to {rng.randint(2, 3)}")
            self.stated("")

    def claim(self, made):
        """Claims on rules of which each copy, one each, has a sum; and on the total where all have one and none a
        cost."""
        for rule, (number, bound) in self.sums.items():
            made.claims.append(f"time {rule} by " + self.rng.choice([str(number), f"[{number}] to {bound}"]))
        rules = list(made.ground.program.numbers())
        if all(rule in self.sums for rule in rules):
            numbers = " ".join(str(self.sums[rule][0]) for rule in rules)
            bounds = "; ".join(self.sums[rule][1] for rule in rules)
            made.claims.append(f"total by [{numbers}] to sum ({bounds})")


def other_number(rng, text):
    value = int(text)
    found = rng.choice([value + 1, value - 1, -value, value + 1, value - 1, rng.choice(EDGES), rng.randint(0, 9)])
    return b"0" + text if rng.random() < 0.02 else str(found).encode()


def spoiled(rng, text):
    """A proof's text with one thing changed behind its first line."""
    kind = rng.choice(["number"] * 6 + ["name"] * 3 + ["line"] * 3 + ["byte", "cut"])
    begin = text.index(b"\n") if rng.random() < 0.99 else 0
    if kind in ("number", "name"):
        found = list((NUMBER if kind == "number" else NAME).finditer(text, begin))
        if not found:
            return text
        one = rng.choice(found)
        names = [it.group() for it in found] + [b"x", b"signed", b"claim", b"end", b"to"]
        new = other_number(rng, one.group()) if kind == "number" else rng.choice(names)
        return text[:one.start()] + new + text[one.end():]
    if kind == "line":
        lines = text.splitlines(keepends=True)
        at, other = (rng.randrange(int(begin > 0), len(lines)) for _ in range(2))
        word = rng.random()
        if word < 0.4:
            del lines[at]
        elif word < 0.7:
            lines.insert(at, lines[other])
        else:
            lines[at], lines[other] = lines[other], lines[at]
        return b"".join(lines)
    at = rng.randrange(begin, len(text) + 1)
    if kind == "cut":
        return text[:at]
    return text[:at] + rng.choice([b"", b" ", b"0", b"[", b"]", b"\n", b"\xc3", b"x", b"-"]) + text[at + 1:]


def kept():
    """The programs and proofs of the files in `bench/third`, but for spoiled ones."""
    for path in sorted((Path(__file__).parent / "third").glob("*.koat")):
        yield path.read_bytes(), path.with_suffix(".proof").read_bytes()


def files(count, seed):
    rng, stock = random.Random(seed), list(kept())
    for at in range(count):
        if at % WHOLE_EACH == 0:
            stock.append(Maker(rng).whole())
            yield stock[-1]
        else:
            program, proof = rng.choice(stock[-30:] if rng.random() < 0.8 else stock)
            yield program, spoiled(rng, proof)
