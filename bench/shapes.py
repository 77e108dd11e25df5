"""Programs of some shapes, in any size, for the scripts that measure.

Each shape is a function of a number that gives the start arguments and the rules:
    chain    rules from symbol to symbol, without a loop
    star     rules that all leave the start
    loops    a chain of symbols, each with a loop of its own that counts an argument down
    ring     one loop through so many symbols, in which an argument falls once in each turn
    nested   so many loops, one inside another, each with a counter of its own
    mixed    so many symbols in a circle, each with a loop, whose rules add five counters to one another
`text_of` makes a program's text of rules.
"""

import random


def chain(n):
    return "A,B", [f"l{i}(A,B) -> l{i + 1}(A,B)" for i in range(n)]


def star(n):
    return "A,B", [f"l0(A,B) -> l{i + 1}(A,B)" for i in range(n)]


def loops(n):
    rules = ["l0(A,B) -> l1(A,B)"]
    for i in range(1, n + 1):
        rules.append(f"l{i}(A,B) -> l{i}(A-1,B) :|: A >= 1")
        rules.append(f"l{i}(A,B) -> l{i + 1}(B,B)")
    return "A,B", rules


def ring(n):
    rules = ["l0(A,B) -> l1(A,B)"]
    rules += [f"l{i}(A,B) -> l{i + 1}(A,B) :|: A >= 1" for i in range(1, n)]
    return "A,B", rules + [f"l{n}(A,B) -> l1(A-1,B) :|: A >= 1"]


def nested(n):
    names = ",".join(f"A{i}" for i in range(n))
    rules = [f"l0({names}) -> m0({names})"]
    for i in range(n):
        inner = ",".join(f"A{j}" if j != i + 1 else "A0" for j in range(n))
        down = ",".join(f"A{j}" if j != i else f"A{j}-1" for j in range(n))
        if i + 1 < n:
            rules.append(f"m{i}({names}) -> m{i + 1}({inner}) :|: A{i} >= 1")
            rules.append(f"m{i + 1}({names}) -> m{i}({down}) :|: A{i + 1} <= 0")
        else:
            rules.append(f"m{i}({names}) -> m{i}({down}) :|: A{i} >= 1")
    return names, rules


def mixed(n):
    """Rules that add five counters to one another at random, always the same: tableaux that fill up and empty again."""
    numbers = random.Random(4)
    names = "ABCDE"

    def updated(down, mixes):
        made = []
        for at, name in enumerate(names):
            told = name
            if at == down:
                told = f"{name}-1"
            elif mixes and numbers.random() < 0.3:
                other = numbers.randrange(len(names))
                sign = numbers.choice("-+")
                added = numbers.choice([-1, 0, 1]) if other != at else 0
                if other != at:
                    told = f"{name}{sign}{names[other]}" + (f"{added:+d}" if added else "")
            made.append(told)
        return ",".join(made)

    word = ",".join(names)
    rules = [f"l0({word}) -> m0({word})"]
    for i in range(n):
        own, other = names[i % len(names)], names[(i + 1) % len(names)]
        rules.append(f"m{i}({word}) -> m{i}({updated(i % len(names), True)}) :|: {own} >= 1 && {own} >= {other}")
        down = 1 if i == 0 else None
        rules.append(f"m{i}({word}) -> m{(i + 1) % n}({updated(down, True)}) :|: {other} >= 0")
    return word, rules


def text_of(rules):
    return "(STARTTERM (FUNCTIONSYMBOLS l0))(RULES " + "\n".join(rules) + ")"
