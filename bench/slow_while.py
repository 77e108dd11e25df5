"""Executions of programs of the while language, and their translation into rules, plainly and slowly, by docs/while.md
alone: nothing of the crates is used.

Programs are those of `while_reading.py`. A state of an execution is a list of statements that are left and a value for
each input; a step takes the first statement. The translation is made of that: what is left where a statement comes
first, whatever its tests say, gives the point to which a step leads.
"""

OPPOSITES = {">=": ["<"], ">": ["<="], "<=": [">"], "<": [">="], "=": ["<", ">"]}


# executions

def frozen(it):
    """A statement, or statements, as tuples throughout."""
    return tuple(map(frozen, it)) if isinstance(it, (list, tuple)) else it


def value(e, env):
    kind = e[0]
    if kind in ("num", "var"):
        return e[1] if kind == "num" else env[e[1]]
    if kind == "neg":
        return -value(e[1], env)
    if kind == "^":
        return value(e[1], env) ** e[2]
    one, other = value(e[1], env), value(e[2], env)
    return one + other if kind == "+" else one - other if kind == "-" else one * other


def holds(atom, env):
    if atom[0] == "true":
        return True
    one, other = value(atom[1], env), value(atom[2], env)
    return {">=": one >= other, ">": one > other, "<=": one <= other, "<": one < other, "=": one == other}[atom[0]]


def put(env, x, number):
    return env[:x] + (number,) + env[x + 1:]


def steps_from(left, env, choices):
    """The states to which a step leads, where `?` gives one of the choices."""
    statement, rest = left[0], left[1:]
    kind = statement[0]
    if kind == "assign":
        return [(rest, put(env, statement[1], value(statement[2], env)))]
    if kind == "any":
        return [(rest, put(env, statement[1], it)) for it in choices]
    if kind == "skip":
        return [(rest, env)]
    is_so = all(holds(atom, env) for atom in statement[1])
    if kind == "while":
        return [(statement[2] + left if is_so else rest, env)]
    return [((statement[2] if is_so else statement[3]) + rest, env)]


def executed(body, start, choices):
    """For each number of steps, from 0 on, the states to which executions of so many steps come."""
    states = {(frozen(body), tuple(start))}
    while True:
        yield states
        states = {after for left, env in states if left for after in steps_from(left, env, choices)}


# translation

def numbered(body, at=0):
    """The statements with their numbers, in the order of their first bytes: each is a number, the statement, and its
    blocks, numbered too; and the number that comes next."""
    found = []
    for statement in body:
        number, blocks = at, []
        at += 1
        for block in statement[2:] if statement[0] in ("while", "if") else ():
            inside, at = numbered(block, at)
            blocks.append(inside)
        found.append((number, statement, blocks))
    return tuple(found), at


def successors(left):
    """What is left behind the first statement: where its test holds, and where it doesn't; or behind it."""
    (_, statement, blocks), rest = left[0], left[1:]
    if statement[0] == "while":
        return [blocks[0] + left, rest]
    return [blocks[0] + rest, blocks[1] + rest] if statement[0] == "if" else [rest]


def rules_of(body):
    """The rules: the point left, the point reached, the guard's atoms, and the statement where it changes a value."""
    whole, end = numbered(body)
    behind, todo = {}, [whole]
    while todo:
        left = todo.pop()
        if left and left[0][0] not in behind:
            behind[left[0][0]] = left[0][1], successors(left)
            todo += behind[left[0][0]][1]
    rules = []
    for number in range(end):
        statement, lists = behind[number]
        points = [it[0][0] if it else end for it in lists]
        if statement[0] not in ("while", "if"):
            rules.append((number, points[0], [], statement if statement[0] != "skip" else None))
            continue
        rules.append((number, points[0], statement[1], None))
        rules += [(number, points[1], [(relation, *atom[1:])], None)
                  for atom in statement[1] if atom[0] != "true" for relation in OPPOSITES[atom[0]]]
    return rules


def spelled(e, names):
    """An expression as the canonical text has it: brackets stand around an operation that is an operand."""
    def operand(part):
        return spelled(part, names) if part[0] in ("num", "var") else f"({spelled(part, names)})"
    if e[0] in ("num", "var"):
        return str(e[1]) if e[0] == "num" else names[e[1]]
    if e[0] == "neg":
        return "-" + operand(e[1])
    if e[0] == "^":
        return f"{operand(e[1])}^{e[2]}"
    return operand(e[1]) + e[0] + operand(e[2])


def spelled_atom(atom, names):
    return "TRUE" if atom[0] == "true" else f"{spelled(atom[1], names)} {atom[0]} {spelled(atom[2], names)}"


def free_name(names):
    free = "h"
    while free in names:
        free += "_"
    return free


def canonical_text(names, body):
    """The text that `koat translate` writes."""
    names = [name.decode() for name in names]
    free, lines, used = free_name(names), [], {}
    for source, target, guard, changed in rules_of(body):
        values, known = list(names), list(names)
        if changed:
            values[changed[1]] = spelled(changed[2], names) if changed[0] == "assign" else free
            known += [free] if changed[0] == "any" else []
        used.update(dict.fromkeys(known))
        atoms = " && ".join(spelled_atom(atom, names) for atom in guard)
        lines.append(f"  p{source}({','.join(names)}) -> Com_1(p{target}({','.join(values)}))"
                     + (f" :|: {atoms}" if guard else ""))
    head = ["(GOAL COMPLEXITY)", "(STARTTERM (FUNCTIONSYMBOLS p0))", "(VAR" + "".join(f" {it}" for it in used) + ")"]
    return "\n".join([*head, "(RULES", *lines, ")", ""])
