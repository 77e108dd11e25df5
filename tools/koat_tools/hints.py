"""What to do about a refusal, by its kind and by what stands at its byte."""

import re

from . import notations, programs, while_hints, while_programs

TWO_RULES = "a guard has no `!=`: write the rule twice, once with `<` and once with `>`"
NO_OR = "a guard has no `||`: write the rule twice, once with each side"
ONE_TARGET = "a rule leads to one symbol: write `Com_1(..)`; what goes on in several calls can't be analysed"
NO_TARGET = "a run ends at a symbol that no rule leaves: write `Com_1(stop())`"
NO_DIVISION = "there is no division and no remainder: for Q = X/2 take a free Q with `2*Q <= X && X <= 2*Q + 1`"
BRACKETS = "a symbol always has its brackets, also without arguments: `stop()`"
AND = "comparisons are joined by `&&`"
TARGET_WORD = "the word is `Com_1`, with a capital C and an underscore; another spelling is a symbol's name"
COMMENTS = "a comment is a section of its own between the others: `(COMMENT ..)`"
COST = "a cost stands in a rule's arrow alone, behind the left side: `f(X) -{X}> Com_1(g(X))`"
ONE_COST = "an arrow has one cost, which is an expression: `-{X}>`"
NO_COST = "a cost is an expression: `-{0}>` for a step that costs nothing, and `->` for one that costs 1"
FALSE = "there is no `false`: leave the rule out, or write `0 >= 1`"
CHAIN = "a comparison has two sides: write `A <= B && B <= C`"
NO_NOT = "a guard has no negation: write the opposite comparison"
GUARD = "a guard begins with `:|:` or stands in `[` and `]`"
BEHIND = "the guard stands behind the target: `f(X) -> Com_1(g(X)) :|: X >= 1`"
FACTORS = "between two factors stands `*`; a name doesn't begin with a digit"
NOTHING_BETWEEN = "nothing stands between two rules"

# Words that koat takes as names, so that the fault comes behind them.
WORDS = {"and": AND, "or": NO_OR, "not": NO_NOT, "if": GUARD, "when": GUARD, "where": GUARD, "false": FALSE,
         "true": "the atom that always holds is written `TRUE` or `true`"}
RELATIONS = (">=", "<=", "<", ">", "=", "==")

# What stands at the end of an arrow: of one without a cost, and of one with it.
ARROW_ENDS = ("->", "}>")

# Patterns for the text from the refused byte on, or from one or two bytes before it.
SIGNS = [
    (0, r"!=|~=|≠", TWO_RULES),
    (1, r"<>|=/=", TWO_RULES),
    (0, r"/=", TWO_RULES),
    (0, r"(?!->)[-=]+>", "an arrow is `->`"),
    (1, r"=>", "`=>` is no sign: an arrow is `->`, and 'at least' is `>=`"),
    (1, r"=<", "`=<` is no sign: 'at most' is `<=`"),
    (0, r"//|/\*|#|--", COMMENTS),
    (0, r"/|%|(mod|div|MOD|DIV)\b", NO_DIVISION),
    (0, r"-\{", COST),
    (0, r"-\s+\{", "an arrow with a cost begins with `-{`, without a blank in it"),
    (0, r"\|", GUARD),
    (0, r"&", "`and` is written `&&`, with two signs"),
    (0, r"!|~", NO_NOT),
    (0, r":(?!\|:)", GUARD + "; `:|:` has no blanks in it"),
    (0, r"\.", "numbers are whole: there is no decimal point"),
    (0, r";", "nothing stands between two rules, and `&&` between two comparisons"),
    (0, r"\}\s*-?>", "an arrow with a cost ends with `}>`, without a blank or a `-` in it"),
    (0, r"\{|\}", "brackets are round, and square around a guard"),
    (1, r"\*\*", "a power is written `^`"),
]

CHARACTERS = {
    "\ufeff": "a byte order mark stands first: save the text without one",
    "≥": "write `>=`", "≤": "write `<=`", "≠": TWO_RULES, "→": "write `->`", "∧": "write `&&`", "∨": NO_OR,
    "¬": NO_NOT, "−": "this is a minus of print: write `-`", "–": "this is a dash: write `-`", "×": "write `*`",
    "·": "write `*`", "²": "write `^2`", "³": "write `^3`", "′": "write `'`", "’": "write `'`",
    "\u00a0": "this is a blank that doesn't break: write a plain one",
}

LIMITS = {
    "Rules": "at most 1,000 rules", "Arity": "at most 32 arguments of a symbol",
    "Variables": "at most 64 variables in a rule", "Atoms": "at most 64 comparisons in a guard, 63 beside a cost",
    "Name": "names of at most 256 bytes",
    "Tokens": "at most 1,024 tokens in an argument, in a cost or on a side of a comparison",
    "Terms": "at most 64 monomials where an expression is multiplied out",
    "Degree": "exponents up to 8, and degrees up to 8 where an expression is multiplied out, "
              "also where it cancels later",
}


SAID = {
    "LeftNotVariable": "on the left stand names alone: write the condition into the guard, as in "
                       "`f(X) -> .. :|: X = A + 1`",
    "LeftRepeated": "give each argument on the left a name of its own and equate them in the guard: "
                    "`f(A, B) -> .. :|: A = B`",
    "ManyTargets": ONE_TARGET,
    "Disjunction": NO_OR,
    "NumberTooLarge": "numbers, also those that multiplying out gives, are at most 2^63-1; a large limit is better left "
                      "out, or made a start argument",
    "RepeatedSection": "a section stands once (COMMENT alone may come again): put both into one",
}


def hint_of(answer):
    """The hint on the refusal of an answer, of rules or of a program of the while language."""
    hints = while_hints.hint if while_programs.is_named(answer.name) else hint
    return hints(answer.data, answer.refusal.at, answer.refusal.kind)


def hint(data, at, kind):
    """One sentence on what to write instead, or what is meant."""
    word, _, limit = kind.partition(" ")
    if word == "ManyTargets" and re.match(rb"Com_0+\s*\(", data[at:]):
        return NO_TARGET
    if word == "Limit" and limit in LIMITS:
        return f"koat takes {LIMITS[limit]}"
    if word in SAID:
        return SAID[word]
    if word in WORKED_OUT:
        return WORKED_OUT[word](data.decode("latin-1"), data, at)
    return "docs/format.md says when this refusal comes"


def _not_ascii(_, data, at):
    if at < 2 and b"\0" in data[:8]:
        return "the text is in UTF-16: save it as ASCII or UTF-8"
    character = data[at:at + 4].decode("utf-8", "ignore")[:1]
    if character in CHARACTERS:
        return CHARACTERS[character]
    return "names and signs are ASCII; other letters may stand in comments alone"


def _missing_section(text, *_):
    words = [it.text for it in programs.tokens(text)]
    missing = [it for it in ("STARTTERM", "RULES") if it not in words]
    shown = {"STARTTERM": "(STARTTERM (FUNCTIONSYMBOLS name))", "RULES": "(RULES ..)"}
    if not missing:
        return "STARTTERM and RULES have to stand there"
    return "what is missing is " + " and ".join(shown[it] for it in missing)


def _start_unknown(text, _, at):
    start = re.match(programs.NAME, text[at:]).group()
    rules = re.findall(rf"({programs.NAME})[ \t\r\n]*\([^()]*\)[ \t\r\n]*-[>{{]", text)
    alike = [it for it in rules if it.lower() == start.lower()]
    if alike:
        return f"no rule leaves `{start}`, but one leaves `{alike[0]}`: capitals count"
    if rules:
        return f"no rule leaves `{start}`; the first rule leaves `{rules[0]}`"
    return f"no rule leaves `{start}`: RULES has none"


def _arity(text, _, at):
    found = [it for it in programs.tokens(text) if it.kind != "comment"]
    close = next(index for index, it in enumerate(found) if it.at == at)
    opening = _opening(found, close)
    if opening is None or opening == 0:
        return "a symbol has as many arguments as where it stands first"
    symbol = found[opening - 1].text
    first = next(index for index, it in enumerate(found) if it.text == symbol and found[index + 1].text == "("
                 and (index == 0 or found[index - 1].text != "FUNCTIONSYMBOLS"))
    line = text.count("\n", 0, found[first].at) + 1
    return (f"`{symbol}` has {_arguments(found, first + 1)} where it stands first, in line {line}, "
            f"and {_arguments(found, opening)} here")


def _opening(found, close):
    depth = 0
    for index in range(close, -1, -1):
        depth += {")": 1, "(": -1}.get(found[index].text, 0)
        if depth == 0:
            return index
    return None


def _arguments(found, opening):
    """How many arguments stand in these brackets, in words."""
    depth, commas, index = 1, 0, opening + 1
    while index < len(found) and depth > 0:
        depth += {"(": 1, ")": -1}.get(found[index].text, 0)
        commas += depth == 1 and found[index].text == ","
        index += 1
    count = 0 if index == opening + 2 else commas + 1
    return "1 argument" if count == 1 else f"{count} arguments"


def _syntax(text, data, at):
    if at < len(text) and not _around(text, at)[1]:
        return "docs/format.md has the grammar"
    for look in (_at_end, _at_cost, _at_notation, _at_sign, _at_section, _at_word, _at_pair):
        found = look(text, data, at)
        if found:
            return found
    return "docs/format.md has the grammar"


def _at_end(text, data, at):
    if at < len(text):
        return None
    open_brackets = []
    for token in programs.tokens(text):
        if token.text in "([" or token.text.count("(") > token.text.count(")"):
            open_brackets.append(token)
        elif token.text in ")]" and open_brackets:
            open_brackets.pop()
    if not open_brackets:
        return "the text ends within a rule"
    where = programs.place(data, open_brackets[-1].at)
    more = len(open_brackets) - 1
    what = "the comment" if open_brackets[-1].kind == "comment" else "the bracket"
    also = f", and {more} before it" if more else ""
    return f"the text ends, and {what} of line {where.line}, column {where.column} isn't closed{also}"


def _at_notation(text, data, at):
    return notations.hint(text, data, at, *_around(text, at))


def _around(text, at):
    """The tokens before the byte, the last one first, and those from it on."""
    found = [it for it in programs.tokens(text) if it.kind != "comment"]
    before = [it for it in found if it.at < at]
    return list(reversed(before)), found[len(before):]


def _depth(before):
    return sum({"(": 1, ")": -1}.get(it.text, 0) for it in before)


def _at_section(text, _, at):
    before, behind = _around(text, at)
    depth = _depth(before)
    if depth == 0:
        if behind[0].text == ")":
            return "one bracket too many is closed before this"
        sections = ", ".join(f"({it} ..)" for it in programs.SECTIONS)
        return f"outside sections stands nothing: the sections are {sections}"
    if depth == 1 and before[0].text == "(":
        return "no section has this name: they are " + ", ".join(programs.SECTIONS)
    if any(it.text == "STARTTERM" for it in before[:4]) and "RULES" not in [it.text for it in before[:4]]:
        return "one start symbol is named, as in `(STARTTERM (FUNCTIONSYMBOLS start))`"
    if before[0].text == "GOAL":
        return "the goal is `(GOAL COMPLEXITY)`"
    return None


def _at_cost(text, _, at):
    """Hints within the braces of an arrow."""
    before, behind = _around(text, at)
    last_brace = next((it.text for it in before if it.text in ("-{", "}>")), None)
    if last_brace != "-{":
        return None
    if behind[0].text == "}>" and before[0].text == "-{":
        return NO_COST
    if behind[0].text in RELATIONS + ("&&", "/\\") or (behind[0].text == "," and _depth_within(before) == 0):
        return ONE_COST
    return None


def _depth_within(before):
    """How many round brackets are open within the braces of an arrow."""
    depth = 0
    for it in before:
        if it.text == "-{":
            break
        depth += {"(": 1, ")": -1}.get(it.text, 0)
    return depth


def _at_sign(text, _, at):
    for back, pattern, said in SIGNS:
        if at >= back and re.match(pattern, text[at - back:]):
            return said
    return None


def _enclosing(before):
    """The word before the innermost bracket that is open."""
    depth = 0
    for index, it in enumerate(before):
        depth += {")": 1, "(": -1}.get(it.text, 0)
        if depth < 0:
            return before[index + 1].text if index + 1 < len(before) else ""
    return ""


def _at_word(text, _, at):
    """Hints by the word before the byte, which koat took for a name, and by what it stands in."""
    before, behind = _around(text, at)
    last, here = before[0], behind[0]
    inside = _enclosing(before)
    if here.text == "(" and [it.text for it in behind[1:2]] == ["COMMENT"]:
        return COMMENTS
    if here.text == "(" and re.fullmatch(r"com_?\d*", inside, re.I) and inside != "Com_1":
        return TARGET_WORD
    if last.text.lower() in WORDS and last.text not in ("TRUE", "true") and here.text != "(":
        return WORDS[last.text.lower()]
    if here.text == ":|:" and last.text == ")" and _is_left_side(before):
        return BEHIND
    if last.kind == "name" and last.text != "RULES" and _awaits_brackets(before, here):
        return BRACKETS
    if here.text == ",":
        return _at_comma(before, inside)
    if here.text in RELATIONS:
        return _at_relation(before)
    return None


def _at_comma(before, inside):
    if inside == "Com_1":
        return ONE_TARGET
    if _in_guard(before):
        return AND
    return NOTHING_BETWEEN if _depth(before) == 1 else None


def _is_left_side(before):
    """Whether the term that ends here is the left side of a rule."""
    opening = len(before) - 1 - (_opening(list(reversed(before)), len(before) - 1) or 0)
    behind_name = [it.text for it in before[opening + 2:opening + 4]]
    return not (behind_name and behind_name[0] in ARROW_ENDS) and behind_name != ["(", "Com_1"]


def _awaits_brackets(before, here):
    if before[1].text in ARROW_ENDS or here.text in ("->", "-{"):
        return True
    return before[1].text == "(" and _enclosing(before) == "Com_1"


def _at_relation(before):
    last = before[0]
    if last.kind == "name" and before[1].text == ")" and not _in_guard(before):
        return GUARD
    if last.kind == "name" and (before[1].kind in ("name", "number") or before[1].text == ")"):
        return AND
    if _has_relation(before):
        return CHAIN
    if _in_guard(before) and _enclosing(before).lower() == "not":
        return NO_NOT
    return "a comparison doesn't stand in brackets" if _in_guard(before) else GUARD


def _in_guard(before):
    for it in before:
        if it.text in (":|:", "["):
            return True
        if it.text in ARROW_ENDS + ("-{",):
            return False
    return False


def _has_relation(before):
    """Whether the comparison that is being read has a relation already."""
    for it in before:
        if it.text in (":|:", "[", "&&", "/\\", "->", "-{", "}>"):
            return False
        if it.text in RELATIONS:
            return True
    return False


def _at_pair(text, _, at):
    before, behind = _around(text, at)
    last, here = before[0], behind[0]
    if here.text == "->":
        return "a left side comes before `->`: a symbol with names in brackets"
    if last.text == "^":
        return "an exponent is a number"
    operands = last.kind in ("number", "name") or last.text == ")"
    if operands and (here.kind in ("number", "name") or here.text == "("):
        return _between(last, before)
    if last.text == ")" and here.text == "&&":
        return GUARD
    if here.text == ")":
        if _square_is_open(before):
            return "the guard's `[` is closed by `]`"
        return f"a bracket is closed here, but something has to follow `{last.text}`"
    return f"`{here.text}` can't follow `{last.text}` here"


def _between(last, before):
    if _has_relation(before):
        return "between two comparisons stands `&&`, and between two factors `*`"
    if _in_guard(before) or last.kind == "number":
        return FACTORS
    return GUARD if last.text == ")" else "arguments are separated by commas"


def _square_is_open(before):
    for it in before:
        if it.text in ("[", "]"):
            return it.text == "["
    return False


WORKED_OUT = {"NotAscii": _not_ascii, "Syntax": _syntax, "MissingSection": _missing_section, "ArityDiffers": _arity,
              "StartUnknown": _start_unknown}
