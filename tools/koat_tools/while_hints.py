"""What to do about a refusal of a text of the while language, by its kind and by what stands at its byte."""

import re

from . import programs

GRAMMAR = "docs/while.md has the grammar"
LIMITS = {
    "Name": "names of at most 256 bytes",
    "Tokens": "at most 1,024 tokens in a value or on a side of a comparison",
    "Terms": "at most 64 monomials where an expression is multiplied out, also in the opposite of a comparison",
    "Degree": "exponents up to 8, and degrees up to 8 where an expression is multiplied out",
    "Atoms": "at most 64 comparisons in a test",
    "Variables": "at most 32 inputs",
    "Depth": "at most 64 blocks inside one another",
    "Rules": "programs with at most 1,000 rules: one for a statement, and one more for each comparison of a test, two "
             "for an equation",
}
ASSIGN = "an assignment is written `A := A + 1;`"
NO_OR = "a test has no `||`: nest two tests, or write the statement once for each side"
NO_UNEQUAL = "a test has no `!=`: write one branch with `<` and one with `>`"
NO_COMMENTS = "there are no comments"
NO_DIVISION = "there is no division and no remainder: choose Q by `Q := ?;`, and test `2*Q <= A && A <= 2*Q + 1`"

# Patterns for the text from the refused byte on, or from some bytes before it.
SIGNS = [
    (0, r"//|/\*|#|--\s|\(\s*COMMENT", NO_COMMENTS),
    (0, r"!=|~=", NO_UNEQUAL),
    (1, r"<>|=/=", NO_UNEQUAL),
    (0, r"\|", NO_OR),
    (0, r"&", "`and` is written `&&`, with two signs"),
    (0, r"!|~", "a test has no negation: write the opposite comparison"),
    (0, r"/|%", NO_DIVISION),
    (0, r"\+\+|--|[-+*]=", ASSIGN),
    (1, r"\*\*", "a power is written `^`"),
    (1, r"=<|=>", "the relations are `>=`, `>`, `<=`, `<` and `=`"),
    (0, r"\[|\]", "brackets are round, and braces stand around a block"),
    (0, r"\.", "numbers are whole: there is no decimal point"),
    (0, r"else\b", "`else` stands behind the block of an `if`"),
    (0, r":", ASSIGN),
]
# Words of other languages, which are names here.
WORDS = {
    "for": "there is no `for`: write a `while` with its counter", "do": "there is no `do`: write `while (..) { .. }`",
    "return": "there is no `return`", "break": "there is no `break`: put a flag into the test",
    "elif": "write `else { if (..) { .. } }`", "then": "write `if (..) { .. }`", "end": "a block ends with `}`",
}
for _word in ("int", "var", "let", "long", "const", "def"):
    WORDS[_word] = "variables aren't declared: each stands behind `input`"
NAME = re.compile(programs.NAME)


def hint(data, at, kind):
    """One sentence on what to write instead, or what is meant."""
    text = data.decode("latin-1")
    word, _, limit = kind.partition(" ")
    if word == "Limit" and limit in LIMITS:
        return f"koat takes {LIMITS[limit]}"
    if word == "NotAscii":
        return "names and signs are ASCII, and there are no comments"
    if word == "NumberTooLarge":
        return "numbers, also those that multiplying out gives, are at most 2^63-1; make a large limit an input"
    if word == "UnknownName":
        return _unknown(text, at)
    if word == "RepeatedName":
        return "each input is named once"
    return _syntax(text, at) if word == "Syntax" else "docs/while.md says when this refusal comes"


def _inputs(text):
    head = text.partition(";")[0]
    return NAME.findall(head)[1:]


def _unknown(text, at):
    name = NAME.match(text, at).group()
    if name in WORDS:
        return WORDS[name]
    alike = [it for it in _inputs(text) if it.lower() == name.lower()]
    if alike:
        return f"`{name}` is no input, but `{alike[0]}` is one: capitals count"
    return f"`{name}` is no input: every variable stands behind `input`, as in `input A, {name};`"


def _syntax(text, at):
    before = text[:at].rstrip()
    if not before:
        return _first(text, at)
    if at >= len(text):
        return _at_end(before)
    for back, pattern, advice in SIGNS:
        if at >= back and re.compile(pattern).match(text, at - back):
            return advice
    return _behind(before, text[at:]) or GRAMMAR


def _first(text, at):
    if text.startswith("(", at):
        return "this looks like a transition system: the name of its file ends in `.koat`"
    return "a program begins with its variables, as in `input A, B;`"


def _at_end(before):
    if before.count("{") > before.count("}"):
        return "the text ends, and a block isn't closed by `}`"
    if before.endswith(";") and ";" not in before[:-1]:
        return "behind the inputs stands a statement"
    return "the text ends within a statement: a statement ends with `;`, and a block with `}`"


def _behind(before, rest):
    """Hints by what stands before the byte."""
    last = before[-1]
    if rest.startswith("}") and before.count("{") <= before.count("}"):
        return "one block too many is closed before this"
    if rest.startswith("=") and re.search(rf"[;{{}}]\s*{programs.NAME}$", before):
        return ASSIGN
    if rest.startswith((">", "<", "=")):
        return "a comparison has two sides, stands in a test alone, and isn't in brackets of its own"
    if last == "(" and rest.startswith(")"):
        return "a test isn't empty: `while (TRUE)` never ends by itself"
    if last == ")" and _closes_test(before) or last in "e" and before.endswith("else"):
        return "a block stands in braces: `{ .. }`"
    if re.search(rf"[0-9A-Za-z_$)]$", before) and re.match(rf"[0-9A-Za-z_$({{}}]", rest):
        return "a statement ends with `;`, and between two factors stands `*`"
    if rest.startswith(";"):
        return "`;` ends an assignment, `skip` and the inputs, and stands nowhere else"
    return None


def _closes_test(before):
    """Whether the bracket at the end closes a test."""
    depth = 0
    for at in range(len(before) - 1, -1, -1):
        depth += {")": 1, "(": -1}.get(before[at], 0)
        if depth == 0:
            return re.search(r"\b(while|if)\s*$", before[:at]) is not None
    return False
