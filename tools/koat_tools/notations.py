"""Hints for what is written in another notation than koat's: other formats, functions, labels, types, other numbers.

Each function here looks at the place of a refusal that is `Syntax`, and has a sentence or none. `At` is such a place.
"""

import re
from dataclasses import dataclass
from functools import cached_property
from typing import List

from . import programs
from .formats import other_format

COMMENTS = "a comment is a section of its own between the others: `(COMMENT ..)`"
RELATIONS = (">=", "<=", "<", ">", "=", "==")
ARROW_ENDS = ("->", "}>")


@dataclass
class At:
    """A place in a text: the byte, the tokens before it, the last one first, and those from it on."""

    text: str
    data: bytes
    at: int
    before: List
    behind: List

    @cached_property
    def last(self):
        return self.before[0].text if self.before else ""

    @cached_property
    def here(self):
        return self.behind[0].text if self.behind else ""

    @cached_property
    def rest(self):
        return self.text[self.at:]

    @cached_property
    def depth(self):
        return sum({"(": 1, ")": -1}.get(it.text, 0) for it in self.before)

    @cached_property
    def section(self):
        """The word of the section that the place is in."""
        depth = 0
        for index, it in enumerate(self.before):
            depth += {")": 1, "(": -1}.get(it.text, 0)
            if it.text == "(" and depth == -self.depth and index:
                return self.before[index - 1].text
        return ""

    def enclosing(self):
        """The word before the innermost round bracket that is open."""
        depth = 0
        for index, it in enumerate(self.before):
            depth += {")": 1, "(": -1}.get(it.text, 0)
            if depth < 0:
                return self.before[index + 1].text if index + 1 < len(self.before) else ""
        return ""

    def in_guard(self):
        for it in self.before:
            if it.text in (":|:", "["):
                return True
            if it.text in ARROW_ENDS + ("-{", "]"):
                return False
        return False

    def has_relation(self):
        """Whether the comparison that the place is in has its sign already."""
        for it in self.before:
            if it.text in (":|:", "[", "&&", "/\\", "->", "-{", "}>"):
                return False
            if it.text in RELATIONS:
                return True
        return False

    def begins_rule(self):
        """Whether a rule may begin here."""
        return self.depth == 1 and self.section == "RULES" and (
            self.last in ("RULES", ")", "]", "TRUE") or self.in_guard() and self.has_relation())


def outside_sections(place):
    """What stands between sections."""
    if place.depth != 0:
        return None
    tokens = programs.tokens(place.text[:place.at])
    if tokens and tokens[-1].kind == "comment":
        where = programs.place(place.data, tokens[-1].end - 1)
        return (f"the comment ends at the bracket in line {where.line}, column {where.column}: brackets in it are "
                "balanced, so that none stands alone")
    if re.match(rf"{programs.NAME}\s*\([^()]*\)\s*-[>{{]", place.rest):
        return "rules stand within `(RULES ..)`"
    word = re.match(r"\w+", place.rest)
    if word and word.group() in programs.SECTIONS:
        return f"a section stands in brackets: `({word.group()} ..)`"
    return None


def section_names(place):
    """A section with a name that there isn't, or one that stands in another."""
    if place.last != "(" or not re.match(r"[A-Za-z]", place.rest):
        return None
    word = re.match(r"[\w-]+", place.rest).group()
    if place.depth == 1:
        plain = word.upper().rstrip("S")
        near = [it for it in programs.SECTIONS if it.rstrip("S") == plain]
        if near:
            return f"the section's name is `{near[0]}`, in capitals"
        if word.upper().replace("-", "").startswith("FUNCTIONSYMBOL"):
            return "it stands within STARTTERM: `(STARTTERM (FUNCTIONSYMBOLS start))`"
        if word in ("STRATEGY", "THEORY", "SIG", "END", "QUERY", "PROPERTY"):
            return f"koat has no section {word}: leave it out"
    if place.depth == 2 and place.enclosing() == "STARTTERM" or place.before[1].text == "STARTTERM":
        if word.upper().replace("-", "").startswith("FUNCTIONSYMBOL"):
            return "the word is `FUNCTIONSYMBOLS`, as in `(STARTTERM (FUNCTIONSYMBOLS start))`"
    return None


def nested_sections(place):
    """A section that begins before the one before it is closed."""
    if place.here == "(" and len(place.behind) > 1 and place.behind[1].text in programs.SECTIONS and place.depth > 0:
        if place.behind[1].text == "COMMENT":
            return None
        return f"a section begins here, but a bracket of {place.section or 'the one before'} isn't closed before it"
    return None


def variables(place):
    """What stands in VAR and is no name."""
    if place.section != "VAR":
        return None
    if place.here in (",", ";"):
        return "names in VAR are separated by blanks: `(VAR A B)`"
    if place.here == ":":
        return "VAR has names alone, without types: every variable is an integer"
    if place.here in ("=", "(", "["):
        return "VAR has names alone: what is known of a variable stands in guards"
    return "VAR has names alone: a name begins with a letter, `_` or `$`"


FREE = "for a value that may be any, write a name that isn't on the left, and limit it in the guard"
FUNCTIONS = {
    "max": "there are no functions: for a maximum write two rules, one with `A >= B` and one with `A < B`",
    "min": "there are no functions: for a minimum write two rules, one with `A <= B` and one with `A > B`",
    "abs": "there are no functions: for an absolute value write two rules, one with `A >= 0` and one with `A < 0`",
    "div": "there is no division: for Q = X/2 take a free Q with `2*Q <= X && X <= 2*Q + 1`",
    "mod": "there is no remainder: take a free R with `X = 3*Q + R && 0 <= R && R <= 2`",
    "pow": "there are no functions: a power with a number as exponent is written `A^2`",
}
FUNCTIONS.update({it: f"there are no functions: {FREE}" for it in (
    "nondet", "random", "rand", "unknown", "input", "read", "__VERIFIER_nondet_int", "length", "size")})
FUNCTIONS.update({it: "there are no functions: take a free variable, with what is known of it in the guard"
                  for it in ("log", "sqrt", "floor", "ceil", "gcd", "exp")})


def functions(place):
    """A call in an expression: koat reads its name as a variable, or as the symbol of the next rule."""
    if place.here == "(" and place.before[0].kind == "name" and place.depth >= 2 and place.section == "RULES":
        if place.last in FUNCTIONS:
            return FUNCTIONS[place.last]
        if re.fullmatch(r"[Cc][Oo]?[Mm]?_?\d*", place.enclosing()):
            return None
        if _is_name_begun(place):
            return (f"`{place.last}(..)` can't stand in an expression: there are no functions, and no symbols in "
                    "arguments")
    if place.here == "(" and place.last in FUNCTIONS and place.in_guard():
        return FUNCTIONS[place.last]
    if place.here in RELATIONS and place.last == ")" and place.in_guard():
        opening = _opening(place.before)
        word = place.before[opening + 1].text if opening is not None and opening + 1 < len(place.before) else ""
        return FUNCTIONS.get(word)
    return None


def _is_name_begun(place):
    return len(place.before) > 1 and place.before[1].text in ("(", ",", "+", "-", "*")


def _opening(before):
    depth = 0
    for index, it in enumerate(before):
        depth += {")": 1, "(": -1}.get(it.text, 0)
        if depth == 0:
            return index
    return None


def targets(place):
    """Targets in other notations."""
    if place.last in ARROW_ENDS and place.here == "{":
        return ("a rule leads to one symbol: write `Com_1(..)`; a cost stands in the arrow, as in `f(X) -{X}> "
                "Com_1(g(X))`")
    if place.last in ARROW_ENDS and re.match(r"\d", place.here):
        return "a target is a symbol with its arguments in brackets: `stop()`"
    if place.last == "(" and place.here == ")" and place.before[1].text == "Com_1":
        return "a target stands within `Com_1(`..`)`; a run ends at a symbol that no rule leaves: `Com_1(stop())`"
    if place.here == "Com_1" and place.last == "(":
        return "`Com_1` stands once around the target"
    if place.here == "(" and re.fullmatch(r"[Cc]\d+", place.enclosing()):
        return "a rule leads to one symbol: write `Com_1(..)`; what goes on in several calls can't be analysed"
    return None


BEFORE_NAMES = ("(", ",", "+", "-", "*", ":|:", "&&", "[") + RELATIONS
SIGILS = r"[%?@#&!~'\"`\\]"


def names(place):
    """Names that begin with a sign, and names in quotes."""
    if re.match(rf"{SIGILS}[A-Za-z_]", place.rest) and place.last in BEFORE_NAMES:
        if place.rest[0] == "!" and place.in_guard():
            return None
        return "a name begins with a letter, `_` or `$`, and goes on with letters, digits, `_`, `$`, `'` and `.`"
    return None


def numbers(place):
    """Numbers that aren't plain digits."""
    if len(place.before) < 2:
        return None
    pairs = [(place.before[1], place.before[0]), (place.before[0], place.behind[0] if place.behind else None)]
    for number, word in pairs:
        if number.kind != "number" or word is None or word.kind != "name" or word.at != number.end:
            continue
        if number.text == "0" and re.fullmatch(r"[xXbBo][0-9a-fA-F]+", word.text):
            return "numbers are decimal: `16`, and not `0x10`"
        if re.fullmatch(r"[eE]\d+", word.text):
            return "numbers are plain digits: `1000000`, and not `1e6`"
        if re.fullmatch(r"_\d+(_\d+)*|[uUlL]+", word.text):
            return "numbers are plain digits, with nothing between them and nothing behind them"
    is_behind_number = place.here == "," and place.before[0].kind == "number"
    if is_behind_number and re.match(r",\d{3}\b", place.rest) and place.in_guard():
        return "numbers have no commas in them, and comparisons are joined by `&&`"
    return None


CONDITION_BEHIND = "the condition stands behind the target: `f(X) -> Com_1(g(X)) :|: X >= 1`"


def _is_behind_target(place):
    """Whether a rule has its arrow already, and no later rule begins before the place."""
    return next((it.text for it in place.before if it.text in ARROW_ENDS + ("RULES",)), "") in ARROW_ENDS


def labels(place):
    """Labels before rules, and conditions there."""
    if place.here == ":" and place.before[0].kind in ("name", "number") and place.section == "RULES" \
            and not place.in_guard() and place.depth == 1:
        return "rules have no labels: koat numbers them in the order of the text"
    if place.begins_rule() and re.match(r"\d+\s*[:.)]", place.rest):
        return "rules have no numbers in front: koat numbers them in the order of the text"
    if place.last in CONDITIONS and place.before[1].text in ("RULES", ")") and not _is_behind_target(place):
        return CONDITION_BEHIND
    if len(place.before) > 2 and place.before[1].text in CONDITIONS and not place.in_guard() and (
            place.before[2].text == "RULES"):
        return CONDITION_BEHIND
    if place.begins_rule() and not place.in_guard() and re.match(r"[%;]", place.rest):
        is_rule = re.match(rf"[%;]\s*({programs.NAME}\s*\(|\))", place.rest)
        return "nothing stands behind a rule or between two" if is_rule else COMMENTS
    if place.begins_rule() and place.here == "." and not re.match(r"\.\d", place.rest):
        return "nothing stands behind a rule or between two, no dots either"
    return None


def arrows(place):
    """Signs between a left side and its target."""
    is_behind_left = place.depth == 1 and place.last == ")" and place.section == "RULES" and not place.in_guard()
    if is_behind_left and re.match(r"<->|<=>|<-", place.rest):
        return "an arrow is `->`, and leads from the left to the right"
    if is_behind_left and re.match(r"(:=|=|:-|~>|\|->?)", place.rest) and re.match(
            rf"\S+\s*(Com_\d+\s*\(\s*)?{programs.NAME}\s*\(", place.rest):
        return "an arrow is `->`, or `-{X}>` with a cost"
    if is_behind_left and re.match(r"-\[|--?\d|-\(", place.rest):
        return "a cost stands in the arrow's braces: `f(X) -{X}> Com_1(g(X))`"
    return None


def operators(place):
    """Operators of programming languages in expressions and guards."""
    pair = place.text[place.at - 1:place.at + 1] if place.at else ""
    pair = place.rest[:2] if place.rest[:2] in (">>", "<<") else pair
    if re.match(r"\+\+|--", pair) or re.match(r"(\+\+|--)\s*[,)]", place.rest) or (
            place.last == "-" and place.here in (")", ",") and place.before[1].text == "-"):
        return "there is no `++` and no `--`: write the new value, as `A + 1`"
    if re.match(r":=", place.rest) or re.match(r"[-+*]=", pair):
        return "there is no assignment: the new value stands as an argument of the target, as in `f(A) -> f(A + 1)`"
    if pair in (">>", "<<"):
        return "there are no shifts: `2*A` for one to the left; for one to the right take a free Q with " \
               "`2*Q <= A && A <= 2*Q + 1`"
    if place.here == "?" and place.last in ("(", ","):
        return FREE
    if place.here == "?":
        return "an expression has no cases: write a rule for each"
    if place.here == "*" and place.last in ("(", ",") and re.match(r"\*\s*[,)]", place.rest):
        return FREE
    if place.here == "&" and not place.has_relation() and place.last not in ("TRUE", "true"):
        return "there are no operations on bits"
    if re.match(r"\\/", place.rest):
        return "a guard has no `||`: write the rule twice, once with each side"
    if place.here == "+" and place.last in ("(", ",") + RELATIONS + (":|:", "&&"):
        return "no `+` stands before a number or a name"
    return None


def comparisons(place):
    """What lacks in a guard, or is too much of it."""
    if re.match(r"in\b", place.last) and place.in_guard() or place.here == "in" and place.in_guard():
        return "a range is two comparisons: `0 <= A && A <= 5`"
    if re.fullmatch("exists|forall|some|all", place.before[0].text if place.before else "") and place.in_guard():
        return "there are no quantifiers: a name that isn't on the left may be any integer that the guard permits"
    if len(place.before) > 1 and place.last == "^" and place.in_guard() and place.has_relation():
        return "an exponent is a number; `and` is written `&&`"
    if place.last == "^":
        return "an exponent is a number from 0 to 8, without brackets or a sign"
    if place.here in ("&&", "/\\") and place.last in (":|:", "[", "&&"):
        return f"a comparison comes before `{place.here}`"
    if place.here == "[" and place.last == "]":
        return "a rule has one guard: join its comparisons by `&&`"
    if place.here == "," and place.last == "]":
        return "nothing stands between two rules"
    is_end = place.here in (")", "]", "&&", "/\\") or place.here == "->"
    if is_end and place.in_guard() and not place.has_relation() and place.last.lower() not in ("true", "false") and (
            place.before[0].kind in ("name", "number") or place.last == ")") and place.here != "->":
        return "a guard is made of comparisons: a sign and a right side are missing, as in `A >= 1`"
    if place.here in RELATIONS and place.depth >= 2 and not place.in_guard() and place.section == "RULES":
        return "an argument is an expression: a comparison stands in the guard, as in `:|: A = 1`"
    return None


CONDITIONS = ("if", "when", "where", "while")


def brackets(place):
    """Brackets and commas around arguments."""
    if place.here == "[" and place.before[0].kind == "name" and not place.in_guard():
        return "arguments stand in round brackets: `f(A)`"
    if place.last.lower() in CONDITIONS:
        return None
    if place.before[0].kind == "name" and place.section == "RULES" and place.depth == 1 and not place.in_guard() and (
            place.behind and place.behind[0].kind == "name") and place.before[1].text in ("RULES", ")", "->", "}>"):
        return "arguments stand in brackets, separated by commas: `f(A, B)`"
    if place.here == "," and place.last in ("(", ",") or place.here == ")" and place.last == ",":
        return "an argument is missing beside the comma"
    return None


LOOKS = (nested_sections, section_names, variables, functions, targets, names, numbers, labels, arrows, operators,
         comparisons, brackets)


def hint(text, data, at, before, behind):
    """A sentence about what is written in another notation at this byte, or none."""
    place = At(text, data, at, before, behind)
    found = other_format(place) or outside_sections(place)
    if found or not before:
        return found
    return next((said for said in (look(place) for look in LOOKS) if said), None)
