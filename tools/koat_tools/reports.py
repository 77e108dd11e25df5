"""The report of `koat analyse`, `koat facts` or `koat best`, read from its text. This is the one place where its grammar
stands.

    report = fact* verdict time+ cost* total size* why*
    best   = fact* verdict time+ cost* total above* below* why*
    fact    = "fact " NAME ": " ("x" I | "-x" I | "x" I " - x" I) " >= " ("-1" | "0" | "1") LF
    verdict = "bounded" LF | "unknown" LF
    time    = "time " R ": " (bound | "unknown") LF
    cost    = "cost " R ": " (bound | "unknown") LF
    total   = "total: " (bound | "unknown") LF
    size    = "size " R "." I ": " (bound | "unknown") LF
    above   = "above " R "." I ": " (bound | "unknown") LF
    below   = "below " R "." I ": " (bound | "unknown") LF
    why     = ("why time " R | "why cost " R | "why size " R "." I) ": " reason
    reason  = "no affine ranking function over rules " R (", " R)* LF gap
            | ("rank " R | "empty " R | "local " R "." I | "cost " R) " " limit LF
            | "large " N " nodes" LF
            | ("loose up" | "loose low") LF "  ray: " point LF "  kept: " point " / " D LF
            | ("missing " | "bent ") R "." I LF
            | "untimed " R LF
    limit   = "range at pivot " K | "budget after " K " pivots" | "wide " E " entries" | "scale"
    gap     = ("  shut " NAME "." I LF)* ("  move " R ": " point " / " D LF)+ "  floor " R ": " point " / " D LF
              ("  kept " R ": " point " / " D LF)+
    point   = "(" [ Z (", " Z)* ] ")"

A rule with a cost has a line `cost`, and no other has one. The reasons are those of the bounds that are missing, in
order; an `unknown` without a reason is an input of that name. That of `why cost R` is `cost R` with a limit, `large`,
`loose`, `missing` or `untimed R`, of the same R, and no time or size has `cost` with a limit as its reason. The
verdict is `unknown` where a time or a cost is missing; the total is missing exactly where the time of a rule without a
cost is, or some cost.
R is the number of a rule, from 1; I of a place of the rule's target, from 1; Z a whole number; D a denominator, which
is 0 for a direction. `bounds` has the grammar of a bound.

That of `koat best` has bounds over the inputs themselves, of which `signed_bounds` has the grammar, and for each place a
line on the value there and, behind all of these, one on its negation. Of its bounds any may be missing, the total too, which makes the verdict
`unknown` then. Only times and costs have reasons: those of the analysis with facts.
"""

import re
from dataclasses import dataclass, field
from typing import List, Optional

from . import bounds, growth, signed_bounds


class ReportError(ValueError):
    """A text that is no report."""


@dataclass
class Point:
    """Numbers over a denominator; a denominator of 0 makes them a direction."""

    parts: List[int]
    denominator: int
    rule: Optional[int] = None

    def as_json(self):
        told = {"point": self.parts, "denominator": self.denominator}
        return told if self.rule is None else {"rule": self.rule, **told}


@dataclass
class Reason:
    """Why a bound is missing: its kind, its first line, and what the kind tells."""

    kind: str
    line: str
    facts: dict = field(default_factory=dict)

    def as_json(self):
        return {"kind": self.kind, "text": self.line, **{key: _plain(it) for key, it in self.facts.items()}}


@dataclass
class Entry:
    """The bound on how often a rule occurs, on what its steps cost together, or on the value at a place after it: on its
    absolute value, or from above, or on its negation, which is from below; or why there is none."""

    kind: str
    rule: int
    place: Optional[int]
    text: Optional[str]
    bound: object
    why: Optional[Reason] = None

    @property
    def label(self):
        return f"{self.kind} {self.rule}" + ("" if self.place is None else f".{self.place}")


@dataclass
class Report:
    """A report. In that of `koat best` `sizes` has each place twice: first all from above, then all from below."""

    verdict: str
    times: List[Entry]
    costs: List[Entry]
    total_text: Optional[str]
    total: object
    sizes: List[Entry]
    text: str
    facts: List[str] = field(default_factory=list)
    is_best: bool = False

    def entries(self):
        return self.times + self.costs + self.sizes

    def labelled(self):
        """Each bound with its label, in the report's order; a bound that is missing is None."""
        told = [(it.label, it.text, it.bound) for it in self.times + self.costs]
        return told + [("total", self.total_text, self.total)] + [(it.label, it.text, it.bound) for it in self.sizes]

    def missing(self):
        """The bounds on rules and on places that are missing."""
        return [it for it in self.entries() if it.text is None]


def _plain(it):
    if isinstance(it, list):
        return [_plain(part) for part in it]
    return it.as_json() if isinstance(it, Point) else it


class _Lines:
    """The lines that are left, and patterns taken off them."""

    def __init__(self, text):
        if not text.endswith("\n"):
            raise ReportError("the report ends within a line")
        self.lines, self.at = text[:-1].split("\n"), 0

    def taken(self, pattern):
        """The groups of the pattern where the next line matches it whole, and then that line is passed."""
        match = re.fullmatch(pattern, self.lines[self.at]) if self.at < len(self.lines) else None
        if match:
            self.at += 1
        return match

    def needed(self, pattern):
        match = self.taken(pattern)
        if not match:
            raise ReportError(f"line {self.at + 1} of the report isn't one that is known")
        return match

    def all(self, pattern):
        found = []
        while True:
            match = self.taken(pattern)
            if not match:
                return found
            found.append(match)


NUMBER = r"([0-9]+)"
POINT = r"\(((?:-?[0-9]+(?:, -?[0-9]+)*)?)\)"
OVER = POINT + " / " + NUMBER
FACT = "fact (.+: (?:-?x[0-9]+|x[0-9]+ - x[0-9]+) >= (?:-1|0|1))"


def read(text):
    """The report of a text that koat wrote with status 0 or 1."""
    lines = _Lines(text)
    facts = [it.group(1) for it in lines.all(FACT)]
    verdict = lines.needed("(bounded|unknown)").group(1)
    times = [_entry("time", *it.groups()) for it in lines.all(f"time {NUMBER}(): (.*)")]
    costs = [_entry("cost", *it.groups()) for it in lines.all(f"cost {NUMBER}(): (.*)")]
    total = lines.needed("total: (.*)").group(1)
    sizes = [_entry("size", *it.groups()) for it in lines.all(rf"size {NUMBER}\.{NUMBER}: (.*)")]
    for entry in times + costs + sizes:
        if entry.text == UNKNOWN:
            _with_reason(entry, lines)
    if lines.at < len(lines.lines):
        raise ReportError(f"line {lines.at + 1} of the report isn't one that is known")
    costed = {it.rule for it in costs}
    missing = any(it.why for it in costs) or any(it.why and it.rule not in costed for it in times)
    if any(it.why for it in times + costs) != (verdict == "unknown") or missing and total != UNKNOWN:
        raise ReportError("the verdict, the times, the costs and the total don't fit")
    total, bound = (None, None) if missing else (total, _bound(total))
    return Report(verdict, times, costs, total, bound, sizes, text, facts)


def read_best(text):
    """The report of a text that `koat best` wrote with status 0 or 1."""
    lines = _Lines(text)
    facts = [it.group(1) for it in lines.all(FACT)]
    verdict = lines.needed("(bounded|unknown)").group(1)
    times = [_signed_entry("time", *it.groups()) for it in lines.all(f"time {NUMBER}(): (.*)")]
    costs = [_signed_entry("cost", *it.groups()) for it in lines.all(f"cost {NUMBER}(): (.*)")]
    total = _signed_entry("total", 0, None, lines.needed("total: (.*)").group(1))
    above, below = ([_signed_entry(side, *it.groups()) for it in lines.all(rf"{side} {NUMBER}\.{NUMBER}: (.*)")]
                    for side in ("above", "below"))
    if [(it.rule, it.place) for it in above] != [(it.rule, it.place) for it in below]:
        raise ReportError("the bounds from above and from below aren't of the same places")
    for entry in times + costs:
        if entry.text is None:
            _with_reason(entry, lines)
    if lines.at < len(lines.lines) or any(it.text is None and it.why is None for it in times + costs):
        raise ReportError(f"line {lines.at + 1} of the report isn't one that is known")
    if any(it.text is None for it in [*times, *costs, total]) != (verdict == "unknown"):
        raise ReportError("the verdict, the times, the costs and the total don't fit")
    return Report(verdict, times, costs, total.text, total.bound, above + below, text, facts, is_best=True)


def _signed_entry(kind, rule, place, text):
    """An entry over the inputs themselves: `unknown` alone is no bound, since a name stands within brackets."""
    try:
        bound = None if text == UNKNOWN else signed_bounds.read(text)
    except bounds.BoundError as fault:
        raise ReportError(str(fault)) from fault
    return Entry(kind, int(rule), int(place) if place else None, text if bound else None, bound)


# An input may have this name too, and be a bound: a bound is missing only where its reason follows.
UNKNOWN = "unknown"


def _with_reason(entry, lines):
    name = entry.label.replace(".", r"\.")
    why = lines.taken(f"why {name}: (.*)")
    if why:
        entry.text, entry.bound, entry.why = None, None, _reason(why.group(1), lines)
        if not _fits(entry):
            raise ReportError(f"a reason that `why {entry.label}` can't have: {why.group(1)}")


def _fits(entry):
    """Whether a bound of this kind can be missing for this reason. A limit that a cost hits is one of its own question,
    and the time that it lacks that of its own rule."""
    kind, facts = entry.why.kind, entry.why.facts
    if entry.kind != "cost":
        return facts.get("question") != "cost"
    if kind == "limit":
        return (facts["question"], facts["rule"]) == ("cost", entry.rule)
    return kind in ("large", "loose", "missing") or kind == "untimed" and facts["rule"] == entry.rule


def _bound(text):
    try:
        return bounds.read(text)
    except bounds.BoundError as fault:
        raise ReportError(str(fault)) from fault


def _entry(kind, rule, place, text):
    return Entry(kind, int(rule), int(place) if place else None, text, _bound(text))


def _point(parts, denominator, rule=None):
    return Point([int(it) for it in parts.split(", ")] if parts else [], int(denominator), rule and int(rule))


def _points(word, lines):
    return [_point(it.group(2), it.group(3), it.group(1)) for it in lines.all(f"  {word} {NUMBER}: {OVER}")]


def _reason(line, lines):
    for pattern, read_facts in REASONS:
        match = re.fullmatch(pattern, line)
        if match:
            kind, facts = read_facts(match, lines)
            return Reason(kind, line, facts)
    raise ReportError(f"a reason that isn't known: {line}")


def _gap(match, lines):
    shut = [{"symbol": it.group(1), "place": int(it.group(2))} for it in lines.all(rf"  shut (.*)\.{NUMBER}")]
    moves = _points("move", lines)
    floor = _points("floor", lines)
    kept = _points("kept", lines)
    rules = [int(it) for it in match.group(1).split(", ")]
    if len(floor) != 1 or [it.rule for it in moves] != rules or [it.rule for it in kept] != rules:
        raise ReportError("a gap without its lines")
    return "no ranking function", {"rules": rules, "shut": shut, "moves": moves, "floor": floor[0], "kept": kept}


def _limit(match, _):
    question, rule, place, limit = match.groups()
    facts = {"question": question, "rule": int(rule)}
    if place:
        facts["place"] = int(place)
    facts["limit"] = limit.split(" ", 1)[0]
    numbers = re.findall("[0-9]+", limit)
    if numbers:
        facts["number"] = int(numbers[0])
    return "limit", facts


def _loose(match, lines):
    ray = lines.needed(f"  ray: {POINT}")
    kept = lines.needed(f"  kept: {OVER}")
    facts = {"side": match.group(1), "ray": _point(ray.group(1), 0), "kept": _point(kept.group(1), kept.group(2))}
    return "loose", facts


def _place(match, _):
    return match.group(1), {"rule": int(match.group(2)), "place": int(match.group(3))}


LIMIT = f"(range at pivot [0-9]+|budget after [0-9]+ pivots|wide [0-9]+ entries|scale)"
REASONS = [
    (r"no affine ranking function over rules ([0-9]+(?:, [0-9]+)*)", _gap),
    (rf"(rank|empty|cost) {NUMBER}() {LIMIT}", _limit),
    (rf"(local) {NUMBER}\.{NUMBER} {LIMIT}", _limit),
    (f"large {NUMBER} nodes", lambda match, _: ("large", {"nodes": int(match.group(1))})),
    ("loose (up|low)", _loose),
    (rf"(missing|bent) {NUMBER}\.{NUMBER}", _place),
    (f"untimed {NUMBER}", lambda match, _: ("untimed", {"rule": int(match.group(1))})),
]


def as_json(report):
    """The whole report as plain data, as `docs/report.schema.json` describes it."""
    told = {} if not report.facts else {"facts": [fact_json(it) for it in report.facts]}
    return {
        **({"command": "best"} if report.is_best else {}),
        **told,
        "verdict": report.verdict,
        "times": [_entry_json(it) for it in report.times],
        "costs": [_entry_json(it) for it in report.costs],
        "total": bound_json(report.total_text, report.total),
        ("values" if report.is_best else "sizes"): [_entry_json(it) for it in report.sizes],
    }


def fact_json(text):
    """A fact at a symbol, by its line without the first word."""
    symbol, fact = text.rsplit(": ", 1)
    return {"symbol": symbol, "text": fact}


def bound_json(text, bound):
    """A bound with its O-class, n being the greatest of the inputs' absolute values."""
    if text is None:
        return None
    return {"text": text, "class": growth.text(growth.growth(bound)), "tree": bounds.as_json(bound)}


def _entry_json(entry):
    told = {"rule": entry.rule} if entry.place is None else {"rule": entry.rule, "place": entry.place}
    if entry.kind in ("above", "below"):
        told["side"] = entry.kind
    told["bound"] = bound_json(entry.text, entry.bound)
    if entry.why:
        told["why"] = entry.why.as_json()
    return told
