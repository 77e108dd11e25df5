"""Mistakes for `planted` in the searches of `koat best`: wrong bodies that the contracts of their crates let through."""

from typing import List, NamedTuple, Tuple


class Mistake(NamedTuple):
    """A title, a crate, and edits: a file of its sources, a text that stands there once, and what replaces it."""

    title: str
    crate: str
    edits: List[Tuple[str, str, str]]


SEARCH, QUESTIONS, CLAIMS = "potential_search", "potential_questions", "found_claims"
MISTAKES = [
    Mistake("the bound of a potential is one too small", SEARCH, [
        ("falls.rt", "SearchError, constant_of,", "SearchError, constant_of, less_number,"),
        ("falls.rt", "Ok(Signed::Part(copied_poly(self.alloc, form)?))",
         "Ok(Signed::Part(less_number(self.alloc, &copied_poly(self.alloc, form)?, 1)?))")]),
    Mistake("the bound of two phases is one too small", SEARCH, [
        ("phases.rt", "parts.push(Signed::Const(den))?;", "parts.push(Signed::Const(0))?;")]),
    Mistake("the number of a row is one too small", SEARCH, [
        ("lemmas.rt", "bound: Signed::Const(u128::from(number)),",
         "bound: Signed::Const(u128::from(number.saturating_sub(1))),")]),
    Mistake("gains are dropped from a bound", SEARCH, [
        ("lemmas.rt", "if let Some(bound) = self.cited_bound(step) {", "if self.cited_bound(step).is_some() {"),
        ("lemmas.rt", "parts.push(copied_bound(alloc, bound)?)?;", "parts.push(Signed::Const(0))?;")]),
    Mistake("gains are dropped from a potential", QUESTIONS, [
        ("asking.rt", "gain.add_to(&mut implication, 1)?;", "gain.add_to(&mut implication, 2)?;")]),
    Mistake("the form at the start is that of another symbol", SEARCH, [
        ("falls.rt", ".find(|function| function.symbol == start)", ".find(|function| function.symbol != start)")]),
    Mistake("what a rule pays has the other sign", QUESTIONS, [
        ("asking.rt", "add_poly(&mut implication, -1, amount)?;", "add_poly(&mut implication, 1, amount)?;")]),
    Mistake("what has to be there before a rule has the other sign", QUESTIONS, [
        ("asking.rt", "add_poly(&mut implication, -1, goal.1)?;", "add_poly(&mut implication, 1, goal.1)?;")]),
    Mistake("the values behind a step are those before it", QUESTIONS, [
        ("asking.rt", "target.take_after(&mut implication, &rule.new_values)?;",
         "target.add_to(&mut implication, -1)?;")]),
    Mistake("a time is claimed for the next rule", CLAIMS, [
        ("sums.rt", "claims.push(Claim::OnTime(copied.rule, support))?",
         "claims.push(Claim::OnTime(copied.rule.saturating_add(1), support))?")]),
    Mistake("a time rests on the lemma of the next rule", CLAIMS, [
        ("sums.rt", "lemmas.get(before as usize)", "lemmas.get((before as usize).saturating_add(1))")]),
    Mistake("values from above are claimed from below", CLAIMS, [
        ("sides.rt", "Side::Above => findings.above.as_slice(),", "Side::Above => findings.below.as_slice(),"),
        ("sides.rt", "Side::Below => findings.below.as_slice(),", "Side::Below => findings.above.as_slice(),")]),
    Mistake("the total leaves all but the last component out", SEARCH, [
        ("totals.rt", "sum = self.plus(sum, part)?;", "sum = self.plus(None, part)?;")]),
    Mistake("the copies of a rule are those of the next one", CLAIMS, [
        ("copies.rt", "for number in first..end {", "for number in first.saturating_add(1)..end.saturating_add(1) {")]),
    Mistake("facts that a rule doesn't keep are kept", "fact_makers", [
        ("paths.rt", "let mut is_changed = false;", "let is_changed = false;"),
        ("paths.rt", "is_changed = true;", "facts.push(copied_form(alloc, fact)?)?;")]),
    Mistake("the worse one of two findings is taken", "best_bounds", [
        ("finding.rt", "if is_better(alloc, &found.stated, &known.stated,",
         "if is_better(alloc, &known.stated, &found.stated,")]),
]
