"""What `koat best` tried for a bound that is missing, in words. docs/best.md says how it searches."""

# What was tried for how often a rule is used, in order.
OF_TIMES = (
    "a potential of degree 1 that rule {rule} lowers, over all rules that lead to it: without gains, with gains of constants "
    "from rules that have a time, and with gains of multiples of arguments",
    "such a potential over the rules of its loop, or of a part of it, which is set anew by what enters",
    "two functions of degree 1, of which the second may rise while the first one is positive",
    "a potential of degree 2, by products of two comparisons of a guard",
    "each of these over the program itself, with facts at its symbols, and with its symbols split by which guards hold and "
    "by the rule that led to them",
)
OF_COSTS = ("a potential from which each step by rule {rule} takes what it costs, and what such a step costs at most, times "
            "how often the rule is used")
OF_TOTAL = ("a potential from which each step takes what it costs, over all rules and over each loop, and the sum of what is "
            "known of each rule")


def tried(answer, entry):
    """Sentences on a missing time or cost: the reason is that of the analysis with facts, and this was tried beside it."""
    if entry.kind == "cost":
        return [f"That is the reason of the analysis with facts. `koat best` also looked for {OF_COSTS.format(rule=entry.rule)}, "
                "and found no bound that its checker accepts."]
    texts = ["That is the reason of the analysis with facts. `koat best` also looked for"]
    texts += [f"- {it.format(rule=entry.rule)};" for it in OF_TIMES]
    texts.append("and found no bound that its checker accepts. A function of another kind may still exist; or one that was "
                 "left out, since its linear program would be too large or the work of the searches came to its limit, which "
                 "a greater `--pivots N` raises.")
    return texts + _without_gains(answer, entry)


def _without_gains(answer, entry):
    """That the gains of other rules without a time can't be counted."""
    others = [str(it.rule) for it in answer.report.times if it.text is None and it.rule != entry.rule]
    if not others:
        return []
    rules = f"rule {others[0]} has" if len(others) == 1 else f"rules {', '.join(others)} have"
    return [f"No gain of a rule without a time can be counted, and {rules} none either."]


def others(report):
    """Lines on what is missing without a reason of its own: the total, and values from above or from below."""
    lines = []
    if report.total_text is None:
        lines += ["total: unknown", f"  {_of_total(report)}"]
    values = [it for it in report.sizes if it.text is None]
    for it in values:
        lines.append(f"{it.label}: unknown")
        lines.append(f"  No bound from {it.kind} was found on argument {it.place} after rule {it.rule}: none on its "
                     "absolute value, and no potential that limits it.")
    return lines


def _of_total(report):
    costed = {it.rule: it.text for it in report.costs}
    without = [str(it.rule) for it in report.times if costed.get(it.rule, it.text) is None]
    if without:
        rules = f"rule {without[0]} has" if len(without) == 1 else f"rules {', '.join(without)} have"
        return f"All steps together have no bound as long as {rules} none."
    return f"`koat best` looked for {OF_TOTAL}, and found no bound that its checker accepts."
