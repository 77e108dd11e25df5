"""A refusal with its line, column and a hint, or the missing bounds of a report in plain words."""

from . import hints, programs, reasons, searches, while_programs


def refusal_lines(answer):
    refusal = answer.refusal
    if refusal.at is None:
        return [refusal.line, "hint: a text has at most 4,194,304 bytes"]
    where = programs.place(answer.data, refusal.at)
    lines = [refusal.line, f"{answer.name}, line {where.line}, column {where.column}:"]
    return lines + shown(where) + [f"hint: {hints.hint_of(answer)}"]


def shown(where, width=100):
    """The line and a caret below the column; of a long line what stands around it."""
    start = max(0, where.column - 1 - width // 2) if len(where.text) > width else 0
    text = where.text[start:start + width].replace("\t", " ")
    return [f"  {text}", "  " + " " * (where.column - 1 - start) + "^"]


def report_lines(answer, command="analyse", lasso=None):
    """For each bound that is missing the line of the report, and why in words; that none exists where the rule is one of a
    lasso's turn; and what to try where another command may help. Of a program of the while language first how often each
    statement is executed."""
    lines = while_programs.lines(answer) if answer.source else []
    lines += [f"fact {it}" for it in answer.report.facts]
    for entry in answer.report.entries():
        if entry.why:
            lines.append(f"why {entry.label}: {entry.why.line}")
            lines += [f"  Rule {entry.rule} is {while_programs.step(answer, entry.rule)}."] if answer.source else []
            lines += [f"  {it}" for it in reasons.words(answer.report, entry, answer.program)]
            lines += [f"  {it}" for it in searches.tried(answer, entry)] if answer.report.is_best else []
            if lasso and entry.kind == "time" and entry.rule in {rule for rule, _ in lasso.turn}:
                lines.append(f"  {lasso_line(answer, lasso)}")
    if answer.report.is_best:
        lines += searches.others(answer.report)
    if not answer.report.missing() and (answer.report.total_text is not None or not answer.report.is_best):
        return lines + ["no bound is missing"]
    if command == "best":
        return lines
    call = f"koat translate {answer.name} | koat best -" if answer.source else f"koat best {answer.name}"
    return lines + [f"try `{call}`: other searches may give what is missing"]


def lasso_line(answer, lasso):
    """That no bound exists, since a run never ends, and how that is checked."""
    goes = "moves on" if lasso.is_moving else "repeats"
    return (f"no bound exists: this run {goes} for ever (`tools/show endless {answer.name} | koat lasso {answer.name} -` "
            "checks it)")
