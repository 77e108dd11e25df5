"""The lines of a program of the while language on its page, with how often each statement is executed."""

import html
import json

from . import bounds, growth, while_programs

HELP = ("How often a statement is executed at most: a test too, each time it is made. It is the sum of the bounds of "
        "the statement's rules below.")
HEAD = ('<table class="source"><caption class="unseen">the program, line by line</caption><thead><tr>'
        '<th scope="col">line</th><th scope="col" class="code">program</th><th scope="col">at most</th>'
        '<th scope="col">at the inputs</th><th scope="col">class</th></tr></thead><tbody>')


def section(answer):
    """The section of the page; nothing for a text with rules."""
    if not answer.source:
        return ""
    found = {}
    for it in answer.source.statements:
        found.setdefault(it.line, []).append(it)
    rows = []
    for number, line in enumerate(answer.source.data.decode("latin-1").rstrip().splitlines(), 1):
        here = found.get(number, [])
        rows.append(_row(str(number), line, here[0] if here else None, answer.report))
        rows += [_row(f"{number}, column {it.column}", it.text, it, answer.report) for it in here[1:]]
    return (f'<section aria-labelledby="source"><h2 id="source">Program</h2><p class="help">{HELP}</p>'
            + HEAD + "\n".join(rows) + "</tbody></table></section>")


def _row(head, code, statement, report):
    """A row of the program; a line on which no statement begins has no bound."""
    cells = f'<th scope="row">{head}</th><td class="code" data-head="program">{html.escape(code)}</td>'
    if statement is None:
        return f"<tr>{cells}<td></td><td></td><td></td></tr>"
    label = f'data-label="point {statement.point}"'
    text, tree = while_programs.bound(statement, report)
    if text is None:
        return (f'<tr class="unknown" {label}>{cells}<td class="bound" data-head="at most">unknown</td>'
                "<td></td><td></td></tr>")
    return (f'<tr {label}>{cells}<td class="bound" data-head="at most">{html.escape(text)}</td>'
            f'<td class="value" data-head="here" data-tree="{html.escape(json.dumps(bounds.as_json(tree)))}"></td>'
            f'<td class="growth" data-head="class">{growth.text(growth.growth(tree))}</td></tr>')


def of_rule(answer, number):
    """Which step of which statement a rule is; nothing for a text with rules."""
    if not answer.source:
        return ""
    parts = html.escape(while_programs.step(answer, number)).split("`")
    return '<p class="about">' + "".join(f"<code>{it}</code>" if at % 2 else it for at, it in enumerate(parts)) + "</p>"
