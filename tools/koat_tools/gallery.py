"""The examples as pages in a folder, with an index: what each shows, its program, its bounds, and its page."""

import html
import os
from concurrent.futures import ThreadPoolExecutor

from . import analyser, growth, making, many, page
from .analyser import Stop

EXAMPLES = os.path.join(analyser.TOP, "examples")
# What stands over the programs of a folder.
TITLES = {EXAMPLES: "Programs, by name", os.path.join(EXAMPLES, "best"): "Programs for the best bounds",
          os.path.join(EXAMPLES, "reasons"): "A program for each reason that a bound is missing"}


def run(asked, out):
    """Writes the pages and the index, and prints where the index is."""
    making.make_folder(asked.folder)
    analyser.ready()
    version = analyser.version(asked.seconds)
    found = many.files(asked.paths or [EXAMPLES])
    with ThreadPoolExecutor(asked.jobs) as workers:
        shown = list(workers.map(lambda path: _shown(path, asked, version), found))
    path = os.path.join(asked.folder, "index.html")
    making.write(path, index(list(zip(found, shown)), version))
    print(path, file=out)
    return 0


def _shown(path, asked, version):
    """The card of a program, as HTML: its answer, and those with facts and of the best bounds where they are others."""
    try:
        answer = analyser.analyse(path, asked.pivots, asked.seconds)
        if answer.refusal:
            return _card(path, answer.text, [_line("refused", answer.refusal.line, None)])
        rows, totals = [_row(analyser.ANALYSE, answer, asked, version)], {answer.report.total_text}
        for command in (analyser.FACTS, analyser.BEST):
            rows += _other(command, answer, totals, asked, version)
        return _card(path, answer.text, rows)
    except Stop as stop:
        return _card(path, b"", [_line("no answer", stop.line, None)])


def _other(command, answer, totals, asked, version):
    """The row of another command, where its total is none of these, to which it is added."""
    try:
        other = analyser.analysed(answer.text, answer.name, asked.pivots, asked.seconds, command)
    except Stop as stop:
        return [_line(command, f"no answer: {stop.line}", None)]
    if other.report.total_text in totals:
        return []
    totals.add(other.report.total_text)
    return [_row(command, other, asked, version)]


def _row(command, answer, asked, version):
    report = answer.report
    name = making.write_page(asked.folder, answer, command, asked.pivots, asked.seconds, version)
    return _line(command, said(report), name)


def said(report):
    """The total with its class, or which rules it lacks: those without a cost whose times are missing, and those whose
    costs are."""
    if report.total is not None:
        total = f"a cost of {report.total_text}" if report.costs else (
            report.total_text + (" step" if report.total_text == "1" else " steps"))
        return f"{total}, {growth.text(growth.growth(report.total))}"
    if not any(it.why for it in report.times + report.costs):
        return "no bound on all steps together"
    costed = {it.rule for it in report.costs}
    times = [str(it.rule) for it in report.times if it.why and it.rule not in costed]
    costs = [str(it.rule) for it in report.costs if it.why]
    return ", ".join(f"no {what} rule {', '.join(rules)}"
                     for what, rules in (("time for", times), ("bound on the cost of", costs)) if rules)


def _line(command, said, name):
    told = html.escape(said)
    return f"<dt>{html.escape(command)}</dt><dd>" + (f'<a href="{html.escape(name)}">{told}</a>' if name else told) + "</dd>"


def _card(path, data, rows):
    title = html.escape(os.path.splitext(os.path.basename(path))[0])
    text = html.escape(data.decode("utf-8", "replace"))
    about = "".join(f"<p>{html.escape(it)}</p>" for it in page.comments(data))
    return (f'<article id="{title}"><h3>{title}</h3>{about}<dl>{"".join(rows)}</dl>'
            f"<details><summary>its text</summary><pre>{text}</pre></details></article>")


STYLE = """:root { color-scheme: light dark; --mark: #1f5fa8; --line: #8886; }
@media (prefers-color-scheme: dark) { :root { --mark: #86b9f2; } }
body { font: 1rem/1.5 system-ui, sans-serif; max-width: 76rem; margin: 0 auto; padding: 1rem; }
.cards { display: grid; grid-template-columns: repeat(auto-fill, minmax(min(100%, 22rem), 1fr)); gap: 0.8rem; }
article { border: 1px solid var(--line); border-radius: 0.5rem; padding: 0.7rem 0.9rem; min-width: 0; }
h3, p, dl, pre { margin: 0 0 0.4rem; } dl { display: grid; grid-template-columns: max-content 1fr; gap: 0 0.8rem; }
dd { margin: 0; overflow-wrap: anywhere; } pre { white-space: pre-wrap; overflow-wrap: anywhere; font-size: 0.85rem; }
a { color: var(--mark); } summary { cursor: pointer; }"""


def index(shown, version):
    """The page that leads to all, by the folders of the programs."""
    folders = {}
    for path, card in shown:
        folders.setdefault(os.path.dirname(path), []).append(card)
    parts = "".join(f"<h2>{html.escape(TITLES.get(folder, os.path.normpath(folder)))}</h2>\n"
                    '<div class="cards">\n' + "\n".join(cards) + "\n</div>\n" for folder, cards in folders.items())
    return f"""<!doctype html>
<html lang="en">
<head>
<meta charset="utf-8">
<meta name="viewport" content="width=device-width, initial-scale=1">
<title>koat: a gallery</title>
<style>
{STYLE}
</style>
</head>
<body>
<main>
<h1>A gallery of programs</h1>
<p><b>analyse</b>, <b>facts</b> and <b>best</b> are koat's commands; steps, or what they cost where rules have costs, are
bounded in the inputs' absolute values, by <b>best</b> in the inputs themselves. Each answer leads to its page, which
says why each bound holds and steps through a run; a further one is there where a command gives another.</p>
{parts}</main>
<footer><p>{page.version_text(version)}</p></footer>
</body>
</html>
"""
