"""One page for people: it stands alone, with its picture, styles and script in it, and loads nothing."""

import html
import json
import os
import re
from dataclasses import dataclass, field
from typing import Dict, List, Optional

from . import bounds, curve, facts, growth, programs, reasons, runs, searches, sentences, source_lines

FOLDER = os.path.dirname(os.path.abspath(__file__))
# From so many sizes on those of a rule are folded.
MANY_SIZES = 12
# What bounds speak of, and what the bounds on values are, in reports of `koat best` and in others.
SPEAKS = {False: "Bounds speak of the inputs' absolute values, in every run from them.",
          True: "Bounds speak of the inputs themselves, in every run from them: <code>[p]</code> is p, or 0 where p is "
                "negative, <code>/</code> rounds down, and <code>root</code> is the whole square root."}
VALUES = {False: "<b>A after rule R</b>: how large the value of A is behind rule R at most, as an absolute value.",
          True: "<b>A after rule R</b>: how large the value of A is behind rule R at most; <b>-A after rule R</b>: how "
                "large its negation is at most, so A is at least the negation of that."}
# The run that is stepped through has at most so many steps.
MOST_STEPS = 2000


@dataclass
class Beside:
    """What stands beside the answer on its page: the picture, the replay of a run and the run itself, what shows each
    bound, and what the program says of itself."""

    drawn: str = ""
    replay: Optional[runs.Replay] = None
    run: Optional[runs.Run] = None
    whys: Dict[str, List[str]] = field(default_factory=dict)
    version: Dict = field(default_factory=dict)


def page(answer, beside=None):
    """The page of what koat said of a program."""
    beside = beside or Beside()
    program, report, replay = answer.program, answer.report, beside.replay
    run = beside.run or runs.made(program, [10 - 3 * (at % 3) for at in range(len(program.inputs))], 200, 0)
    parts = {
        "title": html.escape(os.path.basename(answer.name)), "verdict": report.verdict,
        "speaks": SPEAKS[report.is_best], "values": VALUES[report.is_best],
        "style": _file("page.css"), "script": _file("page.js"), "said": _said(report), "about": _about(answer.data),
        "total": _table(replay, "all steps together",
                        [_bound_row(replay, _all(report), "total", report.total_text, report.total)]),
        "inputs": _inputs(program, run.start, -100 if report.is_best else 0), "counted": _counted(replay), "picture": _picture(beside.drawn),
        "rules": "\n".join(_rule(rule, answer, beside) for rule in program.rules), "facts": _facts(program, report),
        "missing": _missing(answer), "report": html.escape(report.text), "run": _run(program, report, run),
        "version": version_text(beside.version), "curve": curve.section(program, report),
        "source": source_lines.section(answer),
    }
    return re.sub(r"\{\{(\w+)\}\}", lambda match: parts[match.group(1)], _file("page.html"))


def _file(name):
    with open(os.path.join(FOLDER, name), encoding="utf-8") as file:
        return file.read()


def _said(report):
    if report.verdict == "bounded":
        return "Every rule has a bound: every run ends."
    told = [_lacking(report.times, "rule")] if any(it.text is None for it in report.times) else []
    told += [_lacking(report.costs, "cost")] if any(it.text is None for it in report.costs) else []
    told = told or ["All steps together have no bound."]
    return " ".join(told) + " Of what is missing nothing is claimed."


def _lacking(entries, word):
    missing = sum(it.text is None for it in entries)
    return f"{missing} of {_count(len(entries), word)} {'has' if missing == 1 else 'have'} no bound."


def _all(report):
    """What the total is of: where no rule has a cost, each step costs 1."""
    return "what all rules cost" if report.costs else "all rules"


def comments(data):
    """What the comments of the program say."""
    texts = [it.text[1:-1] for it in programs.tokens(data.decode("latin-1")) if it.kind == "comment"]
    told = [it.strip()[len("COMMENT"):].strip().encode("latin-1").decode("utf-8", "replace") for it in texts]
    return [it for it in told if it]


def _about(data):
    return "".join(f"<p class=\"about\">{html.escape(it)}</p>" for it in comments(data))


def version_text(version):
    """Which program answered."""
    if not version.get("version"):
        return "The program that answered doesn't say which it is, and whether it is proved."
    sources = f", sources <code>{html.escape(version['sources'][:16])}</code>" if version.get("sources") else ""
    kind = {True: "It is the proved program: the bounds hold on every run.",
            False: "<strong>It was compiled without proof</strong>: <code>./prove</code> makes the proved one."}
    return (f"Answered by koat {html.escape(version['version'])}{sources}. "
            + kind.get(version.get("is_proved"), "Whether it is proved it doesn't say."))


def _inputs(program, start, least):
    if not program.inputs:
        return "<p>This program has no inputs.</p>"
    return "\n".join(_input(number, html.escape(name), value, least)
                     for number, (name, value) in enumerate(zip(program.inputs, start), 1))


def _input(number, name, value, least):
    return (f'<div class="input"><label for="input-{number}">{name}</label>'
            f'<label class="unseen" for="slider-{number}">{name}, slider</label>'
            f'<input type="range" min="{least}" max="100" value="{value}" data-input="{name}" id="slider-{number}">'
            f'<input type="number" step="1" value="{value}" data-input="{name}" id="input-{number}"></div>')


def _counted(replay):
    """What the numbers of a run are."""
    if replay is None:
        return ""
    return ('<p class="help">"in the run": of the run that was replayed, how often the rule occurs, what its steps cost, '
            "what all steps cost (1 each, where the program has no costs), and the greatest absolute value of the argument "
            "after the rule.</p>")


def _picture(drawn):
    if not drawn:
        return "<p>The page was made without a picture.</p>"
    return ('<p class="fit"><input type="checkbox" id="fit"> <label for="fit">fit into the width</label></p>'
            f'<div class="picture" tabindex="0" role="region" aria-label="graph, scrolls">{drawn}</div>')


def _facts(program, report):
    """The facts, at their symbols."""
    if not report.facts:
        return ""
    found = {}
    for it in report.facts:
        symbol, fact = it.rsplit(": ", 1)
        found.setdefault(symbol, []).append(facts.shown(program, symbol, fact))
    rows = "".join(f"<dt>{html.escape(symbol)}</dt><dd>{html.escape(', '.join(told))}</dd>"
                   for symbol, told in found.items())
    return ('<section aria-labelledby="facts"><h2 id="facts">Facts</h2><p class="help">What holds whenever a run stands '
            f"at a symbol; the rules that leave it are analysed with it in their guards.</p><dl>{rows}</dl></section>")


def _table(replay, caption, rows):
    told = "" if replay is None else '<th scope="col">in the run</th>'
    return (f'<table><caption class="unseen">{html.escape(caption)}</caption><thead><tr><th scope="col">of</th><th scope="col">at most</th><th scope="col">at the inputs</th>'
            f'<th scope="col">class</th>{told}</tr></thead><tbody>' + "\n".join(rows) + "</tbody></table>")


def _bound_row(replay, label, key, text, bound, why=None):
    """A row of a bound; `label` is HTML."""
    told = "" if replay is None else f'<td class="counted" data-head="in the run">{_counted_as(replay, key)}</td>'
    if bound is None:
        known = f'<a href="#{why}">unknown</a>' if why else "unknown"
        return (f'<tr class="unknown" data-label="{key}"><th scope="row">{label}</th>'
                f'<td class="bound" data-head="at most">{known}'
                f"</td><td></td><td></td>{told}</tr>")
    return (f'<tr data-label="{key}"><th scope="row">{label}</th>'
            f'<td class="bound" data-head="at most">{html.escape(text)}</td>'
            f'<td class="value" data-head="here" data-tree="{html.escape(json.dumps(bounds.as_json(bound)))}"></td>'
            f'<td class="growth" data-head="class">{growth.text(growth.growth(bound))}</td>{told}</tr>')


def _counted_as(replay, key):
    """What is counted of a run beside a bound; nothing beside one on a value from one side."""
    return _number(replay.beside[key][0]) if key in replay.beside else ""


def _number(counted):
    return counted if isinstance(counted, str) else f"{counted:,}"


def _rule(rule, answer, beside):
    """A rule with its bounds: its time, its cost, its sizes, which may be folded, and what shows them."""
    report, replay = answer.report, beside.replay
    time = report.times[rule.number - 1]
    kind = "missing" if time.text is None else "never" if time.text == "0" else "known"
    text = re.sub(r"\s*\n\s*", "\n    ", rule.text)
    sizes = sorted((it for it in report.sizes if it.rule == rule.number), key=lambda it: it.place)
    names = _value_names(answer.program, rule, sizes)
    rows = [_bound_row(replay, f"<b>{html.escape(name)}</b> after rule {rule.number}", it.label, it.text, it.bound,
                       _anchor(it) if it.why else None)
            for it, name in zip(sizes, names)]
    is_open = "" if len(report.sizes) > MANY_SIZES else " open"
    folded = (f"<details{is_open}><summary>{_count(len(rule.updates), 'value')} after it</summary>"
              + _table(replay, f"values after rule {rule.number}", rows) + "</details>")
    own = [("how often", time)] + [("what its steps cost", it) for it in report.costs if it.rule == rule.number]
    labels = [(what, it.label) for what, it in own]
    labels += [(f"{name} after rule {rule.number}", it.label) for name, it in zip(names, sizes)]
    shown = "".join(_why_known(what, beside.whys.get(label)) for what, label in labels)
    return (f'<article class="rule {kind}" id="rule-{rule.number}" tabindex="-1"><h3>Rule {rule.number}</h3>'
            f"<pre>{html.escape(text)}</pre>{source_lines.of_rule(answer, rule.number)}"
            + _table(replay, f"how often rule {rule.number} is used",
                     [_bound_row(replay, what, it.label, it.text, it.bound, _anchor(it)) for what, it in own])
            + (folded if rows else "")
            + (f'<details class="whys"><summary>why</summary>{shown}</details>' if shown else "")
            + "</article>")


def _value_names(program, rule, entries):
    """The names of the values that entries bound: of arguments of a rule's target, or of their negations."""
    names = sentences.names(program, rule.target.text, len(rule.updates))
    return [("-" if it.kind == "below" else "") + names[it.place - 1] for it in entries]


def _count(number, word):
    return f"{number} {word}" + ("" if number == 1 else "s")


def _why_known(what, told):
    """What shows a bound that is known."""
    if not told:
        return ""
    return (f"<details><summary>{html.escape(what)}</summary><ol>"
            + "".join(f"<li>{html.escape(it)}</li>" for it in told) + "</ol></details>")


def _missing(answer):
    told = [it for it in answer.report.entries() if it.why]
    if not told:
        return ""
    return ('<section aria-labelledby="missing"><h2 id="missing">Why bounds are missing</h2>'
            + "\n".join(_why(it, answer) for it in told) + "</section>")


def _why(entry, answer):
    told = reasons.words(answer.report, entry, answer.program)
    told += [it[2:] if it.startswith("- ") else it for it in searches.tried(answer, entry)] if answer.report.is_best else []
    what = f"size of argument {entry.place} after rule {entry.rule}" if entry.kind == "size" else \
        f"{entry.kind} of rule {entry.rule}"
    rest = "".join(f"<li>{html.escape(it)}</li>" for it in told[1:])
    return (f'<article class="why" id="{_anchor(entry)}"><h3>The {what}</h3>'
            f"<p>{html.escape(told[0])}</p>" + (f"<ul>{rest}</ul>" if rest else "") + "</article>")


def _anchor(entry):
    return "why-" + entry.label.replace(" ", "-")


def _run(program, report, run):
    """A run that is stepped through: its steps as data, for the script."""
    steps = runs.states(program, run, MOST_STEPS)
    if steps is None:
        return ""
    told = {
        "inputs": dict(zip(program.inputs, [str(it) for it in run.start])), "start": program.start,
        "values": [str(it) for it in run.start],
        "names": {it: sentences.names(program, it, count) for it, count in programs.symbol_arities(program).items()},
        "steps": [[rule, symbol, [str(it) for it in values]] for rule, symbol, values in steps],
        "trees": [None if it.bound is None else bounds.as_json(it.bound) for it in report.times],
        "total": None if report.total is None else bounds.as_json(report.total),
        **({"costs": [str(it) for it in runs.costs(program, run, MOST_STEPS)]} if report.costs else {}),
    }
    rows = "".join(f'<tr id="step-rule-{it.rule}"><th scope="row"><a href="#rule-{it.rule}">rule {it.rule}</a></th>'
                   '<td class="uses" data-head="so far">0</td><td class="most" data-head="at most"></td></tr>'
                   for it in report.times)
    return _file("run.html").replace("{{rows}}", rows).replace("{{all}}", _all(report)).replace("{{data}}", json.dumps(told).replace("<", "\\u003c"))
