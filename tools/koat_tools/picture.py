"""The graph of a program as SVG, drawn by `dot` of Graphviz: symbols are nodes, rules edges with their bounds."""

import re
import subprocess

from . import facts
from .analyser import NO_DOT, Stop

LONGEST = 28
# dot knows the widths of Courier without fonts, and the page's font has the same.
HEAD = """digraph program {
bgcolor="transparent"; rankdir=TB; nodesep=0.35; ranksep=0.45;
node [fontname="Courier", fontsize=12, shape=box, style=rounded, margin="0.14,0.07", height=0.3];
edge [fontname="Courier", fontsize=11, arrowsize=0.7];
"""


def source(program, report):
    """The text that is given to dot."""
    lines, symbols = [HEAD], {program.start: "start"}
    sources = {rule.source.text for rule in program.rules}
    for rule in program.rules:
        for token in (rule.source, rule.target):
            symbols.setdefault(token.text, "inner" if token.text in sources else "end")
    of_symbols = _facts(program, report)
    for name, kind in symbols.items():
        label = "".join(f"\\n{shortened(it)}" for it in of_symbols.get(name, []))
        lines.append(f'"{name}" [class="{kind}", label="{name}{label}"];')
    loops = {}
    for entry in report.times:
        rule = program.rule(entry.rule)
        side = _side(rule, loops)
        kind = "missing" if entry.text is None else "never" if entry.text == "0" else "known"
        style = {"missing": ", style=bold", "never": ", style=dashed"}.get(kind, "")
        label = f"{entry.rule}: {shortened(entry.text or 'unknown')}   "
        guard = " ".join(rule.guard.split())
        label += f"\\n {escaped(shortened(guard))}   " if guard else ""
        lines.append(f'"{rule.source.text}"{side} -> "{rule.target.text}"{side} [label=" {label}", class="{kind}", '
                     f'URL="#rule-{entry.rule}", id="edge-{entry.rule}", '
                     f'tooltip="rule {entry.rule}: {entry.text or "unknown"}"{style}];')
    return "\n".join(lines + ["}\n"])


def _side(rule, loops):
    """On which side of its symbol a rule that leads back to it is drawn: by turns, so that two don't overlap."""
    if rule.source.text != rule.target.text:
        return ""
    loops[rule.source.text] = loops.get(rule.source.text, 0) + 1
    return ":e" if loops[rule.source.text] % 2 else ":w"


def _facts(program, report):
    """The facts of each symbol, as it is written there."""
    found = {}
    for it in report.facts:
        symbol, fact = it.rsplit(": ", 1)
        found.setdefault(symbol, []).append(facts.shown(program, symbol, fact))
    return found


def escaped(text):
    """A text within quotes of dot, where a backslash stands for itself."""
    return text.replace("\\", "\\\\")


def shortened(text):
    return text if len(text) <= LONGEST else text[:LONGEST - 1] + "…"


def draw(program, report, seconds=None):
    """The picture as an SVG element, without the head of a file of its own."""
    try:
        ran = subprocess.run(["dot", "-Tsvg"], input=source(program, report).encode(), stdout=subprocess.PIPE,
                             stderr=subprocess.PIPE, timeout=seconds, check=False)
    except subprocess.TimeoutExpired as fault:
        raise Stop(NO_DOT, f"dot had no picture within {seconds} seconds; --without-picture makes the page without "
                   "it") from fault
    except OSError as fault:
        raise Stop(NO_DOT, "dot of Graphviz isn't there; --without-picture makes the page without it") from fault
    drawn = ran.stdout.decode("utf-8", "replace")
    if ran.returncode or "<svg" not in drawn:
        raise Stop(NO_DOT, f"dot failed: {ran.stderr.decode('utf-8', 'replace').strip()[:200]}")
    drawn = drawn[drawn.index("<svg"):]
    # dot names nodes and edges in comments and titles; a title that is `a->b` hides the rule's own.
    drawn = re.sub(r"<!--.*?-->\n?", "", drawn, flags=re.S)
    drawn = re.sub(r"<title>[^<]*</title>\n?", "", drawn)
    drawn = drawn.replace("xlink:href=", "href=").replace("xlink:title=", "aria-label=")
    return drawn.replace("&#45;", "-").replace("<svg ", '<svg role="img" aria-label="the graph of the program" ', 1)
