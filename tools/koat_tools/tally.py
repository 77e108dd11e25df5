"""Many answers counted: by O-class where there is a bound, by reason where there is none; as lines and as a page."""

import html
import os
from collections import Counter

REASONS = {"no ranking function": "no affine ranking function", "large": "formula too large", "loose": "free growth",
           "missing": "a size is missing", "bent": "multiplied in a loop", "untimed": "a time is missing"}


def outcome(told):
    """The group and the row of an answer in the table."""
    if told["verdict"] == "bounded":
        return "bounded", told["total"]["class"]
    if told["verdict"] == "unknown":
        return "unknown", reason(told)
    if told["verdict"] == "refused":
        return "refused", told["refusal"]["kind"]
    return "no answer", told.get("problem", "")


def reason(told):
    """Why the first rule without a time has none, or the first cost without a bound."""
    why = next((it["why"] for it in told["times"] + told.get("costs", []) if "why" in it), None)
    if why is None:
        return "no bound on all steps together"
    if why["kind"] == "limit":
        return f"limit: {why['limit']}"
    return REASONS.get(why["kind"], why["kind"])


def lines(all_told):
    """The table: for each group how many there are, and below it each row."""
    groups, rows = Counter(), Counter()
    for told in all_told:
        group, row = outcome(told)
        groups[group] += 1
        rows[group, row] += 1
    found = [f"{len(all_told):6} files"]
    for group in ("bounded", "unknown", "refused", "no answer"):
        if groups[group]:
            found.append(f"{groups[group]:6} {group}")
            found += [f"{count:12}  {row}" for (of, row), count in rows.most_common() if of == group]
    taken = sum(it.get("seconds", 0) for it in all_told)
    return found + [f"{taken:9.1f} seconds in all calls together"]


STYLE = """:root { color-scheme: light dark; }
body { font: 1rem/1.5 system-ui, sans-serif; max-width: 72rem; margin: 0 auto; padding: 1rem; }
table { border-collapse: collapse; width: 100%; } th, td { text-align: left; padding: 0.2rem 0.6rem; vertical-align: top; }
tr { border-bottom: 1px solid #8884; }
tbody th { font-weight: 400; overflow-wrap: anywhere; } td { overflow-wrap: anywhere; } td.number { text-align: right; }
.bounded td:nth-child(2) { color: #1a7f3c; } .unknown td:nth-child(2), .refused td:nth-child(2) { color: #b0451b; }
@media (prefers-color-scheme: dark) { .bounded td:nth-child(2) { color: #86d9a5; }
.unknown td:nth-child(2), .refused td:nth-child(2) { color: #f7a57c; } }"""


def page(all_told, with_pages=()):
    """A page for the browser with the table and a row for each file, which leads to its own page where it has one."""
    head = html.escape("\n".join(lines(all_told)))
    rows = "\n".join(_row(it, it["file"] in with_pages) for it in sorted(all_told, key=lambda one: one["file"]))
    return f"""<!doctype html>
<html lang="en">
<head>
<meta charset="utf-8">
<meta name="viewport" content="width=device-width, initial-scale=1">
<title>koat: {len(all_told)} files</title>
<style>
{STYLE}
</style>
</head>
<body>
<main>
<h1>{len(all_told)} files</h1>
<pre>{head}</pre>
<table>
<caption>Each file</caption>
<thead><tr><th scope="col">File</th><th scope="col">Answer</th><th scope="col">Class or reason</th>
<th scope="col">Total</th><th scope="col">Seconds</th></tr></thead>
<tbody>
{rows}
</tbody>
</table>
</main>
</body>
</html>
"""


def _row(told, has_page):
    group, row = outcome(told)
    total = (told.get("total") or {}).get("text", "")
    where = told["refusal"].get("hint", "") if group == "refused" else total
    name = html.escape(os.path.normpath(told["file"]))
    name = f'<a href="{html.escape(told["page"])}">{name}</a>' if has_page else name
    return (f'<tr class="{group.replace(" ", "-")}"><th scope="row">{name}</th>'
            + "".join(f"<td>{html.escape(it)}</td>" for it in (group, row, where))
            + f'<td class="number">{told.get("seconds", 0):.2f}</td></tr>')
