"""An answer as JSON: a report or a refusal, with the program's rules. docs/report.schema.json describes it."""

import re

from . import growth, hints, programs, reports, while_programs

FORMAT = "koat report 2"
NO_BOUND = "MAYBE"


def competition(answer):
    """The answer as the termination competition has it: an upper bound on what all steps cost, or none. A step costs 1
    where its rule has no cost."""
    total = answer.report.total if answer.report else None
    return NO_BOUND if total is None else growth.competition(growth.growth(total))


def as_json(answer, version):
    """The whole answer as plain data, with what the program said of itself."""
    told = {"format": FORMAT, "koat": version, "file": answer.name}
    if answer.refusal:
        return {**told, "verdict": "refused", "competition": NO_BOUND, "refusal": _refusal(answer)}
    program = answer.program
    statements = {"statements": while_programs.as_json(answer)} if answer.source else {}
    return {**told, "competition": competition(answer), "inputs": program.inputs, **statements,
            "rules": [_rule(rule, *where) for rule, where in zip(program.rules, _places(answer))],
            **reports.as_json(answer.report)}


def _places(answer):
    """Line and column of each rule, or of the statement that it is of."""
    if not answer.source:
        return programs.columns(answer.data, [it.at for it in answer.program.rules])
    found = [answer.source.of_rule(it.number) for it in answer.program.rules]
    return [(it.line, it.column) for it in found]


def _rule(rule, line, column):
    return {
        "rule": rule.number, "line": line, "column": column, "text": rule.text,
        "source": rule.source.text, "left": rule.left_names,
        "target": rule.target.text, "updates": rule.updates,
        "guard": rule.guard or None, "cost": rule.cost, "free": [it.text for it in rule.free],
    }


def _refusal(answer):
    refusal = answer.refusal
    told = {"text": refusal.line, "kind": refusal.kind}
    if refusal.at is None:
        return {**told, "hint": "a text has at most 4,194,304 bytes"}
    where = programs.place(answer.data, refusal.at)
    return {**told, "byte": refusal.at, "line": where.line, "column": where.column,
            "hint": hints.hint_of(answer)}


def run_json(replay):
    """A run beside the bounds: of each label the number of the run, and the bound's value at its inputs."""
    return {"steps": replay.steps, "beside": [{"label": label, "in_run": counted, "bound": value}
                                              for label, (counted, value) in replay.beside.items()]}


def proof_json(said):
    """What the checker says of a proof file, by its lines."""
    if said[0] == "accepted":
        return {"verdict": "accepted", "facts": [it for it in said[1:] if not it.startswith("gap ")],
                "gaps": [int(it[len("gap "):]) for it in said[1:] if it.startswith("gap ")]}
    found = PLACE.fullmatch(said[0])
    told = {"verdict": "not accepted" if found else "refused", "text": said[0]}
    if not found:
        return told
    kind, number, node, reason = found.groups()
    where = {kind: int(number)} if number else {}
    return {**told, **where, **({"node": int(node)} if node else {}), "reason": reason}


# The line of the checker on a proof that isn't accepted. A lemma without a node is a signed one.
PLACE = re.compile("no (lemma|gap|end|claim|refinement)(?: ([0-9]+))?(?: node ([0-9]+))?: (.*)")
