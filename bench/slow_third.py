"""A plain slow checker of proof files of the third form, by docs/proof-format.md and docs/format.md alone: nothing of
the crates is used.

`said(program, proof)` is what is answered of a proof's text for a program's text, both as bytes, line by line: the
first refusal of a text; or that the file is accepted, with the facts at symbols and what its claims state; or the
first part that isn't, and why.

    slow_third.py PROGRAM PROOF     writes the answer
    slow_third.py DIRECTORY         answers each NAME.proof of NAME.koat in a folder as NAME.txt says, and each
                                    NAME.WORD.proof as NAME.WORD.txt; --write writes the answers instead
"""

import pathlib
import re
import sys

import slow_check
import slow_proofs
from slow_check import Checker, No, judge_gap
from slow_reading import Reading
from slow_third_claims import Claims
from slow_third_copies import section
from slow_third_lemmas import Ground, Lemmas, of_plain
from slow_third_section import fault, program_of, spelled, symbol_facts
from slow_third_text import Refused, claims, lemmas
from slow_trees import tree_of

FIRST = "koat-proof 3"
WORD = re.compile(r"[A-Za-z_$][A-Za-z0-9_$'.]*")


def cut(text):
    """The four parts of a file, each with its position."""
    lines = re.findall(r"[^\n]*\n|[^\n]+", text[len(FIRST) + 1:])
    words = [match.group() if (match := WORD.match(line)) else "" for line in lines]
    ends = [next((at for at, word in enumerate(words) if word not in ("copy", "from")), len(lines))]
    ends.append(next((at + 1 for at in range(ends[0], len(lines)) if words[at] == "end"), len(lines)))
    ends.append(next((at for at in range(ends[1], len(lines)) if words[at] != "signed"), len(lines)))
    parts, at = [], len(FIRST) + 1
    for start, end in zip([0] + ends, ends + [len(lines)]):
        parts.append(("".join(lines[start:end]), at))
        at += len(parts[-1][0])
    return parts


def read(part, reader):
    """What a reader makes of a part; a refusal is at its byte of the file."""
    text, position = part
    try:
        return reader(text)
    except Refused as refused:
        raise Refused(position + refused.args[0], refused.args[1]) from None


def read_plain(program, text):
    verdict = slow_proofs.Reading(program.known, text).verdict()
    if not verdict.startswith("lemmas "):
        kind, _, at = verdict.partition(" at ")
        raise Refused(int(at), kind)
    return tree_of(program, text)


class NotAccepted(Exception):
    """The first part that isn't accepted, and why."""


def plain_facts(program, trees):
    checker = Checker(program)
    for number, lemma in enumerate(trees[0], 1):
        checker.count = 0
        try:
            checker.lemmas.append(checker.facts_of(lemma))
        except No as reason:
            raise NotAccepted(f"no lemma {number} node {checker.count}: {reason}") from None
    for number, gap in enumerate(trees[1], 1):
        try:
            judge_gap(program, gap)
        except No as reason:
            raise NotAccepted(f"no gap {number}: {reason}") from None
    return [fact for facts in checker.lemmas for fact in facts]


def each(judge, items, word):
    """What a judge says of each item, or the first that isn't accepted."""
    found = []
    for number, item in enumerate(items, 1):
        try:
            found.append(judge(item))
        except No as reason:
            raise NotAccepted(f"no {word} {number}: {reason}") from None
    return found


def judged(reading, text):
    """The lines on an accepted file."""
    if len(text) == len(FIRST) or text[len(FIRST)] != "\n":
        raise Refused(len(FIRST), "Syntax")
    parts, above, below, known = cut(text), reading, list(range(1, len(reading.rules) + 1)), []
    if parts[0][0]:
        found = read(parts[0], lambda part: section(program_of(reading), part))
        if why := fault(reading, found):
            raise NotAccepted(why)
        above, below = spelled(reading, found)
        known = symbol_facts(reading, found)
    program = program_of(above)
    ground = Ground(program, above.rules)
    trees = read(parts[1], lambda part: read_plain(program, part))
    signed = read(parts[2], lambda part: lemmas(ground.symbols, part))
    claimed = read(parts[3], claims)
    facts = [of_plain(ground, fact) for fact in plain_facts(program, trees)]
    each(lambda lemma: facts.append(Lemmas(ground, facts).fact_of(lemma)), signed, "lemma")
    return ["accepted"] + known + each(Claims(reading, ground, below, facts).stated, claimed, "claim")


def said(program, proof):
    """The lines of the answer; a program that is refused is answered as `koat` does, and a file of another form by the
    checker of those."""
    reading, text = Reading(program), proof.decode("latin-1")
    verdict = reading.verdict()
    if verdict != "taken":
        return [verdict]
    if not re.match(FIRST + "(?![0-9])", text):
        return slow_check.said(program_of(reading), text)
    try:
        return judged(reading, text)
    except Refused as refused:
        return [f"proof refused at {refused.args[0]}: {refused.args[1]}"]
    except NotAccepted as reason:
        return [str(reason)]


def program_beside(path):
    """The program of a proof: the file with the first part of its name."""
    return path.with_name(path.name.split(".")[0] + ".koat")


def main(arguments):
    sys.setrecursionlimit(100000)
    paths = [pathlib.Path(argument) for argument in arguments if argument != "--write"]
    if len(paths) == 2:
        print("\n".join(said(paths[0].read_bytes(), paths[1].read_bytes())))
        return 0
    failures = 0
    for path in sorted(paths[0].glob("*.proof")):
        answer = "\n".join(said(program_beside(path).read_bytes(), path.read_bytes())) + "\n"
        expected = path.with_suffix(".txt")
        if "--write" in arguments:
            expected.write_text(answer)
        elif expected.read_text() != answer:
            failures += 1
            print(f"{path.name}: {answer.splitlines()[0]}")
    print(f"{failures} of {len(list(paths[0].glob('*.proof')))} otherwise than expected")
    return int(failures > 0)


if __name__ == "__main__":
    sys.exit(main(sys.argv[1:]))
