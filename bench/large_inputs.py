"""The largest texts that the limits allow, and those just past them, for the scripts that hand them to the program.

Each is told as what it is, the text, the statuses with which a call on it may end, and the seconds that it may take.
"""

import slow_proofs
import slow_runs

BYTES = 4194304
DONE, UNKNOWN, REFUSED, PROOF_REFUSED, NO, RUN_REFUSED, BAD_STEP = 0, 1, 6, 7, 8, 9, 10


def whole(start, names, rules_text):
    return f"(GOAL COMPLEXITY)(STARTTERM (FUNCTIONSYMBOLS {start}))(VAR {' '.join(names)})(RULES {rules_text})"


def brackets(pairs):
    return whole("f", ["A"], f"f(A) -> Com_1(g({'(' * pairs}A{')' * pairs}))")


def rules(count, places, name="X"):
    """So many rules over so many arguments: every tenth is a loop at its symbol, each other leads to the next one."""
    names = [f"{name}{number}" for number in range(places)]
    same, down = ", ".join(names), ", ".join([f"{names[0]} - 1", *names[1:]])
    at, lines = 0, []
    for number in range(count):
        loops = number % 10 == 5
        lines.append(f"  l{at}({same}) -> Com_1(l{at if loops else at + 1}({down if loops else same}))"
                     + (f" :|: {names[0]} >= 1" if loops else ""))
        at += not loops
    return whole("l0", names, "\n" + "\n".join(lines))


def large_inputs():
    """The largest texts that the limits allow, and those just past them."""
    blanks = " " * BYTES
    start = whole("f", ["A"], "f(A) -> Com_1(g(A))")
    yield "4,194,304 blanks", blanks, {REFUSED}, 10
    yield "4,194,305 blanks", blanks + " ", {REFUSED}, 10
    yield "4,194,304 bytes with blanks", start + " " * (BYTES - len(start)), {DONE}, 10
    yield "4,194,304 opening brackets", "(" * BYTES, {REFUSED}, 10
    yield "4,194,304 bytes of one name", "a" * BYTES, {REFUSED}, 10
    yield "4,194,304 digits", start[:-3] + "9" * (BYTES - len(start)), {REFUSED}, 10
    for pairs in (64, 200, 511, 512, 100_000):
        yield f"{pairs:,} pairs of brackets", brackets(pairs), {DONE, REFUSED}, 10
    yield "100 rules, 32 arguments", rules(100, 32), {DONE, UNKNOWN}, 60
    yield "1,001 rules", rules(1001, 2), {REFUSED}, 10


def large_runs():
    """The same of runs of the program in GCD, with statuses."""
    start, most = b"koat-run 1\nstart 4000000 1\n", slow_runs.BYTES
    steps = b"step 1\n" + b"step 2\n" * (slow_runs.STEPS - 1)
    yield "a run of 1,000,000 steps", start + steps + b"end\n", {DONE}, 10
    yield "one of a step more", start + steps + b"step 2\nend\n", {RUN_REFUSED}, 10
    yield "one whose last step is none", start + steps[:-2] + b"4\nend\n", {BAD_STEP}, 10
    yield "67,108,864 blanks as a run", b" " * most, {RUN_REFUSED}, 10
    yield "67,108,865 blanks as a run", b" " * (most + 1), {RUN_REFUSED}, 10
    yield "67,108,864 bytes of start values", start[:-1] + b" 1" * ((most - len(start)) // 2), {RUN_REFUSED}, 10
    yield "67,108,864 bytes of one number", start[:-2] + b"9" * (most - len(start)), {RUN_REFUSED}, 10
    yield "67,108,864 bytes behind `step `", start + b"step " + b"1" * (most - len(start) - 5), {RUN_REFUSED}, 10


def file_of(*lines):
    return "".join(f"{line}\n" for line in ["koat-proof 1", *lines, "end"]).encode()


def large_proofs():
    """The same of proof files of the program in GCD, which has a symbol `stop` of two places."""
    most, start, to_one = slow_runs.BYTES, "lemma start", ") to 1"
    yield "67,108,864 blanks as a proof", b" " * most, {PROOF_REFUSED}, 10
    yield "67,108,865 blanks as a proof", b" " * (most + 1), {PROOF_REFUSED}, 10
    yield "100,000 lemmas", file_of(*[start] * slow_proofs.LEMMAS), {DONE}, 10
    yield "100,001 lemmas", file_of(*[start] * (slow_proofs.LEMMAS + 1)), {PROOF_REFUSED}, 10
    yield "63 nodes in one another", file_of("lemma " + "weaken (" * 63 + "start" + to_one * 63), {NO}, 10
    yield "64 nodes in one another", file_of("lemma " + "weaken (" * 64 + "start" + to_one * 64), {PROOF_REFUSED}, 10
    yield "67,108,864 bytes of multipliers", padded("lemma empty 1 [", "0 ", "0]", most), {NO}, 20
    yield "67,108,864 bytes of one number", padded("lemma empty 1 [", "9", "]", most), {PROOF_REFUSED}, 20
    yield "67,108,864 bytes of uses", padded("lemma unreached 1 uses {", "start; ", "start}", most), {NO}, 20
    yield "67,108,864 bytes of a bound", padded("lemma weaken (start) to ", "1 + ", "1", most), {PROOF_REFUSED}, 20
    yield "67,108,864 bytes of brackets", padded("lemma weaken (start) to ", "2^(", "1", most), {PROOF_REFUSED}, 20
    points = " moves [[0 0 1]] floor [0 0 0] kept [[0 0 1]]"
    yield "67,108,864 bytes of places", padded("gap 4 set [4] shut [", "stop.1 ", "stop.2]" + points, most), {NO}, 20


def padded(begins, part, ends, most):
    """A proof file of one line that takes as many bytes as there may be, but for less than one part."""
    room = most - len(file_of(begins + ends))
    return file_of(begins + part * (room // len(part)) + ends)


def unit(places, at, sign):
    return "[" + " ".join(str(sign if place == at else 0) for place in range(places)) + " 0]"


def self_loops(count, places):
    """So many rules that lead from one symbol to it, over so many arguments that they keep."""
    names = ", ".join(f"X{number}" for number in range(places))
    return whole("f", [], " ".join([f"f({names}) -> Com_1(g({names}))"] + [f"g({names}) -> Com_1(g({names}))"] * count))


def self_loop_proof(count, places):
    """Sizes of all places of these rules, by one loop."""
    arms = [f"up lin 1 {unit(places, at, 1)} [] low lin 1 {unit(places, at, -1)} []" for at in range(places)]
    lines = [f"lemma spread 1.{at + 1} {arm} uses {{start}}" for at, arm in enumerate(arms)]
    members = "; ".join(f"{rule}.{at + 1} {arm}" for rule in range(2, count + 2) for at, arm in enumerate(arms))
    cites = "; ".join(f"cite {at + 1}" for at in range(places))
    return file_of(*lines, f"lemma cycle [{members}] uses {{{cites}}}")
