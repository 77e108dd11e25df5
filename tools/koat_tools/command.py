"""The command line: what the words ask for, and the lines and the status that come of it."""

import argparse
import io
import json
import math
import os
import random
import re
import sys

from . import analyser, answers, bounds, endless, explain, gallery, growth, lint, making, many, page, picture, programs
from . import proofs, refusals, runs, sentences, serve, third_form, third_json, third_refusals, while_programs
from .analyser import Stop

HELP = """Shows what koat says of a program in other forms. It runs koat and changes nothing of what it says; what
stands beside it (hints, O-classes, values, pictures) is worked out here and isn't proved.

  explain FILE        a refusal with line, column and a hint; else each missing bound with its reason in plain words, and
                      that none exists where a lasso is soon found
  lint FILE           likely slips that koat takes silently: names, dead ends, rules that never occur, costs that are
                      never over 0, large constants
  json FILE           the whole answer as JSON, also a refusal, as docs/report.schema.json describes it; with --run RUN
                      the counts of that run too, and with --proof PROOF what the checker says of that proof, and of one
                      as `koat certify` writes it the potentials and what each claim rests on
  class FILE          a first line as the termination competition has it, and the O-class of each bound
  at FILE A=30 B=12   the value of each bound at these inputs
  run FILE A=30 B=12  a run made at random from these inputs, as a run file for `koat replay`
  endless FILE        a lasso, which shows that some run never ends, as a file for `koat lasso`: a turn that leads back, or
                      one that moves on by the same differences each time; status 1 where none is found
  proof FILE          the proof of the bounds in sentences, lemma by lemma; with --proof PROOF that of this file
  many PATH..         files and folders at once: a line of JSON for each, and a table at the end
  serve               an editor in the browser with koat's answers beside it, for this machine alone
  gallery FOLDER      the examples as pages in a folder, with an index that says what each shows
  page FILE           a page for the browser: the graph, the rules with their bounds, fields for the inputs; with
                      --run RUN also how often each rule occurs in the run of that file, and how large values become"""

STATUSES = """status: 0 done; 1 lint found a likely slip, or endless no lasso; 2 the words are no command line; 3 FILE
can't be read; 4 the output can't be written; 6 koat refused the program; 10 koat can't be run; 11 koat gave no answer,
or none that can be read; 12 dot is missing, failed or took too long; 13 inputs of `at` or `run` are wrong; 14 koat
refused the run; 15 koat refused the proof's text, or doesn't accept it; 130 interrupted. FILE may be - for standard
input. The variable KOAT names another program than ./koat. A FILE that ends in .while has a program of the while
language: explain, json, class, at and page take it, and say of each statement how often it is executed. With --best it
is `koat best` that is asked, with --facts `koat facts`, and else `koat analyse`."""


INTERRUPTED = 130
# How long `endless` looks where no time is given, and `explain` before it says nothing of a lasso.
ENDLESS_SECONDS, EXPLAIN_SECONDS = 10, 2


def seconds(text):
    """A number of seconds over 0."""
    try:
        number = float(text)
    except ValueError:
        number = 0
    if not 0 < number < math.inf:
        raise argparse.ArgumentTypeError(f"`{text}` is no number of seconds over 0")
    return number


def counted(text):
    """A number from 0 to 1,000,000."""
    if not re.fullmatch("[0-9]{1,7}", text) or int(text) > 1000000:
        raise argparse.ArgumentTypeError(f"`{text}` is no number from 0 to 1000000 in plain digits")
    return int(text)


def parser():
    called = os.path.basename(sys.argv[0])
    top = argparse.ArgumentParser(prog=called if called in ("show", "koat-show") else "show", description=HELP,
                                  epilog=STATUSES, formatter_class=argparse.RawDescriptionHelpFormatter)
    commands = top.add_subparsers(dest="command", metavar="COMMAND", required=True)
    for name in COMMANDS:
        one = commands.add_parser(name, description=COMMANDS[name].__doc__)
        if name in WORDS_OF:
            WORDS_OF[name](one)
        else:
            one.add_argument("file", metavar="FILE")
        if name == "serve":
            continue
        one.add_argument("--pivots", metavar="N", help="handed to koat")
        one.add_argument("--seconds", metavar="N", type=seconds, help="how long koat, and dot, may each take")
        which = one.add_mutually_exclusive_group()
        for command in (analyser.BEST, analyser.FACTS):
            which.add_argument(f"--{command}", dest="by", action="store_const", const=command, default=analyser.ANALYSE,
                               help=f"what `koat {command}` says, in place of `koat analyse`")
        if name in WITH_INPUTS:
            one.add_argument("inputs", nargs="*", metavar="NAME=NUMBER")
        if name == "run":
            one.add_argument("--steps", metavar="N", type=counted, default=1000, help="how many steps at most; 1,000")
            one.add_argument("--seed", metavar="N", type=counted, default=0, help="another number gives another run; 0")
        if name in ("proof", "json"):
            one.add_argument("--proof", metavar="PROOF", help="a proof file" + (
                ", in place of the one that koat writes" if name == "proof" else " that the checker is to judge"))
        if name == "json":
            one.add_argument("--run", metavar="RUN", help="the file of a run, counted beside the bounds")
        if name == "page":
            one.add_argument("--without-picture", action="store_true", help="needs no dot")
            one.add_argument("--run", metavar="RUN", help="the file of a run, shown beside the bounds")
    return top


def positive(text):
    """A number from 1 to 1,000,000."""
    number = counted(text)
    if number < 1:
        raise argparse.ArgumentTypeError("it is at least 1")
    return number


def kth(text):
    """K/N, which means every Nth file from the Kth on, K from 0."""
    found = re.fullmatch("([0-9]{1,6})/([0-9]{1,6})", text)
    if not found or not 0 <= int(found.group(1)) < int(found.group(2)):
        raise argparse.ArgumentTypeError(f"`{text}` isn't K/N with K from 0 to N - 1, such as 0/10")
    return int(found.group(1)), int(found.group(2))


def _many_words(one):
    one.add_argument("paths", nargs="*", default=[], metavar="PATH", help="files, and folders with files that end in .koat or .its")
    one.add_argument("--jobs", metavar="N", type=positive, default=os.cpu_count() or 1, help="how many calls at once")
    one.add_argument("--memory", metavar="MIB", type=positive, help="how much memory each call may hold")
    one.add_argument("--resume", metavar="FILE", help="where the lines go; what stands there isn't asked again")
    one.add_argument("--retry", action="store_true", help="ask again what had no answer")
    one.add_argument("--html", metavar="FILE", help="a page with a row for each file")
    one.add_argument("--pages", metavar="FOLDER", help="a folder for the page of each file, with an index.html")
    one.add_argument("--part", metavar="K/N", type=kth, default=(0, 1),
                     help="every Nth file, from the Kth on, K from 0")


def _serve_words(one):
    one.add_argument("--port", metavar="N", type=counted, default=0, help="the port; without it one that is free")
    one.add_argument("--seconds", metavar="N", type=seconds, default=20, help="how long koat may take each time; 20")
    one.add_argument("--memory", metavar="MIB", type=positive, default=2000, help="how much memory it may hold; 2000")


def _gallery_words(one):
    one.add_argument("folder", metavar="FOLDER", help="it is made where it isn't there")
    one.add_argument("paths", nargs="*", default=[], metavar="PATH", help="other programs than the examples")
    one.add_argument("--jobs", metavar="N", type=positive, default=os.cpu_count() or 1, help="how many calls at once")


def _asked(words):
    """What the words ask for; inputs may stand behind options too, which argparse doesn't take by itself."""
    top = parser()
    asked, rest = top.parse_known_args(words)
    if rest and (asked.command not in WITH_INPUTS or any(it.startswith("-") for it in rest)):
        top.error("unrecognized arguments: " + " ".join(rest))
    if rest:
        asked.inputs += rest
    return asked


def main(words, out=None):
    asked = _asked(words)
    said = io.StringIO()
    try:
        if asked.command in AT_ONCE and not out:
            return _at_once(asked)
        status = COMMANDS[asked.command](asked, said)
        _write(said.getvalue(), out)
        return status
    except Stop as stop:
        line = f"show: {stop.line}\n".encode("utf-8", "surrogateescape").decode("utf-8", "replace")
        print(line, end="", file=sys.stderr)
        return stop.status
    except KeyboardInterrupt:
        return INTERRUPTED


def _at_once(asked):
    """The status of a command that writes its lines as they come; who reads may leave before the end."""
    try:
        status = COMMANDS[asked.command](asked, sys.stdout)
        sys.stdout.flush()
        return status
    except BrokenPipeError:
        os.dup2(os.open(os.devnull, os.O_WRONLY), 1)
        return 0
    except OSError as fault:
        raise Stop(analyser.WRITE_FAULT, f"the output can't be written: {fault.strerror}") from fault


def _write(text, out):
    """Writes the whole output, as UTF-8 where it goes to standard output; who reads may leave before the end."""
    if out:
        out.write(text)
        return
    try:
        with open(1, "wb", closefd=False) as whole:
            whole.write(text.encode("utf-8", "surrogateescape"))
    except BrokenPipeError:
        pass
    except OSError as fault:
        raise Stop(analyser.WRITE_FAULT, f"the output can't be written: {fault.strerror}") from fault


def _analysed(asked):
    if while_programs.is_named(asked.file) and asked.command not in OF_WHILE:
        raise Stop(analyser.WORDS_FAULT,
                   f"{asked.command} takes rules: `koat translate {asked.file} >NAME.koat` writes them")
    return analyser.analyse(asked.file, asked.pivots, asked.seconds, asked.by)


def _reported(asked):
    """The answer where koat took the program; a refusal ends the call with koat's own line."""
    answer = _analysed(asked)
    if answer.refusal:
        raise Stop(analyser.REFUSED, f"{answer.refusal.line} (`show explain {asked.file}` says more)")
    return answer


def _print(lines, out):
    for line in lines:
        print(line, file=out)


def _explain(asked, out):
    """Shows a refusal with its line, its column and a hint, or says of each missing bound why it is missing."""
    answer = _analysed(asked)
    if answer.refusal:
        _print(explain.refusal_lines(answer), out)
        return analyser.REFUSED
    _print(explain.report_lines(answer, asked.by, _lasso_of(answer, asked.seconds)), out)
    return 0


def _lasso_of(answer, most):
    """A lasso that koat takes for the program of an answer that misses a time, if one is found soon."""
    if all(it.why is None for it in answer.report.times):
        return None
    lasso = endless.found(answer.program, EXPLAIN_SECONDS)
    is_taken = lasso and analyser.takes_lasso(answer, endless.text(lasso).encode(), most)
    return lasso if is_taken else None


def _lint(asked, out):
    """Names likely slips, and what is good to know, each with its line."""
    answer = _reported(asked)
    found = lint.findings(answer.program, answer.report)
    for it, (line, column) in zip(found, programs.columns(answer.data, [it.at for it in found])):
        print(f"{asked.file}:{line}:{column}: {'warning' if it.is_slip else 'note'}: {it.text}", file=out)
    return 1 if any(it.is_slip for it in found) else 0


def _json(asked, out):
    """Prints the whole answer as JSON: the report, or the refusal."""
    answer = _analysed(asked)
    told = answers.as_json(answer, analyser.version(asked.seconds))
    if asked.run is not None and answer.report:
        told["run"] = answers.run_json(analyser.replay(answer, asked.run, asked.seconds)[0])
    if asked.proof is not None and answer.report:
        data = analyser.read_file(asked.proof, analyser.MOST_OF_PROOF)
        told["proof"] = _told_of_proof(_proof_json, answer, data, analyser.judged(answer, data, asked.seconds))
    json.dump(told, out, indent=1, ensure_ascii=False)
    print(file=out)
    return analyser.REFUSED if answer.refusal else 0


def _class(asked, out):
    """Prints the answer as the termination competition has it, and then the O-class of each bound, n being the greatest
    of the inputs' absolute values."""
    answer = _analysed(asked)
    print(answers.competition(answer), file=out)
    if answer.refusal:
        print(f"show: {answer.refusal.line} (`show explain {asked.file}` says more)", file=sys.stderr)
        return analyser.REFUSED
    for label, _, bound in answer.report.labelled():
        print(f"{label}: {'unknown' if bound is None else growth.text(growth.growth(bound))}", file=out)
    if answer.source:
        _print(while_programs.lines(answer, lambda _, tree: growth.text(growth.growth(tree))), out)
    print("These classes are derived from koat's bounds, and not proved themselves.", file=out)
    return 0


def _at(asked, out):
    """Prints the value of each bound at inputs; of a negative input the absolute value counts, but for `--best`."""
    answer = _reported(asked)
    given = _inputs(asked.inputs, answer.program.inputs)
    _print([_valued(label, text, bound, given) for label, text, bound in answer.report.labelled()], out)
    if answer.source:
        _print(while_programs.lines(answer, lambda text, tree: "at most " + _with_value("it", text, tree, given)), out)
    return 0


def _valued(label, text, bound, given):
    """The line of a bound, with its value where that isn't its text."""
    return f"{label}: " + ("unknown" if bound is None else _with_value(label, text, bound, given))


def _with_value(label, text, bound, given):
    lacking = [name for name in bounds.names(bound) if name not in given]
    if lacking:
        raise Stop(analyser.BAD_INPUT, f"{label} needs " + " ".join(f"{it}=NUMBER" for it in lacking))
    value = bounds.value_text(bounds.value(bound, given))
    return text + ("" if text == value else f" = {value}")


def _inputs(words, names):
    given = {}
    for word in words:
        name, sign, number = word.partition("=")
        if not sign or not re.fullmatch("-?[0-9]{1,1000}", number):
            raise Stop(analyser.BAD_INPUT, f"{word} isn't NAME=NUMBER")
        if name not in names:
            known = ", ".join(names) if names else "none"
            raise Stop(analyser.BAD_INPUT, f"{name} is no input of this program; its inputs: {known}")
        if name in given:
            raise Stop(analyser.BAD_INPUT, f"{name} is given twice")
        given[name] = int(number)
    return given


def _run(asked, out):
    """Writes a run made at random, as a run file; an input that isn't given is drawn from -20 to 20."""
    program = _reported(asked).program
    given = _inputs(asked.inputs, program.inputs)
    wide = [name for name, it in given.items() if abs(it) > runs.WIDEST]
    if wide:
        raise Stop(analyser.BAD_INPUT, f"{wide[0]} is over {runs.WIDEST}")
    draws = random.Random(asked.seed)
    drawn = {name: draws.randint(-20, 20) for name in program.inputs}
    start = [given.get(name, drawn[name]) for name in program.inputs]
    out.write(runs.text(runs.made(program, start, asked.steps, asked.seed)))
    return 0


def _endless(asked, out):
    """Looks for a run that comes to a configuration again, or that moves on by the same differences each time, and writes
    it as a lasso file."""
    lasso = endless.found(_reported(asked).program, asked.seconds or ENDLESS_SECONDS)
    if lasso is None:
        return 1
    out.write(endless.text(lasso))
    return 0


def _proof(asked, out):
    """Shows the proof of the bounds in sentences, which koat's checker accepted, or says what it doesn't accept."""
    answer = _reported(asked)
    if asked.by == analyser.FACTS:
        _print([f"fact {it}" for it in answer.report.facts], out)
        answer = making.with_facts(answer, asked.pivots, asked.seconds)
        print("`koat facts` found these facts. The proof is of the program with them in its guards:", file=out)
        _print([f"  {line}" for line in answer.data.decode("latin-1").splitlines()], out)
    if asked.proof is None:
        data = analyser.prove(answer, asked.pivots, asked.seconds)
    else:
        data = analyser.read_file(asked.proof, analyser.MOST_OF_PROOF)
    said = analyser.check(answer, data, asked.seconds)
    told = third_refusals.lines if third_form.is_third(data.decode("latin-1")) else refusals.whole
    _print(_told_of_proof(told, answer, data, said), out)
    return 0 if said[0] == "accepted" else analyser.BAD_PROOF


def _told_of_proof(tells, answer, data, said):
    """What is told of a proof file by what the checker said of it; one that can't be read here ends the call."""
    try:
        return tells(answer.program, data.decode("latin-1"), said)
    except (proofs.ProofError, sentences.FactsError, LookupError) as fault:
        raise Stop(analyser.KOAT_FAILED, f"the proof can't be read: {fault}") from fault


def _proof_json(program, text, said):
    """What the checker says of a proof file, and what is in one of the third form that it could read."""
    is_told = third_form.is_third(text) and not said[0].startswith("proof refused")
    return {**answers.proof_json(said), **({"third_form": third_json.as_json(program, text, said)} if is_told else {})}


def _page(asked, out):
    """Writes one page that needs nothing else: HTML with the picture, the styles and the script in it."""
    answer = _reported(asked)
    replayed = None if asked.run is None else analyser.replay(answer, asked.run, asked.seconds)
    drawn = "" if asked.without_picture else picture.draw(answer.program, answer.report, asked.seconds)
    beside = making.beside(answer, asked.by, asked.pivots, asked.seconds)
    beside.drawn = drawn
    if replayed:
        beside.replay, beside.run = replayed
    out.write(page.page(answer, beside))
    return 0


def _many(asked, out):
    """Asks koat of many files at once: a line of JSON for each, and a table at the end."""
    if not asked.paths and not asked.resume:
        raise Stop(analyser.WORDS_FAULT, "many needs files or folders, or --resume FILE with lines of earlier ones")
    return many.run(asked, out)


def _serve(asked, out):
    """Serves an editor with koat's answers beside it, for this machine alone, until it is interrupted."""
    return serve.run(asked, out)


def _gallery(asked, out):
    """Writes the examples, or other programs, as pages into a folder, with an index that says what each shows."""
    return gallery.run(asked, out)


WITH_INPUTS = ("at", "run")
# The commands that take a program of the while language.
OF_WHILE = ("explain", "json", "class", "at", "page")
WORDS_OF = {"many": _many_words, "serve": _serve_words, "gallery": _gallery_words}
AT_ONCE = ("many", "serve")

COMMANDS = {"explain": _explain, "lint": _lint, "json": _json, "class": _class, "at": _at, "run": _run,
            "endless": _endless, "proof": _proof, "page": _page, "many": _many, "serve": _serve, "gallery": _gallery}
