"""What a page shows beside an answer: what koat proves of it, and what the program says of itself."""

import hashlib
import os
import re
import shutil
import sys

from . import analyser, facts, page, picture, proofs, third_form, third_sentences, whys
from .analyser import Stop


def with_facts(answer, pivots=None, seconds=None):
    """The answer for the program with the facts of an answer in its guards: proofs are of such a program."""
    data = facts.with_facts(answer.program, answer.report.facts)
    told = analyser.said_of_rules(data, answer.name, pivots, seconds)
    if told.refusal or told.report.total_text != answer.report.total_text:
        raise Stop(analyser.KOAT_FAILED, "the program with the facts in its guards has another report than `koat "
                   "facts`")
    return told


def beside(answer, command=analyser.ANALYSE, pivots=None, seconds=None, version=None):
    """What stands beside an answer on its page, without a picture."""
    version = analyser.version(seconds) if version is None else version
    return page.Beside(version=version, whys=_whys(answer, command, pivots, seconds))


def drawn(answer, seconds=None):
    """The picture of an answer's program; none where dot isn't there, fails or takes too long."""
    try:
        return picture.draw(answer.program, answer.report, seconds) if shutil.which("dot") else ""
    except Stop as fault:
        print(f"show: {answer.name}: {fault}", file=sys.stderr)
        return ""


def write_page(folder, answer, command=analyser.ANALYSE, pivots=None, seconds=None, version=None):
    """Writes the page of an answer into a folder; the name of its file there. A page that is there is replaced whole."""
    stem = re.sub("[^A-Za-z0-9_-]", "_", os.path.splitext(os.path.basename(answer.name))[0])[:60]
    checksum = hashlib.sha256(answer.data).hexdigest()[:12]
    name = f"{stem}-{checksum}{'' if command == analyser.ANALYSE else '-' + command}.html"
    shown = beside(answer, command, pivots, seconds, version)
    shown.drawn = drawn(answer, seconds)
    write(os.path.join(folder, name), page.page(answer, shown))
    return name


def write(path, text):
    """Writes a file in one step: who reads it finds the old one or the new one."""
    try:
        with open(f"{path}.{os.getpid()}", "w", encoding="utf-8", errors="replace") as file:
            file.write(text)
        os.replace(file.name, path)
    except OSError as fault:
        raise Stop(analyser.WRITE_FAULT, f"{path} can't be written: {fault.strerror}") from fault


def make_folder(path):
    try:
        os.makedirs(path, exist_ok=True)
    except OSError as fault:
        raise Stop(analyser.WRITE_FAULT, f"{path} can't be made: {fault.strerror}") from fault


def _whys(answer, command, pivots, seconds):
    """What shows each bound. Where no proof comes of it, nothing does, and a line says so."""
    written = answer.program
    try:
        if command == analyser.FACTS:
            answer = with_facts(answer, pivots, seconds)
        data = analyser.prove(answer, pivots, seconds)
        said = analyser.check(answer, data, seconds)
        text, (_, stated) = data.decode("latin-1"), third_form.stated(said)
        if said[0] != "accepted":
            return {}
        if command == analyser.BEST:
            return _whys_of_best(answer, text, stated)
        return whys.whys(answer.program, proofs.read(text), stated, written)
    except (Stop, proofs.ProofError, LookupError, AttributeError) as fault:
        print(f"show: the page says nothing of why bounds hold: {fault}", file=sys.stderr)
        return {}


def _whys_of_best(answer, text, stated):
    """For each bound of a report of `koat best` what shows it: by the claim with this bound, or else that it is one of
    `koat facts`. Where no bounds were found besides, the file of `koat certify` is one of another form."""
    found = {}
    if third_form.is_third(text):
        found = third_sentences.Words(answer.program, third_form.read(text, answer.program), stated).whys()
    by_facts = ["It is the bound of `koat facts`, over absolute values: `show page --facts` says why it holds."]
    return {label: found.get((label, text), by_facts)
            for label, text, bound in answer.report.labelled() if bound is not None}
