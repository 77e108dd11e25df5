"""Runs koat, and reads what it says. Nothing here changes what it says."""

import contextlib
import os
import re
import subprocess
import tempfile
import threading
from dataclasses import dataclass
from typing import Optional

from . import programs, reports, runs, while_programs

TOP = os.path.dirname(os.path.dirname(os.path.dirname(os.path.abspath(__file__))))

# Statuses up to 6 are koat's own and mean the same here.
WORDS_FAULT, READ_FAULT, WRITE_FAULT, REFUSED, NO_KOAT, KOAT_FAILED, NO_DOT, BAD_INPUT = 2, 3, 4, 6, 10, 11, 12, 13
BAD_RUN, BAD_PROOF = 14, 15

# koat's statuses of a run that is refused, and of steps that are none; of a proof that is refused, and of one that
# isn't accepted.
RUN_REFUSALS = (9, 10)
PROOF_REFUSED, NOT_ACCEPTED = 7, 8

# One byte more than koat takes, so that it says itself that a text is too long.
MOST = 4194304 + 1
MOST_OF_RUN = MOST_OF_PROOF = 67108864 + 1


class Stop(Exception):
    """Ends the program with a status and one line."""

    def __init__(self, status, line):
        super().__init__(line)
        self.status, self.line = status, line


@dataclass
class Refusal:
    line: str
    at: Optional[int]
    kind: str


@dataclass
class Answer:
    """What koat said of a text: a report or a refusal. Of a program of the while language that koat took the text is
    the translation, and `source` has the statements."""

    data: bytes
    name: str
    report: Optional[reports.Report] = None
    program: Optional[programs.Program] = None
    refusal: Optional[Refusal] = None
    source: Optional[while_programs.Source] = None

    @property
    def text(self):
        """The text that was given."""
        return self.source.data if self.source else self.data


def program_path():
    """The program that is run: `koat` at the top, or what KOAT names."""
    return os.environ.get("KOAT") or os.path.join(TOP, "koat")


def read_file(name, most=MOST):
    try:
        with open(0 if name == "-" else name, "rb", closefd=name != "-") as file:
            return file.read(most)
    except OSError as fault:
        raise Stop(READ_FAULT, f"{name} can't be read: {fault.strerror}") from fault


# The commands whose reports are shown.
ANALYSE, FACTS, BEST = "analyse", "facts", "best"


def analyse(name, pivots=None, seconds=None, command=ANALYSE):
    """What koat says of the file; the text goes to its standard input, so that it is read once."""
    return analysed(read_file(name), name, pivots, seconds, command)


def analysed(data, name, pivots=None, seconds=None, command=ANALYSE):
    """What koat says of a text of this name: of rules, or of a program of the while language."""
    says = _said_of_while if while_programs.is_named(name) else said_of_rules
    return says(data, name, pivots, seconds, command)


def said_of_rules(data, name, pivots=None, seconds=None, command=ANALYSE):
    """What koat says of a text with rules."""
    ran = _ran([command, *_options(pivots), "-"], data, seconds)
    return answer_of(ran.returncode, ran.stdout, data, name, command)


def _said_of_while(data, name, pivots, seconds, command):
    """What koat says of a text of the while language. Facts, and the best bounds, are those of its translation."""
    is_translated = command != ANALYSE
    ran = _ran(["while", *_options(0 if is_translated else pivots), "-"], data, seconds)
    if ran.returncode not in (0, 1):
        return answer_of(ran.returncode, ran.stdout, data, name)
    positions, output = while_programs.split(ran.stdout)
    translated = _ran(["translate", "-"], data, seconds)
    if translated.returncode != 0:
        raise Stop(KOAT_FAILED, f"koat ended with status {translated.returncode}")
    if is_translated:
        ran = _ran([command, *_options(pivots), "-"], translated.stdout, seconds)
        output = ran.stdout
    answer = answer_of(ran.returncode, output, translated.stdout, name, command)
    answer.source = while_programs.source(data, positions, answer.program)
    return answer


def _options(pivots):
    return [] if pivots is None else ["--pivots", str(pivots)]


def ready():
    """Calls koat once, which compiles it where it isn't there yet, and says so; before calls that come at once."""
    _ran(["generate", "0"], b"", None)


def version(seconds=None):
    """What the program says of itself: its version, the checksum of its sources, and whether it is proved."""
    ran = _ran(["--version"], b"", seconds)
    lines = ran.stdout.decode("latin-1").splitlines() if ran.returncode == 0 else []
    said = dict(it.partition(": ")[::2] for it in lines[1:])
    program = said.get("program")
    return {"version": lines[0].partition(" ")[2] if lines else None, "sources": said.get("sources"),
            "is_proved": None if program is None or program.startswith("none") else program == "proved"}


def replay(answer, run, seconds=None):
    """What koat says of a run file beside the bounds of the program of an answer, and the run."""
    if run == "-":
        raise Stop(WORDS_FAULT, "the file of a run can't be standard input")
    data = read_file(run, MOST_OF_RUN)
    ran = _ran(["replay", "--", "-", run], answer.data, seconds)
    said = ran.stdout.decode("latin-1")
    if ran.returncode in RUN_REFUSALS and said:
        raise Stop(BAD_RUN, f"{run}: {said.splitlines()[0]}")
    try:
        if ran.returncode == 0:
            return runs.read(said, runs.labels(answer.program)), runs.run_of(data)
    except (runs.ReplayError, ValueError, IndexError) as fault:
        raise Stop(KOAT_FAILED, f"koat's replay can't be read: {fault}") from fault
    raise Stop(KOAT_FAILED, f"koat ended with status {ran.returncode}" + (f": {said.splitlines()[0]}" if said else ""))


def prove(answer, pivots=None, seconds=None):
    """The text of the proof file that koat writes of a program that it took: of what its report says."""
    command = "certify" if answer.report.is_best else "prove"
    ran = _ran([command, *_options(pivots), "-"], answer.data, seconds)
    if ran.returncode not in (0, 1):
        raise Stop(KOAT_FAILED, f"koat ended with status {ran.returncode}")
    return ran.stdout


def check(answer, data, seconds=None):
    """What koat's checker says of a proof file's text, line by line; a refusal of the text ends the call."""
    said = judged(answer, data, seconds)
    if said[0].startswith("proof refused"):
        raise Stop(BAD_PROOF, f"the proof: {said[0]}")
    return said


def judged(answer, data, seconds=None):
    """The same, where the line of a refusal is one of those."""
    with tempfile.NamedTemporaryFile() as file:
        file.write(data)
        file.flush()
        ran = _ran(["check", "--", "-", file.name], answer.data, seconds)
    said = ran.stdout.decode("latin-1").splitlines()
    if ran.returncode not in (0, PROOF_REFUSED, NOT_ACCEPTED) or not said:
        raise Stop(KOAT_FAILED, f"koat ended with status {ran.returncode}" + (f": {said[0]}" if said else ""))
    return said


def takes_lasso(answer, data, seconds=None):
    """Whether koat says of a lasso file's text that its turn can be repeated in the program of an answer."""
    with tempfile.NamedTemporaryFile() as file:
        file.write(data)
        file.flush()
        ran = _ran(["lasso", "--", "-", file.name], answer.data, seconds)
    return ran.returncode == 0


# Whether koat's line on which program answers was let through: once is enough.
_SAID = threading.Event()

# The calls of a thread, where they have limits of their own and can be ended.
_THREAD = threading.local()


@contextlib.contextmanager
def within(calling):
    """Within it this thread calls koat by `calling`, a `calls.Calls`."""
    _THREAD.calling = calling
    try:
        yield
    finally:
        del _THREAD.calling


def _ran(words, data, seconds):
    """koat's call with these words and this standard input."""
    path = program_path()
    if getattr(_THREAD, "calling", None):
        return _ran_within(words, data, _THREAD.calling)
    error = subprocess.DEVNULL if _SAID.is_set() else None
    try:
        ran = subprocess.run([path, *words], input=data, stdout=subprocess.PIPE, stderr=error, timeout=seconds,
                             check=False)
        if words != ["--version"]:
            _SAID.set()
        return ran
    except subprocess.TimeoutExpired as fault:
        raise Stop(KOAT_FAILED, f"koat had no answer within {seconds} seconds") from fault
    except OSError as fault:
        raise Stop(NO_KOAT, f"{path} can't be run: {fault.strerror}") from fault


def _ran_within(words, data, calling):
    """The same by calls that can be ended."""
    status, output, problem = calling.call(words, data)
    if problem:
        raise Stop(KOAT_FAILED, f"koat had no answer: {problem}")
    return subprocess.CompletedProcess(words, status, output)


def answer_of(status, output, data, name, command=ANALYSE):
    """The answer that koat gave of a text by its status and its output, asked by this command."""
    text = output.decode("latin-1")
    read = reports.read_best if command == BEST else reports.read
    if status in (0, 1):
        try:
            return Answer(data, name, report=read(text), program=programs.read(data))
        except (reports.ReportError, programs.ProgramError) as fault:
            raise Stop(KOAT_FAILED, f"koat's report can't be read: {fault}") from fault
    if status == REFUSED:
        match = re.fullmatch(r"program refused(?: at ([0-9]+))?: (.*)\n", text)
        if match:
            at = match.group(1)
            return Answer(data, name, refusal=Refusal(text.rstrip("\n"), at and int(at), match.group(2)))
    if status == WORDS_FAULT and text:
        raise Stop(WORDS_FAULT, f"koat doesn't take these words: {text.splitlines()[0]}")
    raise Stop(KOAT_FAILED, f"koat ended with status {status}" + (f": {text.splitlines()[0]}" if text else ""))
