"""Many files at once: koat's answers as lines of JSON, with a limit on the time and the memory of each, which can be
taken up again where they were interrupted."""

import hashlib
import json
import os
import queue
import sys
import threading
import time

from . import analyser, answers, calls, making, tally, while_programs
from .analyser import Stop

ENDINGS = (".koat", ".its")


def files(paths):
    """The files that paths name, each once, in order: of a folder those below it that end in .koat or .its."""
    found = {}
    for path in paths:
        if not os.path.isdir(path):
            found[path] = True
            continue
        for where, folders, names in os.walk(path):
            folders.sort()
            inside = [os.path.join(where, it) for it in sorted(names) if it.endswith(ENDINGS)]
            found.update({it: True for it in inside if os.path.isfile(it) or not os.path.exists(it)})
    return list(found)


def part(found, which):
    """Every Nth of the files, from the Kth on; `which` is (K, N), K from 0."""
    return found[which[0]::which[1]]


def answered(calling, words, name, version, asked):
    """The line of JSON of a file, as plain data; none where the call was interrupted."""
    begun = time.monotonic()
    told = {"format": answers.FORMAT, "koat": version, "file": name}
    problem, answer = None, None
    try:
        if while_programs.is_named(name):
            raise Stop(analyser.WORDS_FAULT, "many takes rules: `koat translate FILE >NAME.koat` writes them")
        data = analyser.read_file(name)
        told["checksum"] = hashlib.sha256(data).hexdigest()
        status, output, problem = calling.call([*words, "-"], data)
        if problem is None:
            answer = analyser.answer_of(status, output, data, name, asked.by)
    except Stop as stop:
        problem = stop.line
    if problem == "interrupted":
        return None
    told["seconds"] = round(time.monotonic() - begun, 3)
    told["call"] = words
    if answer is None:
        return {**told, "verdict": "no answer", "competition": answers.NO_BOUND, "problem": problem}
    if asked.pages and answer.report:
        try:
            with analyser.within(calling):
                told["page"] = making.write_page(asked.pages, answer, asked.by, asked.pivots, asked.seconds, version)
        except Stop as stop:
            print(f"show: {name}: {stop}", file=sys.stderr)
    return {**told, **answers.as_json(answer, version)}


def earlier(path):
    """The lines of a file of answers, by the names of files; a line that was cut off at the end is taken away."""
    if not os.path.exists(path):
        return {}
    with open(path, "rb+") as file:
        data = file.read()
        whole = data.rfind(b"\n") + 1
        if whole < len(data):
            file.truncate(whole)
    found = {}
    for number, line in enumerate(data[:whole].splitlines(), 1):
        try:
            told = json.loads(line)
            found[told["file"]] = told
        except (ValueError, KeyError, TypeError) as fault:
            raise Stop(analyser.READ_FAULT, f"{path}, line {number} is no answer of `show many`") from fault
    return found


def is_done(told, name, version, words, asked):
    """Whether an earlier line is of this file as it is now, this program and these words, with a page where one is
    wanted."""
    if told is None or told["koat"] != version or told.get("call") != words:
        return False
    if told["verdict"] == "no answer" and asked.retry:
        return False
    if asked.pages and told["verdict"] in ("bounded", "unknown") and not _has_page(told, asked.pages):
        return False
    try:
        return told.get("checksum") == hashlib.sha256(analyser.read_file(name)).hexdigest()
    except Stop:
        return told["verdict"] == "no answer"


def _has_page(told, folder):
    return "page" in told and os.path.exists(os.path.join(folder, told["page"]))


def run(asked, out):
    """Answers all files, writes a line for each, and then the table; 0, or 130 where it was interrupted."""
    words = [asked.by]
    words += [] if asked.pivots is None else ["--pivots", str(asked.pivots)]
    analyser.ready()
    version = analyser.version(asked.seconds)
    before = earlier(asked.resume) if asked.resume else {}
    if asked.pages:
        making.make_folder(asked.pages)
    found = part(files(asked.paths), asked.part)
    left = [it for it in found if not is_done(before.get(it), it, version, words, asked)]
    told = [before[it] for it in found if it not in set(left)] if found else list(before.values())
    calling = calls.Calls(analyser.program_path(), calls.Limits(asked.seconds, asked.memory))
    with open(asked.resume, "a", encoding="utf-8") if asked.resume else _Lines(out) as sink:
        is_whole = _all(calling, asked.jobs, left, lambda it: answered(calling, words, it, version, asked),
                        lambda it: _noted(told, it, sink, len(found)))
    table = "\n".join(tally.lines(told)) + "\n"
    if asked.resume:
        out.write(table)
    else:
        sys.stderr.write(table)
    if asked.html:
        making.write(asked.html, tally.page(told))
    if asked.pages:
        making.write(os.path.join(asked.pages, "index.html"),
                     tally.page(told, [it["file"] for it in told if _has_page(it, asked.pages)]))
    if not is_whole:
        again = f"; the same command with --resume {asked.resume} goes on" if asked.resume else ""
        print(f"show: interrupted after {len(told)} of {len(found)} files{again}", file=sys.stderr)
        return 130
    return 0


class _Lines:
    """Lines that go on at once to what writes the output."""

    def __init__(self, out):
        self.out = out

    def __enter__(self):
        return self.out

    def __exit__(self, *_):
        pass


def _noted(told, one, sink, count):
    """Writes a line whole, and then says how far all is."""
    sink.write(json.dumps(one, ensure_ascii=True) + "\n")
    sink.flush()
    told.append(one)
    shown = one["competition"] if one["verdict"] == "bounded" else one.get("problem", one["verdict"])
    if sys.stderr.isatty():
        print(f"\r\033[K{len(told)} of {count}: {os.path.basename(one['file'])}: {shown}", end="", file=sys.stderr,
              flush=True)
        if len(told) == count:
            print(file=sys.stderr)


def _all(calling, jobs, left, answer, note):
    """Answers these files by so many calls at once; whether all came to their end."""
    todo, done = queue.SimpleQueue(), queue.SimpleQueue()
    for it in left:
        todo.put(it)

    def work():
        while True:
            try:
                name = todo.get_nowait()
            except queue.Empty:
                return
            done.put(answer(name))

    for _ in range(min(jobs, len(left))):
        threading.Thread(target=work, daemon=True).start()
    count = 0
    try:
        while count < len(left):
            one = done.get()
            count += 1
            if one is not None:
                note(one)
    except KeyboardInterrupt:
        calling.stop()
        return False
    return True

