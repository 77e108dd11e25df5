"""What a file looks like that is no text of a program: another format, another language, or no text at all."""

import json
import re

# How files begin that are no text of a program, and what they are.
BYTES = [
    (rb"\xff\xfe|\xfe\xff|.\x00.\x00|\x00.\x00.", "the text is in UTF-16: save it as ASCII or UTF-8"),
    (rb"\x1f\x8b|PK\x03\x04|BZh|\xfd7zXZ", "this is a compressed file: unpack it first"),
    (rb"%PDF", "this is a PDF, and no text of a program"),
    (rb"\x7fELF|MZ", "this is an executable program, and no text of a transition system"),
]
READS = "; koat reads the transition systems that docs/format.md describes"
FORMATS = [
    (r"<(\?xml|!DOCTYPE|[a-z]+[ />])", "this looks like XML"),
    (r"\((set-|declare-|define-|assert|check-sat)", "this looks like SMT-LIB"),
    (r"(START|FROM|TO|AT|SHADOW)\s*:|CUTPOINT", "this looks like the format of T2"),
    (r"(#include|(int|void|unsigned|static|extern|long|char)\s+\w+|while\s*\(|for\s*\(|if\s*\(|/\*.*\*/\s*int)",
     "this looks like a program in C"),
    (r"(def|class|import|from|print)\b", "this looks like a program in Python"),
    (r"(public|package|private)\s", "this looks like a program in Java"),
    (r"(fn|use|mod|pub|let)\s", "this looks like a program in Rust"),
    (r"koat-proof\b", "this is a proof file: it stands behind its program, as in `koat check FILE PROOF`"),
    (r"koat-run\b", "this is a run file: it stands behind its program, as in `koat replay FILE RUN`"),
    (r"(bounded|unknown)\s*\ntime 1:", "this is a report of koat, and not the program that it is of"),
]


def other_format(place):
    """What the whole text looks like, where the refusal stands at its beginning."""
    for pattern, said in BYTES:
        if place.at < 8 and re.match(pattern, place.data, re.S):
            return said
    start = place.text.lstrip()
    if place.at > len(place.text) - len(start) + 1:
        return None
    if re.match(r"\{|\[\s*[\[{\"\d]", start) or _is_json(start):
        return "this looks like JSON" + READS
    for pattern, said in FORMATS:
        if re.match(pattern, start, re.S):
            return said + ("" if "koat" in said else READS)
    return None


def _is_json(text):
    try:
        json.loads(text)
    except (ValueError, RecursionError):
        return False
    return True
