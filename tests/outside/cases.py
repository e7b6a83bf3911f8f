"""One comparison each: what is handed to a program, and what the model expects.

    Case         a call of a program with its input
    expected     the result by the model
    keep, load   a case as a file that can be replayed
"""

import hashlib
import json
from pathlib import Path
from typing import NamedTuple

from model import calls
from model.ask import ask, ask_by_text, ask_settings, ask_words, ask_words_by_text
from model.report import report

KEPT = Path(__file__).parent / "kept"
# The calls that take values, as arguments and after the text.
VALUES_TAKEN = {"ask": (ask, ask_by_text), "words": (ask_words, ask_words_by_text)}


class Case(NamedTuple):
    """`call` is report, ask, words or settings by a program, or make, check, plq_report or
    plq_answer in C; the other fields as it needs them. For words the question is slot
    values. One that is not given as arguments may follow the plan in `text`."""

    call: str
    text: bytes
    question: tuple = ()
    certificate: bytes = b""
    buffer_length: int = 0
    x_length: int = 0
    z_length: int = 0
    origin: str = "by hand"


def expected(case):
    """What is printed; for a C call the number returned and what is lent, as the
    call leaves it."""
    if case.call == "report":
        return report(case.text)
    if case.call == "settings":
        return ask_settings(case.text)
    if case.call in VALUES_TAKEN:
        by_arguments, by_text = VALUES_TAKEN[case.call]
        return by_arguments(case.text, case.question) if case.question else by_text(case.text)
    return _called(case)


def _called(case):
    if case.call == "make":
        return calls.make_certificate(case.text, case.buffer_length)
    if case.call == "check":
        return calls.check_certificate(case.text, case.certificate), b""
    if case.call == "plq_report":
        return calls.report(case.text, case.buffer_length)
    lent = (case.x_length, case.z_length)
    return calls.answer(case.text, case.certificate, case.question, *lent)


def keep(case, folder=KEPT):
    """Write the case to a file named after its content."""
    content = json.dumps(
        {
            "call": case.call,
            "text": case.text.decode("latin-1"),
            "question": list(case.question),
            "certificate": case.certificate.hex(),
            "buffer_length": case.buffer_length,
            "x_length": case.x_length,
            "z_length": case.z_length,
            "origin": case.origin,
        },
        indent=1,
    )
    folder.mkdir(exist_ok=True)
    path = folder / f"{case.call}-{hashlib.sha256(content.encode()).hexdigest()[:12]}.json"
    path.write_text(content + "\n")
    return path


def load(path):
    """The case in a file."""
    content = json.loads(Path(path).read_text())
    return Case(
        content["call"],
        content["text"].encode("latin-1"),
        tuple(content["question"]),
        bytes.fromhex(content["certificate"]),
        content["buffer_length"],
        content.get("x_length", 0),
        content.get("z_length", 0),
        content["origin"],
    )


def kept_cases():
    """Every case kept so far."""
    return [load(path) for path in sorted(KEPT.glob("*.json"))]
