"""The pairs of descriptions in examples/ that docs/LAWS.md shows: before and
after a regrouping. Of a law both have the same answer, of what is no law other
labels."""

import re

from support.programs import TOP, Failed

LAW = "law-"
NO_LAW = "no-law-"
OPERATORS = ("block", "hide", "rename", "comm", "allow")


def check_laws(top=TOP):
    """Ends with Failed if a pair lacks a half or a place on the page, or its
    answers are not as its name says."""
    page = (top / "docs" / "LAWS.md").read_text()
    halves = sorted(path.stem for path in (top / "examples").glob("*.txt") if path.stem.startswith((LAW, NO_LAW)))
    pairs = sorted({re.sub("-(before|after)$", "", half) for half in halves})
    faults = [f"{pair} lacks a half" for pair in pairs if not {f"{pair}-before", f"{pair}-after"} <= set(halves)]
    faults += [f"docs/LAWS.md does not show {half}" for half in halves if f"`{half}`" not in page]
    for name in OPERATORS:
        if not any(pair.startswith(f"{NO_LAW}{name}-") for pair in pairs):
            faults.append(f"no pair shows what is no law of {name}")
    if not faults:
        faults = [fault for pair in pairs for fault in odd_answers(top / "examples", pair)]
    if faults:
        raise Failed("; ".join(faults))
    laws = sum(pair.startswith(LAW) for pair in pairs)
    print(f"{laws} laws and {len(pairs) - laws} that are none have answers as docs/LAWS.md says")


def odd_answers(examples, pair):
    """What the two answers of a pair have that they should not."""
    halves = [f"{pair}-before", f"{pair}-after"]
    before, after = ((examples / f"{half}.txt").read_text() for half in halves)
    answers = [(examples / f"{half}.expected").read_text() for half in halves]
    if before == after:
        yield f"both halves of {pair} are one description"
    if not all(answer.startswith("answer=ok\n") for answer in answers):
        yield f"{pair} is not answered"
    elif pair.startswith(LAW) and answers[0] != answers[1]:
        yield f"{pair} has two answers"
    elif pair.startswith(NO_LAW) and labels(answers[0]) == labels(answers[1]):
        yield f"{pair} has the same labels twice"


def labels(answer):
    return re.findall("^label=.*$", answer, re.MULTILINE)
