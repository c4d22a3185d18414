"""Additions to a tally: what a program says of each and what the figures are
then, compared with the reference; and the reference held to the words of the
request, which are put into a program here a second time.

A comparison shows nothing about what is never tried, so the additions are
counted by their sorts."""

import collections
import dataclasses
import io
import itertools
import pathlib
import re

from support import additions
from support.additions import BOUND, EMPTY, FIGURES, MOST_LABELS, MOST_ROUNDS, OF_REASONS, REASONS, Verdict
from support.comparing import shown
from support.programs import Failed, built, output_folder, run
from support.reporting import ANSWERED

TAKEN_IN, FIGURE_FULL, NO_SUCH_VERDICT = 0, 17, 18

# The figures that may be full: most rounds are not carried on.
COUNTED = [name for name in FIGURES if name != "rounds"]

# The lines that are printed for a tally, and for an addition.
PRINTED = ("descriptions", "answered", "refused", *OF_REASONS, "labels", "rounds")
LINES_OF_AN_ADDITION = 1 + len(PRINTED)
TEXT = re.compile("".join(rf"{name}=(\d+)\n" for name in ("said", *PRINTED)).encode())

# The end of the input: a record that is not whole, and gets no answer.
NOT_WHOLE = bytes([1] * (additions.RECORD.size - 1))

# What is said of fewer additions than this is rare.
FEW_SAID = 4000
# The same for any sort of addition.
FEW_OF_A_SORT = 60


@dataclasses.dataclass
class Tried:
    """Additions, the file they stand in, and the reference's text for each."""

    path: pathlib.Path
    additions: list
    texts: list


def generate_additions():
    """All additions, answered by the reference."""
    path = output_folder() / "additions"
    found = additions.made()
    path.write_bytes(b"".join(addition.written() for addition in found) + NOT_WHOLE)
    texts = list(texts_of([str(built("reference")), "--additions"], path))
    if len(texts) != len(found):
        raise Failed(f"{len(found)} additions, and {len(texts)} texts of the reference")
    return Tried(path, found, texts)


def texts_of(command, path):
    """What a program prints for each of the additions in a file, one by one."""
    with path.open("rb") as stream:
        lines = io.BytesIO(run(command, stdin=stream))
    return iter(lambda: b"".join(itertools.islice(lines, LINES_OF_AN_ADDITION)), b"")


@dataclasses.dataclass
class Difference:
    """An addition, from 1, for which a program does not print what it should."""

    number: int
    told: str
    expected: bytes
    printed: bytes

    def __str__(self):
        texts = [("the reference prints", self.expected), ("the program prints", self.printed)]
        parts = "".join(f"--- {title}:\n{shown(text)}" for title, text in texts)
        return f"--- addition {self.number}, {self.told}\n{parts}"


def differences(command, tried):
    """Each Difference; what is printed too much is one as well. Ends with Failed
    if the program does not end well."""
    pairs = itertools.zip_longest(tried.texts, texts_of(command, tried.path), fillvalue=b"")
    for number, (expected, text) in enumerate(pairs, 1):
        if text != expected:
            yield Difference(number, in_words(tried, number - 1), expected, text)


def in_words(tried, place):
    """What is added at a place, and to which tally."""
    if place >= len(tried.additions):
        return "which is not there: a record that is not whole is dropped"
    addition = tried.additions[place]
    before = EMPTY if place == 0 else read(tried.texts[place - 1])[2]
    before = addition.figures if addition.begins else before
    figures = ", ".join(f"{name} {before[name]:,}" for name in FIGURES)
    return f"of the sort '{addition.sort}': {addition.verdict},\nadded to {figures}"


def check_additions(program, tried):
    """Ends with Failed at the first addition that a program answers otherwise
    than the reference."""
    difference = next(differences(program, tried), None)
    if difference:
        print(difference, end="", flush=True)
        raise Failed("the tally differs from the reference's")
    print(f"{len(tried.additions)} additions to a tally are answered as by the reference", flush=True)


def read(text):
    """What is said in the text for an addition, how many are refused, and the
    figures."""
    parts = TEXT.fullmatch(text)
    if not parts:
        raise Failed(f"the reference printed {text!r} for an addition")
    said, *numbers = map(int, parts.groups())
    printed = dict(zip(PRINTED, numbers))
    return said, printed.pop("refused"), printed


@dataclasses.dataclass
class Step:
    """An addition, the tally before and after it, and what led to it: the figures
    from which the sequence began, and the verdicts that were taken in since."""

    verdict: Verdict
    before: dict
    said: int
    after: dict
    refused: int
    start: dict
    taken: list


def steps(tried):
    start, after, taken = EMPTY, EMPTY, []
    for addition, text in zip(tried.additions, tried.texts):
        if addition.begins:
            start, after, taken = addition.figures, addition.figures, []
        before, (said, refused, after) = after, read(text)
        if said == TAKEN_IN:
            taken.append(addition.verdict)
        yield Step(addition.verdict, before, said, after, refused, start, taken)


def check_tally(tried):
    """Ends with Failed at an addition of which the reference says what the request
    does not, or if anything that should be tried is rare."""
    counts = collections.Counter()
    for number, step in enumerate(steps(tried), 1):
        fault = "; ".join(faults(step))
        if fault:
            words = in_words(tried, number - 1)
            raise Failed(f"addition {number}: {fault}\n{words}\n{shown(tried.texts[number - 1])}")
        counts.update(sorts_of(step))
    said = ", ".join(f"{name} {counts[name]}" for name in SAID.values())
    sorts = f"{len(SORTS)} sorts, {min(counts[sort] for sort in SORTS)} or more of each"
    full = ", ".join(f"{name} {counts[full_alone(name)]}" for name in COUNTED)
    print(f"{len(tried.additions)} additions to a tally: {said}; {sorts}")
    print(f"one figure alone is full: {full}", flush=True)
    rare = [f"{counts[name]} {name}" for name in SAID.values() if counts[name] < FEW_SAID]
    rare += [f"{counts[sort]} {sort}" for sort in SORTS if counts[sort] < FEW_OF_A_SORT]
    if rare:
        raise Failed("too few additions: " + "; ".join(rare))


def faults(step):
    """What the request does not say of an addition, if anything."""
    if step.said != due(step.before, step.verdict):
        yield f"{due(step.before, step.verdict)} was due"
    if step.said != TAKEN_IN and step.after != step.before:
        yield "what is refused changes the tally"
    if step.after != worked_out(step.taken, step.start):
        yield "the figures are not those of the verdicts taken in"
    if step.refused != sum(step.after[name] for name in OF_REASONS):
        yield "the refusals by number are not as many as are refused"
    if step.start == EMPTY and step.after["answered"] + step.refused != step.after["descriptions"]:
        yield "answered plus refused is not the number of descriptions"


def worked_out(verdicts, start=EMPTY):
    """The figures by a list of verdicts, counted on from where it starts."""
    reasons = collections.Counter(verdict.reason for verdict in verdicts)
    counts = {"descriptions": len(verdicts), "answered": reasons[ANSWERED]}
    counts |= {name: reasons[number] for name, number in zip(OF_REASONS, REASONS)}
    counts["labels"] = sum(verdict.labels for verdict in verdicts)
    rounds = max([start["rounds"], *(verdict.rounds for verdict in verdicts)])
    return {name: start[name] + count for name, count in counts.items()} | {"rounds": rounds}


def due(before, verdict):
    """What must be said of an addition."""
    if not is_legal(verdict):
        return NO_SUCH_VERDICT
    return FIGURE_FULL if full_figures(before, verdict) else TAKEN_IN


def is_legal(verdict):
    if verdict.reason != ANSWERED:
        return verdict in [Verdict(number, 0, 0) for number in REASONS]
    return 0 <= verdict.labels <= MOST_LABELS and 1 <= verdict.rounds <= MOST_ROUNDS


def full_figures(before, verdict):
    """The figures that a verdict would carry past the bound."""
    after = worked_out([verdict], before)
    return [name for name in COUNTED if after[name] > BOUND]


SAID = {TAKEN_IN: "taken in", FIGURE_FULL: "refused with 17", NO_SUCH_VERDICT: "refused with 18"}
NO_REASONS = (6, 8, 9, 11, 17, 18)

# Sorts of legal verdicts, and of those with a single thing wrong.
TAKEN_SORTS = {
    "an answer": lambda verdict: verdict.reason == ANSWERED,
    **{f"refusal {number}": lambda verdict, number=number: verdict.reason == number for number in REASONS},
    "no labels": lambda verdict: verdict.reason == ANSWERED and verdict.labels == 0,
    "1,024 labels": lambda verdict: verdict.labels == MOST_LABELS,
    "1 round": lambda verdict: verdict.rounds == 1,
    "2,049 rounds": lambda verdict: verdict.rounds == MOST_ROUNDS,
}
ILLEGAL_SORTS = {
    **{f"refusal {number}": lambda verdict, number=number: verdict == (number, 0, 0) for number in NO_REASONS},
    "a number of over 32 bits": lambda verdict: verdict.reason > BOUND and verdict[1:] == (0, 0),
    "a refusal with rounds": lambda verdict: verdict.reason in REASONS and verdict.rounds and not verdict.labels,
    "a refusal with labels": lambda verdict: verdict.reason in REASONS and verdict.labels and not verdict.rounds,
    "1,025 labels": lambda verdict: verdict.labels == 1_025 and is_legal(verdict._replace(labels=0)),
    "no rounds": lambda verdict: verdict.rounds == 0 and is_legal(verdict._replace(rounds=1)),
    "2,050 rounds": lambda verdict: verdict.rounds == 2_050 and is_legal(verdict._replace(rounds=1)),
    "legal in the low 32 bits": lambda verdict: is_legal(Verdict(*(number & BOUND for number in verdict))),
}
ROUNDS_SORTS = ("rounds that rise", "rounds that fall", "rounds that stay")


def full_alone(name):
    return f"{SAID[FIGURE_FULL]}: {name} alone"


SORTS = (
    *(f"{SAID[TAKEN_IN]}: {sort}" for sort in TAKEN_SORTS),
    *(f"{SAID[NO_SUCH_VERDICT]}: {sort}" for sort in ILLEGAL_SORTS),
    f"{SAID[NO_SUCH_VERDICT]}: a figure is full as well",
    *map(full_alone, COUNTED),
    *(f"{SAID[TAKEN_IN]}: {name} at the bound then" for name in COUNTED),
    f"{SAID[TAKEN_IN]}: answered and refused are not the descriptions",
    *(f"{SAID[TAKEN_IN]}: {sort}" for sort in ROUNDS_SORTS),
)


def sorts_of(step):
    """What is said of an addition, and of which sorts it is."""
    said = SAID[step.said]
    yield said
    yield from (f"{said}: {sort}" for sort in details(step))


def details(step):
    verdict = step.verdict
    full = full_figures(step.before, verdict)
    if step.said == NO_SUCH_VERDICT:
        yield from (sort for sort, holds in ILLEGAL_SORTS.items() if holds(verdict))
        if full:
            yield "a figure is full as well"
    elif step.said == FIGURE_FULL and len(full) == 1:
        yield f"{full[0]} alone"
    elif step.said == TAKEN_IN:
        yield from (sort for sort, holds in TAKEN_SORTS.items() if holds(verdict))
        yield from (f"{name} at the bound then" for name in COUNTED if step.before[name] < step.after[name] == BOUND)
        if step.after["answered"] + step.refused != step.after["descriptions"]:
            yield "answered and refused are not the descriptions"
        if verdict.reason == ANSWERED and step.before["answered"]:
            most = step.before["rounds"]
            yield ROUNDS_SORTS[0 if verdict.rounds > most else 1 if verdict.rounds < most else 2]
