"""Holding the texts of any program against those of the reference."""

import concurrent.futures
import contextlib
import dataclasses
import operator
import os
import subprocess
import threading

from support.programs import Failed
from support.records import Broken, read_from


@dataclasses.dataclass
class Difference:
    """A record, from 1, for which a program does not print what it should."""

    number: int
    record: bytes
    expected: bytes
    printed: bytes

    def __str__(self):
        parts = [
            (f"record {self.number} ({len(self.record)} bytes)", self.record),
            ("the reference prints", self.expected),
            ("the program prints", self.printed),
        ]
        return "".join(f"--- {title}:\n{shown(text)}" for title, text in parts)


def shown(text):
    """The bytes as lines; what is not printable or has no LF is told."""
    *lines, last = text.decode("latin-1").split("\n")
    result = "".join(escaped(line) + "\n" for line in lines)
    return result + (escaped(last) + " (no line end)\n" if last else "")


def escaped(line):
    return line.encode("unicode_escape").decode()


def differences(command, sample, seconds=None, agrees=operator.eq):
    """Runs the command with `--batch` over the sample and yields each
    Difference, that is where the text expected does not agree with the one
    printed. Ends with Failed if the program does not answer each record once,
    does not end well, or takes more seconds than it may."""
    program = started(command, sample)
    limit = threading.Timer(seconds or threading.TIMEOUT_MAX, program.kill)
    limit.daemon = True
    limit.start()
    try:
        yield from differing(program.stdout, sample, agrees)
        status = program.wait()
        if status != 0:
            raise Failed(f"every text is there, but {command[0]} {how_it_ended(program)}")
    except Broken as fault:
        raise Failed(f"{command[0]} {how_it_ended(program)}: {fault}") from fault
    finally:
        limit.cancel()
        program.kill()
        program.wait()
        program.stdout.close()


def started(command, sample):
    with sample.path.open("rb") as records:
        try:
            return subprocess.Popen(
                [*command, "--batch"], stdin=records, stdout=subprocess.PIPE
            )
        except OSError as fault:
            raise Failed(f"{command[0]} cannot be run: {fault.strerror}") from fault


def how_it_ended(program):
    try:
        status = program.wait(timeout=1)
    except subprocess.TimeoutExpired:
        return "is still running"
    return f"ended with {status}" if status >= 0 else f"was ended by signal {-status}"


def differing(stream, sample, agrees):
    """Each Difference in a stream of texts. Broken if there is not one text
    for each record."""
    texts = read_from(stream)
    pairs = zip(sample.records, sample.texts)
    for number, (record, expected) in enumerate(pairs, 1):
        try:
            printed = next(texts)
        except (Broken, StopIteration) as fault:
            which = f"record {number} of {len(sample.records)}"
            raise Broken(f"no text for {which}: {fault}\n{shown(record)}") from fault
        if not agrees(expected, printed):
            yield Difference(number, record, expected, printed)
    if stream.read(1):
        raise Broken(f"more texts than the {len(sample.records)} records")


def first_difference(command, sample, seconds=None, agrees=operator.eq):
    """The first Difference, or None."""
    with contextlib.closing(differences(command, sample, seconds, agrees)) as found:
        return next(found, None)


def dealt_out(command, sample):
    """A Difference, or None, and else the texts of the program: the records are
    dealt out to as many runs of it as there are processors."""
    count = os.cpu_count() or 1
    printed = [[] for _ in range(count)]
    with concurrent.futures.ThreadPoolExecutor(count) as runs:
        found = list(runs.map(lambda part, texts: difference_beside(command, part, texts), sample.parts(count), printed))
    for at, difference in enumerate(found):
        if difference:
            return dataclasses.replace(difference, number=(difference.number - 1) * count + at + 1), []
    texts = list(sample.texts)
    for at, of_part in enumerate(printed):
        texts[at::count] = of_part
    return None, texts


def difference_beside(command, sample, texts):
    """The first Difference, or None; the texts up to there are added to the list."""

    def agrees(expected, printed):
        texts.append(printed)
        return expected == printed

    return first_difference(command, sample, agrees=agrees)
