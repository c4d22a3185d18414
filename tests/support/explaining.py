"""What `./alphabet` shows people of a refusal: the table of messages held to the
reference, every refusal of the records explained, and the command itself.

The messages are made by the modules in explain/, which take a description and
the number, line and column of its refusal."""

import re
import subprocess
import sys

from support.comparing import shown
from support.messages import CASES
from support.programs import TOP, Failed
from support.records import answered

sys.path.insert(0, str(TOP / "explain"))
from message import GENERAL, MOST_COLUMNS, message, picture  # pylint: disable=wrong-import-position

COMMAND = [str(TOP / "alphabet")]
REFUSED = b"answer=refused\nreason=%d\nline=%d\ncolumn=%d\n"
REFUSAL = re.compile(rb"answer=refused\nreason=(\d+)\nline=(\d+)\ncolumn=(\d+)\n")
# These have no place, so that nothing more can be said of them.
WITHOUT_PLACE = (1, 7)
# What a sentence says is due, and bytes that may stand for it.
BEGIN = re.compile(r"must begin with '(\w+=)'")
DUE = re.compile(r"column \d+: (?:after (?:the \w+ )?(?:'\w*'|\d+) )?(.*) (?:is|are) due")
STANDS_FOR = {
    "a space": b" ",
    "the end of the line": b"\n",
    "a name": b"a",
    "a label": b"a",
    "a number": b"1",
    "a count": b"1",
    "a kind of term": b"sum",
}
# So many records lie between those whose sentence is tried.
EACH = 10
EXAMPLES = ("refusal-2-no-second-operand", "refusal-3-misspelt-name", "refusal-7-in-an-unused-term", "listing")


def refusal_of(text):
    """The number, line and column that a text tells, or None for an answer."""
    told = REFUSAL.fullmatch(text)
    return tuple(map(int, told.groups())) if told else None


def explained(description, text):
    """What is shown for a description that was given this text."""
    refusal = refusal_of(text)
    return message(description, *refusal).encode() if refusal else b""


def check_messages(sample):
    """Ends with Failed if a case of the table is refused otherwise than it says, a
    refused record is not explained by its own place, or what a sentence says is
    due is not."""
    texts = answered([case.description() for case in CASES])
    for case, text in zip(CASES, texts):
        if text != REFUSED % case.refusal():
            raise Failed(f"'{case.line}' as line {case.number} is refused otherwise:\n{shown(text)}")
    records = [pair for pair in zip(sample.records, sample.texts) if is_explained(*pair)]
    print(f"{len(CASES)} messages fit their refusals; {len(records)} records are explained by their place", flush=True)
    check_what_is_due(records[::EACH])


def is_explained(record, text):
    """Whether a text is a refusal with a place. Its sentence must say more than its
    number does, and not ask for the very thing that stands there."""
    refusal = refusal_of(text)
    if refusal is None or refusal[0] in WITHOUT_PLACE:
        return False
    told = message(record, *refusal)
    wanted, _, found = told.split(" (refusal")[0].rpartition(", not ")
    if GENERAL[refusal[0]] in told or (" due" in wanted and found in wanted):
        raise Failed(f"this message does not help:\n{told}--- for\n{shown(record)}")
    return True


def check_what_is_due(refused):
    """Lets each record go on with what the sentence says is due."""
    tries = [each for record, text in refused for each in mended(record, refusal_of(text))]
    for (text, due, told), printed in zip(tries, answered([text for text, _, _ in tries])):
        # A line that has not ended is stuck at its end; one that has may be right.
        if (refusal_of(printed) == due) == text.endswith(b"\n"):
            raise Failed(f"what this says is due is not:\n{told}--- for\n{shown(text)}{shown(printed)}")
    print(f"{len(tries)} times something is said to be due, and it is", flush=True)


def mended(record, refusal):
    """The record up to the place, with what is due there; and with which refusal it
    then meets or, where a line was ended, no longer meets."""
    reason, line, column = refusal
    told = message(record, *refusal)
    before = b"".join(part + b"\n" for part in record.split(b"\n")[: line - 1])
    begin = BEGIN.search(told)
    if begin:
        yield before + begin[1].encode(), (reason, line, len(begin[1]) + 1), told
    for due in said_due(told):
        at = len(before) + column - 1
        yield record[:at] + due, (reason, line, column + len(due.strip(b"\n"))), told


def said_due(told):
    """Bytes with which a line may go on by a sentence. What stands behind "and" is
    due after them."""
    wanted = DUE.search(told)
    each = re.split(", (?=')| or ", wanted[1].split(" and ")[0]) if wanted else []
    return [STANDS_FOR.get(what) or what.strip("'").encode() for what in each]


def check_explaining():
    """Ends with Failed if the command prints something else when it explains, or
    does not show what it should; over examples, and bytes that are not kept with
    ease."""
    given = [(TOP / "examples" / f"{name}.txt").read_bytes() for name in EXAMPLES]
    given += [case.description() for case in CASES if re.search("[^ -~\n]", case.line or "")]
    given += [b"", b"\n\n", bytes(8193), b"\n" * 1_000_000]
    # The first run may prove and build, which it tells on standard error.
    run_command(b"")
    for description in given:
        plain, asked = run_command(description), run_command(description, "--explain")
        if asked.stdout != plain.stdout:
            raise Failed(f"with --explain it prints\n{shown(asked.stdout)}--- and without\n{shown(plain.stdout)}")
        if plain.stderr or asked.stderr != explained(description, plain.stdout):
            raise Failed(f"for\n{shown(plain.stdout)}--- it shows\n{shown(plain.stderr + asked.stderr)}")
    print(f"the command explains the refusals of {len(given)} descriptions, and prints what it did", flush=True)


def run_command(description, *arguments):
    done = subprocess.run([*COMMAND, *arguments], input=description, capture_output=True, check=False)
    if done.returncode != 0:
        raise Failed(f"{COMMAND[0]} ends with {done.returncode}:\n{shown(done.stderr)}")
    return done
