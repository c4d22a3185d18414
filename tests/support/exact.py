"""The lists held to what runs show. Where each term is of a kind with an exact
list, an answer lists the labels that are met on runs and no others; else it
lists all that are met, and may list more. The reference follows the runs by
the rules for these, which say nothing of sets."""

import collections
import dataclasses
import re

from support.comparing import shown
from support.pages import examples
from support.programs import TOP, Failed
from support.records import answered
from support.reporting import ANSWERED, KINDS_OF_TERM, kind_of, outcome_of

EXACT_KINDS = "act tau sum cond choice ifelse seq merge hide rename comm".split()
OTHER_KINDS = [kind for kind in KINDS_OF_TERM if kind not in EXACT_KINDS]

# The records that are made for this, and so many of those that are not.
CLASS = "exact-kinds"
OTHER_CLASSES = ("well-formed", "recursion", "communication", "sync-operands", "spread-names", "across-12")
MOST_OF_OTHER_CLASSES = 2000

# Exact lists of several labels in fewer records than this are rare.
FEW_EXACT = 1200
# The same for those of them with one kind of term.
FEW_WITH_A_KIND = 250
# Exact lists of any length, cut to one sort of order.
FEW_WITH_AN_ORDER = 25
# Lists with a label that no run shows, for one other kind alone.
FEW_LARGER = 25

ORDERS = ("all", "none", "labels")

# Of each other kind, an example and what it lists though no run shows it.
UNSEEN = {
    "delta": "done:1",
    "ref": "done:1",
    "block": "done:1",
    "allow": "done:1",
    "sync": "start:1",
    "lmerge": "start:1.arm:1",
}
# The texts of the examples that docs/EXACT.md speaks of, as the proofs read them.
PROVED_TEXTS = "crates/grammar/proofs/Texts.antt"
MET = re.compile(rb"answer=ok\nexact=(yes|no)\nruns=(all|some)\nlabels=(\d+)\n((?:label=.+\n)*)")


@dataclasses.dataclass
class Met:
    """What the reference says of the runs of a description that is answered."""

    is_exact: bool
    are_all: bool
    labels: list

    @staticmethod
    def read(text):
        parts = MET.fullmatch(text)
        if not parts or int(parts[3]) != len(labels_of(text)):
            raise Failed(f"the reference printed {text!r}")
        return Met(parts[1] == b"yes", parts[2] == b"all", labels_of(text))


def labels_of(text):
    return re.findall(rb"^label=(.+)$", text, re.MULTILINE)


def agrees(answer, text):
    """Whether an answer lists what it should beside the text about runs."""
    if outcome_of(answer)[0] != ANSWERED:
        return text == answer
    met, listed = Met.read(text), labels_of(answer)
    if met.is_exact and met.are_all:
        return listed == met.labels
    return set(met.labels) <= set(listed)


def answers(sample, classes, most=None):
    """The places of the records in some classes that are answered."""
    places = [at for at, name in enumerate(sample.classes) if name in classes]
    return [at for at in places if outcome_of(sample.texts[at])[0] == ANSWERED][:most]


def made_to_follow(sample, most=None):
    """The records that are made for this, so many of them at most."""
    return sample.only("runs-to-follow", answers(sample, [CLASS], most))


def check_exact(sample):
    """Ends with Failed at a record that lists what it should not, or does not
    list what it should, or if anything that should be tried is rare."""
    places = answers(sample, [CLASS]) + answers(sample, OTHER_CLASSES, MOST_OF_OTHER_CLASSES)
    sample = sample.only("runs-followed", places)
    tally = Tally()
    for record, answer, text in zip(sample.records, sample.texts, answered(sample.records, "--runs")):
        check_one("a record", record, answer, text)
        tally.take(record, labels_of(answer), Met.read(text))
    tally.tell(len(sample.records))


def check_one(name, record, answer, text):
    fault = ""
    if not agrees(answer, text):
        fault = "does not list what its runs show"
    elif outcome_of(answer)[0] == ANSWERED and Met.read(text).is_exact == bool(other_kinds(record)):
        fault = "has other kinds of terms than is said"
    if fault:
        raise Failed(f"{name} {fault}:\n{shown(record)}--- the answer:\n{shown(answer)}--- on runs:\n{shown(text)}")


def kinds(record):
    return {kind_of(line) for line in record.split(b"\n")} & set(KINDS_OF_TERM)


def sort_of_order(record):
    order = re.search(rb"^order=(.+)$", record, re.MULTILINE)[1].decode()
    return order if order in ORDERS else "labels"


def other_kinds(record):
    return kinds(record) & set(OTHER_KINDS)


class Tally:
    """What was tried, of descriptions all of whose runs were followed."""

    def __init__(self):
        self.exact = 0
        self.with_a_kind = collections.Counter()
        self.with_an_order = collections.Counter()
        self.larger = collections.Counter()
        self.followed = 0

    def take(self, record, listed, met):
        if not met.are_all:
            return
        self.followed += 1
        others = other_kinds(record)
        if not others:
            self.with_an_order[sort_of_order(record)] += 1
        if not others and len(listed) > 1:
            self.exact += 1
            self.with_a_kind.update(kinds(record))
        if len(others) == 1 and len(met.labels) < len(listed):
            self.larger.update(others)

    def tell(self, records):
        """Prints the counts; ends with Failed if one is too small."""
        larger = ", ".join(f"{kind} {self.larger[kind]}" for kind in OTHER_KINDS)
        orders = ", ".join(f"{order} {self.with_an_order[order]}" for order in ORDERS)
        print(f"runs of {records} records, all of them in {self.followed}: {self.exact} exact lists of several labels")
        print(f"exact lists by their order: {orders}; larger lists with one other kind: {larger}", flush=True)
        rare = [f"{self.exact} exact lists of several labels"] if self.exact < FEW_EXACT else []
        rare += few(self.with_a_kind, EXACT_KINDS, FEW_WITH_A_KIND, "exact lists with")
        rare += few(self.with_an_order, ORDERS, FEW_WITH_AN_ORDER, "exact lists with order")
        rare += few(self.larger, OTHER_KINDS, FEW_LARGER, "larger lists with")
        if rare:
            raise Failed("too few records: " + "; ".join(rare))


def few(counts, wanted, least, told):
    return [f"{counts[kind]} {told} {kind}" for kind in wanted if counts[kind] < least]


def check_exact_examples(top=TOP):
    """Ends with Failed if an example lists what it should not, or one that is to
    show a label on no run does not, or docs/EXACT.md does not tell of it."""
    found = followed_examples(top)
    for name, example in found.items():
        check_one(name, *example)
    page = (top / "docs" / "EXACT.md").read_text()
    faults = [fault for kind in OTHER_KINDS for fault in [*wrong_about(kind, found), *untold(kind, page)]]
    faults += [*misled(page, found), *unproved(top, found)]
    if faults:
        raise Failed("; ".join(faults))
    exact = sum(b"\nexact=yes\n" in text for _, __, text in found.values())
    print(f"{exact} examples have exact lists, and {len(OTHER_KINDS)} a label on no run, as docs/EXACT.md says")


def followed_examples(top=TOP, program=None):
    """Of each example the description, the answer and the text about runs."""
    names = examples(top)
    files = [[(top / "examples" / f"{name}.{end}").read_bytes() for name in names] for end in ("txt", "expected")]
    return dict(zip(names, zip(*files, answered(files[0], "--runs", program=program))))


def wrong_about(kind, found):
    """What is wrong about the example for a kind, if anything."""
    name, label = f"unseen-{kind}", UNSEEN[kind]
    if name not in found:
        return [f"there is no example {name}"]
    record, answer, text = found[name]
    faults = []
    if other_kinds(record) != {kind}:
        faults.append(f"{name} has other kinds than {kind} beside those with an exact list")
    if label.encode() not in labels_of(answer):
        faults.append(f"{name} does not list {label}")
    if not Met.read(text).are_all or label.encode() in Met.read(text).labels:
        faults.append(f"a run of {name} may show {label}")
    return faults


def untold(kind, page):
    """What docs/EXACT.md does not tell of a kind, if anything."""
    rows = [line for line in page.splitlines() if line.startswith("|") and f"`unseen-{kind}`" in line]
    if not any(f"`{UNSEEN[kind]}`" in row for row in rows):
        yield f"docs/EXACT.md has no row with unseen-{kind} and {UNSEEN[kind]}"


def misled(page, found):
    """The answered examples of which the command on docs/EXACT.md does not say
    whether every term is of a kind with an exact list."""
    command = re.search(r"^    grep -E '(.+)' examples/\S+$", page, re.MULTILINE)
    if not command:
        yield "docs/EXACT.md shows no command that finds other kinds"
        return
    for name, (record, answer, text) in found.items():
        if outcome_of(answer)[0] == ANSWERED:
            prints_nothing = not re.search(command[1].encode(), record, re.MULTILINE)
            if prints_nothing != Met.read(text).is_exact:
                yield f"the command on docs/EXACT.md misleads about {name}"


def unproved(top, found):
    """The examples for exact lists whose lines are not those of a text that the
    proofs read."""
    proofs = " ".join((top / PROVED_TEXTS).read_text().split())
    for name, (record, _, __) in found.items():
        if name.startswith(("exact-", "unseen-")):
            lines = "".join(f'"{line}" ∷ ' for line in record.decode().splitlines())
            if f"= {lines}[]" not in proofs:
                yield f"{PROVED_TEXTS} has no text with the lines of {name}"


def seen_in_examples(program):
    """The examples for a kind of which a program that is damaged shows more."""
    found = followed_examples(program=program)
    return [f"unseen-{kind}" for kind in OTHER_KINDS if wrong_about(kind, found)]
