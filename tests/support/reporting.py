"""What the reference says of the records that programs are compared with.

A comparison shows nothing about what is never tried; so whatever should be
tried must not be rare among the records.
"""

import collections
import re

from support import columns, many_names
from support.programs import Failed
from support.syncs import SORTS, sorts_of_sync

ANSWERED = 0
OUTCOMES = [ANSWERED, 1, 2, 3, 4, 5, 7]

# A refusal number, or the answer, with fewer records than this is rare.
FEW_RECORDS = 1000
# The same for a refusal number on one kind of line.
FEW_ON_A_KIND = 40
# The same for a kind of term in descriptions that are answered.
FEW_WITH_A_KIND = 2000

# The same for descriptions that are answered after many rounds.
MANY_ROUNDS = 100
FEW_WITH_MANY_ROUNDS = 100

# The same for a sort of sync in descriptions that are answered.
FEW_WITH_A_SYNC = 2000

# The same for what the column of a refusal shows.
FEW_WITH_A_COLUMN = 100

# The same for each number of names, and for what there is with more than twelve.
FEW_WITH_NAMES = 60

KINDS_OF_TERM = (
    "act tau delta ref sum cond choice ifelse seq merge lmerge sync"
    " block hide rename comm allow"
).split()

# The numbers that a line of each kind can be refused with.
POSSIBLE = {
    **dict.fromkeys(["names", "equations", "terms", "tau", "delta"], [2]),
    **dict.fromkeys(["name", "act"], [2, 3]),
    **dict.fromkeys(["ref", "sum", "cond", "equation", "root"], [2, 4]),
    **dict.fromkeys(["choice", "ifelse", "seq", "merge", "lmerge", "sync"], [2, 4]),
    **dict.fromkeys(["block", "hide", "rename", "comm", "allow"], [2, 3, 4, 5]),
    "order": [2, 3, 5],
}


def report(sample):
    """Prints the counts; ends with Failed if anything is rare."""
    by_class = collections.defaultdict(collections.Counter)
    by_kind = collections.defaultdict(collections.Counter)
    answered_with = collections.Counter()
    syncs = collections.Counter()
    shown = collections.Counter()
    names = collections.Counter()
    rounds = []
    for record, text, name in zip(sample.records, sample.texts, sample.classes):
        outcome, second, column = outcome_of(text)
        by_class[name][outcome] += 1
        by_class["together"][outcome] += 1
        if outcome == ANSWERED:
            rounds.append(second)
            lines = record.split(b"\n")
            answered_with.update({kind_of(line) for line in lines})
            syncs.update(sorts_of_sync(lines))
            names.update(set(many_names.sorts_of_answer(record, text)))
        else:
            by_kind[kind_at(record, second)][outcome] += 1
            if second:
                shown.update(columns.sorts_of_refusal(record, outcome, second, column))
                names.update(many_names.sorts_of_refusal(record, outcome, second, column))
    show("class", by_class)
    show("line refused", by_kind)
    long = sum(count >= MANY_ROUNDS for count in rounds)
    print(f"most rounds: {max(rounds, default=0)}, {MANY_ROUNDS} or more: {long} records")
    print("answered with a sync: " + ", ".join(f"{sort} {syncs[sort]}" for sort in SORTS))
    print("refused with " + ", ".join(f"{sort}: {shown[sort]}" for sort in columns.SORTS))
    print("with many names " + ", ".join(f"{sort}: {names[sort]}" for sort in many_names.SORTS))
    found = rare(by_class["together"], by_kind, answered_with, syncs)
    found += [
        f"{shown[sort]} refused with {sort}"
        for sort in columns.SORTS
        if shown[sort] < FEW_WITH_A_COLUMN
    ]
    found += [f"{names[sort]} with {sort}" for sort in many_names.SORTS if names[sort] < FEW_WITH_NAMES]
    if long < FEW_WITH_MANY_ROUNDS:
        found.append(f"{long} with {MANY_ROUNDS} rounds or more")
    if found:
        raise Failed("too few records: " + "; ".join(found))


def outcome_of(text):
    """The outcome, the rounds of an answer or the line of a refusal, and its
    column."""
    answer = re.match(rb"answer=ok\nrounds=(\d+)\n", text)
    if answer:
        return ANSWERED, int(answer[1]), 0
    refusal = re.fullmatch(rb"answer=refused\nreason=(\d)\nline=(\d+)\ncolumn=(\d+)\n", text)
    if not refusal:
        raise Failed(f"the reference printed {text!r}")
    return tuple(map(int, refusal.groups()))


def kind_at(record, line):
    """The kind of the line with this number, from 1; 0 stands for no line."""
    lines = record.split(b"\n")
    return kind_of(lines[line - 1]) if 0 < line <= len(lines) else "-"


def kind_of(line):
    """The key of a line, or the kind of its term; `-` if it has neither."""
    key, _, value = line.partition(b"=")
    word = (value.partition(b" ")[0] if key == b"term" else key).decode("latin-1")
    return word if word in POSSIBLE else "-"


def show(title, rows):
    heads = ["answered" if outcome == ANSWERED else str(outcome) for outcome in OUTCOMES]
    print(f"{title:24}" + "".join(f"{head:>9}" for head in heads))
    for name, counts in sorted(rows.items(), key=lambda row: (row[0] == "together", row[0])):
        print(f"{name:24}" + "".join(f"{counts[outcome] or '.':>9}" for outcome in OUTCOMES))


def rare(together, by_kind, answered_with, syncs):
    """What there are too few records of, told one by one."""
    found = [
        f"{together[outcome]} with outcome {outcome}"
        for outcome in OUTCOMES
        if together[outcome] < FEW_RECORDS
    ]
    found += [
        f"{by_kind[kind][number]} with {number} on a line of {kind}"
        for kind, numbers in POSSIBLE.items()
        for number in numbers
        if by_kind[kind][number] < FEW_ON_A_KIND
    ]
    found += [
        f"{answered_with[kind]} answered with a term of {kind}"
        for kind in KINDS_OF_TERM
        if answered_with[kind] < FEW_WITH_A_KIND
    ]
    found += [
        f"{syncs[sort]} answered with a sync that is {sort}"
        for sort in SORTS
        if syncs[sort] < FEW_WITH_A_SYNC
    ]
    return found
