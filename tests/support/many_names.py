"""What records show of more than twelve names: labels and lists with names on both
sides of 11 and 12, here those below and those above.

Which text is right is not asked; this only counts what is tried. A label is read
as its counts, one for each name."""

import re

# The first name above.
ABOVE = 12
MOST_NAMES = 24
MOST_LABELS_LISTED = 100
HEAD = re.compile(rb"names=\d+\n((?:name=.*\n)*)")
WITH_LIST = re.compile(r"^term=(block|hide|rename|comm|allow) \d+ (.*)$|^(order)=(.*)$", re.MULTILINE)
LISTED = re.compile(r"^label=(.*:.*)$", re.MULTILINE)

OF_COUNTS = [f"{count} names" for count in range(1, MOST_NAMES + 1)]
OF_LABELS = [
    *["a label on both sides", "a label of 11 and 12", "a label of over 12 parts"],
    *["labels that differ above alone", "labels that differ below alone", "labels that cross"],
]
OF_LISTS = [
    *[f"{kind} of {what}" for kind in ("block", "hide") for what in ("11", "12", "over 12 names")],
    *["rename of over 12 names", "rename of 11 and 12 for each other", "rename upwards", "rename downwards"],
    *["comm of a left side on both sides", "comm upwards", "comm downwards"],
    *["comm that crosses", "allow that crosses", "order that crosses"],
]
OF_REFUSALS = [
    *[f"{count} names refused" for count in (0, 25, 26, 99)],
    *["a name below given again above", "entries that cross refused"],
]
SORTS = [*OF_COUNTS, *OF_LABELS, *OF_LISTS, *OF_REFUSALS]


def sorts_of_answer(record, text):
    """What a description that is answered shows, as far as it is among SORTS."""
    names = names_of(record)
    yield f"{len(names)} names"
    if len(names) <= ABOVE:
        return
    listed = LISTED.findall(text.decode())[:MOST_LABELS_LISTED]
    yield from sorts_of_labels([read_label(label, names) for label in listed])
    for kind, entries, order, labels in WITH_LIST.findall(record.decode()):
        if (entries or labels) not in ("all", "none"):
            yield from sorts_of_list(kind or order, (entries or labels).split(","), names)


def sorts_of_refusal(record, number, line, column):
    """The same of one that is refused."""
    names = names_of(record)
    if number == 2 and (line, column) == (1, 7):
        yield from (sort for sort in OF_REFUSALS if record.startswith(f"names={sort.split()[0]}\n".encode()))
    if number == 3 and ABOVE + 2 <= line <= len(names) + 1 and names[line - 2] in names[:ABOVE]:
        yield "a name below given again above"
    if number == 5 and len(names) > ABOVE and cross_at(record.split(b"\n")[line - 1].decode(), column, names):
        yield "entries that cross refused"


def names_of(record):
    head = HEAD.match(record)
    return [line[len("name="):] for line in head[1].decode("latin-1").splitlines()] if head else []


def read_label(text, names):
    counts = [0] * len(names)
    for part in text.split("."):
        name, _, count = part.partition(":")
        counts[names.index(name)] += int(count)
    return tuple(counts)


def below(label):
    return label[:ABOVE]


def above(label):
    return label[ABOVE:]


def by_number(label):
    return label[::-1]


def by_names_below_first(label):
    return below(label)[::-1], above(label)[::-1]


def is_on_both_sides(label):
    return any(below(label)) and any(above(label))


def cross(labels):
    """Whether labels that ascend would not if the names below weighed more."""
    keys = [by_names_below_first(label) for label in labels]
    return any(one > other for one, other in zip(keys, keys[1:]))


def cross_at(line, column, names):
    """Whether the labels before and at a column would ascend if the names below
    weighed more."""
    before, at = line[: column - 1], line[column - 1 :]
    if ":" not in at or not before.endswith(","):
        return False
    entries = (re.split("[ =,]", before)[-2], at.split(",")[0])
    one, other = (read_label(entry.partition(">")[0], names) for entry in entries)
    return by_number(one) > by_number(other) and by_names_below_first(one) < by_names_below_first(other)


def sorts_of_labels(labels):
    if any(is_on_both_sides(label) for label in labels):
        yield "a label on both sides"
    if any(label[ABOVE - 1] and label[ABOVE] for label in labels):
        yield "a label of 11 and 12"
    if any(sum(map(bool, label)) > ABOVE for label in labels):
        yield "a label of over 12 parts"
    if len({below(label) for label in labels if any(below(label))}) < sum(any(below(label)) for label in labels):
        yield "labels that differ above alone"
    if len({above(label) for label in labels if any(above(label))}) < sum(any(above(label)) for label in labels):
        yield "labels that differ below alone"
    if cross(labels):
        yield "labels that cross"


def sorts_of_list(kind, entries, names):
    if kind in ("block", "hide"):
        yield from (f"{kind} of {number}" for number in (11, 12) if names[number] in entries)
    if kind in ("block", "hide", "rename") and len(entries) > ABOVE:
        yield f"{kind} of over 12 names"
    if kind == "rename":
        pairs = [tuple(map(names.index, entry.split(">"))) for entry in entries]
        if {(11, 12), (12, 11)} <= set(pairs):
            yield "rename of 11 and 12 for each other"
        yield from (f"rename {way}" for way in ways((one < ABOVE, one >= ABOVE, to) for one, to in pairs))
    if kind in ("comm", "allow", "order"):
        labels = [read_label(entry.partition(">")[0], names) for entry in entries]
        if cross(labels):
            yield f"{kind} that crosses"
    if kind == "comm":
        rights = [names.index(entry.partition(">")[2]) for entry in entries]
        if any(map(is_on_both_sides, labels)):
            yield "comm of a left side on both sides"
        sides = ((any(below(left)), any(above(left)), right) for left, right in zip(labels, rights))
        yield from (f"comm {way}" for way in ways(sides))


def ways(moves):
    """Which ways lead from names below, above or of both sides to a name."""
    for is_below, is_above, to in moves:
        if is_below != is_above and is_below != (to < ABOVE):
            yield "upwards" if is_below else "downwards"
