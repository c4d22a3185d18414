"""Refusals 3, 4 and 5: the name, the number or the entry that begins at the
column, and what is wrong with it. The line has its form, so that it can be taken
apart by its separators."""

import re

from wording import did_you_mean, quoted

RESERVED = ("tau", "none", "all")
MOST_ACTIONS = 31
LEAST_ON_THE_LEFT = 2
# The most entries of a list, with the word for them.
MOST_ENTRIES = {"comm": (8, "rules"), "allow": (32, "labels"), "order": (32, "labels")}


def wrong_name(text, number, column):
    name = re.match("[a-z][a-z0-9]*", text.line(number)[column - 1 :])[0]
    if name in RESERVED:
        return f"the name {quoted(name)} is reserved: no action may have it"
    names = text.names(number)
    if text.due(number).key == "name":
        return f"the name {quoted(name)} was given before, in line {names.index(name) + 2}"
    return f"the name {quoted(name)} was not given{did_you_mean(name, names)}"


def wrong_number(text, number, column):
    told = int(re.match("[0-9]+", text.line(number)[column - 1 :])[0])
    due = text.due(number)
    if due.key != "term":
        what = "body" if due.key == "equation" else "root"
        return f"the {what} is term {told}, {numbered(text, 'term')}"
    if re.match("term=ref ", text.line(number)):
        return f"the reference is to equation {told}, {numbered(text, 'equation')}"
    if due.there == 0:
        return f"the operand is term {told}, but this is term 0, and no term is earlier"
    return f"the operand is term {told}, but this is term {due.there}, and operands are below that"


def numbered(text, key):
    count = text.count_of(key)
    if count < 2:
        return f"but there is {'only ' + key + ' 0' if count else 'no ' + key}"
    return f"but the {key}s are numbered from 0 to {count - 1}"


def wrong_entry(text, number, column):
    line, names = text.line(number), text.names(number)
    begin = re.match("order=|term=([a-z]+) [0-9]+ ", line)
    kind = begin[1] or "order"
    entries = line[begin.end() :].split(",")
    at = line[begin.end() : column - 1].count(",")
    return next(faults(kind, entries, at, names), None)


def faults(kind, entries, at, names):
    """What is wrong with an entry, each as a sentence. Those before it are right."""
    entry, left = entries[at], left_side(entries[at])
    if kind in MOST_ENTRIES:
        most, many = MOST_ENTRIES[kind]
        if at >= most:
            yield f"{quoted(entry)} is entry {at + 1} of its list, which has at most {most} {many}"
        yield from faults_of_label(kind, left, names)
    if at > 0 and place(left, names) <= place(left_side(entries[at - 1]), names):
        yield out_of_order(left, left_side(entries[at - 1]), names)


def faults_of_label(kind, label, names):
    parts = parts_of(label)
    for name, count in parts:
        if count == 0:
            yield f"the count of {quoted(name)} in {quoted(label)} is 0"
    actions = sum(count for _, count in parts)
    if actions > MOST_ACTIONS:
        yield f"{quoted(label)} has {actions} actions, and a label has at most {MOST_ACTIONS}"
    for (one, _), (other, _) in zip(parts, parts[1:]):
        if names.index(other) <= names.index(one):
            yield f"in {quoted(label)} {ascending(quoted(other), quoted(one), one == other)}"
    if kind == "comm" and actions < LEAST_ON_THE_LEFT:
        yield f"a rule takes at least {LEAST_ON_THE_LEFT} actions, and its left side is {quoted(label)}"


def out_of_order(left, before, names):
    return f"in the list {ascending(quoted(left), quoted(before), place(left, names) == place(before, names))}"


def ascending(later, one, is_same):
    return f"{later} stands twice" if is_same else f"{later} stands behind {one}, which has the higher number"


def left_side(entry):
    return entry.split(">")[0]


def parts_of(label):
    parts = [part.split(":") for part in label.split(".")]
    return [(name, int(count)) for name, count in parts]


def place(left, names):
    """What the left sides of a list ascend by: the number of a name, or the counts
    of a label from the last name down."""
    if ":" not in left:
        return names.index(left)
    counts = dict(parts_of(left))
    return [counts.get(name, 0) for name in reversed(names)]
