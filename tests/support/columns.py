"""What the columns of refusals show of the records: where in a line the fault
is that decides, and beside which others it stands.

Lists are looked at here once more, entry by entry, only to count what is tried:
which column is right is not asked."""

import re

# A list with fewer entries has no middle; in one with more the faults are not
# counted, which would take long.
FEW_ENTRIES = 4
MANY_ENTRIES = 40
PLACES = ("first", "second", "middle", "last")

NAME = r"[a-z][a-z0-9]{0,7}"
NUMBER = r"(?:0|[1-9][0-9]?)"
LABEL = rf"{NAME}:{NUMBER}(?:\.{NAME}:{NUMBER})*"
A_NAME, A_LABEL = re.compile(NAME), re.compile(LABEL)
FORMS = {
    **dict.fromkeys(["block", "hide"], A_NAME),
    "rename": re.compile(f"{NAME}>{NAME}"),
    "comm": re.compile(f"{LABEL}>{NAME}"),
    **dict.fromkeys(["allow", "order"], A_LABEL),
}
MOST = {"comm": 8, "allow": 32, "order": 32}
KINDS = "act tau delta ref sum cond choice ifelse seq merge lmerge sync block hide rename comm allow".split()

WITH_LIST = re.compile(r"term=(block|hide|rename|comm|allow) ([^ ]*) (.*)|(order)()=(.*)", re.DOTALL)
WITH_TWO = re.compile(r"term=[a-z]+ (\d+) (\d+)")
COUNT_OF_LINES = re.compile(rf"(names=|equations=|terms=){NUMBER}")

# The numbers of faults that an entry of a list can have.
OF_ENTRIES = (2, 3, 5)

# All that should be tried.
SORTS = [
    *[f"{number} in the {place} entry" for number in OF_ENTRIES for place in PLACES],
    *[f"two of {number}" for number in (2, 3, 4, 5)],
    *[f"{one} before {other}" for one in OF_ENTRIES for other in OF_ENTRIES if one != other],
    *[f"4 before {number}" for number in OF_ENTRIES],
    *["inside a key", "inside a kind", "inside a number", "behind tau, none or all"],
    *["a line cut short", "a line without LF", "a missing line", "bytes after the end"],
    *["a count out of range", "column 256 or more"],
]


def sorts_of_refusal(record, number, line, column):
    """What a refusal shows, as far as it is among SORTS."""
    lines = record.decode("latin-1").split("\n")
    if column >= 256:
        yield "column 256 or more"
    if number == 2:
        yield from sorts_of_form(lines, line, column)
    if number == 4 and both_out_of_range(lines, line):
        yield "two of 4"
    yield from sorts_of_list(lines, line, number, column)


def sorts_of_form(lines, line, column):
    text = lines[line - 1]
    read = text[: column - 1]
    is_last = line == len(lines)
    if line > 1 and lines[line - 2].startswith("order=") and column == 1:
        yield "bytes after the end"
    elif not text and is_last:
        yield "a missing line"
    elif read == text:
        yield "a line without LF" if is_last else "a line cut short"
    if COUNT_OF_LINES.fullmatch(text) and read.endswith("="):
        yield "a count out of range"
    if read and "=" not in read:
        yield "inside a key"
    if re.fullmatch(r"term=[a-z]+", read) and read[len("term="):] not in KINDS:
        yield "inside a kind"
    if read[-1:].isdigit() and text[column - 1 : column].isdigit():
        yield "inside a number"
    if re.search(r"[=,. ](tau|none|all)$", read):
        yield "behind tau, none or all"


def both_out_of_range(lines, line):
    two = WITH_TWO.fullmatch(lines[line - 1])
    return two and all(int(operand) >= number_of_term(lines, line) for operand in two.groups())


def number_of_term(lines, line):
    return sum(other.startswith("term=") for other in lines[: line - 1])


def sorts_of_list(lines, line, number, column):
    """Where in a long list the fault is, and which others are in it."""
    found = WITH_LIST.fullmatch(lines[line - 1])
    if not found:
        return
    kind, operand, entries = [part for part in found.groups() if part is not None]
    start = len(lines[line - 1]) - len(entries)
    at = entries[: max(column - 1 - start, 0)].count(",")
    entries = entries.split(",")
    if len(entries) < FEW_ENTRIES:
        return
    if number in OF_ENTRIES and column > start:
        yield f"{number} in the {place_of(at, len(entries))} entry"
    if len(entries) <= MANY_ENTRIES:
        names = [other[len("name="):] for other in lines if other.startswith("name=")]
        faults = faults_of_entries(kind, entries, names)
        yield from sorts_of_faults(faults, at, number)
        if operand.isdigit() and int(operand) >= number_of_term(lines, line):
            yield from (f"4 before {fault}" for fault in set(faults) if fault)


def sorts_of_faults(faults, at, number):
    """Which faults stand beside the one that decides, before it or behind it."""
    if faults.count(number) > 1:
        yield f"two of {number}"
    if number in OF_ENTRIES:
        others = {0, number}
        yield from (f"{fault} before {number}" for fault in set(faults[:at]) - others)
        yield from (f"{number} before {fault}" for fault in set(faults[at + 1 :]) - others)


def place_of(at, count):
    return "last" if at == count - 1 else PLACES[min(at, 2)]


def faults_of_entries(kind, entries, names):
    """The number of each entry's fault, 0 where it has none."""
    keys = [key_of(kind, entry, names) for entry in entries]
    faults = []
    for at, (entry, key) in enumerate(zip(entries, keys)):
        if not FORMS[kind].fullmatch(entry):
            faults.append(2)
        elif any(word not in names for word in A_NAME.findall(entry)):
            faults.append(3)
        else:
            is_above = at == 0 or keys[at - 1] is None or (key is not None and keys[at - 1] < key)
            faults.append(0 if key is not None and is_above and at < MOST.get(kind, at + 1) else 5)
    return faults


def key_of(kind, entry, names):
    """What an entry is ordered by; None where this cannot be told, or where the
    entry is at fault for itself."""
    left = entry.partition(">")[0]
    if kind not in MOST:
        return names.index(left) if left in names else None
    parts = [part.split(":") for part in left.split(".")]
    if not A_LABEL.fullmatch(left) or any(name not in names for name, _ in parts):
        return None
    numbers = [names.index(name) for name, _ in parts]
    counts = [int(count) for _, count in parts]
    is_orderly = sorted(set(numbers)) == numbers and 0 not in counts
    if not is_orderly or not (2 if kind == "comm" else 1) <= sum(counts) <= 31:
        return None
    return sum(count * 32**number for number, count in zip(numbers, counts))
