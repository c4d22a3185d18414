"""Refusal 2: what was due where a line is stuck.

What stands before the column begins some line of right form, so that little has
to be looked at to tell what may follow: the key, the number of spaces, and in a
list the last separator."""

import re

from texts import KEYS, SEVERAL
from wording import did_you_mean, is_odd, quoted, told_byte

# What the number behind a key may be.
COUNTS = {"names": (1, 24), "equations": (0, 16), "terms": (1, 96)}
# What follows the word of a kind, each part behind a space.
NUMBER, NAME = "a number", "a name"
NAMES, PAIRS, RULES, LABELS = "a list of names", "a list of pairs", "a list of rules", "'none' or a list of labels"
KINDS = {
    "act": [NAME],
    "tau": [],
    "delta": [],
    **{kind: [NUMBER] for kind in ("ref", "sum", "cond")},
    **{kind: [NUMBER, NUMBER] for kind in ("choice", "ifelse", "seq", "merge", "lmerge", "sync")},
    "block": [NUMBER, NAMES],
    "hide": [NUMBER, NAMES],
    "rename": [NUMBER, PAIRS],
    "comm": [NUMBER, RULES],
    "allow": [NUMBER, LABELS],
}
LONGEST_NAME = 8
LINE_END = "the end of the line is due"
MORE_ENTRIES = f"',' or {LINE_END}"


def stuck(text, number, column):
    """The sentence for a line that is stuck at a column."""
    due = text.due(number)
    if not due.key:
        return "nothing may follow the line 'order=..'"
    line, begin = text.line(number), f"{due.key}="
    if not text.has(number):
        return f"this line is missing; it must begin with '{begin}'{lines_there(text, due, line)}"
    at = column - 1
    byte = line[at : at + 1]
    if column <= len(begin):
        return f"this line must begin with '{begin}'{lines_there(text, due, line)}{odd(byte)}"
    before, value = line[len(begin) : at], line[len(begin) :]
    if due.key in COUNTS and before == "" and re.match("[0-9]", byte):
        least, most = COUNTS[due.key]
        return f"the number of {due.key} is {least} to {most}, not {value}"
    if byte == "\r" and at + 1 == len(line):
        return "a line ends with LF alone, and not with CR and LF"
    found = Found(byte, text.is_ended(number))
    if due.key == "name":
        return after_name(before, LINE_END, found)
    if due.key == "term":
        return in_term(before, value, found)
    if due.key == "order":
        return in_labels(before, "'all', 'none' or a label", ("all", "none"), found)
    return after_number(before, LINE_END, found)


def lines_there(text, due, line):
    """How many lines with the key that is due have come; or that those with the key
    that stands there instead are complete."""
    if due.key in SEVERAL:
        return f": {due.there} of {text.count_of(due.key)} such lines came before"
    stands = line.split("=")[0]
    if stands in SEVERAL and KEYS.index(stands) < KEYS.index(due.key):
        count = text.count_of(stands)
        return f": {count} of {count} lines '{stands}=' came before"
    return ""


def odd(byte):
    """Which byte it is, where the line cannot show it."""
    return f", and here is {told_byte(byte)}" if byte and is_odd(byte) else ""


class Found:
    """What stands where a line is stuck."""

    def __init__(self, byte, has_end):
        self.byte = byte
        self.is_text_end = byte == "" and not has_end

    def __str__(self):
        if self.byte:
            return told_byte(self.byte)
        return "the end of the text" if self.is_text_end else "the end of the line"

    def matches(self, pattern):
        return re.match(pattern, self.byte) is not None


def due_here(what, found):
    return f"{what} is due here, not {found}"


def due_after(what, follow, found):
    """What is due behind something that may be complete."""
    if found.is_text_end and follow.endswith(LINE_END):
        return "the text ends here, without the LF that ends a line"
    return f"after {what} {follow}, not {found}"


def after_number(before, follow, found, what=NUMBER):
    if before == "":
        return due_here(what, found)
    if found.matches("[0-9]"):
        return "a number has no leading zero" if before == "0" else "a number has at most two digits"
    return due_after(f"{what.replace('a ', 'the ')} {before}", follow, found)


def after_name(before, follow, found, what=NAME):
    if before == "" and found.matches("[A-Z0-9]"):
        return f"a name begins with a lower-case letter, not {found}"
    if before == "":
        return due_here(what, found)
    if found.matches("[a-z0-9]"):
        return f"a name has at most {LONGEST_NAME} letters and digits"
    if found.matches("[^ ,.:>=]"):
        return f"a name has lower-case letters and digits alone, and here is {found}"
    return due_after(f"the name {quoted(before)}", follow, found)


def in_term(before, value, found):
    kind, *parts = before.split(" ")
    if not parts:
        return in_kind(kind, value, found)
    due = KINDS[kind][len(parts) - 1]
    follow = behind(KINDS[kind], len(parts))
    if due == NUMBER:
        return after_number(parts[-1], follow, found)
    if due == NAME:
        return after_name(parts[-1], follow, found)
    return {NAMES: in_names, PAIRS: in_pairs, RULES: in_rules, LABELS: in_allowed}[due](parts[-1], found)


def in_kind(before, value, found):
    word = re.match("[A-Za-z0-9]*", value)[0]
    if word == "":
        return due_here("a kind of term", found)
    if word == before and word in KINDS:
        return due_after(quoted(word), behind(KINDS[word], 0), found)
    guess = did_you_mean(word, list(KINDS)) or "; docs/FORMAT.md lists them"
    return f"{quoted(word)} is no kind of term{odd(found.byte)}{guess}"


def behind(parts, count):
    """What follows so many parts of a term."""
    return f"a space and {parts[count]} are due" if count < len(parts) else LINE_END


def in_names(before, found):
    return after_name(last_item(before), MORE_ENTRIES, found)


def in_pairs(before, found):
    follow = MORE_ENTRIES if ">" in last_entry(before) else "'>' is due"
    return after_name(last_item(before), follow, found)


def in_rules(before, found):
    if ">" in last_entry(before):
        return after_name(last_item(before), MORE_ENTRIES, found)
    return in_label(before, "'.' or '>' is due", "a label", found)


def in_allowed(before, found):
    return in_labels(before, "'none' or a label", ("none",), found)


def in_labels(before, first, alone, found):
    """In labels, or in one of the words that stand for a whole list of them."""
    if before in alone and not found.matches("[^ ,.:>=]"):
        return due_after(quoted(before), LINE_END, found)
    return in_label(before, f"'.', {MORE_ENTRIES}", "a label" if before else first, found)


def in_label(before, follow, what, found):
    part = last_entry(before).split(".")[-1]
    if ":" in part:
        return after_number(last_item(before), follow, found, "a count")
    return after_name(part, "':' and a count are due", found, NAME if before.endswith(".") else what)


def last_entry(before):
    return before.split(",")[-1]


def last_item(before):
    """What follows the last separator."""
    return re.split("[,.:>]", before)[-1]
