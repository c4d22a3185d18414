"""What a refusal means, for people: where it is and one sentence, then the line as
it stands and a caret under the column, as a compiler shows them."""

from faults import wrong_entry, wrong_name, wrong_number
from forms import stuck
from texts import Text
from wording import printable

# A longer line is cut around the column.
MOST_COLUMNS = 72
ELLIPSIS = "..."

# What each number means wherever it is given.
GENERAL = {
    1: "the description has over 8,192 bytes",
    2: "the line is missing, is not the one due here, or does not have its form",
    3: "a name that was not given, or that may not be one",
    4: "an operand, equation, body or root with a number that is not there",
    5: "a count of 0, a label of over 31 actions, or a list that is too long or does not ascend",
    7: "the sets pass a limit: 31 actions in a label, 1,024 labels in a set, 2,048 in all",
}
OF_A_PLACE = {2: stuck, 3: wrong_name, 4: wrong_number, 5: wrong_entry}


def message(description, reason, line, column):
    """The lines to show for a refusal of a description, which is given as bytes."""
    text = Text(description)
    where = f"line {line}, column {column}: " if line else ""
    told = [f"alphabet: {where}{sentence(text, reason, line, column)} (refusal {reason})"]
    if line and text.has(line):
        told += picture(text.line(line), column)
    return "".join(f"{each}\n" for each in told)


def sentence(text, reason, line, column):
    """A place that does not fit the description gets what the number means."""
    general = GENERAL.get(reason, "docs/FORMAT.md says what this means")
    if reason not in OF_A_PLACE:
        return general
    try:
        return OF_A_PLACE[reason](text, line, column) or general
    except (LookupError, TypeError, ValueError):
        return general


def picture(line, column):
    """A line, and below it a caret under the column."""
    start = min(max(0, column - 1 - MOST_COLUMNS // 2), max(0, len(line) - MOST_COLUMNS))
    end = start + MOST_COLUMNS
    before = ELLIPSIS if start > 0 else ""
    after = ELLIPSIS if end < len(line) else ""
    space = " " * (len(before) + column - 1 - start)
    return [f"  {before}{printable(line[start:end])}{after}", f"  {space}^"]
