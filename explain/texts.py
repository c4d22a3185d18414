"""A description as its lines, and which line is due at each number.

Bytes are read as Latin-1, in which every byte is one character: columns count
bytes, and a description may hold any."""

import dataclasses
import re

# The keys in the order of their lines, and those that may stand on several.
KEYS = ("names", "name", "equations", "terms", "term", "equation", "root", "order")
SEVERAL = ("name", "term", "equation")


@dataclasses.dataclass
class Due:
    """The key that is due in a line, and how many lines with it come before."""

    key: str
    there: int


class Text:
    """A description. Lines are counted from 1; one that is not there is empty."""

    def __init__(self, description):
        self._lines = description.decode("latin-1").split("\n")

    def line(self, number):
        return self._lines[number - 1] if 0 < number <= len(self._lines) else ""

    def is_ended(self, number):
        """Whether a line is there and has its LF."""
        return 0 < number < len(self._lines)

    def has(self, number):
        return self.is_ended(number) or self.line(number) != ""

    def count_of(self, key):
        """How many lines with this key the description says it has. What follows
        the first bad line decides nothing, so that a count may be missing."""
        if key not in SEVERAL:
            return 1
        # Behind the names stands the number of equations, and then that of terms.
        place = {"name": 1, "equation": 2, "term": 3}[key]
        before = 0 if key == "name" else self.count_of("name")
        told = re.fullmatch("[a-z]+=([0-9]{1,2})", self.line(before + place))
        return int(told[1]) if told else 0

    def due(self, number):
        """What is due in a line; behind the last one nothing is, with no key."""
        before = number - 1
        for key in KEYS:
            count = self.count_of(key)
            if before < count:
                return Due(key, before)
            before -= count
        return Due("", before)

    def names(self, number):
        """The names that are given above a line."""
        last = min(number - 1, 1 + self.count_of("name"))
        return [self.line(at)[len("name=") :] for at in range(2, last + 1)]
