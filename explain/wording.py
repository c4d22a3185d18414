"""How words, bytes and counts are told in a sentence."""

import difflib
import re

# Longer words are cut, so that a sentence stays one.
MOST_OF_A_WORD = 40
CALLED = {0: "NUL", 9: "TAB", 13: "CR"}


def quoted(word):
    """A word of a line, each byte in one column."""
    word = printable(word)
    return f"'{word}'" if len(word) <= MOST_OF_A_WORD else f"'{word[:MOST_OF_A_WORD - 3]}...'"


def printable(text):
    """What a terminal would not show in one column is shown as a question mark,
    which no right line has."""
    return re.sub("[^ -~]", "?", text)


def is_odd(byte):
    """Whether a byte has to be told by its number."""
    return printable(byte) != byte


def told_byte(byte):
    if is_odd(byte):
        called = f" ({CALLED[ord(byte)]})" if ord(byte) in CALLED else ""
        return f"byte {ord(byte)}{called}"
    return {" ": "a space", "'": "a quote"}.get(byte, f"'{byte}'")


def did_you_mean(word, known):
    """A guess at what was meant, where one is near."""
    near = difflib.get_close_matches(word[:MOST_OF_A_WORD], known, 1)
    return f"; did you mean '{near[0]}'?" if near else ""
