"""A table of refusals with what people are shown for each: every number on every
kind of line."""

import dataclasses
import re

# A right description with every kind of line; a case changes one line of it.
LINES = """names=3
name=done
name=busy
name=close
equations=2
terms=11
term=act done
term=tau
term=ref 1
term=sum 0
term=seq 0 2
term=block 4 done,busy
term=hide 4 busy
term=rename 4 done>busy
term=comm 4 done:2>close
term=allow 4 done:1,busy:1
term=delta
equation=4
equation=8
root=9
order=done:1,close:1
""".splitlines()
MISSING, AFTER = "missing", "after the end"
# Each kind of line with the numbers that a refusal of it may have.
NUMBERS = {
    **{kind: {2} for kind in ("names", "equations", "terms", "tau", "delta", MISSING, AFTER)},
    **{kind: {2, 3} for kind in ("name", "act")},
    **{kind: {2, 4} for kind in ("ref", "sum", "seq", "equation", "root")},
    **{kind: {2, 3, 4, 5} for kind in ("block", "hide", "rename", "comm", "allow")},
    "order": {2, 3, 5},
}


def kind_of(line):
    """A line's key, or the kind of its term."""
    key, value = line.split("=")
    return value.split(" ")[0] if key == "term" else key


@dataclasses.dataclass
class Case:
    """A line that stands in the place of one of the description, and what is shown
    for it. Without a line the description ends there; one without LF is the
    last."""

    reason: int
    number: int
    column: int
    line: str
    sentence: str

    def kind(self):
        if self.line is None:
            return MISSING
        return kind_of(LINES[self.number - 1]) if self.number <= len(LINES) else AFTER

    def description(self):
        lines = [f"{line}\n" for line in LINES]
        if self.line is None or not self.line.endswith("\n"):
            del lines[self.number - 1 :]
        lines[self.number - 1 : self.number] = [self.line or ""]
        return "".join(lines).encode("latin-1")

    def refusal(self):
        return (self.reason, self.number, self.column)

    def message(self):
        """All that is shown; a line that is missing is not."""
        told = f"alphabet: line {self.number}, column {self.column}: {self.sentence} (refusal {self.reason})\n"
        if self.line is None:
            return told
        line = re.sub("[^ -~]", "?", self.line.removesuffix("\n"))
        return f"{told}  {line}\n  {'^':>{self.column}}\n"


def case(reason, number, column, line, sentence):
    """A case of a line that has its LF."""
    return Case(reason, number, column, f"{line}\n", sentence)


def not_below(operand, own):
    return f"the operand is term {operand}, but this is term {own}, and operands are below that"


HIGHER = "which has the higher number"
END = "the end of the line is due"
NO_LF = "the text ends here, without the LF that ends a line"
CASES = [
    # The counts.
    case(2, 1, 7, "names=0", "the number of names is 1 to 24, not 0"),
    case(2, 1, 7, "names=25", "the number of names is 1 to 24, not 25"),
    case(2, 1, 7, "names=", "a number is due here, not the end of the line"),
    case(2, 1, 9, "names=25 ", f"after the number 25 {END}, not a space"),
    case(2, 1, 9, "names=250", "a number has at most two digits"),
    case(2, 1, 8, "names=03", "a number has no leading zero"),
    case(2, 1, 8, "names=3\r", "a line ends with LF alone, and not with CR and LF"),
    case(2, 1, 1, "\xef\xbb\xbfnames=3", "this line must begin with 'names=', and here is byte 239"),
    case(2, 1, 6, "names:3", "this line must begin with 'names='"),
    Case(2, 1, 8, "names=3", NO_LF),
    Case(2, 1, 9, "names=25", NO_LF),
    case(2, 5, 11, "equations=17", "the number of equations is 0 to 16, not 17"),
    case(2, 5, 11, "equations=-1", "a number is due here, not '-'"),
    case(2, 5, 1, "name=seal", "this line must begin with 'equations=': 3 of 3 lines 'name=' came before"),
    case(2, 6, 7, "terms=0", "the number of terms is 1 to 96, not 0"),
    case(2, 6, 7, "terms=97", "the number of terms is 1 to 96, not 97"),
    case(2, 6, 5, "term=act done", "this line must begin with 'terms='"),
    # The names.
    case(2, 3, 6, "name=", "a name is due here, not the end of the line"),
    case(2, 3, 6, "name=Busy", "a name begins with a lower-case letter, not 'B'"),
    case(2, 3, 6, "name=1st", "a name begins with a lower-case letter, not '1'"),
    case(2, 3, 8, "name=buSy", "a name has lower-case letters and digits alone, and here is 'S'"),
    case(2, 3, 7, "name=b\xfcsy", "a name has lower-case letters and digits alone, and here is byte 252"),
    case(2, 3, 7, "name=b\0", "a name has lower-case letters and digits alone, and here is byte 0 (NUL)"),
    case(2, 3, 14, "name=abcdefghi", "a name has at most 8 letters and digits"),
    case(2, 3, 10, "name=busy ", f"after the name 'busy' {END}, not a space"),
    case(2, 3, 1, "equations=2", "this line must begin with 'name=': 1 of 3 such lines came before"),
    case(2, 4, 1, "", "this line must begin with 'name=': 2 of 3 such lines came before"),
    case(3, 3, 6, "name=done", "the name 'done' was given before, in line 2"),
    case(3, 3, 6, "name=tau", "the name 'tau' is reserved: no action may have it"),
    # The kinds of terms.
    case(2, 7, 6, "term=", "a kind of term is due here, not the end of the line"),
    case(2, 7, 6, "term=foo 0", "'foo' is no kind of term; docs/FORMAT.md lists them"),
    case(2, 7, 8, "term=acd done", "'acd' is no kind of term; did you mean 'act'?"),
    case(2, 7, 9, "term=all 0", "'all' is no kind of term; did you mean 'allow'?"),
    case(2, 7, 7, "term=a\xe7t done", "'a' is no kind of term, and here is byte 231; docs/FORMAT.md lists them"),
    case(2, 7, 5, "terms=11", "this line must begin with 'term=': 0 of 11 such lines came before"),
    case(2, 7, 9, "term=act", "after 'act' a space and a name are due, not the end of the line"),
    case(2, 7, 9, "term=act\tdone", "after 'act' a space and a name are due, not byte 9 (TAB)"),
    case(2, 7, 10, "term=act  done", "a name is due here, not a space"),
    case(2, 7, 14, "term=act done,busy", f"after the name 'done' {END}, not ','"),
    case(2, 7, 18, "term=act abcdefghi", "a name has at most 8 letters and digits"),
    case(3, 7, 10, "term=act dnoe", "the name 'dnoe' was not given; did you mean 'done'?"),
    case(3, 7, 10, "term=act zz", "the name 'zz' was not given"),
    case(3, 7, 10, "term=act all", "the name 'all' is reserved: no action may have it"),
    case(2, 8, 9, "term=tau 0", f"after 'tau' {END}, not a space"),
    case(2, 17, 11, "term=delta ", f"after 'delta' {END}, not a space"),
    case(2, 17, 1, "equation=4", "this line must begin with 'term=': 10 of 11 such lines came before"),
    # One number, and two.
    case(2, 9, 10, "term=ref x", "a number is due here, not 'x'"),
    case(4, 9, 10, "term=ref 2", "the reference is to equation 2, but the equations are numbered from 0 to 1"),
    case(2, 10, 11, "term=sum 00", "a number has no leading zero"),
    case(2, 10, 12, "term=sum 100", "a number has at most two digits"),
    case(4, 7, 10, "term=sum 0", "the operand is term 0, but this is term 0, and no term is earlier"),
    case(4, 10, 10, "term=sum 3", not_below(3, 3)),
    case(2, 11, 11, "term=seq 0", "after the number 0 a space and a number are due, not the end of the line"),
    case(2, 11, 12, "term=seq 0 ", "a number is due here, not the end of the line"),
    case(2, 11, 13, "term=seq 0 2 3", f"after the number 2 {END}, not a space"),
    case(4, 11, 12, "term=seq 0 99", not_below(99, 4)),
    case(4, 11, 10, "term=seq 4 99", not_below(4, 4)),
    # Names in a list.
    case(2, 12, 13, "term=block 4", "after the number 4 a space and a list of names are due, not the end of the line"),
    case(2, 12, 19, "term=block 4 done,", "a name is due here, not the end of the line"),
    case(2, 12, 18, "term=block 4 done:1", "after the name 'done' ',' or the end of the line is due, not ':'"),
    case(3, 12, 20, "term=block 99 done,none", "the name 'none' is reserved: no action may have it"),
    case(4, 12, 12, "term=block 5 busy,done", not_below(5, 5)),
    case(5, 12, 19, "term=block 4 busy,done", f"in the list 'done' stands behind 'busy', {HIGHER}"),
    case(5, 12, 24, "term=block 4 done,busy,busy", "in the list 'busy' stands twice"),
    case(2, 13, 14, "term=hide 4 b.sy", "after the name 'b' ',' or the end of the line is due, not '.'"),
    case(3, 13, 13, "term=hide 4 bussy", "the name 'bussy' was not given; did you mean 'busy'?"),
    case(4, 13, 11, "term=hide 6 busy", not_below(6, 6)),
    case(5, 13, 19, "term=hide 4 close,done", f"in the list 'done' stands behind 'close', {HIGHER}"),
    # Pairs.
    case(2, 14, 19, "term=rename 4 none", "after the name 'none' '>' is due, not the end of the line"),
    case(2, 14, 20, "term=rename 4 done>", "a name is due here, not the end of the line"),
    case(2, 14, 24, "term=rename 4 done>busy>done", "after the name 'busy' ',' or the end of the line is due, not '>'"),
    case(3, 14, 20, "term=rename 4 done>none", "the name 'none' is reserved: no action may have it"),
    case(4, 14, 13, "term=rename 7 done>busy", not_below(7, 7)),
    case(5, 14, 25, "term=rename 4 busy>done,done>busy", f"in the list 'done' stands behind 'busy', {HIGHER}"),
    case(5, 14, 25, "term=rename 4 busy>done,busy>busy", "in the list 'busy' stands twice"),
    # Rules.
    case(2, 15, 17, "term=comm 4 done>close", "after the name 'done' ':' and a count are due, not '>'"),
    case(2, 15, 19, "term=comm 4 done:2", "after the count 2 '.' or '>' is due, not the end of the line"),
    case(2, 15, 18, "term=comm 4 done:>close", "a count is due here, not '>'"),
    case(2, 15, 25, "term=comm 4 done:2>close:1", "after the name 'close' ',' or the end of the line is due, not ':'"),
    case(2, 15, 13, "term=comm 4 ,", "a label is due here, not ','"),
    case(3, 15, 20, "term=comm 4 done:2>seal", "the name 'seal' was not given"),
    case(4, 15, 11, "term=comm 8 done:0>close", not_below(8, 8)),
    case(5, 15, 13, "term=comm 4 done:1>close", "a rule takes at least 2 actions, and its left side is 'done:1'"),
    case(5, 15, 26, "term=comm 4 done:2>close,done:2>busy", "in the list 'done:2' stands twice"),
    case(
        5,
        15,
        13 + sum(len(f"done:{count}>close,") for count in range(2, 10)),
        "term=comm 4 " + ",".join(f"done:{count}>close" for count in range(2, 11)),
        "'done:10>close' is entry 9 of its list, which has at most 8 rules",
    ),
    # Labels.
    case(2, 16, 14, "term=allow 4 ", "'none' or a label is due here, not the end of the line"),
    case(2, 16, 17, "term=allow 4 all", "after the name 'all' ':' and a count are due, not the end of the line"),
    case(2, 16, 21, "term=allow 4 done:1.,", "a name is due here, not ','"),
    case(2, 16, 21, "term=allow 4 done:1, busy:1", "a label is due here, not a space"),
    case(2, 16, 18, "term=allow 4 none,busy:1", f"after 'none' {END}, not ','"),
    case(3, 16, 14, "term=allow 4 tau:1", "the name 'tau' is reserved: no action may have it"),
    case(4, 16, 12, "term=allow 9 done:0", not_below(9, 9)),
    case(5, 16, 14, "term=allow 4 done:0", "the count of 'done' in 'done:0' is 0"),
    case(5, 16, 21, "term=allow 4 done:1,done:20.busy:12", "'done:20.busy:12' has 32 actions, and a label has at most 31"),
    case(5, 16, 14, "term=allow 4 busy:1.done:1", f"in 'busy:1.done:1' 'done' stands behind 'busy', {HIGHER}"),
    case(5, 16, 14, "term=allow 4 busy:1.busy:1", "in 'busy:1.busy:1' 'busy' stands twice"),
    case(5, 16, 21, "term=allow 4 busy:1,done:2", f"in the list 'done:2' stands behind 'busy:1', {HIGHER}"),
    # What follows the terms.
    case(2, 18, 10, "equation=a", "a number is due here, not 'a'"),
    case(2, 18, 1, "term=tau", "this line must begin with 'equation=': 0 of 2 such lines came before"),
    case(4, 18, 10, "equation=11", "the body is term 11, but the terms are numbered from 0 to 10"),
    case(2, 20, 1, "equation=0", "this line must begin with 'root=': 2 of 2 lines 'equation=' came before"),
    case(2, 20, 7, "root=007", "a number has no leading zero"),
    case(4, 20, 6, "root=99", "the root is term 99, but the terms are numbered from 0 to 10"),
    case(2, 21, 7, "order=", "'all', 'none' or a label is due here, not the end of the line"),
    case(2, 21, 10, "order=all,done:1", f"after 'all' {END}, not ','"),
    case(2, 21, 11, "order=none,done:1", f"after 'none' {END}, not ','"),
    case(2, 21, 10, "order=tau", "after the name 'tau' ':' and a count are due, not the end of the line"),
    case(2, 21, 11, "order=alll", "after the name 'alll' ':' and a count are due, not the end of the line"),
    case(2, 21, 13, "order=done:1;busy:1", "after the count 1 '.', ',' or the end of the line is due, not ';'"),
    Case(2, 21, 10, "order=all", NO_LF),
    Case(2, 21, 13, "order=done:1", NO_LF),
    Case(2, 21, 10, "order=tau", "after the name 'tau' ':' and a count are due, not the end of the text"),
    case(3, 21, 15, "order=done:99.cloze:1", "the name 'cloze' was not given; did you mean 'close'?"),
    case(5, 21, 15, "order=close:1,done:1", f"in the list 'done:1' stands behind 'close:1', {HIGHER}"),
    case(
        5,
        21,
        7 + sum(len(f"done:{count},") for count in range(1, 32)) + len("busy:1,"),
        "order=" + ",".join([*(f"done:{count}" for count in range(1, 32)), "busy:1", "done:1.busy:1"]),
        "'done:1.busy:1' is entry 33 of its list, which has at most 32 labels",
    ),
    # Where there is no such line, and where there should be none.
    Case(2, 1, 1, None, "this line is missing; it must begin with 'names='"),
    Case(2, 9, 1, None, "this line is missing; it must begin with 'term=': 2 of 11 such lines came before"),
    Case(2, 20, 1, None, "this line is missing; it must begin with 'root='"),
    case(2, 22, 1, "order=all", "nothing may follow the line 'order=..'"),
    case(2, 22, 1, "", "nothing may follow the line 'order=..'"),
    Case(2, 22, 1, "\0", "nothing may follow the line 'order=..'"),
]
