"""A pair whose halves or answers are not as docs/LAWS.md says is found."""

import contextlib
import io
import unittest

from support.in_folder import InFolder
from support.laws import NO_LAW, OPERATORS, check_laws
from support.programs import Failed

ONE = "answer=ok\nrounds=1\nlabels=1\nlabel=done:1\n"
OTHER = "answer=ok\nrounds=1\nlabels=1\nlabel=close:1\n"
LATER = "answer=ok\nrounds=2\nlabels=1\nlabel=done:1\n"


class Laws(InFolder):
    def setUp(self):
        super().setUp()
        self.make_folders("docs", "examples")
        self.shown = []
        self.write("law-twice", ONE, ONE)
        for name in OPERATORS:
            self.write(f"{NO_LAW}{name}-under", ONE, OTHER)
        self.show()

    def write(self, pair, before, after):
        for half, answer in (("before", before), ("after", after)):
            (self.top / "examples" / f"{pair}-{half}.txt").write_text(half)
            (self.top / "examples" / f"{pair}-{half}.expected").write_text(answer)
            self.shown.append(f"`{pair}-{half}`\n")

    def show(self):
        (self.top / "docs" / "LAWS.md").write_text("".join(self.shown))

    def fails(self, told):
        with self.assertRaisesRegex(Failed, told):
            check_laws(self.top)

    def test_right_pairs_are_counted(self):
        with contextlib.redirect_stdout(io.StringIO()) as said:
            check_laws(self.top)
        self.assertIn(f"1 laws and {len(OPERATORS)} that are none", said.getvalue())

    def test_a_law_with_two_answers(self):
        for after in (OTHER, LATER):
            self.write("law-twice", ONE, after)
            with self.subTest(after=after):
                self.fails("law-twice has two answers")

    def test_no_law_with_the_same_labels(self):
        self.write("no-law-hide-under", ONE, LATER)
        self.fails("no-law-hide-under has the same labels twice")

    def test_a_refusal_is_no_answer(self):
        refusal = "answer=refused\nreason=7\nline=0\ncolumn=0\n"
        self.write("law-twice", refusal, refusal)
        self.fails("law-twice is not answered")

    def test_one_description_twice(self):
        (self.top / "examples" / "law-twice-after.txt").write_text("before")
        self.fails("both halves of law-twice are one description")

    def test_a_half_that_is_not_there(self):
        (self.top / "examples" / "law-twice-after.txt").unlink()
        self.fails("law-twice lacks a half")

    def test_a_half_that_is_not_shown(self):
        self.shown = self.shown[1:]
        self.show()
        self.fails("docs/LAWS.md does not show law-twice-before")

    def test_an_operator_without_a_pair(self):
        for half in ("before", "after"):
            (self.top / "examples" / f"no-law-comm-under-{half}.txt").unlink()
        self.fails("no pair shows what is no law of comm")


if __name__ == "__main__":
    unittest.main()
