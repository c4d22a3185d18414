"""A law that does not hold of some description is found, and one that is none
and holds of all."""

import contextlib
import io
import random
import unittest
from unittest import mock

from support import regrouping
from support.programs import Failed

ANSWER = b"answer=ok\nrounds=1\nlabels=1\nlabel=%d:1\n"


class Regrouping(unittest.TestCase):
    def check(self, answer):
        """The check with a program that answers each text by itself."""
        with contextlib.redirect_stdout(io.StringIO()) as said:
            with mock.patch.object(regrouping, "answered", lambda records: [answer(record) for record in records]):
                regrouping.check_regrouping(20)
        return said.getvalue()

    def test_both_forms_have_the_same_names_and_as_many_lines(self):
        for name, form in (regrouping.LAWS | regrouping.NO_LAWS).items():
            for number in range(20):
                before, after = regrouping.described(random.Random(f"{name} {number}"), form)
                with self.subTest(name=name, number=number):
                    self.assertEqual(len(before.splitlines()), len(after.splitlines()))
                    self.assertEqual(before.splitlines()[:5], after.splitlines()[:5])

    def test_a_law_that_does_not_hold(self):
        with self.assertRaisesRegex(Failed, "hide twice changes an answer"):
            self.check(lambda record: ANSWER % len(record))

    def test_no_law_that_holds(self):
        with self.assertRaisesRegex(Failed, "comm over merge changes no answer"):
            self.check(lambda record: ANSWER % 1)

    def test_descriptions_without_labels(self):
        with self.assertRaisesRegex(Failed, "block over merge is tried on 0 labels alone"):
            self.check(lambda record: b"answer=refused\nreason=7\nline=0\ncolumn=0\n")

    def test_descriptions_that_are_not_well_formed(self):
        with self.assertRaisesRegex(Failed, "a law is tried on a description that is not well-formed"):
            self.check(lambda record: b"answer=refused\nreason=4\nline=9\ncolumn=6\n")


if __name__ == "__main__":
    unittest.main()
