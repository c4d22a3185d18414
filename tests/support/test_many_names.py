"""What records show of more than twelve names, by a table."""

import string
import unittest

from support.many_names import SORTS, sorts_of_answer, sorts_of_refusal

LETTERS = string.ascii_lowercase


def description(count, *lines):
    names = [f"name={letter}" for letter in LETTERS[:count]]
    return "\n".join([f"names={count}", *names, "equations=0", "terms=1", *lines, ""]).encode()


class ManyNames(unittest.TestCase):
    def test_labels_that_are_listed(self):
        below, above, cross = "labels that differ below alone", "labels that differ above alone", "labels that cross"
        both, near = "a label on both sides", "a label of 11 and 12"
        cases = [
            ("tau", set()),
            ("l:1 m:1", {cross}),
            ("m:1 n:1", set()),
            ("a:1 l:1", set()),
            ("a:1.m:1", {both}),
            ("l:2.m:1", {both, near}),
            ("a:1 a:1.m:1", {both, above}),
            ("m:1 a:1.m:1", {both, below}),
            ("a:1.x:1 b:1.x:1", {both, below}),
            ("a:1.m:1 a:1.x:1", {both, above}),
            ("b:1.m:1 a:1.x:1", {both, cross}),
            (".".join(f"{letter}:1" for letter in LETTERS[:13]), {both, near, "a label of over 12 parts"}),
        ]
        for labels, sorts in cases:
            with self.subTest(labels):
                text = "answer=ok\n" + "".join(f"label={label}\n" for label in labels.split())
                self.check(sorts_of_answer(description(24), text.encode()), sorts | {"24 names"})

    def test_lists_of_terms_and_of_the_order(self):
        many = LETTERS[:13]
        cases = [
            ("term=block 0 a,x", set()),
            ("term=block 0 l", {"block of 11"}),
            ("term=hide 0 l,m", {"hide of 11", "hide of 12"}),
            ("term=hide 0 " + ",".join(many), {"hide of 11", "hide of 12", "hide of over 12 names"}),
            ("term=rename 0 a>b,m>n", set()),
            ("term=rename 0 a>x", {"rename upwards"}),
            ("term=rename 0 l>m,m>l", {"rename upwards", "rename downwards", "rename of 11 and 12 for each other"}),
            ("term=rename 0 " + ",".join(f"{name}>{name}" for name in many), {"rename of over 12 names"}),
            ("term=comm 0 a:2>b,m:2>n", {"comm that crosses"}),
            ("term=comm 0 a:2>m", {"comm upwards"}),
            ("term=comm 0 m:2>l", {"comm downwards"}),
            ("term=comm 0 l:1.m:1>a", {"comm of a left side on both sides"}),
            ("term=allow 0 m:1,a:1.m:1", set()),
            ("term=allow 0 a:1,m:1", {"allow that crosses"}),
            ("term=allow 0 none", set()),
            ("order=b:1.m:1,a:1.n:1", {"order that crosses"}),
            ("order=all", set()),
        ]
        for line, sorts in cases:
            with self.subTest(line):
                self.check(sorts_of_answer(description(24, line), b"answer=ok\n"), sorts | {"24 names"})

    def test_few_names_show_their_number_alone(self):
        record = description(12, "term=hide 0 l", "order=a:1,l:1")
        self.check(sorts_of_answer(record, b"answer=ok\nlabel=a:1.l:1\n"), {"12 names"})

    def test_what_is_refused(self):
        again = description(24).replace(b"name=m\n", b"name=a\n")
        cases = [
            (description(25), 2, 1, 7, {"25 names refused"}),
            (b"names=99\nname=a\n", 2, 1, 7, {"99 names refused"}),
            (b"names=0\n", 2, 1, 7, {"0 names refused"}),
            (b"names=41\n", 2, 1, 7, set()),
            (b"names=25 \n", 2, 1, 9, set()),
            (again, 3, 14, 6, {"a name below given again above"}),
            (description(24, "term=act z"), 3, 28, 10, set()),
            (description(24, "order=a:1.n:1,b:1.m:1"), 5, 28, 15, {"entries that cross refused"}),
            (description(24, "term=comm 0 a:1.n:1>a,b:1.m:1>a"), 5, 28, 23, {"entries that cross refused"}),
            (description(24, "order=b:1,a:1"), 5, 28, 11, set()),
            (description(24, "order=a:0,m:1"), 5, 28, 7, set()),
            (description(24, "term=hide 0 m,a"), 5, 28, 15, set()),
            (description(12, "order=b:1,a:1"), 5, 16, 11, set()),
        ]
        for record, number, line, column, sorts in cases:
            with self.subTest(record):
                self.check(sorts_of_refusal(record, number, line, column), sorts)

    def check(self, found, sorts):
        self.assertEqual(set(found), sorts)
        self.assertLessEqual(sorts, set(SORTS))


if __name__ == "__main__":
    unittest.main()
