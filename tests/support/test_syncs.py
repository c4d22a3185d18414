"""Each sort of sync is told from the others."""

import unittest

from support.syncs import ONCE_REFUSED, SORTS, sorts_of_sync


class Syncs(unittest.TestCase):
    def test_each_sort(self):
        cases = [
            ("act a|tau|choice 0 1", ""),
            ("act a|tau|sync 0 1", "narrow"),
            ("act a|sync 0 0|sync 1 0", "narrow,narrow in narrow"),
            ("act a|delta|sync 1 0", "narrow,narrow over delta"),
            ("delta|sync 0 0|tau|sync 2 1", "narrow,narrow over delta,narrow in narrow"),
            ("act a|ref 0|sync 0 1", "wide"),
            ("delta|sum 0|sync 1 0", "wide"),
            ("act a|hide 0 a|sync 0 0|sync 2 1", "narrow,wide,narrow in wide"),
            ("act a|sum 0|sync 0 1|sync 0 2", "wide,wide in wide"),
        ]
        for terms, sorts in cases:
            lines = [b"names=1", *(f"term={term}".encode() for term in terms.split("|")), b"root=0"]
            with self.subTest(terms=terms):
                self.assertEqual(sorts_of_sync(lines), {sort for sort in sorts.split(",") if sort})

    def test_what_was_refused(self):
        self.assertEqual(set(SORTS) - set(ONCE_REFUSED), {"narrow", "narrow in narrow"})


if __name__ == "__main__":
    unittest.main()
