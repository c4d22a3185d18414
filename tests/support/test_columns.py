"""What columns show of records, by a table."""

import unittest

from support.columns import SORTS, faults_of_entries, sorts_of_refusal

HEAD = "names=3\nname=a\nname=b\nname=c\nequations=0\nterms=2\nterm=act a\n"


class Columns(unittest.TestCase):
    def test_where_in_a_list_the_fault_is(self):
        cases = [
            ("term=block 0 zz,a,b,c", 3, 14, {"3 in the first entry"}),
            ("term=block 0 a,zz,b,c", 3, 16, {"3 in the second entry"}),
            ("term=block 0 a,b,zz,c,zz", 3, 18, {"3 in the middle entry", "two of 3"}),
            ("term=block 9 a,b,c,zz", 3, 20, {"3 in the last entry", "4 before 3"}),
            ("term=allow 0 a:0,a:1,A:1,a:2", 2, 22, {"2 in the middle entry", "5 before 2"}),
            ("term=allow 0 a:1,a:,zz:1,a:2", 2, 20, {"2 in the second entry", "2 before 3"}),
            ("term=comm 0 a:2>b,a:1>b,a:3>b,a:2>c", 5, 19, {"5 in the second entry", "two of 5"}),
            ("term=block 9 a,b,a,b", 4, 12, {"4 before 5"}),
            ("term=block 0 a,zz", 3, 16, set()),
            ("term=seq 1 2", 4, 10, {"two of 4"}),
            ("term=seq 0 1", 4, 12, set()),
        ]
        for line, number, column, sorts in cases:
            with self.subTest(line):
                self.check(HEAD + line + "\nroot=1\norder=all\n", number, 8, column, sorts)

    def test_where_a_line_is_stuck(self):
        cases = [
            ("names=25\n", 1, 7, {"a count out of range"}),
            ("names=100\n", 1, 9, {"inside a number"}),
            ("name=3\n", 1, 5, {"inside a key"}),
            ("", 1, 1, {"a missing line"}),
            (HEAD, 8, 1, {"a missing line"}),
            (HEAD + "term=su", 8, 8, {"a line without LF", "inside a kind"}),
            (HEAD + "term=su 0\n", 8, 8, {"inside a kind"}),
            (HEAD + "term=sum\n", 8, 9, {"a line cut short"}),
            (HEAD + "term=allow 0 tau\n", 8, 17, {"a line cut short", "behind tau, none or all"}),
            (HEAD + "term=tau\nroot=1\norder=all\n\n", 11, 1, {"bytes after the end"}),
        ]
        for record, line, column, sorts in cases:
            with self.subTest(record):
                self.check(record, 2, line, column, sorts)

    def test_far_to_the_right(self):
        sorts = {"a line without LF", "column 256 or more", "2 in the last entry"}
        self.check(HEAD + f"term=block 0 {'a,' * 130}", 2, 8, 274, sorts)

    def check(self, record, number, line, column, sorts):
        found = set(sorts_of_refusal(record.encode(), number, line, column))
        self.assertEqual(found, sorts)
        self.assertLessEqual(sorts, set(SORTS))

    def test_faults_of_entries(self):
        cases = [
            ("hide", "a,b,c", [0, 0, 0]),
            ("hide", "b,a,a,zz,A", [0, 5, 5, 3, 2]),
            ("rename", "a>b,b>b,b>c,c", [0, 0, 5, 2]),
            ("comm", "a:2>b,a:1>b,a:3>zz,a:1.b:1>c,b:1.a:1>c", [0, 5, 3, 0, 5]),
            ("comm", ",".join(f"a:{count}>b" for count in range(2, 12)), [0] * 8 + [5] * 2),
            ("allow", "a:31,a:32,b:1,a:1.b:0,tau:1,tau", [0, 5, 0, 5, 3, 2]),
        ]
        for kind, entries, faults in cases:
            with self.subTest(entries):
                self.assertEqual(faults_of_entries(kind, entries.split(","), ["a", "b", "c"]), faults)
