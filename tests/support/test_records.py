"""The records that are generated."""

import io
import unittest

from support import programs
from support.records import read_from, written


def generated(*options):
    return programs.run([str(programs.built("generator")), *options])


class Records(unittest.TestCase):
    def test_what_is_written_is_read(self):
        records = [b"", b"\n", b"12\n", b"names=1\n" * 1000]
        self.assertEqual(list(read_from(io.BytesIO(written(records)))), records)

    def test_the_same_seed_gives_the_same_bytes(self):
        few = ["--size", "1"]
        self.assertEqual(generated(*few, "--seed", "7"), generated(*few, "--seed", "7"))
        self.assertNotEqual(generated(*few, "--seed", "7"), generated(*few, "--seed", "8"))

    def test_a_greater_size_gives_more_records(self):
        one, three = (generated("--size", size) for size in ("1", "3"))
        self.assertLess(len(one), len(three))
