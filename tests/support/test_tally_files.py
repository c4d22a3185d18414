"""A tally over files that is not right is found, and a file that is not named."""

import contextlib
import io
import sys
import unittest
from unittest import mock

from support import programs, tally_files
from support.additions import EMPTY, Verdict
from support.in_folder import InFolder
from support.programs import Failed
from support.records import Sample
from support.tally_files import FOLDER, NO_FILE

RIGHT = b"right\n"
# A program that finds in its arguments what it prints, what it ends with where a
# file is missing, what it tells of such a file, and each how many files it tells
# how far it is.
CODE = """
import os, sys
printed, ends_with, told, each, *files = sys.argv[1:]
print(printed)
for file in files:
    if not os.path.isfile(file):
        print(told.format(file), file=sys.stderr)
for done in range(int(each), len(files) + 1, int(each)):
    print("tally:", done, "of", len(files), "files", file=sys.stderr)
sys.exit(int(ends_with) if not all(map(os.path.isfile, files)) else 0)
"""


def program(printed="right", ends_with="1", told="left out: {}", each="100"):
    return [sys.executable, "-c", CODE, printed, ends_with, told, each]


class Files(unittest.TestCase):
    def fails(self, check, told):
        with contextlib.redirect_stdout(io.StringIO()), self.subTest(told=told):
            with self.assertRaisesRegex(Failed, told):
                check()

    def test_a_program_that_is_right(self):
        with contextlib.redirect_stdout(io.StringIO()) as said:
            tally_files.check_files(program(), RIGHT)
            tally_files.check_many_files(program(), program())
        self.assertIn("examples is right", said.getvalue())
        self.assertIn("the tally over 250 files is right", said.getvalue())

    def test_what_is_wrong_is_told(self):
        cases = [
            (program("wrong"), "another tally was due:\nright\n--- printed:\nwrong\n"),
            (program(ends_with="0"), "it ended with 0, not 1:\nleft out: examples"),
            (program(told="one is left out"), "examples/no-such-file.txt is not named on standard error"),
            (["no-such-program"], "no-such-program cannot be run"),
        ]
        for command, told in cases:
            self.fails(lambda command=command: tally_files.check_files(command, RIGHT), told)
        # By default the tally is the one worked out from what is expected.
        self.fails(lambda: tally_files.check_files(program()), "another tally was due:\ndescriptions=")

    def test_what_is_wrong_over_many_files(self):
        cases = [
            (program(each="1000"), "does not tell how far it is"),
            (program(each="200"), "does not tell how far it is"),
            (program("wrong"), "another tally was due:\nright\n"),
        ]
        for command, told in cases:
            self.fails(lambda command=command: tally_files.check_many_files(command, program()), told)

    def test_what_is_named(self):
        cases = [
            ("{}: cannot be read", []),
            ("'{}'", []),
            ("left out: some/where/{}.", []),
            ("{}2", [NO_FILE, FOLDER]),
            ("my-{}", [NO_FILE, FOLDER]),
        ]
        for told, due in cases:
            stderr = "".join(f"{told.format(name)}\n" for name in (NO_FILE, FOLDER)).encode()
            self.assertEqual(self.unnamed(stderr), due, told)
        self.assertEqual(self.unnamed(NO_FILE.encode()), [FOLDER])
        self.assertEqual(self.unnamed(f"{FOLDER}: {FOLDER}/other.txt".encode()), [NO_FILE])

    def unnamed(self, stderr):
        done = mock.Mock(stdout=RIGHT, stderr=stderr, returncode=1)
        return [fault.split(" is not named")[0] for fault in tally_files.odd(done, RIGHT, 1, [NO_FILE, FOLDER])]


class Records(InFolder):
    def check(self, due):
        sample = Sample(None, [b"one", b"two"], [], [])
        folder = mock.patch.object(programs, "OUTPUT", self.top)
        with folder, mock.patch.object(tally_files, "RECORDS", 2), contextlib.redirect_stdout(io.StringIO()):
            tally_files.check_records(program(), program(due), sample)

    def test_the_records_are_written(self):
        self.check("right")
        folder = self.top / "tally" / "some records"
        written = {path.name: path.read_bytes() for path in folder.iterdir()}
        self.assertEqual(written, {"0.txt": b"one", "1.txt": b"two"})

    def test_what_is_wrong_is_told(self):
        for due, told in (("other", "another tally was due:\nother"), ("a=1\nreason5=0\nb=1", "reason5 is not tried")):
            with self.subTest(told=told), self.assertRaisesRegex(Failed, told):
                self.check(due)


class Texts(unittest.TestCase):
    def test_the_verdict_in_a_text(self):
        cases = [
            (b"answer=ok\nrounds=2\nlabels=1\nlabel=a:1\n", Verdict(0, 2, 1)),
            (b"answer=ok\nrounds=12\nlabels=0\n", Verdict(0, 12, 0)),
            (b"answer=refused\nreason=7\nline=0\ncolumn=0\n", Verdict(7, 0, 0)),
            (b"answer=refused\nreason=4\nline=9\ncolumn=6\n", Verdict(4, 0, 0)),
        ]
        for text, due in cases:
            self.assertEqual(tally_files.verdict_of(text), due)

    def test_the_text_of_a_tally(self):
        figures = EMPTY | {"descriptions": 3, "answered": 1, "reason4": 1, "reason10": 1, "labels": 5, "rounds": 2}
        due = "descriptions=3 answered=1 refused=2 reason1=0 reason2=0 reason3=0 reason4=1 reason5=0 reason7=0"
        due += " reason10=1 labels=5 rounds=2 "
        self.assertEqual(tally_files.text_of(figures), due.replace(" ", "\n").encode())


if __name__ == "__main__":
    unittest.main()
