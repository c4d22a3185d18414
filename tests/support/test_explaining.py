"""People are shown for each refusal what it means, on every kind of line; and the
command prints what its program prints."""

import contextlib
import io
import os
import pty
import shutil
import subprocess
import sys
import unittest
from unittest import mock

from support import explaining
from support.explaining import GENERAL, MOST_COLUMNS, REFUSED
from support.explaining import explained, is_explained, mended, message, picture, said_due
from support.in_folder import InFolder
from support.messages import CASES, LINES, NUMBERS
from support.programs import TOP, Failed

MISSPELT = (TOP / "examples" / "refusal-3-misspelt-name.txt").read_bytes()
SHOWN = """alphabet: line 7, column 10: the name 'dnoe' was not given; did you mean 'done'? (refusal 3)
  term=act dnoe
           ^
"""


class Messages(unittest.TestCase):
    def test_each_case_of_the_table(self):
        for case in CASES:
            with self.subTest(line=case.line, number=case.number):
                told = message(case.description(), *case.refusal())
                if len(case.line or "") <= MOST_COLUMNS:
                    self.assertEqual(told, case.message())
                else:
                    self.assertIn(f": {case.sentence} (refusal {case.reason})\n  ...", told)

    def test_each_number_is_tried_on_each_kind_of_line(self):
        tried = {kind: set() for kind in NUMBERS}
        for case in CASES:
            tried[case.kind()].add(case.reason)
        for kind, numbers in NUMBERS.items():
            self.assertLessEqual(numbers, tried[kind], kind)

    def test_a_message_in_full(self):
        self.assertEqual(message(MISSPELT, 3, 7, 10), SHOWN)
        self.assertEqual(explained(MISSPELT, REFUSED % (3, 7, 10)), SHOWN.encode())
        self.assertEqual(explained(MISSPELT, b"answer=ok\nrounds=1\nlabels=0\n"), b"")

    def test_refusals_without_a_place_are_a_sentence(self):
        self.assertEqual(message(bytes(8193), 1, 0, 0), "alphabet: the description has over 8,192 bytes (refusal 1)\n")
        told = "alphabet: the sets pass a limit: 31 actions in a label, 1,024 labels in a set, 2,048 in all (refusal 7)\n"
        self.assertEqual(message(b"", 7, 0, 0), told)
        self.assertEqual(message(b"", 10, 0, 0), "alphabet: docs/FORMAT.md says what this means (refusal 10)\n")

    def test_other_counts_of_lines(self):
        few = b"names=1\nname=a\nequations=%d\nterms=1\n"
        many = b"names=24\n" + b"".join(b"name=n%d\n" % at for at in range(24)) + b"equations=0\nterms=2\nterm=act n9\n"
        cases = [
            (few % 0 + b"term=ref 0\n", (4, 5, 10), "the reference is to equation 0, but there is no equation"),
            (few % 1 + b"term=ref 1\n", (4, 5, 10), "the reference is to equation 1, but there is only equation 0"),
            (few % 0 + b"term=tau\nroot=1\n", (4, 6, 6), "the root is term 1, but there is only term 0"),
            (few % 0 + b"term=tau\nterm=tau\n", (2, 6, 1), "begin with 'root=': 1 of 1 lines 'term=' came before"),
            (many.replace(b"=n23", b"=n12"), (3, 25, 6), "the name 'n12' was given before, in line 14"),
            (many + b"term=block 0 n9,n23,n12\n", (5, 29, 21), "'n12' stands behind 'n23', which has the higher number"),
        ]
        for description, refusal, sentence in cases:
            self.assertIn(f" {sentence} (refusal", message(description, *refusal))

    def test_a_place_that_does_not_fit_gets_what_the_number_means(self):
        text = "".join(f"{line}\n" for line in LINES).encode()
        for refusal in [(3, 7, 1000), (3, 2, 6), (4, 7, 6), (5, 1, 1), (5, 12, 14), (3, 99, 1), (2, 7, 13)]:
            self.assertIn(refusal[0], GENERAL)
            self.assertRegex(message(text, *refusal), rf"^alphabet: line {refusal[1]}, .* \(refusal {refusal[0]}\)\n")
        self.assertIn(GENERAL[5], message(text, 5, 12, 14))
        self.assertIn(GENERAL[3], message(text, 3, 99, 1))

    def test_what_does_not_help_is_found(self):
        wrong = [(5, 12, 14), (2, 11, 11), (3, 7, 1000)]
        for refusal in wrong:
            with self.assertRaisesRegex(Failed, "does not help"):
                is_explained("".join(f"{line}\n" for line in LINES).encode(), REFUSED % refusal)
        self.assertTrue(is_explained(MISSPELT, REFUSED % (3, 7, 10)))
        self.assertFalse(is_explained(MISSPELT, REFUSED % (7, 0, 0)))
        self.assertFalse(is_explained(MISSPELT, b"answer=ok\nrounds=1\nlabels=0\n"))


    def test_what_is_said_to_be_due(self):
        cases = [
            ("after the count 1 '.', ',' or the end of the line is due, not ';'", [b".", b",", b"\n"]),
            ("after 'seq' a space and a number are due, not the end of the line", [b" "]),
            ("after the name 'tau' ':' and a count are due, not the end of the line", [b":"]),
            ("after the number 1 a space and 'none' or a list of labels are due, not '.'", [b" "]),
            ("'all', 'none' or a label is due here, not ','", [b"all", b"none", b"a"]),
            ("a kind of term is due here, not '>'", [b"sum"]),
            ("a number has no leading zero", []),
        ]
        for sentence, due in cases:
            self.assertEqual(said_due(f"alphabet: line 7, column 10: {sentence} (refusal 2)\n"), due)

    def test_a_record_goes_on_with_what_is_due(self):
        by_sentence = [(text, due) for text, due, _ in mended(b"names=1\nname=a,b\n", (2, 2, 7))]
        self.assertEqual(by_sentence, [(b"names=1\nname=a\n", (2, 2, 7))])
        by_key = [(text, due) for text, due, _ in mended(b"names=1\nterm=tau\n", (2, 2, 1))]
        self.assertEqual(by_key, [(b"names=1\nname=", (2, 2, 6))])


    def test_what_is_not_due_is_found(self):
        refused = [(b"names=1\nname=a,b\n", REFUSED % (2, 2, 7)), (b"names=1\nterm=tau\n", REFUSED % (2, 2, 1))]

        def check(*refusals):
            texts = [REFUSED % refusal for refusal in refusals]
            with mock.patch.object(explaining, "answered", lambda _: texts):
                with contextlib.redirect_stdout(io.StringIO()) as said:
                    explaining.check_what_is_due(refused)
            return said.getvalue()

        self.assertIn("2 times", check((2, 3, 1), (2, 2, 6)))
        self.assertRaisesRegex(Failed, "says is due is not", check, (2, 2, 7), (2, 2, 6))
        self.assertRaisesRegex(Failed, "says is due is not", check, (2, 3, 1), (2, 2, 5))

    def test_a_table_that_does_not_fit_is_found(self):
        texts = [REFUSED % case.refusal() for case in CASES[:-1]] + [REFUSED % (2, 1, 1)]
        with mock.patch.object(explaining, "answered", lambda _: texts):
            with self.assertRaisesRegex(Failed, "as line 22 is refused otherwise"):
                explaining.check_messages(None)


class Pictures(unittest.TestCase):
    def test_each_byte_has_one_column(self):
        self.assertEqual(picture("a\tb\r\0\x7f\xe9c", 8), ["  a?b????c", "         ^"])

    def test_the_caret_may_stand_behind_the_line(self):
        self.assertEqual(picture("", 1), ["  ", "  ^"])
        self.assertEqual(picture("term=", 6), ["  term=", "       ^"])

    def test_a_long_line_is_cut_around_the_column(self):
        line = "".join(chr(ord("a") + at % 26) for at in range(1000))
        for column in (1, 2, 36, 37, 38, 72, 73, 500, 963, 964, 965, 1000):
            above, below = picture(line, column)
            self.assertEqual(above[below.index("^")], line[column - 1])
            self.assertLessEqual(len(above), 2 + 3 + MOST_COLUMNS + 3)
            self.assertEqual(above.startswith("  ..."), column > 37)
            self.assertEqual(above.endswith("..."), column < 965)
        self.assertEqual(picture(line, 1001)[1].index("^"), len(picture(line, 1001)[0]))
        self.assertEqual(picture(line[:72], 72)[0], f"  {line[:72]}")

    def test_a_long_word_is_cut(self):
        told = message(b"names=1\nname=a\nequations=0\nterms=1\nterm=" + b"x" * 5000, 2, 5, 6)
        self.assertIn(f": '{'x' * 37}...' is no kind of term; docs/FORMAT.md lists them (refusal 2)\n  term=xxx", told)
        self.assertLess(max(map(len, told.splitlines())), 130)


# In the place of the kit, a program that keeps what it reads, and prints and ends
# with what the files beside it say.
KIT = """find_program() { program=$top/program; }
run_built() { "$@"; }
"""
PROGRAM = """#!/bin/sh
cd "$(dirname "$0")" && cat >read && cat prints && exit "$(cat ends)"
"""
# Commands without which nothing runs; python3 is none of them.
NEEDED = ("bash", "sh", "cat", "head", "base64", "dirname", "env")


def read_terminal(terminal):
    """All that was written to a terminal whose other side is closed: reading then
    fails at the end."""
    told = b""
    with os.fdopen(terminal, "rb", buffering=0) as stream, contextlib.suppress(OSError):
        while True:
            told += stream.read(4096)
    return told


class Command(InFolder):
    def setUp(self):
        super().setUp()
        self.make_folders(".ci", "bin")
        shutil.copy(TOP / "alphabet", self.top)
        shutil.copytree(TOP / "explain", self.top / "explain")
        (self.top / ".ci" / "kit").write_text(KIT)
        (self.top / "program").write_text(PROGRAM)
        (self.top / "program").chmod(0o755)
        for name in NEEDED:
            (self.top / "bin" / name).symlink_to(shutil.which(name))
        (self.top / "bin" / "python3").symlink_to(sys.executable)
        self.program_does(REFUSED % (3, 7, 10))

    def program_does(self, prints, ends=0):
        (self.top / "prints").write_bytes(prints)
        (self.top / "ends").write_text(str(ends))

    def run_it(self, *arguments, given=MISSPELT, **options):
        path = {"PATH": str(self.top / "bin")}
        done = {"stdout": subprocess.PIPE, "stderr": subprocess.PIPE, "input": given, **options}
        return subprocess.run([self.top / "alphabet", *arguments], env=path, check=False, timeout=60, **done)

    def expect(self, done, printed, told, status=0):
        self.assertEqual((done.stdout, done.stderr, done.returncode), (printed, told, status))

    def test_a_refusal_is_explained_when_asked_for(self):
        self.expect(self.run_it(), REFUSED % (3, 7, 10), b"")
        self.expect(self.run_it("--explain"), REFUSED % (3, 7, 10), SHOWN.encode())

    def test_an_answer_is_not_explained(self):
        for answer in (b"answer=ok\nrounds=1\nlabels=0\n", b"answer=ok\nrounds=1\nlabels=9999\n" + b"label=a:1\n" * 9999):
            self.program_does(answer)
            self.expect(self.run_it("--explain"), answer, b"")

    def test_what_is_printed_stays_as_it_is(self):
        for odd in (b"", b"x", b"\n\n\n", b"answer=refused\nreason=3\nline=7\ncolumn=10\n\n", b"a\\n%s.\n"):
            self.program_does(odd)
            self.expect(self.run_it("--explain"), odd, b"")

    def test_the_program_reads_what_was_given(self):
        for given in (b"", b"\0", b"a\0\r\n\xff\n\n\n", bytes(range(256)) * 32, b"\n" * 8193):
            for arguments in ([], ["--explain"]):
                self.run_it(*arguments, given=given)
                self.assertEqual((self.top / "read").read_bytes(), given)

    def test_of_what_is_far_too_long_a_byte_too_many_is_enough(self):
        self.program_does(REFUSED % (1, 0, 0))
        done = self.run_it("--explain", given=b"names=1\n" * 1_000_000)
        self.expect(done, REFUSED % (1, 0, 0), message(b"", 1, 0, 0).encode())
        self.assertEqual((self.top / "read").stat().st_size, 8193)

    def test_without_python_the_place_is_told(self):
        (self.top / "bin" / "python3").unlink()
        told = b"alphabet: line 7, column 10: refusal 3 (docs/FORMAT.md says what it means)\n"
        self.expect(self.run_it("--explain"), REFUSED % (3, 7, 10), told)
        self.program_does(REFUSED % (7, 0, 0))
        told = b"alphabet: refusal 7 (docs/FORMAT.md says what it means)\n"
        self.expect(self.run_it("--explain"), REFUSED % (7, 0, 0), told)

    def test_it_is_explained_where_standard_error_is_a_terminal(self):
        ours, theirs = pty.openpty()
        done = self.run_it(stderr=theirs)
        os.close(theirs)
        self.assertEqual(done.stdout, REFUSED % (3, 7, 10))
        self.assertEqual(read_terminal(ours).replace(b"\r\n", b"\n"), SHOWN.encode())

    def test_an_input_that_cannot_be_read_is_empty(self):
        self.program_does(REFUSED % (2, 1, 1))
        command = f"exec '{self.top}/alphabet' --explain <&-"
        done = subprocess.run(["bash", "-c", command], capture_output=True, check=False, timeout=60)
        self.expect(done, REFUSED % (2, 1, 1), message(b"", 2, 1, 1).encode())

    def test_a_program_that_fails_is_not_hidden(self):
        self.program_does(b"", 3)
        self.expect(self.run_it(), b"", b"", 3)
        self.expect(self.run_it("--explain"), b"", b"", 3)

    def test_help_and_other_arguments(self):
        helped = self.run_it("--help")
        self.assertTrue(helped.stdout.startswith(b"usage: ./alphabet [--explain] <DESCRIPTION\n"))
        self.assertEqual((helped.stderr, helped.returncode), (b"", 0))
        for argument in ("examples/listing.txt", "--explian"):
            told = f"alphabet: unknown argument '{argument}': the description comes on standard input (--help says more)\n"
            self.expect(self.run_it(argument), b"", told.encode(), 2)
        self.assertFalse((self.top / "read").exists())


class Page(unittest.TestCase):
    def test_readme_shows_this_message(self):
        block = "".join(f"    {line}\n" for line in SHOWN.splitlines())
        self.assertTrue(f"\n\n{block}\n" in (TOP / "README.md").read_text(), "README.md shows another message")


if __name__ == "__main__":
    unittest.main()
