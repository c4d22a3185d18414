"""Programs that do not answer as they should, and what is said of them."""

import sys
import types
from unittest import mock

from support import programs
from support.comparing import Difference, dealt_out, differences, first_difference
from support.in_folder import InFolder
from support.programs import Failed
from support.records import Sample, written

RECORDS = [b"one\n", b"two", b"three\0\n"]
TEXTS = [b"first\n", b"second\n", b"third\n"]


def program(output, status=0):
    """A command that prints this and ends with this status."""
    code = f"import sys; sys.stdout.buffer.write({output!r}); sys.exit({status})"
    return [sys.executable, "-c", code]


class Comparing(InFolder):
    def setUp(self):
        super().setUp()
        path = self.top / "records"
        path.write_bytes(written(RECORDS))
        self.sample = types.SimpleNamespace(path=path, records=RECORDS, texts=TEXTS)

    def test_the_same_texts_are_alike(self):
        self.assertIsNone(first_difference(program(written(TEXTS)), self.sample))

    def test_another_text_is_shown_with_its_record(self):
        other = [TEXTS[0], TEXTS[1], b"other"]
        found = first_difference(program(written(other)), self.sample)
        self.assertEqual(found, Difference(3, RECORDS[2], TEXTS[2], b"other"))
        shown = "three\\x00\n--- the reference prints:\nthird\n--- the program prints:\nother"
        self.assertIn(shown, str(found))

    def test_what_agrees_is_no_difference(self):
        found = first_difference(program(written(TEXTS)), self.sample, agrees=lambda text, _: b"c" not in text)
        self.assertEqual(found, Difference(2, RECORDS[1], TEXTS[1], TEXTS[1]))

    def test_all_differences_are_counted(self):
        other = [b"x" + text for text in TEXTS]
        self.assertEqual(len(list(differences(program(written(other)), self.sample))), 3)

    def test_what_is_no_comparison_fails(self):
        cases = [
            (program(b""), "no text for record 1 of 3: \none\n$"),
            (program(written(TEXTS[:2]), status=3), "ended with 3: no text for record 3 of 3"),
            (program(written(TEXTS + [b""])), "more texts than the 3 records"),
            (program(written(TEXTS) + b"x"), "more texts than the 3 records"),
            (program(written(TEXTS), status=4), "every text is there, but .* ended with 4"),
            (program(b"answer=ok\n"), "stands where a length was due"),
            (program(b"-1\n"), "stands where a length was due"),
            (program(b"7\nfirst\n"), "6 bytes follow the length 7"),
            (["no-such-program"], "cannot be run"),
        ]
        for command, told in cases:
            with self.subTest(told=told), self.assertRaisesRegex(Failed, told):
                first_difference(command, self.sample)

    def test_a_program_that_hangs_is_ended(self):
        command = [sys.executable, "-c", "import time; time.sleep(60)"]
        with self.assertRaisesRegex(Failed, "ended by signal 9: no text for record 1 of 3"):
            first_difference(command, self.sample, seconds=0.2)

    def test_the_records_are_dealt_out_and_a_difference_is_found(self):
        code = (
            "import sys; from support.records import read_from, written; "
            "sys.stdout.buffer.write(written(b'b' if text == b'a2' else text for text in read_from(sys.stdin.buffer)))"
        )
        texts = [b"a%d" % number for number in range(5)]
        sample = Sample(self.sample.path, texts, ["x"] * 5, texts)
        for processors in (1, 2, 3, 7):
            folder = mock.patch.object(programs, "output_folder", lambda: self.top)
            with folder, mock.patch("os.cpu_count", return_value=processors):
                found = dealt_out([sys.executable, "-c", code], sample)
                self.assertEqual(found, (Difference(3, b"a2", b"a2", b"b"), []))
                others = sample.only("others", [0, 1, 3, 4])
                self.assertEqual(dealt_out([sys.executable, "-c", code], others), (None, others.texts))
