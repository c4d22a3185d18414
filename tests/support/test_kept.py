"""A text that is not the one kept is found, and so is a record that is gone."""

import contextlib
import io
from unittest import mock

from support import kept
from support.in_folder import InFolder
from support.kept import keep
from support.programs import Failed
from support.records import Sample

RECORDS = [b"names=12\n", b"names=13\n", b"names=1\nname=a\n", b"", b"names=100\n", b"x", b"names=9"]
CLASSES = ["one", "one", "other", "one", "other", "one", "other"]
TEXTS = [b"text %d\n" % number for number in range(len(RECORDS))]
# Those with more names than 12, which are not kept.
LEFT_OUT = (1, 4)


class Kept(InFolder):
    def setUp(self):
        super().setUp()
        for name, value in (("KEPT", self.top / "kept" / "some"), ("RECORDS_OF_A_BLOCK", 2)):
            patch = mock.patch.object(kept, name, value)
            patch.start()
            self.addCleanup(patch.stop)
        self.sample = Sample(self.top / "records", list(RECORDS), list(CLASSES), list(TEXTS))
        keep(self.sample)

    def test_each_block_has_a_line(self):
        lines = [line.split(" ")[:3] for line in kept.KEPT.read_text().splitlines()]
        self.assertEqual(lines, [["one", "0", "2"], ["one", "1", "1"], ["other", "0", "2"]])

    def test_another_text_is_found(self):
        for at, text in enumerate(TEXTS):
            texts = [*TEXTS[:at], text + b"x", *TEXTS[at + 1 :]]
            with self.subTest(at):
                self.check_found(at, "it prints something else than was kept", texts)

    def test_another_record_is_found(self):
        for at, record in enumerate(RECORDS):
            self.sample.records[at] = record + b"x"
            with self.subTest(at):
                self.check_found(at, "has other records than were kept", TEXTS)
            self.sample.records[at] = record

    def check_found(self, at, told, texts):
        if at in LEFT_OUT:
            self.check_like(texts)
        else:
            with self.assertRaisesRegex(Failed, told):
                self.check_like(texts)

    def check_like(self, texts):
        with contextlib.redirect_stdout(io.StringIO()) as said:
            kept.check_kept("it", self.sample, texts)
        self.assertIn("for 5 records", said.getvalue())

    def test_a_record_that_is_gone_is_found(self):
        del self.sample.records[3], self.sample.classes[3]
        with self.assertRaisesRegex(Failed, "block 0 of the class one has other records"):
            self.check_like(TEXTS[:3] + TEXTS[4:])

    def test_texts_that_change_places_are_found(self):
        with self.assertRaises(Failed):
            self.check_like([TEXTS[3], *TEXTS[1:3], TEXTS[0], *TEXTS[4:]])

    def test_a_new_class_is_in_no_block(self):
        self.sample.records.append(b"new")
        self.sample.classes.append("new")
        self.check_like([*TEXTS, b"any"])
