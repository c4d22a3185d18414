"""Damages that cannot be made are told, not passed over; and what finds one of
following runs or of the tally."""

import sys
import unittest
from unittest import mock

from support import damaging
from support.additions import EMPTY, Addition, Verdict
from support.damaging import Damage, Runs, Tallies
from support.in_folder import InFolder
from support.programs import Failed
from support.records import Sample, written
from support.tally import Tried

EDIT = "Told.\nin a.rs\n-two\n+deux\n+zwei\nin b.rs\n-  four\n+  vier\n"


class Damaging(InFolder):
    def damage(self, text):
        path = self.top / "some.edit"
        path.write_text(text)
        return Damage.read(path)

    def test_each_edit_is_made(self):
        (self.top / "a.rs").write_text("one\ntwo\nthree\n")
        (self.top / "b.rs").write_text("{\n  four\n}\n")
        self.damage(EDIT).apply(self.top)
        self.assertEqual((self.top / "a.rs").read_text(), "one\ndeux\nzwei\nthree\n")
        self.assertEqual((self.top / "b.rs").read_text(), "{\n  vier\n}\n")

    def test_an_edit_that_does_not_fit_fails(self):
        cases = [("one\n", 0), ("two\ntwo\n", 2), (" two \n", 0)]
        for text, places in cases:
            (self.top / "a.rs").write_text(text)
            with self.subTest(text=text), self.assertRaisesRegex(Failed, f"in {places} places"):
                self.damage(EDIT).apply(self.top)

    def test_an_edit_that_changes_nothing_fails(self):
        (self.top / "a.rs").write_text("two\n")
        with self.assertRaises(Failed):
            self.damage("Told.\nin a.rs\n-two\n+two\n").apply(self.top)

    def test_what_is_no_edit_fails(self):
        for text in ["Told.\n", "Told.\n-two\n", "Told.\nin a.rs\ntwo\n"]:
            with self.subTest(text=text), self.assertRaises(Failed):
                self.damage(text)


class FindingByRuns(InFolder):
    def found(self, text):
        """What finds a program that has the same text for every description."""
        code = (
            "import sys; from support.records import read_from, written; "
            f"sys.stdout.buffer.write(written({text!r} for _ in read_from(sys.stdin.buffer)))"
        )
        path = self.top / "records"
        path.write_bytes(written([b"one"]))
        sample = Sample(path, [b"one"], ["x"], [b"answer=ok\nrounds=1\nlabels=1\nlabel=arm:1\n"])
        return Runs(sample).first([sys.executable, "-c", code])

    def test_each_way(self):
        cases = [
            (b"exact=no\nruns=all\nlabels=0\n", ""),
            (b"exact=yes\nruns=all\nlabels=1\nlabel=arm:1\n", ""),
            (b"exact=yes\nruns=all\nlabels=0\n", "record 1"),
            (b"exact=no\nruns=all\nlabels=1\nlabel=stop:1\n", "record 1"),
            (b"exact=no\nruns=all\nlabels=1\nlabel=start:1\n", "unseen-sync"),
        ]
        for text, due in cases:
            with self.subTest(text=text):
                self.assertEqual(self.found(b"answer=ok\n" + text), due)


class FindingByTheTally(InFolder):
    def found(self, addition, over_files):
        """What finds a program that prints one text for the additions, and another
        for any files."""
        code = (
            "import sys; option, *files = sys.argv[1:]; "
            f"sys.stdout.buffer.write({over_files!r} if option == '--tally' else {addition!r}); "
            "sys.exit(' '.join(files) if any('no-such' in file for file in files) else 0)"
        )
        path = self.top / "additions"
        path.write_bytes(b"")
        tried = Tried(path, [Addition("some", True, EMPTY, Verdict(1, 0, 0))], [b"right\n"])
        with mock.patch.object(damaging, "tally_of_examples", lambda: b"files\n"):
            return Tallies(tried).first([sys.executable, "-c", code])

    def test_each_way(self):
        cases = [
            (b"right\n", b"files\n", ""),
            (b"wrong\n", b"files\n", "addition 1"),
            (b"right\n", b"wrong\n", "the tally over the examples"),
        ]
        for addition, over_files, due in cases:
            with self.subTest(addition=addition, over_files=over_files):
                self.assertEqual(self.found(addition, over_files), due)

    def test_which_way_is_for_which_damage(self):
        others = {"runs-": "runs", "tally-": "tallies"}
        for name, due in (("runs-one", "runs"), ("tally-one", "tallies"), ("the-tally-one", "texts")):
            self.assertEqual(damaging.way_to_find(Damage(name, "", []), others, "texts"), due)


if __name__ == "__main__":
    unittest.main()
