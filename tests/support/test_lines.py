"""A line that is too wide, a function or a file of laws without a comment and a place are found."""

import contextlib
import io
import unittest

from support.in_folder import InFolder
from support.lines import check_lines
from support.programs import Failed


class Lines(InFolder):
    def setUp(self):
        super().setUp()
        self.make_folders("crates/room/src", "crates/room/proofs")

    def check(self, code, proof=""):
        (self.top / "crates" / "room" / "src" / "lib.rt").write_text(code)
        (self.top / "crates" / "room" / "proofs" / "Lib.antt").write_text(proof)
        with contextlib.redirect_stdout(io.StringIO()) as said:
            check_lines(self.top)
        return said.getvalue()

    def test_right_files_are_counted(self):
        said = self.check('// why\n#[unsafe(no_mangle)]\npub extern "C" fn f() {}\nfn g() {}\n', "use " + "a" * 200)
        self.assertIn("1 files", said)

    def test_what_is_wrong_is_told(self):
        wide = "a" * 161
        cases = [
            ("pub fn f() {}", "", "f in crates/room/src/lib.rt has no comment"),
            ("// why\n\npub fn f() {}", "", "f in crates/room/src/lib.rt has no comment"),
            ("// why\npub fn f() {}\npub fn g() {}", "", "g in .* has no comment"),
            (f"// {wide}", "", "line 1 of crates/room/src/lib.rt has 164 columns"),
            ("", f"-- one\n{wide}", "line 2 of crates/room/proofs/Lib.antt has 161 columns"),
            ("", "-- laws\npub mod One\nmod Two\n", "Two in crates/room/proofs/Lib.antt has no comment"),
            ("", "-- laws\npub mod One\n-- src/lib.rt:3:4\n", "crates/room/proofs/Lib.antt names a place"),
        ]
        for code, proof, told in cases:
            with self.subTest(code=code, proof=proof), self.assertRaisesRegex(Failed, told):
                self.check(code, proof)

    def test_no_code_at_all(self):
        with self.assertRaisesRegex(Failed, "there is no code"):
            check_lines(self.top)


if __name__ == "__main__":
    unittest.main()
