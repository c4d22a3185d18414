"""A place that is not where the docs say is found."""

import contextlib
import io

from support.in_folder import InFolder
from support.places import check_places
from support.programs import Failed


class Places(InFolder):
    def setUp(self):
        super().setUp()
        self.make_folders("docs")
        (self.top / "code.rt").write_text("one\nfn two-more()\nfn two()\n")

    def check(self, text):
        (self.top / "docs" / "PAGE.md").write_text(text)
        with contextlib.redirect_stdout(io.StringIO()) as said:
            check_places(self.top)
        return said.getvalue()

    def test_right_places_are_counted(self):
        self.assertIn("2 names", self.check("`one` (`code.rt:1`), and\n`fn two`\n(`code.rt:3`)"))

    def test_what_is_wrong_is_told(self):
        cases = [
            ("`two` (`code.rt:1`)", "two is not in line 1 of code.rt but in 3$"),
            ("`two` (`code.rt:4`)", "two is not in line 4 of code.rt but in 3$"),
            ("`three` (`code.rt:1`)", "but in none$"),
            ("`one` (`other.rt:1`)", "there is no file other.rt"),
            ("`one` (`code.rt:1`) and `code.rt:2`", "without its name"),
            ("nothing", "the docs name no place"),
        ]
        for text, told in cases:
            with self.subTest(text=text), self.assertRaisesRegex(Failed, told):
                self.check(text)
