"""A number, an example or a width that the pages get wrong is found."""

import contextlib
import io
import unittest

from support.in_folder import InFolder
from support.pages import REASONS, TALLY_REASONS, check_pages
from support.programs import Failed


def in_header(number):
    return f"    RIMECUTTER_R{number} = {number}, /* {number} */\n"


class Pages(InFolder):
    def setUp(self):
        super().setUp()
        self.make_folders("include", "docs", "examples/models")
        (self.top / "examples" / "one.txt").write_text("")
        (self.top / "examples" / "models" / "two.txt").write_text("")
        self.write("include/rimecutter.h", "".join(map(in_header, REASONS)))
        self.write("docs/FORMAT.md", "".join(f"| {n} | when |\n" for n in REASONS + TALLY_REASONS))
        self.write("examples/README.md", "- `one`: an example\n")
        self.write("examples/models/README.md", "- `two`: a model\n")
        self.write("README.md", "short\n")

    def write(self, name, text):
        (self.top / name).write_text(text)

    def check(self):
        with contextlib.redirect_stdout(io.StringIO()) as said:
            check_pages(self.top)
        return said.getvalue()

    def test_right_pages_are_counted(self):
        self.assertIn("10 numbers of refusals and 2 examples", self.check())

    def test_what_is_wrong_is_told(self):
        header = (self.top / "include" / "rimecutter.h").read_text()
        rows = (self.top / "docs" / "FORMAT.md").read_text()
        cases = [
            ("include/rimecutter.h", header.replace("= 5", "= 9"), "include/rimecutter.h lacks refusal 5"),
            ("include/rimecutter.h", header.replace("/* 7 */", ""), "include/rimecutter.h lacks refusal 7"),
            ("include/rimecutter.h", header + in_header(6), "rimecutter.h has refusal 6, which is withdrawn"),
            ("docs/FORMAT.md", rows + "| 6 | when |\n", "FORMAT.md has refusal 6, which is withdrawn"),
            ("docs/FORMAT.md", "| 1 | when |\n", "docs/FORMAT.md lacks refusal 8"),
            ("docs/FORMAT.md", rows.replace("| 17 |", "| 19 |"), "docs/FORMAT.md lacks refusal 17"),
            ("examples/README.md", "one", "examples/README.md does not name one"),
            ("examples/models/README.md", "`one`", "examples/models/README.md does not name two"),
            ("examples/models/README.md", "`two`" + "a" * 96, "line 1 of README.md has 101 columns"),
            ("README.md", "a" * 101, "line 1 of README.md has 101 columns"),
            ("docs/FORMAT.md", "|" + "a" * 130, "line 1 of FORMAT.md has 131 columns"),
        ]
        for name, text, told in cases:
            kept = (self.top / name).read_text()
            self.write(name, text)
            with self.subTest(name=name), self.assertRaisesRegex(Failed, told):
                self.check()
            self.write(name, kept)


if __name__ == "__main__":
    unittest.main()
