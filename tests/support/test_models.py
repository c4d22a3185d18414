"""A row of the table of models that does not fit is found."""

import contextlib
import io
import unittest
from unittest import mock

from support import models
from support.in_folder import InFolder
from support.programs import Failed

RECORD = b"names=3\nname=a\n"
ANSWER = b"answer=ok\nrounds=1\nlabels=2\nlabel=a:1\nlabel=b:1\n"
RUNS = b"answer=ok\nexact=no\nruns=%b\nlabels=1\nlabel=a:1\n"
RIGHT = "| model | names |\n|---|---|\n| `one` | 3 | 2 | 1 |\n| `two` | 3 | 2 | too many to follow |\n"


class Table(InFolder):
    def check(self, page, found):
        self.make_folders("examples/models")
        (self.top / "examples" / "models" / "README.md").write_text(page)
        with mock.patch.object(models, "followed_examples", lambda top: found):
            with contextlib.redirect_stdout(io.StringIO()) as said:
                models.check_models(self.top)
        return said.getvalue()

    def found(self):
        both = {"models/one": RUNS % b"all", "models/two": RUNS % b"some"}
        return {"other": None, **{name: (RECORD, ANSWER, text) for name, text in both.items()}}

    def test_a_right_table(self):
        self.assertIn("the table of 2 models is right", self.check(RIGHT, self.found()))

    def test_what_is_wrong_is_told(self):
        cases = [
            (RIGHT.replace("`one` | 3", "`one` | 4"), "one has the row '4 | 2 | 1', not '3 | 2 | 1'$"),
            (RIGHT.replace("2 | 1 ", "1 | 1 "), "one has the row '3 | 1 | 1', not '3 | 2 | 1'$"),
            (RIGHT.replace("too many to follow", "2"), "two has the row '3 | 2 | 2', not '3 | 2 | too many to follow'$"),
            (RIGHT.replace("`two`", "`ten`"), "ten has the row .*, not 'None'; two has the row 'None', not "),
        ]
        for page, told in cases:
            self.setUp()
            with self.subTest(told=told), self.assertRaisesRegex(Failed, told):
                self.check(page, self.found())

    def test_no_models(self):
        with self.assertRaisesRegex(Failed, "there are no models"):
            self.check("", {"other": None})


if __name__ == "__main__":
    unittest.main()
