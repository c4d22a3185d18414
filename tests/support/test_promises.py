"""A function that the list of promises does not tell of is found."""

import contextlib
import io

from support.in_folder import InFolder
from support.programs import Failed
from support.promises import check_promises

LIBRARY = """mod hidden;
pub mod shown;

pub fn plain(a: u64) -> u64
    ensures { result ≡ a }
{
    a
}

fn own() -> u64 {
    1
}
"""
MODULE = """pub extern "C" fn asks(
    a: u64,
) -> u64
    requires { a < 9 }
    ensures { result ≡ a }
{
    a
}
"""
ENTRIES = ["- `one::plain`: the same.\n  Shut out: `wrong.edit`.", "- `one::shown::asks`: the same; it\n  requires a digit."]


class Promises(InFolder):
    def setUp(self):
        super().setUp()
        self.write("docs/PROMISES.md", "\n".join(ENTRIES))
        self.write("crates/one/src/lib.rt", LIBRARY)
        self.write("crates/one/src/shown.rt", MODULE)
        self.write("crates/one/src/hidden.rt", "pub fn inner() {\n}\n")
        self.write("crates/one/must-fail/wrong.edit", "")

    def write(self, name, text):
        path = self.top / name
        path.parent.mkdir(parents=True, exist_ok=True)
        path.write_text(text)

    def check(self):
        with contextlib.redirect_stdout(io.StringIO()):
            check_promises(self.top)

    def test_a_whole_list_passes(self):
        self.check()

    def test_what_does_not_agree_fails(self):
        page, one, asks = "docs/PROMISES.md", "crates/one/src/lib.rt", ENTRIES[1]
        cases = [
            (page, asks, "one::plain is missing"),
            (page, "\n".join([*ENTRIES, "- `one::more`: more."]), "one::more is not there"),
            (page, "\n".join([*ENTRIES, asks]), "twice of one::shown::asks"),
            (page, "\n".join([ENTRIES[0], "- `one::shown::asks`: a digit."]), "not explained"),
            (page, "\n".join([*ENTRIES, "`other.edit`"]), "no edit other"),
            (one, LIBRARY + "\npub fn bare() -> u64 {\n    1\n}\n", "one::bare has no ensures"),
        ]
        for name, text, fault in cases:
            with self.subTest(fault=fault):
                self.setUp()
                self.write(name, text)
                with self.assertRaisesRegex(Failed, fault):
                    self.check()
