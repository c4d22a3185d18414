"""A list that is not what its runs show is found, and so is what is not tried."""

import contextlib
import io
import types
import unittest
from unittest import mock

from support import exact
from support.in_folder import InFolder
from support.programs import TOP, Failed
from support.records import Sample

REFUSAL = b"answer=refused\nreason=7\nline=0\ncolumn=0\n"


def lines(labels):
    return b"".join(b"label=%b\n" % label for label in labels)


def answer(*labels):
    return b"answer=ok\nrounds=1\nlabels=%d\n" % len(labels) + lines(labels)


def met(is_exact, runs, *labels):
    flag = b"yes" if is_exact else b"no"
    return b"answer=ok\nexact=%b\nruns=%b\nlabels=%d\n" % (flag, runs, len(labels)) + lines(labels)


def description(*terms, order=b"all"):
    return b"".join(b"term=%b\n" % term for term in terms) + b"order=%b\n" % order


def exact_kinds(order=b"all"):
    return description(*(kind.encode() for kind in exact.EXACT_KINDS), order=order)


EXACT = exact_kinds()


class Agreeing(unittest.TestCase):
    def test_each_case(self):
        a, b = b"a:1", b"b:1"
        cases = [
            (answer(a, b), met(True, b"all", a, b), True),
            (answer(a, b), met(True, b"all", a), False),
            (answer(a, b), met(True, b"some", a), True),
            (answer(a), met(True, b"all", a, b), False),
            (answer(a), met(True, b"some", b), False),
            (answer(a, b), met(True, b"all", b, a), False),
            (answer(a, b), met(False, b"all", a), True),
            (answer(a), met(False, b"all", a, b), False),
            (answer(), met(False, b"some", a), False),
            (answer(), met(True, b"all"), True),
            (REFUSAL, REFUSAL, True),
            (REFUSAL, met(True, b"all"), False),
        ]
        for listed, text, due in cases:
            with self.subTest(listed=listed, text=text):
                self.assertEqual(exact.agrees(listed, text), due)

    def test_what_is_no_text_about_runs(self):
        for text in (b"", REFUSAL, answer(b"a:1"), met(True, b"all", b"a:1").replace(b"=1\n", b"=2\n")):
            with self.subTest(text=text), self.assertRaisesRegex(Failed, "the reference printed"):
                exact.agrees(answer(b"a:1"), text)


class Records(unittest.TestCase):
    def check(self, tried, classes=exact.CLASS):
        """The check on descriptions, answers and texts about runs."""
        records, texts, runs = zip(*tried)
        sample = Sample(None, list(records), [classes] * len(records), list(texts))
        chosen = []

        def only(_, __, places):
            chosen.extend(places)
            return types.SimpleNamespace(records=records, texts=texts)

        with mock.patch.object(Sample, "only", only), mock.patch.object(exact, "answered", lambda *_: runs):
            with contextlib.redirect_stdout(io.StringIO()) as said:
                exact.check_exact(sample)
        return said.getvalue(), chosen

    def enough(self):
        tried = [(EXACT, answer(b"a:1", b"b:1"), met(True, b"all", b"a:1", b"b:1"))] * exact.FEW_EXACT
        for order in (b"none", b"a:1"):
            tried += [(exact_kinds(order), answer(), met(True, b"all"))] * exact.FEW_WITH_AN_ORDER
        for kind in exact.OTHER_KINDS:
            tried += [(description(kind.encode()), answer(b"a:1"), met(False, b"all"))] * exact.FEW_LARGER
        return tried

    def test_what_is_right_is_counted(self):
        said, chosen = self.check(self.enough())
        self.assertIn(f"{exact.FEW_EXACT} exact lists of several labels", said)
        self.assertEqual(len(chosen), len(self.enough()))

    def test_no_other_classes(self):
        self.assertEqual(self.check(self.enough(), "slips")[1], [])

    def test_what_is_wrong_is_shown(self):
        cases = [
            ((EXACT, answer(b"a:1"), met(True, b"all")), "a record does not list what its runs show:\nterm=act"),
            ((EXACT, answer(b"a:1"), met(False, b"all")), "a record has other kinds of terms than is said"),
            ((description(b"delta"), answer(), met(True, b"all")), "a record has other kinds of terms than is said"),
        ]
        for wrong, told in cases:
            with self.subTest(told=told), self.assertRaisesRegex(Failed, told):
                self.check([*self.enough(), wrong])

    def test_what_is_rare_is_told(self):
        ref, lists = description(b"ref 0"), answer(b"a:1")
        others = [
            (ref, lists, met(False, b"some")),
            (ref, lists, met(False, b"all", b"a:1")),
            (description(b"ref 0", b"delta"), lists, met(False, b"all")),
        ]
        without = [tried for tried in self.enough() if tried[0] != ref.replace(b" 0", b"")]
        for other in others:
            self.fails(without + [other] * exact.FEW_LARGER, "0 larger lists with ref$")
        for order, sort in ((b"none", "none"), (b"a:1", "labels")):
            without = [tried for tried in self.enough() if tried[0] != exact_kinds(order)]
            self.fails(without, f"0 exact lists with order {sort}$")
        one_label = (EXACT, lists, met(True, b"all", b"a:1"))
        self.fails(self.enough()[1:] + [one_label], f"{exact.FEW_EXACT - 1} exact lists of several labels$")
        with_sum = exact.FEW_WITH_A_KIND - 1
        rest = [(record.replace(b"term=sum\n", b""), *texts) for record, *texts in self.enough()[with_sum:]]
        self.fails(self.enough()[:with_sum] + rest, f"{with_sum} exact lists with sum$")

    def fails(self, tried, told):
        with self.subTest(told=told), self.assertRaisesRegex(Failed, f"too few records: {told}"):
            self.check(tried)


class Examples(InFolder):
    def setUp(self):
        super().setUp()
        self.make_folders("docs", "examples", "crates/grammar/proofs")
        self.texts = {}
        self.write("exact", EXACT, answer(b"a:1"), met(True, b"all", b"a:1"))
        for kind, label in exact.UNSEEN.items():
            self.write(f"unseen-{kind}", description(kind.encode()), answer(label.encode()), met(False, b"all"))
        rows = "".join(f"| `unseen-{kind}` | `{label}` |\n" for kind, label in exact.UNSEEN.items())
        self.show(rows + "    grep -E '^term=(delta|ref|block|allow|sync|lmerge)( |$)' examples/exact.txt\n")
        proved = [f'x =\n    "term={kind}"\n    ∷ "order=all" ∷ []\n' for kind in exact.UNSEEN]
        (self.top / exact.PROVED_TEXTS).write_text("".join(proved))

    def write(self, name, record, expected, text):
        (self.top / "examples" / f"{name}.txt").write_bytes(record)
        (self.top / "examples" / f"{name}.expected").write_bytes(expected)
        self.texts[record] = text

    def show(self, page):
        (self.top / "docs" / "EXACT.md").write_text(page)

    def check(self):
        def answered(records, *_, **__):
            return [self.texts[record] for record in records]

        with mock.patch.object(exact, "answered", answered), contextlib.redirect_stdout(io.StringIO()) as said:
            exact.check_exact_examples(self.top)
        return said.getvalue()

    def test_right_examples_are_counted(self):
        self.assertIn("1 examples have exact lists, and 6 a label on no run", self.check())

    def test_what_is_wrong_is_told(self):
        sync, label = description(b"sync"), b"start:1"
        cases = [
            ("exact", EXACT, answer(), met(True, b"all", b"a:1"), "exact does not list what its runs show"),
            ("unseen-sync", sync, answer(label), met(False, b"all", label), "a run of unseen-sync may show start:1"),
            ("unseen-sync", sync, answer(label), met(False, b"some"), "a run of unseen-sync may show start:1"),
            ("unseen-sync", sync, answer(b"a:1"), met(False, b"all"), "unseen-sync does not list start:1"),
            ("unseen-sync", sync + b"term=delta\n", answer(label), met(False, b"all"), "other kinds than sync"),
        ]
        for *example, told in cases:
            self.setUp()
            self.write(*example)
            with self.subTest(told=told), self.assertRaisesRegex(Failed, told):
                self.check()

    def test_an_example_that_is_not_there(self):
        (self.top / "examples" / "unseen-ref.txt").unlink()
        with self.assertRaisesRegex(Failed, "there is no example unseen-ref"):
            self.check()

    def test_what_the_page_does_not_show(self):
        page = (self.top / "docs" / "EXACT.md").read_text()
        shown = "`unseen-sync`"
        for old, new in ((f"| {shown}", shown), ("`start:1`", "`start:2`"), (shown, "unseen-sync")):
            self.show(page.replace(old, new))
            with self.subTest(old=old), self.assertRaisesRegex(Failed, "no row with unseen-sync and start:1$"):
                self.check()


    def test_the_command_on_the_page(self):
        page = (self.top / "docs" / "EXACT.md").read_text()
        cases = [
            ("    grep", "grep", "shows no command"),
            ("sync|", "", "misleads about unseen-sync$"),
            ("(delta", "(hide|delta", "misleads about exact$"),
        ]
        for old, new, told in cases:
            self.show(page.replace(old, new))
            with self.subTest(told=told), self.assertRaisesRegex(Failed, told):
                self.check()

    def test_a_text_that_is_not_proved(self):
        path = self.top / exact.PROVED_TEXTS
        path.write_text(path.read_text().replace("term=lmerge", "term=merge"))
        with self.assertRaisesRegex(Failed, "no text with the lines of unseen-lmerge$"):
            self.check()


class Kinds(unittest.TestCase):
    def test_every_other_kind_has_a_label(self):
        self.assertEqual(sorted(exact.UNSEEN), sorted(exact.OTHER_KINDS))
        self.assertEqual(len(exact.OTHER_KINDS), 6)

    def test_the_kinds_of_an_example(self):
        record = (TOP / "examples" / "unseen-ref.txt").read_bytes()
        self.assertEqual((exact.kinds(record), exact.other_kinds(record)), ({"act", "ref", "seq"}, {"ref"}))


if __name__ == "__main__":
    unittest.main()
