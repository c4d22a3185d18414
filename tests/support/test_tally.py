"""The additions are what they should be; a program that answers one otherwise is
found, and so is a reference that does not say what the request says."""

import contextlib
import io
import random
import sys
import unittest
from unittest import mock

from support import additions, tally
from support.additions import BOUND, EMPTY, FIGURES, OF_REASONS, Addition, Verdict
from support.in_folder import InFolder
from support.programs import Failed
from support.tally import Difference, Tried

REFUSAL = Verdict(7, 0, 0)
ANSWER = Verdict(0, 9, 20)
NO_VERDICT = Verdict(6, 0, 0)


def text(said, refused=None, **figures):
    """What is printed for an addition after which the tally has these figures."""
    figures = EMPTY | figures
    figures["refused"] = sum(figures[name] for name in OF_REASONS) if refused is None else refused
    lines = "".join(f"{name}={figures[name]}\n" for name in tally.PRINTED)
    return f"said={said}\n{lines}".encode()


def going_on(verdict):
    return Addition("some", False, dict.fromkeys(FIGURES, 99), verdict)


def beginning(verdict, **figures):
    return Addition("some", True, EMPTY | figures, verdict)


# A sequence from empty and one from full labels, with the right texts.
ADDITIONS = [going_on(ANSWER), going_on(NO_VERDICT), going_on(REFUSAL), beginning(ANSWER, labels=BOUND, rounds=2)]
TEXTS = [
    text(0, descriptions=1, answered=1, labels=20, rounds=9),
    text(18, descriptions=1, answered=1, labels=20, rounds=9),
    text(0, descriptions=2, answered=1, reason7=1, labels=20, rounds=9),
    text(17, labels=BOUND, rounds=2),
]


class Making(unittest.TestCase):
    @classmethod
    def setUpClass(cls):
        cls.made = additions.made()

    def sequences(self):
        """The additions of each sequence but the first."""
        starts = [at for at, addition in enumerate(self.made) if addition.begins]
        return [self.made[at:end] for at, end in zip(starts, [*starts[1:], len(self.made)])]

    def test_they_are_the_same_each_time(self):
        self.assertEqual(self.made, additions.made())
        self.assertTrue(20_000 <= len(self.made) <= 60_000, len(self.made))

    def test_the_first_goes_on_from_empty(self):
        begun = [addition.begins for addition in self.made]
        self.assertEqual(begun.index(True), 9)
        self.assertNotEqual(self.made[0].figures, EMPTY)

    def test_each_sort_begins_where_it_should(self):
        sorts = {sequence[0].sort for sequence in self.sequences()}
        self.assertEqual(sorts, set(additions.SORTS))
        for first, *rest in self.sequences():
            start = first.figures
            self.assertEqual({addition.sort for addition in rest} | {first.sort}, {first.sort})
            if first.sort.startswith(("from empty", "edges", "orders")):
                self.assertEqual(start, EMPTY)
            if first.sort == "reached, near the bound":
                self.assertEqual(start["answered"] + sum(start[name] for name in OF_REASONS), start["descriptions"])
                self.assertLessEqual(start["labels"], 1_024 * start["answered"])

    def test_labels_from_every_distance(self):
        starts = [sequence[0].figures for sequence in self.sequences() if sequence[0].sort == "labels near the bound"]
        self.assertEqual({BOUND - start["labels"] for start in starts}, set(range(1_026)))

    def test_verdicts_are_legal_or_not(self):
        rng = random.Random(1)
        for maker, due in [(additions.legal, True), *((maker, False) for maker in additions.ILLEGAL)]:
            for _ in range(2000):
                verdict = maker(rng)
                self.assertEqual(tally.is_legal(verdict), due, verdict)

    def test_a_record_has_its_form(self):
        figures = {name: 0x01020300 + at for at, name in enumerate(FIGURES, 1)}
        written = Addition("some", True, figures, Verdict(1, 2**32 + 2, 2**64 - 1)).written()
        due = b"\1" + b"".join(bytes([at, 3, 2, 1]) for at in range(1, 12))
        due += b"\1" + bytes(7) + b"\2\0\0\0\1\0\0\0" + b"\xff" * 8
        self.assertEqual(written, due)
        self.assertEqual(len(due), 69)
        self.assertEqual(going_on(REFUSAL).written()[0], 0)
        self.assertEqual(len(tally.NOT_WHOLE), 68)


class Comparing(InFolder):
    def setUp(self):
        super().setUp()
        path = self.top / "additions"
        path.write_bytes(b"".join(addition.written() for addition in ADDITIONS))
        self.tried = Tried(path, ADDITIONS, TEXTS)

    def found(self, texts, status=0):
        """What is found of a program that prints these."""
        code = f"import sys; sys.stdout.buffer.write({b''.join(texts)!r}); sys.exit({status})"
        return list(tally.differences([sys.executable, "-c", code], self.tried))

    def test_the_same_texts_are_alike(self):
        self.assertEqual(self.found(TEXTS), [])

    def test_another_text_is_told_in_words(self):
        other = text(0, descriptions=2, answered=1, reason10=1, labels=20, rounds=9)
        (found,) = self.found([*TEXTS[:2], other, TEXTS[3]])
        self.assertEqual((found.number, found.expected, found.printed), (3, TEXTS[2], other))
        self.assertIn("addition 3, of the sort 'some': refusal 7 with 0 rounds and 0 labels", str(found))
        self.assertIn("added to descriptions 1, answered 1, reason1 0,", str(found))
        self.assertIn("--- the program prints:\nsaid=0\n", str(found))
        (found,) = self.found([*TEXTS[:3], text(0)])
        self.assertIn("an answer with 9 rounds and 20 labels,\nadded to descriptions 0,", found.told)
        self.assertIn("labels 4,294,967,295, rounds 2", found.told)

    def test_too_few_and_too_many(self):
        self.assertEqual(self.found(TEXTS[:3]), [Difference(4, tally.in_words(self.tried, 3), TEXTS[3], b"")])
        (found,) = self.found([*TEXTS, TEXTS[0]])
        self.assertEqual((found.number, found.expected, found.printed), (5, b"", TEXTS[0]))
        self.assertIn("which is not there", found.told)

    def test_a_line_too_much_is_a_difference(self):
        self.assertEqual(self.found([TEXTS[0], b"said=0\n", *TEXTS[1:]])[0].number, 2)

    def test_a_program_that_does_not_end_well(self):
        with contextlib.redirect_stderr(io.StringIO()), self.assertRaisesRegex(Failed, "ended with 3"):
            self.found(TEXTS, status=3)

    def test_the_check_shows_the_first(self):
        code = f"import sys; sys.stdout.buffer.write({b''.join([TEXTS[0], *TEXTS])!r})"
        with contextlib.redirect_stdout(io.StringIO()) as said, self.assertRaisesRegex(Failed, "the tally differs"):
            tally.check_additions([sys.executable, "-c", code], self.tried)
        self.assertIn("--- addition 2, ", said.getvalue())


class Request(unittest.TestCase):
    def check(self, texts, few=0):
        with mock.patch.multiple(tally, FEW_SAID=few, FEW_OF_A_SORT=few):
            with contextlib.redirect_stdout(io.StringIO()) as said:
                tally.check_tally(Tried(None, ADDITIONS, texts))
        return said.getvalue()

    def test_right_texts_are_counted(self):
        self.assertIn("4 additions to a tally: taken in 2, refused with 17 1, refused with 18 1", self.check(TEXTS))

    def test_what_is_wrong_is_told(self):
        after = {"descriptions": 2, "answered": 1, "reason7": 1, "labels": 20, "rounds": 9}
        figures = "the figures are not those of the verdicts taken in"
        cases = [
            (0, text(0, descriptions=1, answered=1, labels=20, rounds=1), f"addition 1: {figures}"),
            (0, text(17), "addition 1: 0 was due"),
            (1, text(0, descriptions=2, answered=2, labels=20, rounds=9), "addition 2: 18 was due"),
            (1, text(18, descriptions=2, answered=1, labels=20, rounds=9), "what is refused changes the tally"),
            (2, text(0, **after | {"reason7": 0, "reason10": 1}), f"addition 3: {figures}"),
            (2, text(0, **after | {"rounds": 0}), figures),
            (2, text(0, **after | {"labels": 21}), figures),
            (2, text(0, **after, refused=2), "the refusals by number are not as many as are refused"),
            (2, text(0, **after | {"descriptions": 3}), "answered plus refused is not the number of descriptions"),
            (3, text(0, labels=BOUND + 20, descriptions=1, answered=1, rounds=9), "addition 4: 17 was due"),
            (3, text(18, labels=BOUND, rounds=2), "addition 4: 17 was due"),
            (3, text(17, labels=BOUND, rounds=9), "what is refused changes the tally"),
            (3, text(17, labels=BOUND, rounds=2)[:-1], "the reference printed"),
        ]
        for place, wrong, told in cases:
            with self.subTest(told=told, wrong=wrong), self.assertRaisesRegex(Failed, told):
                self.check([*TEXTS[:place], wrong, *TEXTS[place + 1 :]])

    def test_what_is_rare_is_told(self):
        with self.assertRaisesRegex(Failed, "too few additions: .*1 refused with 18; .*0 taken in: refusal 10;"):
            self.check(TEXTS, few=2)

    def test_what_is_due(self):
        full = dict.fromkeys(FIGURES, BOUND)
        cases = [
            (EMPTY, ANSWER, 0),
            (EMPTY, NO_VERDICT, 18),
            (full, ANSWER, 17),
            (full, REFUSAL, 17),
            (full, NO_VERDICT, 18),
            (full, Verdict(0, 0, 1_025), 18),
            (full | {"descriptions": 0, "reason7": BOUND - 1}, REFUSAL, 0),
            (full | {"descriptions": 0, "answered": 0}, Verdict(0, 1, 0), 0),
            (full | {"descriptions": 0, "answered": 0}, Verdict(0, 1, 1), 17),
            (EMPTY | {"labels": BOUND - 1_024}, Verdict(0, 1, 1_024), 0),
            (EMPTY | {"labels": BOUND - 1_023}, Verdict(0, 1, 1_024), 17),
        ]
        for before, verdict, due in cases:
            with self.subTest(before=before, verdict=verdict):
                self.assertEqual(tally.due(before, verdict), due)


class Sorts(unittest.TestCase):
    def sorts(self, verdict, **before):
        """The sorts of an addition as it must be answered."""
        before = EMPTY | before
        said = tally.due(before, verdict)
        after = tally.worked_out([verdict], before) if said == 0 else before
        refused = sum(after[name] for name in OF_REASONS)
        step = tally.Step(verdict, before, said, after, refused, before, [verdict])
        return {sort.split(": ")[-1] for sort in tally.sorts_of(step)}

    def test_each(self):
        cases = [
            (ANSWER, {}, {"taken in", "an answer"}),
            (REFUSAL, {}, {"taken in", "refusal 7"}),
            (Verdict(0, 1, 0), {}, {"taken in", "an answer", "no labels", "1 round"}),
            (Verdict(0, 2_049, 1_024), {}, {"taken in", "an answer", "2,049 rounds", "1,024 labels"}),
            (NO_VERDICT, {}, {"refused with 18", "refusal 6"}),
            (NO_VERDICT, {"descriptions": BOUND}, {"refused with 18", "refusal 6", "a figure is full as well"}),
            (Verdict(2**32 + 6, 0, 0), {}, {"refused with 18", "a number of over 32 bits"}),
            (Verdict(7, 1, 0), {}, {"refused with 18", "a refusal with rounds"}),
            (Verdict(7, 0, 1), {}, {"refused with 18", "a refusal with labels"}),
            (Verdict(7, 1, 1), {}, {"refused with 18"}),
            (Verdict(0, 1, 1_025), {}, {"refused with 18", "1,025 labels"}),
            (Verdict(0, 0, 1_025), {}, {"refused with 18"}),
            (Verdict(0, 0, 1_024), {}, {"refused with 18", "no rounds"}),
            (Verdict(0, 2_050, 3), {}, {"refused with 18", "2,050 rounds"}),
            (Verdict(0, 2**32 + 1, 3), {}, {"refused with 18", "legal in the low 32 bits"}),
            (ANSWER, {"labels": BOUND}, {"refused with 17", "labels alone"}),
            (ANSWER, {"labels": BOUND, "answered": BOUND}, {"refused with 17"}),
            (REFUSAL, {"reason7": BOUND}, {"refused with 17", "reason7 alone"}),
        ]
        for verdict, before, due in cases:
            with self.subTest(verdict=verdict, before=before):
                self.assertEqual(self.sorts(verdict, **before), due)

    def test_figures_at_the_bound_and_made_up(self):
        due = {"taken in", "refusal 7", "reason7 at the bound then", "answered and refused are not the descriptions"}
        self.assertEqual(self.sorts(REFUSAL, reason7=BOUND - 1, labels=BOUND), due)
        self.assertEqual(self.sorts(REFUSAL, reason7=4, descriptions=4), {"taken in", "refusal 7"})

    def test_rounds(self):
        for rounds, sort in ((8, "rounds that rise"), (9, "rounds that stay"), (10, "rounds that fall")):
            before = {"descriptions": 1, "answered": 1, "rounds": rounds}
            self.assertEqual(self.sorts(ANSWER, **before), {"taken in", "an answer", sort})


if __name__ == "__main__":
    unittest.main()
