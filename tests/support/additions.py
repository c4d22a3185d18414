"""Additions to a tally, to compare programs with: sequences of verdicts, legal
and not, from empty, from figures near the bound, and from figures that no
sequence leads to. They are the same each time.

An addition is written as a record of 69 bytes; tests/README.md has its form.
"""

import dataclasses
import itertools
import random
import struct
import typing

SEED = "additions to a tally"

REASONS = (1, 2, 3, 4, 5, 7, 10)
OF_REASONS = tuple(f"reason{number}" for number in REASONS)
FIGURES = ("descriptions", "answered", *OF_REASONS, "labels", "rounds")
EMPTY = dict.fromkeys(FIGURES, 0)

BOUND = 4_294_967_295
MOST_LABELS = 1_024
MOST_ROUNDS = 2_049

RECORD = struct.Struct(f"<B{len(FIGURES)}I3Q")


class Verdict(typing.NamedTuple):
    """What is said of a description; the reason is 0 for an answer."""

    reason: int
    rounds: int
    labels: int

    def __str__(self):
        told = f"refusal {self.reason:,}" if self.reason else "an answer"
        return f"{told} with {self.rounds:,} rounds and {self.labels:,} labels"


@dataclasses.dataclass
class Addition:
    """A verdict, and whether the tally first begins anew from the figures; where
    it goes on, they stand in the record all the same and must be ignored."""

    sort: str
    begins: bool
    figures: dict
    verdict: Verdict

    def written(self):
        return RECORD.pack(self.begins, *(self.figures[name] for name in FIGURES), *self.verdict)


def made():
    """All additions: the sequences of every sort, well mixed."""
    rng = random.Random(SEED)
    sequences = [(sort, *sequence) for sort, make in SORTS.items() for sequence in make(rng)]
    rng.shuffle(sequences)
    # A program has the empty tally before it reads anything, so the first
    # sequence just goes on.
    sequences.insert(0, ("first", EMPTY, [legal(rng) for _ in range(9)]))
    additions = []
    for sort, start, verdicts in sequences:
        for at, verdict in enumerate(verdicts):
            begins = at == 0 and sort != "first"
            additions.append(Addition(sort, begins, start if begins else any_figures(rng), verdict))
    return additions


def answer(rng):
    rounds = rng.choice((1, 2, 3, 40, 2_048, MOST_ROUNDS, rng.randint(1, MOST_ROUNDS)))
    labels = rng.choice((0, 1, 2, 17, 1_023, MOST_LABELS, rng.randint(0, MOST_LABELS)))
    return Verdict(0, rounds, labels)


def refusal(rng):
    return Verdict(rng.choice(REASONS), 0, 0)


def legal(rng):
    return rng.choice((answer, refusal))(rng)


def number_of_no_call(rng):
    near = rng.choice((6, 8, 9, 11, 12, 13, 14, 15, 16, 17, 18, 19))
    far = rng.choice((255, 256, rng.randint(19, BOUND), rng.randint(BOUND + 1, 2**64 - 1)))
    return Verdict(rng.choice((near, near, far)), 0, 0)


def refusal_with_more(rng):
    more = rng.choice((1, 2, MOST_LABELS, MOST_ROUNDS, BOUND, BOUND + 1, 2**64 - 1))
    rounds, labels = rng.choice(((more, 0), (0, more), (more, more)))
    return Verdict(rng.choice(REASONS), rounds, labels)


def answer_out_of_range(rng):
    found = answer(rng)
    over = rng.choice((0, 0, 1, rng.randint(1, BOUND), rng.randint(1, 2**63)))
    labels, rounds = MOST_LABELS + 1 + over, MOST_ROUNDS + 1 + over
    return found._replace(**rng.choice(({"labels": labels}, {"rounds": rounds}, {"rounds": 0})))


def legal_but_for_high_bits(rng):
    numbers = list(legal(rng))
    numbers[rng.randrange(3)] += 1 << rng.choice((16, 31, 32, 32, 33, 48, 63))
    return Verdict(*numbers)


ILLEGAL = (number_of_no_call, refusal_with_more, answer_out_of_range, legal_but_for_high_bits)


def illegal(rng):
    return rng.choice(ILLEGAL)(rng)


def several_parts(rng, whole):
    """A number cut into those for the answered ones and for each refusal."""
    cuts = [0, *sorted(rng.randint(0, whole) for _ in REASONS), whole]
    return [after - before for before, after in zip(cuts, cuts[1:])]


def one_part(rng, whole):
    parts = [whole, *(0 for _ in REASONS)]
    rng.shuffle(parts)
    return parts


def small_figures(rng):
    return {name: rng.randrange(2_000) for name in FIGURES}


def any_figures(rng):
    """Each figure small, at the bound, or most often anywhere."""
    tops = rng.choices((0, 100, BOUND), (1, 1, 8), k=len(FIGURES))
    figures = {name: rng.randint(0, top) for name, top in zip(FIGURES, tops)}
    full = {name: BOUND - rng.randrange(2) for name in FIGURES if rng.random() < 0.15}
    return figures | full


def mostly_adding_to(rng, figure):
    """A verdict that carries the figure on, or, at times, any."""
    makers = {name: lambda rng, number=number: Verdict(number, 0, 0) for name, number in zip(OF_REASONS, REASONS)}
    makers |= {"descriptions": legal, "answered": answer, "labels": answer, "rounds": answer}
    return rng.choice((makers[figure], makers[figure], makers[figure], legal, illegal))(rng)


# From here on each gives sequences of one sort: the figures from which one
# begins, and its verdicts.
def from_empty(rng):
    for _ in range(250):
        yield EMPTY, [legal(rng) for _ in range(rng.randint(1, 60))]


def from_empty_with_illegal(rng):
    for _ in range(300):
        yield EMPTY, [rng.choice((legal, illegal))(rng) for _ in range(rng.randint(1, 60))]


# Numbers on both sides of each edge: reasons, rounds and labels.
EDGES = (
    (*range(20), 255, 256, 257, 2**31, BOUND, BOUND + 1, BOUND + 2, BOUND + 8, 2**63, 2**64 - 1),
    (0, 1, 2, 2_048, 2_049, 2_050, BOUND, BOUND + 1, BOUND + 2, 2**64 - 1),
    (0, 1, 1_023, 1_024, 1_025, BOUND, BOUND + 1, BOUND + 2, 2**64 - 1),
)


def edges(rng):
    """Every verdict of numbers at the edges, mixed, so many at a time."""
    verdicts = [Verdict(*numbers) for numbers in itertools.product(*EDGES)]
    rng.shuffle(verdicts)
    for at in range(0, len(verdicts), 30):
        yield EMPTY, verdicts[at : at + 30]


def orders_of_rounds(rng):
    """Answers whose rounds rise, fall, stay, or go up and down, and refusals
    among them."""
    orders = (sorted, lambda rounds: sorted(rounds, reverse=True), lambda rounds: rounds[:1] * len(rounds), list)
    for order in orders * 25:
        verdicts = [answer(rng)._replace(rounds=rounds) for rounds in order(rng.choices(range(1, 2_050), k=15))]
        for _ in range(3):
            verdicts.insert(rng.randrange(len(verdicts)), refusal(rng))
        yield EMPTY, verdicts


def one_figure_near(rng):
    for figure in FIGURES:
        for short in (0, 1, 2) * 30:
            start = small_figures(rng) | {figure: BOUND - short}
            yield start, [mostly_adding_to(rng, figure) for _ in range(8)]


def labels_near(rng):
    """From every distance that an answer may carry the labels, and from one more."""
    for short in range(MOST_LABELS + 2):
        start = small_figures(rng) | {"labels": BOUND - short}
        near = [labels for labels in (short - 1, short, short + 1) if 0 <= labels <= MOST_LABELS]
        labels = [*rng.sample(near, len(near)), rng.choice((0, 1))]
        yield start, [answer(rng)._replace(labels=number) for number in labels]


def reached_and_near(rng):
    """Figures that some sequence leads to, with the descriptions near the bound
    and the labels anywhere."""
    for short in (0, 1, 2, 3) * 75:
        descriptions = BOUND - short
        parts = rng.choice((several_parts, one_part))(rng, descriptions)
        answered = parts[0]
        most_labels = min(BOUND, answered * MOST_LABELS)
        labels = rng.choice((rng.randint(0, most_labels), most_labels))
        rounds = rng.randint(1, MOST_ROUNDS) if answered else 0
        start = dict(zip(FIGURES, (descriptions, *parts, labels, rounds)))
        yield start, [rng.choice((legal, legal, legal, illegal))(rng) for _ in range(8)]


def full_and_illegal(rng):
    for _ in range(300):
        full = rng.sample(FIGURES, rng.choice((1, 2, len(FIGURES))))
        yield small_figures(rng) | dict.fromkeys(full, BOUND), [illegal(rng), legal(rng), illegal(rng)]


def made_up(rng):
    for _ in range(700):
        yield any_figures(rng), [rng.choice((legal, legal, illegal))(rng) for _ in range(6)]


SORTS = {
    "from empty": from_empty,
    "from empty, with illegal ones": from_empty_with_illegal,
    "edges": edges,
    "orders of rounds": orders_of_rounds,
    "one figure near the bound": one_figure_near,
    "labels near the bound": labels_near,
    "reached, near the bound": reached_and_near,
    "full and illegal": full_and_illegal,
    "made-up figures": made_up,
}
