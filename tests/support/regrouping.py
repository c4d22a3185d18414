"""The laws of docs/LAWS.md on random descriptions: each has one line in two
forms. Of a law both forms get the same text, whatever stands below and above
them; of what is no law some do not. The reference answers, which knows nothing
of the proofs."""

import random

from support.programs import Failed
from support.records import answered

NAMES = ("start", "done", "busy", "close")
EACH = 250
WELL_FORMED = (b"answer=ok\n", b"answer=refused\nreason=7\n")


def check_regrouping(count=EACH):
    """Ends with Failed if a law does not hold of some description, or if what
    is no law holds of all."""
    forms = LAWS | NO_LAWS
    records = [text for name in forms for text in both_forms(name, forms[name], count)]
    texts = answered(records)
    if not all(text.startswith(WELL_FORMED) for text in texts):
        raise Failed("a law is tried on a description that is not well-formed")
    faults = []
    for at, name in enumerate(forms):
        of_form = texts[2 * count * at : 2 * count * (at + 1)]
        faults += odd(name, of_form[::2], of_form[1::2])
    if faults:
        raise Failed("; ".join(faults))
    told = f"{len(LAWS)} laws hold of {count} random descriptions each"
    print(f"{told}, and {len(NO_LAWS)} that are none do not")


def both_forms(name, form, count):
    """So many random descriptions, the same ones for the same name, in turn
    with one form of a line and with the other."""
    return [text for number in range(count) for text in described(random.Random(f"{name} {number}"), form)]


def odd(name, before, after):
    """What the texts for both forms have that they should not."""
    if name in LAWS and before != after:
        yield f"{name} changes an answer"
    if name in NO_LAWS and before == after:
        yield f"{name} changes no answer"
    labels_seen = sum(text.count(b"\nlabel=") for text in before)
    if labels_seen < len(before):
        yield f"{name} is tried on {labels_seen} labels alone"


def described(rng, form):
    """A random description with a form's lines in the middle, and the same with
    its other lines."""
    equations = rng.randrange(3)
    below = [f"act {name}" for name in rng.sample(NAMES, 3)]
    add_lines(rng, below, rng.randrange(3, 8), equations)
    before, after = form(rng, len(below) - 1 - rng.randrange(3), rng.randrange(len(below)), len(below))
    above = below + before
    add_lines(rng, above, rng.randrange(3), equations)
    bodies = [rng.randrange(len(above)) for _ in range(equations)]
    above = above[len(below) + len(before) :]
    return [written_out(below + lines + above, bodies) for lines in (before, after)]


def written_out(terms, bodies):
    lines = [f"names={len(NAMES)}", *(f"name={name}" for name in NAMES), f"equations={len(bodies)}"]
    lines += [f"terms={len(terms)}", *(f"term={term}" for term in terms), *(f"equation={body}" for body in bodies)]
    return "\n".join([*lines, f"root={len(terms) - 1}", "order=all", ""]).encode()


def add_lines(rng, lines, count, equations):
    """So many random lines more, each over lines before it, most of them over
    the last."""
    for _ in range(count):
        one, other = rng.randrange(len(lines) - 3, len(lines)), rng.randrange(len(lines))
        two = rng.choice(("merge", "merge", "lmerge", "sync", "choice", "seq", "ifelse"))
        kinds = ["tau", f"act {rng.choice(NAMES)}", *[f"{two} {one} {other}"] * 4]
        kinds += [operator(rng, rng.choice(list(LISTS)))(one)]
        kinds += [f"ref {rng.randrange(equations)}"] if equations else []
        lines.append(rng.choice(kinds))


def some(rng, items):
    """One or two of the items, in their order."""
    return [items[at] for at in sorted(rng.sample(range(len(items)), rng.choice((1, 1, 2))))]


def labels(rng, most):
    """Some labels of up to three actions, ascending: the last name decides."""
    bags = {tuple(rng.choices((0, 1, 2), (6, 3, 1), k=len(NAMES))) for _ in range(most)}
    return [bag for bag in sorted(bags, key=lambda bag: bag[::-1]) if 0 < sum(bag) <= 3]


def spelled(bag):
    return ".".join(f"{name}:{count}" for name, count in zip(NAMES, bag) if count)


def pairs(rng, lefts=NAMES):
    return [f"{left}>{rng.choice(NAMES)}" for left in some(rng, lefts)]


def rules(rng):
    bags = [bag for bag in labels(rng, 8) if sum(bag) > 1] or [(0, 2, 0, 0)]
    return [f"{spelled(bag)}>{rng.choice(NAMES)}" for bag in bags[:4]]


LISTS = {
    "block": lambda rng: some(rng, NAMES),
    "hide": lambda rng: some(rng, NAMES),
    "rename": pairs,
    "comm": rules,
    "allow": lambda rng: [spelled(bag) for bag in labels(rng, 24)],
}


def operator(rng, kind):
    """An operator with a random list, as a function of its operand."""
    entries = LISTS[kind](rng)
    return lambda operand: over(kind, operand, entries)


def over(kind, operand, entries):
    # a list of labels may be empty
    return f"{kind} {operand} {','.join(entries)}".rstrip()


def in_order(entries):
    return sorted(set(entries), key=lambda entry: NAMES.index(entry.split(">")[0]))


def names_twice(kind):
    def form(rng, one, _, at):
        inner, outer = some(rng, NAMES[:3]), some(rng, NAMES[1:])
        first = over(kind, one, inner)
        return [first, over(kind, at, outer)], [first, over(kind, one, in_order(inner + outer))]

    return form


def allow_twice(rng, one, _, at):
    inner, outer = labels(rng, 40), labels(rng, 40)
    both = [bag for bag in inner if bag in outer]
    inner, outer, both = ([spelled(bag) for bag in bags] for bags in (inner, outer, both))
    first = over("allow", one, inner)
    return [first, over("allow", at, outer)], [first, over("allow", one, both)]


def rename_twice(rng, one, _, at):
    inner, outer = pairs(rng, NAMES[:2]), pairs(rng, NAMES[2:])
    first = over("rename", one, inner)
    return [first, over("rename", at, outer)], [first, over("rename", one, in_order(inner + outer))]


def comm_twice(_, one, __, at):
    # what the inner rule makes, the outer takes; in one list it is set aside
    inner, outer = ["done:1.busy:1>close"], ["start:1.close:1>done"]
    sides = ["act start", "act done", "act busy", f"sync {at} {at + 1}", f"sync {at + 3} {at + 2}"]
    sides += [f"choice {one} {at + 4}", over("comm", at + 5, inner)]
    return [*sides, over("comm", at + 6, outer)], [*sides, over("comm", at + 5, inner + outer)]


def spread(kind, two):
    """An operator over two sides, and on both sides."""

    def form(rng, one, other, at):
        wrapped = operator(rng, kind)
        sides = [f"{two} {one} {other}", wrapped(one), wrapped(other)]
        return [*sides, wrapped(at)], [*sides, f"{two} {at + 1} {at + 2}"]

    return form


def spread_over_sync(kind):
    """The same for a sync of whole processes: one side is a sum, which has the
    labels that it is of, and so is no multi-action."""

    def form(rng, one, other, at):
        wrapped = operator(rng, kind)
        left, right = rng.choice(((at, other), (other, at)))
        sides = [f"sum {one}", f"sync {left} {right}", wrapped(left), wrapped(right)]
        return [*sides, wrapped(at + 1)], [*sides, f"sync {at + 2} {at + 3}"]

    return form


def spread_over_actions(kind):
    """The same for a sync of multi-actions."""

    def form(rng, _, __, at):
        wrapped = operator(rng, kind)
        actions = [f"act {name}" for name in rng.choices(NAMES, k=2)]
        sides = [*actions, f"sync {at} {at + 1}", wrapped(at), wrapped(at + 1)]
        return [*sides, wrapped(at + 2)], [*sides, f"sync {at + 3} {at + 4}"]

    return form


def under_comm(kind):
    """An operator over a communication, and below it."""

    def form(rng, one, _, at):
        wrapped, communicated = operator(rng, kind), operator(rng, "comm")
        return [communicated(one), wrapped(at)], [wrapped(one), communicated(at)]

    return form


# What looks at the actions of a label one by one, and what at the whole label.
OF_ACTIONS = ("block", "hide", "rename")
OF_LABELS = ("comm", "allow")

LAWS = {
    "hide twice": names_twice("hide"),
    "block twice": names_twice("block"),
    "allow twice": allow_twice,
    **{f"{kind} over {two}": spread(kind, two) for kind in OF_ACTIONS for two in ("merge", "lmerge")},
    **{f"{kind} over sync": spread_over_sync(kind) for kind in OF_ACTIONS},
    **{f"{kind} over {two}": spread(kind, two) for kind in LISTS for two in ("choice", "ifelse", "seq")},
}
NO_LAWS = {
    "rename twice": rename_twice,
    "comm twice": comm_twice,
    **{f"{kind} over {two}": spread(kind, two) for kind in OF_LABELS for two in ("merge", "lmerge")},
    **{f"{kind} over sync": spread_over_sync(kind) for kind in OF_LABELS},
    **{f"{kind} over a sync of multi-actions": spread_over_actions(kind) for kind in LISTS},
    **{f"{kind} under comm": under_comm(kind) for kind in ("block", "hide", "rename", "allow")},
}
