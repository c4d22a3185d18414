"""The syncs that a description has. A narrow one is of multi-actions, that is
of terms built of act, tau, delta and sync only, and has their product alone. A
wide one is of whole processes and has both sides as well."""

import dataclasses

# A description with one of these was refused before a sync took any operands.
ONCE_REFUSED = ("narrow over delta", "wide", "narrow in wide", "wide in wide")
SORTS = ("narrow", "narrow in narrow", *ONCE_REFUSED)


@dataclasses.dataclass
class Built:
    """What a term is built of."""

    is_sync: bool
    is_multi_action: bool
    has_delta: bool

    @property
    def width(self):
        return "narrow" if self.is_multi_action else "wide"


def sorts_of_sync(lines):
    """Which sorts of sync the term lines of a well-formed description have."""
    found = set()
    terms = []
    for line in lines:
        if line.startswith(b"term="):
            kind, *operands = line.removeprefix(b"term=").split(b" ")
            sides = [terms[int(number)] for number in operands] if kind == b"sync" else []
            terms.append(built(kind, sides))
            if sides:
                found |= sorts(terms[-1], sides)
    return found


def built(kind, sides):
    """A term of this kind; of a sync, with these two sides."""
    if not sides:
        return Built(False, kind in (b"act", b"tau", b"delta"), kind == b"delta")
    is_multi_action = all(side.is_multi_action for side in sides)
    return Built(True, is_multi_action, any(side.has_delta for side in sides))


def sorts(sync, sides):
    """What one sync is, and what its sides are that are syncs again."""
    found = {sync.width, *(f"{side.width} in {sync.width}" for side in sides if side.is_sync)}
    if sync.is_multi_action and sync.has_delta:
        found.add("narrow over delta")
    return found
