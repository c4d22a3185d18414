"""What was printed before there could be more than 12 names. A description with up
to 12 must print exactly that still.

The texts themselves would fill 19 MB; so digests are kept, one of each block of
records and one of their texts. The records of a class stay the same from one
request to the next, and those of new classes are in no block."""

import hashlib
import re

from support.programs import TESTS, Failed
from support.records import written

KEPT = TESTS / "kept" / "up-to-12-names"
RECORDS_OF_A_BLOCK = 1000
# What a record with more names begins with, whether that many are there or not.
MORE_NAMES = re.compile(rb"names=(1[3-9]|[2-9]\d|\d{3})")


def digest(records):
    return hashlib.blake2b(written(records), digest_size=16).hexdigest()


def blocks(sample, texts):
    """A line for each block: its class and number, how many records it has, and
    the digests of these and of their texts."""
    places = {}
    for at, (name, record) in enumerate(zip(sample.classes, sample.records)):
        if not MORE_NAMES.match(record):
            places.setdefault(name, []).append(at)
    for name, of_class in sorted(places.items()):
        for start in range(0, len(of_class), RECORDS_OF_A_BLOCK):
            block = of_class[start : start + RECORDS_OF_A_BLOCK]
            digests = (digest([of[at] for at in block]) for of in (sample.records, texts))
            yield " ".join([name, str(start // RECORDS_OF_A_BLOCK), str(len(block)), *digests])


def keep(sample):
    """Keeps what the reference prints now."""
    KEPT.parent.mkdir(exist_ok=True)
    KEPT.write_text("".join(f"{line}\n" for line in blocks(sample, sample.texts)))


def check_kept(who, sample, texts):
    """Ends with Failed if these texts for the records of the sample are not those
    that were kept, or a record is not there any more."""
    kept = KEPT.read_text().splitlines()
    now = set(blocks(sample, texts))
    records_now = {line.rpartition(" ")[0] for line in now}
    for line in kept:
        name, number, *_ = line.split(" ")
        if line.rpartition(" ")[0] not in records_now:
            raise Failed(f"block {number} of the class {name} has other records than were kept")
        if line not in now:
            raise Failed(f"{who} prints something else than was kept for block {number} of the class {name}")
    count = sum(int(line.split(" ")[2]) for line in kept)
    print(f"{who} prints what was kept for {count} records with up to 12 names", flush=True)
