"""The test of the test: the reference is damaged on purpose, and the
comparison must find each damage with the records that the gate uses. Where only
the following of runs is damaged, the lists held to the runs must find it, and
where only the tally is, the additions to a tally or the tally over files.

A damage is a file in tests/damages: a line that tells what is wrong then,
and one or more edits. An edit is a line `in FILE`, the lines to be replaced
after `-` and those that replace them after `+`.
"""

import concurrent.futures
import contextlib
import dataclasses
import operator
import os
import queue
import shutil

from support import exact, tally
from support.comparing import differences
from support.programs import TESTS, Failed, output_folder, run
from support.tally_files import odd_over_examples, tally_of_examples

SECONDS_TO_ANSWER = 300

# The records are well mixed, so the first of them must do to find a damage.
# That is stricter than a comparison with all of them, and takes less time.
FIRST_RECORDS = 40_000
# The same for records whose runs are followed.
FIRST_RUNS = 600

# What the name of a damage of following runs, or of the tally, begins with.
OF_RUNS = "runs-"
OF_TALLY = "tally-"


@dataclasses.dataclass
class Edit:
    file: str
    old: str = ""
    new: str = ""


@dataclasses.dataclass
class Damage:
    name: str
    told: str
    edits: list

    @staticmethod
    def read(path):
        told, *lines = path.read_text().splitlines()
        edits = []
        for line in lines:
            if line.startswith("in "):
                edits.append(Edit(line[len("in "):]))
            elif line.startswith("-") and edits:
                edits[-1].old += line[1:] + "\n"
            elif line.startswith("+") and edits:
                edits[-1].new += line[1:] + "\n"
            else:
                raise Failed(f"{path.name} has a line that is no part of an edit: {line}")
        if not edits:
            raise Failed(f"{path.name} has no edit")
        return Damage(path.stem, told, edits)

    def apply(self, source):
        """Makes the edits below the folder `source`."""
        for edit in self.edits:
            path = source / edit.file
            text = path.read_text() if path.is_file() else ""
            places = text.count(edit.old) if edit.old else 0
            if places != 1 or edit.old == edit.new:
                told = f"what it replaces in {edit.file} stands in {places} places"
                raise Failed(f"{self.name} changes nothing: {told}")
            path.write_text(text.replace(edit.old, edit.new))


class Workshop:
    """A copy of the reference that is damaged and built; one of several.

    What the compiler keeps of the whole copy is put back before each damage,
    so that only what the damage touches is compiled anew."""

    def __init__(self, number):
        self.folder = output_folder("damaged", str(number))
        self.kept = self.folder / "kept"
        shutil.rmtree(self.folder / "compiled", ignore_errors=True)

    def whole(self):
        """The program without damage, to be built before all others."""
        shutil.rmtree(self.kept, ignore_errors=True)
        self._copy_source()
        command = self._build()
        shutil.copytree(self.folder / "compiled", self.kept)
        return command

    def damaged(self, damage):
        self._copy_source()
        damage.apply(self.folder)
        shutil.rmtree(self.folder / "compiled")
        shutil.copytree(self.kept, self.folder / "compiled")
        return self._build()

    def _copy_source(self):
        shutil.rmtree(self.folder / "src", ignore_errors=True)
        shutil.copytree(TESTS / "reference" / "src", self.folder / "src")

    def _build(self):
        program = self.folder / "reference"
        command = [os.environ.get("RUSTC", "rustc"), "--edition=2021", "--cap-lints=allow"]
        # What takes least time to build and to run together.
        command += ["-Copt-level=1", "-Clto=off", "-Cprefer-dynamic", "-Crpath"]
        command += [f"-Cincremental={self.folder / 'compiled'}", "-o", str(program)]
        run([*command, str(self.folder / "src" / "main.rs")])
        return [str(program)]


class Texts:
    """How a damage of what is printed is found: another text for a record."""

    options = ()
    agrees = staticmethod(operator.eq)

    def __init__(self, sample):
        self.sample = sample

    def differences(self, command):
        return differences([*command, *self.options], self.sample, SECONDS_TO_ANSWER, self.agrees)

    def first(self, command):
        """What finds it first, in words; nothing if it is not found."""
        with contextlib.closing(self.differences(command)) as found:
            return next((f"record {difference.number}" for difference in found), "")


class Runs(Texts):
    """How a damage of following runs is found: a record has another list than
    its runs, or an example shows a label that should be on no run."""

    options = ("--runs",)
    agrees = staticmethod(exact.agrees)

    def first(self, command):
        return ", ".join(exact.seen_in_examples(command)) or super().first(command)


class Tallies:
    """How a damage of the tally is found: another text for an addition, or another
    tally over the examples."""

    def __init__(self, tried):
        self.tried = tried
        self.over_examples = tally_of_examples()

    def differences(self, command):
        return tally.differences([*command, "--additions"], self.tried)

    def first(self, command):
        for difference in self.differences(command):
            return f"addition {difference.number}"
        odd = odd_over_examples([*command, "--tally"], self.over_examples)
        return "the tally over the examples" if any(odd) else ""


def try_all(sample, tried, count=False):
    """Tries every damage, as many at a time as there are processors; ends with
    Failed unless each one is found."""
    texts = Texts(sample if count else sample.first(FIRST_RECORDS))
    runs = Runs(exact.made_to_follow(sample, None if count else FIRST_RUNS))
    tallies = Tallies(tried)
    damages = [Damage.read(path) for path in sorted((TESTS / "damages").glob("*.edit"))]
    if not damages:
        raise Failed("there are no damages to try")
    number = os.cpu_count() or 1
    with concurrent.futures.ThreadPoolExecutor(number) as beside:
        free = queue.SimpleQueue()
        for workshop in beside.map(lambda number: prepared(number, [texts, runs, tallies]), range(number)):
            free.put(workshop)
        unfound = []
        others = {OF_RUNS: runs, OF_TALLY: tallies}
        ways = [way_to_find(damage, others, texts) for damage in damages]
        tries = beside.map(lambda damage, way: found_by(damage, free, way, count), damages, ways)
        for damage, found in zip(damages, tries):
            print(f"{damage.name}: {found or 'NOT FOUND'}", flush=True)
            if not found:
                unfound.append(damage.name)
    if unfound:
        raise Failed(f"{len(unfound)} of {len(damages)} are not found: {', '.join(unfound)}")
    by_others = f"{ways.count(runs)} of them by the lists held to the runs, {ways.count(tallies)} by the tally"
    print(f"{len(damages)} damages are found, {by_others}")


def way_to_find(damage, others, texts):
    """What must find a damage, by what its name begins with."""
    return next((way for prefix, way in others.items() if damage.name.startswith(prefix)), texts)


def prepared(number, ways):
    """A workshop whose whole program is built and prints what it should."""
    workshop = Workshop(number)
    program = workshop.whole()
    if any(way.first(program) for way in ways):
        raise Failed("a copy of the reference without damage differs from it")
    return workshop


def found_by(damage, free, way, count):
    """Tries a damage in a workshop that is free: what `told` says of it."""
    workshop = free.get()
    try:
        return told(damage, workshop.damaged(damage), way, count)
    finally:
        free.put(workshop)


def told(damage, command, way, count):
    """What a damage is found by, in words; nothing if it is not found."""
    try:
        found = sum(1 for _ in way.differences(command)) if count else 0
        return f"{found} records" if found else way.first(command)
    except Failed as failure:
        raise Failed(f"{damage.name}: the damaged program must answer, but {failure}") from failure
