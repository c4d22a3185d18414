"""The pairs in examples/ and examples/models/: NAME.txt, which a program reads,
and NAME.expected, which it must print. Each is told in the README.md beside it."""

import re
import subprocess

from support.comparing import shown
from support.programs import TOP, Failed

EXAMPLES = TOP / "examples"
FOLDERS = ("", "models/")
FIRST = "stripe-15-of-16"


def check_examples(command):
    """Runs the command over every example; ends with Failed if one differs."""
    names = told_examples()
    failures = [name for name in names if not is_printed(command, name)]
    if failures:
        raise Failed(f"{len(failures)} of {len(names)} examples differ: {', '.join(failures)}")
    print(f"{len(names)} examples are as expected")


def told_examples():
    """The examples in the order of their pages, by their places in examples/."""
    told = [f"{folder}{name}" for folder in FOLDERS for name in told_in(folder)]
    if told[:1] != [FIRST]:
        raise Failed(f"examples/README.md does not begin with {FIRST}")
    return told


def told_in(folder):
    """The examples of a folder in the order of its README, which must name each pair."""
    told = re.findall(r"^- `([a-z0-9-]+)`", (EXAMPLES / folder / "README.md").read_text(), re.MULTILINE)
    due = sorted([f"{name}.txt" for name in told] + [f"{name}.expected" for name in told])
    pairs = (path for path in (EXAMPLES / folder).iterdir() if path.suffix in (".txt", ".expected"))
    there = sorted(path.name for path in pairs)
    if due != there:
        odd = ", ".join(sorted(set(due) ^ set(there))) or "one of them is told twice"
        raise Failed(f"examples/{folder} and its README.md do not agree: {odd}")
    return told


def is_printed(command, name):
    expected = (EXAMPLES / f"{name}.expected").read_bytes()
    with (EXAMPLES / f"{name}.txt").open("rb") as description:
        try:
            done = subprocess.run(command, stdin=description, stdout=subprocess.PIPE, check=False)
        except OSError as fault:
            raise Failed(f"{command[0]} cannot be run: {fault.strerror}") from fault
    if done.returncode < 0:
        raise Failed(f"{command[0]} was ended by signal {-done.returncode} on {name}")
    if done.stdout != expected:
        print(f"--- {name}, expected:\n{shown(expected)}--- printed:\n{shown(done.stdout)}", end="")
    return done.stdout == expected
