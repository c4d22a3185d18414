"""The tally over files: that of the reference, held to what is expected of each
example, and that of a program, held to the reference's."""

import pathlib
import re
import subprocess

from support.additions import OF_REASONS, Verdict
from support.comparing import shown
from support.examples import told_examples
from support.programs import TOP, Failed, output_folder
from support.reporting import ANSWERED, outcome_of
from support.tally import PRINTED, worked_out

# These are named on standard error and counted nowhere.
NO_FILE = "examples/no-such-file.txt"
FOLDER = "examples"

# So many files are many: a program must tell how far it is.
MANY_FILES = 250
PROGRESS = b"tally: 100 of 250 files\ntally: 200 of 250 files\n"
# So many records are written as files; the refusals among them are all that the
# reference gives.
RECORDS = 300
REFUSALS_HERE = [name for name in OF_REASONS if name != "reason10"]


def example_files():
    return [f"examples/{name}.txt" for name in told_examples()]


def text_of(figures):
    """The lines that are printed for a tally."""
    figures = figures | {"refused": sum(figures[name] for name in OF_REASONS)}
    return "".join(f"{name}={figures[name]}\n" for name in PRINTED).encode()


def verdict_of(text):
    """The verdict in the text that is printed for a description."""
    outcome, second, _ = outcome_of(text)
    if outcome != ANSWERED:
        return Verdict(outcome, 0, 0)
    return Verdict(ANSWERED, second, int(re.search(rb"^labels=(\d+)$", text, re.MULTILINE)[1]))


def tally_of_examples():
    """The text for the examples, by what is expected of each."""
    texts = [(TOP / file).with_suffix(".expected").read_bytes() for file in example_files()]
    return text_of(worked_out([verdict_of(text) for text in texts]))


def tallied(command, files, folder=TOP):
    """A run of a program over files, with what it printed."""
    try:
        return subprocess.run([*command, *files], cwd=folder, capture_output=True, check=False)
    except OSError as fault:
        raise Failed(f"{command[0]} cannot be run: {fault.strerror}") from fault


def odd_over_examples(command, text):
    """What a program does otherwise than it should over the examples, and over
    these with a file that is not there and a folder among them."""
    files = example_files()
    yield from odd(tallied(command, files), text, 0)
    yield from odd(tallied(command, [NO_FILE, *files[:9], FOLDER, *files[9:]]), text, 1, [NO_FILE, FOLDER])


def odd(done, text, status, named=()):
    """What is wrong with a run over files, if anything."""
    told = done.stderr.decode("utf-8", "replace")
    if done.stdout != text:
        yield f"another tally was due:\n{shown(text)}--- printed:\n{shown(done.stdout)}"
    if done.returncode != status:
        yield f"it ended with {done.returncode}, not {status}:\n{told}"
    for name in named:
        # Naming a file in a folder does not name the folder.
        if not re.search(rf"(?<![\w.-]){re.escape(name)}(?![\w/.-]*\w)", told):
            yield f"{name} is not named on standard error:\n{told}"


def fail_if(found, command, where):
    if found:
        raise Failed(f"{pathlib.Path(command[0]).name}, over {where}: " + "; ".join(found))


def check_files(command, text=None):
    """Ends with Failed if a program has another tally over the examples than this,
    or by default than the one worked out from what is expected of each."""
    fail_if(list(odd_over_examples(command, text or tally_of_examples())), command, "the examples")
    count = len(example_files())
    print(f"the tally over {count} examples is right, and what it leaves out is named", flush=True)


def check_many_files(command, reference):
    """Ends with Failed if a program has another tally than the reference over many
    files, or does not tell on standard error how far it is."""
    files = (example_files() * MANY_FILES)[:MANY_FILES]
    done = tallied(command, files)
    found = list(odd(done, tallied(reference, files).stdout, 0))
    if done.stderr != PROGRESS:
        found.append(f"it does not tell how far it is:\n{shown(done.stderr)}")
    fail_if(found, command, f"{MANY_FILES} files")
    print(f"the tally over {MANY_FILES} files is right, and tells how far it is", flush=True)


def check_records(command, reference, sample):
    """Ends with Failed if a program has another tally than the reference over
    records. It runs in another folder than at the top, and the names have a
    space."""
    folder = output_folder("tally")
    files = [f"some records/{number}.txt" for number in range(RECORDS)]
    output_folder("tally", "some records")
    for file, record in zip(files, sample.records):
        (folder / file).write_bytes(record)
    due = tallied(reference, files, folder)
    found = [f"{name} is not tried" for name in REFUSALS_HERE if f"\n{name}=0\n".encode() in due.stdout]
    found += odd(tallied(command, files, folder), due.stdout, 0)
    fail_if(found, command, f"{RECORDS} records")
    print(f"the tally over {RECORDS} records is right", flush=True)
