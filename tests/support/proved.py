"""Building and running what is proved: the program `alphabet`, the tally, and C
programs that are linked with the archive of the C call.

All are made for x86-64. On another processor the kit's emulator and loader
run them, and Debian's cross compiler compiles the C programs.
"""

import os
import pathlib
import platform
import shutil
import subprocess

from support.comparing import dealt_out, shown
from support.examples import check_examples
from support.kept import check_kept
from support.programs import TESTS, TOP, Failed, built, output_folder, run
from support.tally import NOT_WHOLE, check_additions
from support.tally_files import check_files, check_many_files, check_records, example_files

# The emulator goes byte by byte through the instructions with which the C library
# fills and copies much memory, so that library is told to use its others.
EMULATED = "GLIBC_TUNABLES=" + ":".join(
    f"glibc.cpu.x86_rep_{which}_threshold=1000000000" for which in ("stosb", "movsb")
)

C_CALL = TESTS / "c_call"
CRATES = TOP / "crates"
ARCHIVE = CRATES / "rimecutter_c" / "out" / "librimecutter_c.a"
NATIVE = platform.machine() == "x86_64"
COMPILER = "cc" if NATIVE else "x86_64-linux-gnu-gcc"
STRICT = ["-std=c99", "-pedantic", "-Wall", "-Wextra", "-Werror", "-O2"]
# So many additions to a tally come byte by byte.
SOME_ADDITIONS = 20


def kit():
    """The folder of the Rattle kit."""
    home = os.environ.get("RATTLE_HOME")
    if home:
        return pathlib.Path(home)
    found = shutil.which("rt")
    if not found:
        raise Failed("no 'rt' on PATH, and RATTLE_HOME names no Rattle kit")
    return pathlib.Path(found).resolve().parent.parent


def command(program):
    """How a program for x86-64 is run here."""
    if NATIVE:
        return [str(program)]
    tools = kit() / "on" / platform.machine() / "toolchain"
    loader = [tools / "lib" / "ld-linux-x86-64.so.2", "--library-path", tools / "lib"]
    emulator = ["env", EMULATED, tools / "bin" / "qemu-x86_64"]
    return [str(part) for part in [*emulator, *loader, program]]


def rt(verb, crate):
    """Runs the kit's `rt` in the folder of a crate; its progress is shown. A program
    that it runs has no input, and what that prints is dropped."""
    printed = subprocess.DEVNULL if verb == "run" else None
    try:
        subprocess.run(
            [kit() / "bin" / "rt", verb], cwd=CRATES / crate, check=True, stdin=subprocess.DEVNULL, stdout=printed
        )
    except subprocess.CalledProcessError as fault:
        raise Failed(f"rt {verb} of {crate} ended with {fault.returncode}") from fault


def built_by_rt(name):
    """How a program that is proved and built first is run here. What `rt ci` built
    of the files as they are is not built again."""
    program = CRATES / name / "out" / name
    if not is_newest(program):
        rt("run", name)
        program.touch()
    return command(program)


def is_newest(program):
    """Whether a program is there and no file that it is made of is newer."""
    if not program.is_file():
        return False
    made = program.stat().st_mtime
    return all(path.stat().st_mtime <= made for path in [TOP / "crates.txt", *sources()])


def sources():
    """All files of the crates but those that rt makes."""
    for place, folders, files in os.walk(CRATES):
        if "out" in folders:
            folders.remove("out")
        yield from (pathlib.Path(place) / name for name in files)


def linked(source):
    """A C program linked with the archive."""
    program = output_folder("c_call") / source.stem
    run([COMPILER, *STRICT, f"-I{TOP / 'include'}", str(source), str(ARCHIVE), "-o", str(program)])
    return program


def build_archive():
    """The archive of the C call, proved and written."""
    rt("lib", "rimecutter_c")


def check_c_call(sample):
    """The C call: its archive is linked, the promises of its header tried, and
    its texts compared with the reference's, record by record, and with those that
    were kept."""
    for program in ("checks.c", "stack.c"):
        print(run(command(linked(C_CALL / program))).decode(), end="", flush=True)
    check_example_program()
    difference, texts = dealt_out(command(linked(C_CALL / "batch.c")), sample)
    if difference:
        print(difference, end="", flush=True)
        raise Failed("the C call differs from the reference")
    print(f"the C call answers {len(sample.records)} records as the reference does", flush=True)
    check_kept("the C call", sample, texts)


def check_example_program():
    """The example program for C prints an alphabet, and converts numbers."""
    program = command(linked(TOP / "examples" / "call.c"))
    stripe = TOP / "examples" / "stripe-15-of-16.txt"
    for words, due in (
        ([str(stripe)], stripe.with_suffix(".expected").read_bytes()),
        (["--widen", "47", "1"], b"47 0\n1 0\n"),
        (["--narrow", "47", "0", "1", "0"], b"47\n1\n"),
    ):
        printed = run([*program, *words])
        if printed != due:
            raise Failed(f"examples/call.c prints something else:\n{shown(printed)}")
    refused = subprocess.run([*program, "--narrow", "47", "0", "0", "1"], capture_output=True, check=False)
    if (refused.returncode, refused.stdout, refused.stderr) != (1, b"", b"call: refusal 11\n"):
        raise Failed("examples/call.c does not refuse an upper word in use")


def check_program():
    """The program: every example, and input that comes byte by byte or is too
    long."""
    program = built_by_rt("alphabet")
    check_examples(program)
    listing = (TOP / "crates" / "alphabet" / "stdin").read_bytes()
    due = (TOP / "crates" / "alphabet" / "stdout").read_bytes()
    expect(program, [listing[at : at + 1] for at in range(len(listing))], due)
    refused = b"answer=refused\nreason=%d\nline=%d\ncolumn=%d\n"
    expect(program, [], refused % (2, 1, 1))
    expect(program, [listing, bytes(8193 - len(listing))], refused % (1, 0, 0))
    expect(program, [b"\n" * 65536] * 16, refused % (1, 0, 0))
    print("the program answers pieces and too long input as it should", flush=True)


def check_tally_program(sample, tried):
    """The tally over files, by the command that a reader runs; and additions to a
    tally, by a program that is made for them alone."""
    program, reference = [str(TOP / "tally")], [str(built("reference")), "--tally"]
    # The first run may prove and build, which it tells on standard error.
    run([*program, *example_files()], cwd=TOP)
    check_files(program, run([*reference, *example_files()], cwd=TOP))
    check_many_files(program, reference)
    check_records(program, reference, sample)
    trials = built_by_rt("tally_trials")
    check_additions(trials, tried)
    expect(trials, [], b"")
    expect(trials, [NOT_WHOLE], b"")
    some = b"".join(addition.written() for addition in tried.additions[:SOME_ADDITIONS])
    expect(trials, [some[at : at + 1] for at in range(len(some))], b"".join(tried.texts[:SOME_ADDITIONS]))
    print("additions in pieces, and a record that is not whole, are answered as they should", flush=True)


def expect(program, pieces, due):
    """Hands a program its input piece by piece and holds it to its text."""
    with subprocess.Popen(program, stdin=subprocess.PIPE, stdout=subprocess.PIPE, bufsize=0) as running:
        for piece in pieces:
            running.stdin.write(piece)
        running.stdin.close()
        printed = running.stdout.read()
    if printed != due or running.returncode != 0:
        raise Failed(f"the program ends with {running.returncode} and prints\n{shown(printed)}")
