"""Building and running the reference and the generator.

All that is built or generated goes below target-tests at the top of the
repository, which git ignores.
"""

import os
import pathlib
import subprocess
import sys

TESTS = pathlib.Path(__file__).resolve().parent.parent
TOP = TESTS.parent
OUTPUT = TOP / "target-tests"
CARGO_OUTPUT = OUTPUT / "cargo"


class Failed(Exception):
    """Something that was needed did not work; the message says what."""


def stop_on_failure(main):
    """Runs a script's main function and ends with its verdict."""
    try:
        sys.exit(main())
    except Failed as failure:
        sys.exit(f"{pathlib.Path(sys.argv[0]).name}: {failure}")


def output_folder(*parts):
    """A folder below target-tests, made when it is not there."""
    folder = OUTPUT.joinpath(*parts)
    folder.mkdir(parents=True, exist_ok=True)
    return folder


def run(command, **options):
    """Runs a command that must succeed and gives what it printed."""
    try:
        done = subprocess.run(command, check=True, stdout=subprocess.PIPE, **options)
    except FileNotFoundError as fault:
        raise Failed(f"{command[0]} is not installed") from fault
    except subprocess.CalledProcessError as fault:
        # What it printed tells why; of a long output the end does.
        sys.stderr.write(fault.stdout[-10_000:].decode("utf-8", "replace"))
        raise Failed(f"{' '.join(map(str, command))} ended with {fault.returncode}") from fault
    return done.stdout


def cargo(action, package, *arguments):
    """Runs cargo for one of the packages here, without a network."""
    output_folder()
    command = [os.environ.get("CARGO", "cargo"), action, "--quiet", "--offline", "--locked"]
    command += ["--manifest-path", str(TESTS / package / "Cargo.toml")]
    command += ["--target-dir", str(CARGO_OUTPUT), *arguments]
    return run(command)


def built(package):
    """The program of a package, built when it is not up to date."""
    cargo("build", package, "--release")
    return CARGO_OUTPUT / "release" / package
