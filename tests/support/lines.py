"""Lines of code and proof that can be read: none too wide, a comment on every
public function, a line of the index for every file of laws, and no place in a
source file, which would soon be stale."""

import re

from support.pages import wide_lines
from support.programs import TOP, Failed

MOST_COLUMNS = 160
IMPORT = re.compile(r"^(ghost )?use ")
PLACE = re.compile(r"^\s*--.*\bsrc/\w+\.rt:\d+")
LAWS = re.compile(r"^(?:pub )?mod (\w+)")
FUNCTION = re.compile(r'^\s*pub (?:extern "C" )?fn (\w+)')


def check_lines(top=TOP):
    """Ends with Failed at a line that is too wide, at what has no comment and at a place."""
    sources = sorted(top.glob("crates/*/src/**/*.rt"))
    proofs = sorted(top.glob("crates/*/proofs/**/*.antt"))
    faults = [fault for path in sources for fault in uncommented(top, path, FUNCTION, "//")]
    for index in sorted(top.glob("crates/*/proofs/Lib.antt")):
        faults += uncommented(top, index, LAWS, "--")
    for path in proofs:
        faults += [f"{path.relative_to(top)} names a place" for line in path.read_text().splitlines() if PLACE.match(line)]
    for path in [*sources, *sorted(top.glob("crates/*/specs/**/*.antt")), *proofs]:
        faults += wide(top, path)
    if faults or not sources:
        raise Failed("; ".join(faults) or "there is no code")
    print(f"every public function in {len(sources)} files has its comment; no line of code, definition or proof is too wide")


def uncommented(top, path, what, comment):
    """Each line of a kind that has no comment above it, attributes left out."""
    lines = path.read_text().splitlines()
    for at, line in enumerate(lines):
        named = what.match(line)
        above = [before for before in lines[:at] if not before.strip().startswith("#[")]
        if named and not (above and above[-1].strip().startswith(comment)):
            yield f"{named[1]} in {path.relative_to(top)} has no comment"


def wide(top, path):
    """Too wide lines but those that import names."""
    for fault in wide_lines(path, MOST_COLUMNS, lambda line: not IMPORT.match(line)):
        yield fault.replace(path.name, str(path.relative_to(top)))
