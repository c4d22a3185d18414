"""docs/PROMISES.md against the crates: every public function has an entry and a
promise, what it asks of its caller is explained, and no entry or edit is made up.

A public function stands in a crate's src/lib.rt or in a module that it
declares by `pub mod`; its entry is an item of a list that begins with its name
in backquotes."""

import re

from support.programs import TOP, Failed

FUNCTION = re.compile(r"^\s*pub (?:extern \"C\" )?fn (\w+)")
CLAUSE = re.compile(r"^\s*(ensures|requires)\b")


def check_promises(top=TOP):
    """Ends with Failed if the list and the crates do not agree."""
    text = (top / "docs" / "PROMISES.md").read_text()
    entries = told_entries(text)
    functions = public_functions(top)
    faults = [f"{name} is not there" for name in sorted(set(entries) - set(functions))]
    for name, clauses in functions.items():
        if name not in entries:
            faults.append(f"{name} is missing")
        elif "requires" in clauses and not re.search(r"\brequires\b", entries[name]):
            faults.append(f"what {name} requires is not explained")
        if "ensures" not in clauses:
            faults.append(f"{name} has no ensures")
    edits = {path.stem for path in top.glob("crates/*/must-fail/*.edit")}
    told = set(re.findall(r"`(\w+)\.edit`", text))
    faults += [f"there is no edit {name}" for name in sorted(told - edits)]
    if faults:
        raise Failed(f"docs/PROMISES.md: {'; '.join(faults)}")
    print(f"{len(functions)} public functions have their promises listed")


def told_entries(text):
    """Each entry of the page by the function that it tells of."""
    entries = re.findall(r"^- `([\w:]+)`: (.*(?:\n  .*)*)", text, re.MULTILINE)
    names = [name for name, _ in entries]
    twice = {name for name in names if names.count(name) > 1}
    if twice:
        raise Failed(f"docs/PROMISES.md tells twice of {', '.join(sorted(twice))}")
    return dict(entries)


def public_functions(top):
    """The clauses of every public function's contract, by its full name."""
    functions = {}
    for library in sorted(top.glob("crates/*/src/lib.rt")):
        crate = library.parent.parent.name
        text = library.read_text()
        functions |= contracts(crate, text)
        for module in re.findall(r"^pub mod (\w+);", text, re.MULTILINE):
            source = library.with_name(f"{module}.rt").read_text()
            functions |= contracts(f"{crate}::{module}", source)
    return functions


def contracts(module, text):
    """A contract stands between a signature and the line that opens the body."""
    found = {}
    clauses = None
    for line in text.splitlines():
        function = FUNCTION.match(line)
        clause = CLAUSE.match(line)
        if function:
            clauses = found.setdefault(f"{module}::{function[1]}", set())
        elif clause and clauses is not None:
            clauses.add(clause[1])
        if line.rstrip().endswith("{") and not clause:
            clauses = None
    return found
