"""What the pages and the header say, held to the files beside them."""

import re

from support.programs import TOP, Failed

# One width for all pages, and one for the rows of their tables.
COLUMNS = 100
ROW_COLUMNS = 130
REASONS = (1, 2, 3, 4, 5, 7, 8, 11)
# Those of a tally, which the header has no call for.
TALLY_REASONS = (17, 18)
# Numbers that were given once and are not used again.
WITHDRAWN = (6,)


def check_pages(top=TOP):
    """Ends with Failed if the header or docs/FORMAT.md lacks a refusal's number or
    has one that was withdrawn, no page names an example, or a page has a line
    that is too wide."""
    pages = sorted([*top.glob("*.md"), *top.glob("*/*.md"), *top.glob("docs/*/*.md"), *top.glob("examples/*/*.md")])
    faults = [*wrong_reasons(top), *nameless_examples(top)]
    for page in pages:
        faults += wide_lines(page, COLUMNS, lambda line: not line.startswith("|"))
        faults += wide_lines(page, ROW_COLUMNS)
    if faults:
        raise Failed("; ".join(faults))
    counts = f"{len(REASONS + TALLY_REASONS)} numbers of refusals and {len(examples(top))} examples"
    print(f"{counts} stand on their pages; no line of {len(pages)} pages is too wide")


def wrong_reasons(top):
    header = (top / "include" / "rimecutter.h").read_text()
    numbers = {int(number) for number in re.findall(r"^ +RIMECUTTER_\w+ = (\d+),? +/\*", header, re.MULTILINE)}
    rows = {int(row) for row in re.findall(r"^\| (\d+) \|", (top / "docs" / "FORMAT.md").read_text(), re.MULTILINE)}
    pages = (("include/rimecutter.h", numbers, REASONS), ("docs/FORMAT.md", rows, REASONS + TALLY_REASONS))
    for name, found, reasons in pages:
        for number in reasons:
            if number not in found:
                yield f"{name} lacks refusal {number}"
        for number in WITHDRAWN:
            if number in found:
                yield f"{name} has refusal {number}, which is withdrawn"


def examples(top):
    """The examples, by their places in examples/: those in a folder have its name."""
    folder = top / "examples"
    return sorted(str(path.relative_to(folder).with_suffix("")) for path in folder.rglob("*.txt"))


def nameless_examples(top):
    """Each is named on the page beside it."""
    for path in (top / "examples" / name for name in examples(top)):
        page = path.with_name("README.md")
        if f"`{path.name}`" not in page.read_text():
            yield f"{page.relative_to(top)} does not name {path.name}"


def wide_lines(path, most, counts=lambda line: True):
    """Each line that is too wide, of those that count."""
    for number, line in enumerate(path.read_text().splitlines(), 1):
        if len(line) > most and counts(line):
            yield f"line {number} of {path.name} has {len(line)} columns"
