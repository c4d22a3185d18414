"""The places that the docs name, such as `Term` (`crates/table/src/lib.rt:35`):
the name stands in that line of that file."""

import re

from support.programs import TOP, Failed

NAMED = re.compile(r"`([^`\n]+)`\s+\(`([\w./-]+):(\d+)`\)")
PLACE = re.compile(r"`[\w./-]+\.\w+:\d+`")


def check_places(top=TOP):
    """Ends with Failed if a name stands elsewhere, or a place has no name."""
    faults, count = [], 0
    for page in sorted([*top.glob("*.md"), *top.glob("docs/*.md")]):
        text = page.read_text()
        named = NAMED.findall(text)
        count += len(named)
        faults += [f"{page.name}: {fault}" for place in named for fault in wrong(top, *place)]
        if len(PLACE.findall(text)) != len(named):
            faults.append(f"{page.name}: a place stands without its name before it")
    if faults or not count:
        raise Failed("; ".join(faults) or "the docs name no place")
    print(f"{count} names stand where the docs say")


def wrong(top, name, path, number):
    """What is wrong with a place, if anything."""
    if not (top / path).is_file():
        return [f"there is no file {path}"]
    lines = (top / path).read_text().splitlines()
    word = re.compile(rf"(?<![\w-]){re.escape(name)}(?![\w-])")
    if int(number) <= len(lines) and word.search(lines[int(number) - 1]):
        return []
    found = [str(at) for at, line in enumerate(lines, 1) if word.search(line)]
    return [f"{name} is not in line {number} of {path} but in {', '.join(found) or 'none'}"]
