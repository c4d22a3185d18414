"""The table of examples/models/README.md, held to the models: how many names each
has, how many labels it lists, and how many of them its runs show."""

import re

from support.exact import Met, followed_examples, labels_of
from support.programs import TOP, Failed

MODELS = "models/"
ROW = re.compile(r"^\| `([a-z0-9-]+)` \| (.+) \|$", re.MULTILINE)
# What stands for a number where not all runs can be followed.
MANY = "too many to follow"


def check_models(top=TOP):
    """Ends with Failed if a model has no row, or another one than it should."""
    told = dict(ROW.findall((top / "examples" / MODELS / "README.md").read_text()))
    found = {name.removeprefix(MODELS): of for name, of in followed_examples(top).items() if name.startswith(MODELS)}
    due = {name: row_of(*example) for name, example in found.items()}
    odd = sorted(name for name in {*told, *due} if told.get(name) != due.get(name))
    if odd or not due:
        faults = [f"{name} has the row '{told.get(name)}', not '{due.get(name)}'" for name in odd]
        raise Failed("; ".join(faults) or "there are no models")
    print(f"the table of {len(due)} models is right", flush=True)


def row_of(record, answer, text):
    """What the table says of a model."""
    met = Met.read(text)
    names = record.split(b"\n")[0].decode().removeprefix("names=")
    return f"{names} | {len(labels_of(answer))} | {len(met.labels) if met.are_all else MANY}"
