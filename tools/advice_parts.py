"""What a piece of advice is made of."""
from collections import namedtuple

from tools import places

# A refusal's stage, name and argument.
Refused = namedtuple("Refused", "stage name argument")

# Where it is, what is wrong there, what would be right, and the way out.
Advice = namedtuple("Advice", "place says right way")


def quoted(value):
    """A value as a text of the file, shortened."""
    text = value if isinstance(value, str) else str(value)
    return f"`{text}`" if len(text) <= 70 else f"`{text[:67]}...`"


def found(document, path):
    """The steps of a path, and the node that it leads to or None."""
    steps = places.steps_of(path)
    return (steps, places.node_at(document.root, steps)) if steps else (None, None)


def a_name(names, like):
    """A name that isn't one of some, made of another."""
    number = 2
    while f"{like[:28]}_{number}" in names:
        number += 1
    return f"{like[:28]}_{number}"
