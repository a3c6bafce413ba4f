"""From a path that a refusal names, as methods[0].body[2], to its place in the scenario's text."""
import re
from collections import namedtuple

from tools.toml_text import line_of

# A span of the text, and the node there, if a value stands there.
Place = namedtuple("Place", "start end node")

STEP = re.compile(r"\.?([A-Za-z0-9_]+|\?)|\[([0-9]+)\]")


def steps_of(path):
    """The keys and indices of a path."""
    steps = []
    at = 0
    while at < len(path):
        found = STEP.match(path, at)
        if not found or found.end() == at:
            return None
        steps.append(found[1] if found[1] else int(found[2]))
        at = found.end()
    return steps


def keys_of(steps):
    return [each for each in steps if isinstance(each, str)]


def node_at(root, steps):
    """The node that steps lead to, or None."""
    node = root
    for step in steps:
        if isinstance(step, int):
            if node.kind != "array" or step >= len(node.value):
                return None
            node = node.value[step]
        elif node.kind != "table" or step not in node.value:
            return None
        else:
            node = node.value[step]
    return node


def value_place(node):
    return Place(node.start, node.end, node)


def key_place(node):
    return Place(node.key_start, node.key_end, node)


def head_place(text, node):
    """The place of a table whose key is missing: its first line."""
    end = text.find("\n", node.start)
    return Place(node.start, min(node.end, end if end >= 0 else node.end), node)


def shown(text, place, name):
    """The lines that show a place: the file and line, the line's text, and marks under the place."""
    number = line_of(text, place.start)
    start = text.rfind("\n", 0, place.start) + 1
    end = text.find("\n", place.start)
    line = text[start : end if end >= 0 else len(text)].rstrip("\r")
    column = place.start - start
    cut = max(0, column - 40) if len(line) > 100 else 0
    piece = line[cut : cut + 100]
    piece = "".join(each if each.isprintable() else " " if each == "\t" else "?" for each in piece)
    before, after = "..." if cut else "", "..." if cut + 100 < len(line) else ""
    wide = max(1, min(place.end - place.start, len(piece) - (column - cut)))
    head = f"{number:5} | "
    return [
        f"{name}:{number}:{column + 1}",
        f"{head}{before}{piece}{after}",
        " " * (len(head) - 2) + "| " + " " * (len(before) + column - cut) + "^" * wide,
    ]
