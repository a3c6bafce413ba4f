"""The shapes and colours of a picture. Each tells itself without colour too: by its form, its border or its hatching."""

# The shapes at a tick: a path from its middle, its style, and what the legend says.
TICKS = {
    "C": ("m-4 0a4 4 0 1 0 8 0 4 4 0 1 0-8 0z", "fill:#0a7d28;stroke:#000", "commit"),
    "X": ("m-4-4 8 8m0-8-8 8", "fill:none;stroke:#c00000;stroke-width:2.6", "rollback"),
    "V": ("m-4-3h8l-4 7z", "fill:#fff;stroke:#333", "savepoint"),
    "K": ("m4-4-8 4 8 4z", "fill:#fff;stroke:#c00000;stroke-width:1.4", "back to it"),
    "A": ("m-4 3h8l-4-7z", "fill:#bde5c6;stroke:#333", "its release"),
    "D": ("m-3.5 0a3.5 3.5 0 1 0 7 0 3.5 3.5 0 1 0-7 0z", "fill:#fff;stroke:#123;stroke-width:1.6", "begin"),
    "O": ("m0-4v4l3 4m-3-4-3 4", "fill:none;stroke:#333;stroke-width:1.3", "take"),
    "Q": ("m0 4v-4l3-4m-3 4-3-4", "fill:none;stroke:#333;stroke-width:1.3", "give"),
    "R": ("m0-4v8", "fill:none;stroke:#333;stroke-width:1.6", "read"),
    "W": ("m0-4v8m-3 0h6", "fill:none;stroke:#333;stroke-width:1.8", "write, erase"),
    "U": ("m-4-4h8v8h-8z", "fill:#e08000;stroke:#000", "busy or empty"),
    "T": ("m-3 4h6l-3-8z", "fill:#ffb000;stroke:#000;stroke-width:.8", "leaves by a throw"),
}

# The bars of calls: their style, and what the legend says.
BARS = {
    "f": ("fill:#cfe2ff;stroke:#123;stroke-width:2", "fresh transaction"),
    "j": ("fill:#e8f1ff;stroke:#123;stroke-width:.7", "joined"),
    "p": ("fill:#fff7dd;stroke:#123;stroke-dasharray:5 2", "savepoint (nested)"),
    "e": ("fill:#fff;stroke:#123;stroke-dasharray:1.5 2", "no transaction"),
    "n": ("fill:#eee;stroke:#999;stroke-width:.4", "no scope of its own"),
    "h": ("fill:url(#h);stroke:none", "set aside"),
}

KINDS = {"commit": "C", "rollback": "X", "back_to": "K", "savepoint": "V", "release": "A", "take": "O", "give": "Q", "begin": "D"}


def bar_of(frame):
    return {"fresh": "f", "join": "j", "point": "p", "empty": "e"}.get(frame.scope, "n")


def tick_of(line):
    told = line.told
    if "busy" in told or told.get("connection") == "empty":
        return "U"
    if "access" in told:
        return "R" if told["access"] == "read" else "W"
    return KINDS[line.kind]


# Texts, lines between lanes and strips, and the plates below names.
TEXTS = (
    "text{font:10px monospace;fill:#111}.s{font-size:9px;text-anchor:middle}.g{fill:#555}.b{font-weight:bold}"
    ".l{stroke:#ccc}.z{stroke:#555;stroke-width:2}.P{fill:#fff}"
)
HATCHING = (
    '<pattern id="h" width="5" height="5" patternUnits="userSpaceOnUse" patternTransform="rotate(45)">'
    '<path d="M0 0V5" stroke="#333" stroke-width="1.6"/></pattern>'
)


def head():
    """The styles, and the pattern of what is set aside."""
    styles = "".join(f".{name}{{{style}}}" for name, (_, style, _) in TICKS.items())
    styles += "".join(f".{name}{{{style}}}\n" for name, (style, _) in BARS.items())
    return f"<style>{TEXTS}\n{styles}</style>\n<defs>{HATCHING}</defs>\n"


def number(value):
    """A number as short as it can be."""
    return f"{value:.1f}".rstrip("0").rstrip(".")


def tick(name, x, y):
    return f"M{number(x)} {number(y)}{TICKS[name][0]}"


def bar(x, y, wide, high):
    return f"M{x} {y}h{wide}v{high}h-{wide}z"
