"""Prints a table of common mistakes: what the program says of each, and what ./play says beside it.

usage: python3 -m tools.tests.mistakes [--stored]

With --stored it prints what tools/tests/mistakes.advice has to hold."""
import sys

from tools.advice import advise
from tools.sources import TOP
from tools.tests.cases import refused_cases

CASES = TOP / "tests" / "mistakes.case"
STORED = TOP / "tools" / "tests" / "mistakes.advice"


def advised():
    """Each mistake: its name, the program's text, and the lines of ./play."""
    for name, data, text in refused_cases(CASES):
        yield name, text.decode().strip(), advise(data, text, "shop.toml")


def stored():
    return "".join("== {}\n{}\n".format(name, "\n".join(lines)) for name, _, lines in advised())


def table():
    rows = ["| mistake | the program says | ./play says: line, text | and the way out |", "|---|---|---|---|"]
    for name, text, lines in advised():
        place, says, way = lines[0].split(":", 1)[-1], lines[3].strip(), lines[5].strip()
        cells = [name, f"`{text}`", f"{place}: {says}", way.replace("way out: ", "")]
        rows.append("| " + " | ".join(each.replace("|", "\\|") for each in cells) + " |")
    return "\n".join(rows) + "\n"


if __name__ == "__main__":
    sys.stdout.write(stored() if "--stored" in sys.argv[1:] else table())
