"""What helps with a refusal: the place in the file, what would be right there, and the way out."""
import re

from tools import advice_graphs, advice_names, advice_values, places
from tools.advice_parts import Advice, Refused
from tools.document import Document
from tools.say import shortened
from tools.toml_text import Fault

REFUSAL = re.compile(r"refused ([0-9]{1,2}) ([A-Za-z]+)(?: ([A-Za-z0-9_.\[\]?]+))?\n")

STAGES = {
    2: advice_values.unknown_key, 3: advice_values.missing, 4: advice_values.wrong_type, 5: advice_names.bad_name,
    6: advice_values.out_of_range, 7: advice_values.too_many, 8: advice_names.duplicate, 9: advice_names.bad_word,
    10: advice_names.unknown, 11: advice_graphs.class_cycle, 12: advice_graphs.class_depth, 13: advice_graphs.callback_body,
    14: advice_graphs.call_cycle, 15: advice_graphs.call_depth, 16: advice_graphs.too_large,
}


def refusal_of(text):
    """The stage, name and argument that a refusal's text tells, or None."""
    found = REFUSAL.fullmatch(text.decode("utf-8", "replace"))
    return Refused(int(found[1]), found[2], found[3] or "") if found else None


def not_toml(document):
    """Stage 1: the place that the reader of tools/ found, else that of Python's own."""
    fault = document.fault or second_opinion(document.text)
    if fault is None:
        return Advice(
            None, "the program can't read this as a TOML document, and no place was found that is wrong",
            "a document of TOML: integers within 64 bits, at most 80 levels, each key once", "halve the file until it is read",
        )
    end = fault.at + 1
    return Advice(places.Place(fault.at, end, None), str(fault), "a document of TOML in UTF-8", way_of_toml(document.text, fault))


def second_opinion(text):
    """What tomllib says, which Python has from 3.11 on."""
    try:
        import tomllib
    except ImportError:
        return None
    try:
        tomllib.loads(text)
    except (tomllib.TOMLDecodeError, RecursionError, ValueError) as error:
        found = re.search(r"line (\d+), column (\d+)", str(error))
        if found:
            lines = text.splitlines(keepends=True)[: int(found[1]) - 1]
            return Fault(str(error), min(len(text), sum(map(len, lines)) + int(found[2]) - 1))
    return None


def way_of_toml(text, fault):
    line = text[text.rfind("\n", 0, fault.at) + 1 :].partition("\n")[0]
    if "UTF-8" in str(fault):
        return "save the file as UTF-8"
    if "twice" in str(fault):
        return "give the key once; of several tables of one kind each begins with its own [[head]]"
    if "isn't closed" in str(fault):
        return "close it on its own line"
    quotes = re.match(r"'([^']*)' is no value; a text", str(fault))
    if quotes:
        return f'put it in quotes: "{quotes[1]}"'
    if "list of tables" in str(fault) or "a table too" in str(fault):
        return "give every one of these tables two brackets, the first one too: [[NAME]]"
    if "in this list" in str(fault) or "in this table" in str(fault):
        return f"close it with {']' if 'list' in str(fault) else '}'}, or put a comma between its parts"
    if re.match(r"\s*//", line):
        return "a comment begins with #"
    if re.match(r"\s*[A-Za-z_]+\s*:", line):
        return "write = in place of :"
    return "mend it at the mark"


def advise(data, text, name):
    """The lines that help with a refusal of some bytes; the text is the program's."""
    refused = refusal_of(text)
    if refused is None:
        return [f"{name}: the program refuses it: {shortened(text.decode('utf-8', 'replace').strip())}"]
    document = Document(data, name)
    advice = None
    if refused.stage == 1:
        advice = not_toml(document)
    elif document.root is not None and refused.stage in STAGES:
        advice = STAGES[refused.stage](document, refused)
    if advice is None:
        return [f"{name}: it is refused at {refused.argument or 'no place that has a name'}, and no more can be said of that"]
    return lines_of(document, refused, advice)


def lines_of(document, refused, advice):
    lines = places.shown(document.text, advice.place, document.name) if advice.place else [document.name]
    lines.append(f"  {advice.says}")
    lines.append(f"  right here: {advice.right}")
    lines.append(f"  way out: {advice.way}")
    return [*lines[:1], *lines[1:3], *map(shortened_long, lines[3:])] if advice.place else list(map(shortened_long, lines))


def shortened_long(line):
    return shortened(line, 400)
