"""A report as parts: the lines of each client, the journal and the rows. It is read from its text alone."""
import re
from collections import namedtuple

from tools.form import PROPAGATIONS
from tools.say import shortened

# A line: what it is, what it tells (by name), its place in a history (None, or ("p" or "s", number)), its number and text.
Line = namedtuple("Line", "kind told place number text")
Commit = namedtuple("Commit", "number client tx place")
Report = namedtuple("Report", "clients journal rows")


class Fault(Exception):
    """A text that is no report: which line, and why."""


NAME = r"[A-Za-z_][A-Za-z0-9_]{0,31}"
CLASS = r"[A-Za-z0-9_.]{1,64}"
NUMBER = r"[0-9]{1,20}"
VALUE = r"-?[0-9]{1,19}"
METHOD = rf"(?P<method>{NAME}\.{NAME})"
LABEL = rf"(?P<label>{NAME})"
ROW = (
    rf"(?:(?P<access>read) (?P<row>{NAME}) (?:(?P<found>found) (?P<value>{VALUE})|(?P<absent>absent)|busy (?P<busy>{NUMBER}))"
    rf"|(?P<access2>write) (?P<row2>{NAME}) (?P<value2>{VALUE}) (?:done|busy (?P<busy2>{NUMBER}))"
    rf"|(?P<access3>erase) (?P<row3>{NAME}) (?:done|busy (?P<busy3>{NUMBER})))"
)

# What each line may look like, by its first word. `@p` and `@s` say that it has a place in the pool's or the store's history.
FORMS = {
    "top": rf"top (?P<call>{NUMBER})",
    "call": rf"call {METHOD} (?P<how>{'|'.join(PROPAGATIONS)}|plain)(?P<read_only> read_only)?",
    "this": rf"this {METHOD}",
    "suspend": f"suspend {LABEL}", "resume": f"resume {LABEL}",
    "unbind": f"unbind (?P<connection>{NUMBER})", "bind": f"bind (?P<connection>{NUMBER})",
    "take": f"take (?P<connection>{NUMBER}|empty) @p", "give": f"give (?P<connection>{NUMBER}) @p",
    "begin": f"begin (?P<tx>{NUMBER}) @s",
    "read": f"{ROW} @s", "write": f"{ROW} @s", "erase": f"{ROW} @s", "auto": f"(?P<auto>auto) {ROW} @s",
    "savepoint": "savepoint @s", "back_to": "back_to @s", "release": "release @s",
    "commit": f"commit (?P<commit>{NUMBER}) @s", "rollback": "rollback @s",
    "open": "open (?P<scope>fresh|join|point|empty)(?P<sync> sync)?",
    "throw": f"throw (?P<thrown>{CLASS})", "catch": f"catch (?P<thrown>{CLASS})", "swallow": f"swallow (?P<thrown>{CLASS})",
    "rules": rf"rules (?P<decision>rollback|keep) by (?P<by>default|{NUMBER})",
    "end": "end (?P<ending>commit|rollback|unexpected)",
    "mark_global": "mark_global", "mark": "mark",
    "register": f"register {LABEL}", "publish": f"publish (?P<event>{NAME})",
    "skip": f"skip {LABEL}", "listen": f"listen {LABEL}",
    "before_commit": f"before_commit {LABEL}", "before_completion": f"before_completion {LABEL}",
    "after_commit": f"after_commit {LABEL}",
    "after_completion": f"after_completion {LABEL} (?P<status>committed|rolled_back)",
    "leave": rf"leave {METHOD}(?: throws (?P<thrown>{CLASS}))?",
}
PATTERNS = {word: re.compile(re.sub("@([ps])$", rf"@(?P<history>\1)(?P<at>{NUMBER})", form)) for word, form in FORMS.items()}
JOURNAL = re.compile(
    rf"commit (?P<number>{NUMBER}) client (?P<client>{NUMBER}) (?:tx (?P<tx>{NUMBER})|auto) @s(?P<place>{NUMBER})"
)
ROWS = re.compile(rf"row (?P<row>{NAME}) (?P<value>{VALUE})")


def line_of(text, number):
    """A line of a client."""
    found = None
    pattern = PATTERNS.get(text.partition(" ")[0])
    if pattern:
        found = pattern.fullmatch(text)
    if not found:
        raise Fault(f"line {number} is no line of a report: {shortened(text, 60)!r}")
    told = {key.rstrip("23"): value.strip() for key, value in found.groupdict().items() if value is not None}
    place = (told.pop("history"), int(told.pop("at"))) if "at" in told else None
    kind = text.partition(" ")[0]
    return Line("row" if "access" in told else kind, told, place, number, text)


def is_report(data):
    return data.startswith(b"springtx ")


def texts_of(data):
    try:
        lines = data.decode("ascii").split("\n")
    except UnicodeDecodeError as error:
        raise Fault(f"byte {error.start + 1} is no text of a report") from None
    if lines[0] != "springtx 1":
        raise Fault("a report begins with the line `springtx 1`")
    if lines[-1] != "" or len(lines) < 3 or lines[-2] != "end":
        raise Fault(f"the report is cut: it has no line `end` after its {len(lines)} lines")
    return lines[:-1]


def read(data):
    """The report of some bytes, or a Fault."""
    lines = texts_of(data)
    clients = []
    at = 1
    while lines[at] != "journal":
        if lines[at] == f"client {len(clients)}":
            clients.append([])
        elif clients:
            clients[-1].append(line_of(lines[at], at + 1))
        else:
            raise Fault(f"line {at + 1} should be `client 0`")
        at += 1
        if at == len(lines):
            raise Fault("the report has no line `journal`")
    journal = []
    at += 1
    while lines[at] not in ("rows", "end"):
        found = JOURNAL.fullmatch(lines[at])
        if not found:
            raise Fault(f"line {at + 1} is no line of the journal: {shortened(lines[at], 60)!r}")
        journal.append(Commit(int(found["number"]), int(found["client"]), found["tx"], int(found["place"])))
        at += 1
    return Report(clients, journal, rows_of(lines, at))


def rows_of(lines, at):
    if lines[at] != "rows":
        raise Fault("the report has no line `rows`")
    rows = []
    for number, text in enumerate(lines[at + 1 : -1], at + 2):
        found = ROWS.fullmatch(text)
        if not found:
            raise Fault(f"line {number} is no row: {shortened(text, 60)!r}")
        rows.append((found["row"], int(found["value"])))
    return rows
