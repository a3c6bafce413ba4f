"""Expectations: a play against the report stored beside its scenario, and one play against another."""
import difflib
from pathlib import Path

from tools import build, report, showing, summary
from tools.say import Stop, counted, out, printable
from tools.walk import Walk

DIFFERS = 8
MOST_LINES = 24


def walk_of(text):
    """The walk through a text, or None where it is no report."""
    try:
        return Walk(report.read(text))
    except report.Fault:
        return None


def end_of(top):
    """How a top-level call ended, without the numbers of transactions."""
    txs = [(tx.frame.method, tx.ended, tuple(sorted(tx.writes().items()))) for tx in top.txs]
    return top.method, top.thrown, txs, top.own


def end_text(top, method):
    """How a top-level call ended, in words; None where there is no such call."""
    if top is None:
        return "there is no such call"
    kept = {}
    for tx in top.txs:
        if tx.ended == "commit":
            kept.update(tx.writes())
    kept.update(top.own)
    rows = f" ({summary.rows_text(kept)})" if kept else ""
    other = "" if top.method == method else f"it calls {top.method}: "
    return f"{other}{summary.saw_text(top)}; {summary.data_text(top)}{rows}"


def differences(one, other, names):
    """The calls of two plays that end otherwise, as lines."""
    lines = []
    first = {(top.client, top.number): top for top in one.tops()}
    second = {(top.client, top.number): top for top in other.tops()}
    for key in sorted(first.keys() | second.keys()):
        here, there = first.get(key), second.get(key)
        if here is None or there is None or end_of(here) != end_of(there):
            method = (here or there).method
            lines.append(f"client {key[0]}, call {key[1]}: {method}")
            lines += [f"  {name}: {end_text(top, method)}" for name, top in zip(names, (here, there))]
    return lines


def rows_lines(one, other, names):
    if one.report.rows == other.report.rows:
        return []
    rows = [summary.rows_text(dict(walk.report.rows)) or "none" for walk in (one, other)]
    return ["rows at the end"] + [f"  {name}: {text}" for name, text in zip(names, rows)]


def changed_lines(stored, text):
    """The lines that differ, the first of them."""
    if len(stored) + len(text) > 200_000:
        return ["  the texts differ, and are too long to be laid side by side"]
    one, other = (each.decode("utf-8", "replace").splitlines() for each in (stored, text))
    found = difflib.unified_diff(one, other, lineterm="", n=1)
    lines = [line for line in found if not line.startswith(("---", "+++", "@@"))]
    more = len(lines) - MOST_LINES
    return [f"  {printable(line)}" for line in lines[:MOST_LINES]] + ([f"  and {counted(more, 'line')} more"] if more > 0 else [])


def expect_all(words, given, explain):
    """Compares each scenario's text with what is stored beside it."""
    stored = [stored_of(each) for each in given]
    status = 0
    played = build.chosen(words).play([each.data for each in given], words.do or "play")
    for each, wanted, result in zip(given, stored, played):
        if result.status not in (0, 4):
            explain(each, result)
            status = max(status, result.status)
        elif wanted == result.text:
            out(f"{printable(each.name)}: as expected\n")
        else:
            status = max(status, DIFFERS)
            head = f"{printable(each.name)}: DIFFERS from {printable(report_of(each).name)}"
            out("\n".join([head, *difference_lines(wanted, result.text)]) + "\n")
    return status


def difference_lines(wanted, text):
    if wanted is None:
        return ["  it isn't there yet: ./play FILE >NAME.report stores it"]
    one, other = walk_of(wanted), walk_of(text)
    names = ("expected", "played")
    said = [*differences(one, other, names), *rows_lines(one, other, names)] if one and other else []
    said = [f"  {line}" for line in said[:MOST_LINES]]
    return [*said, "  line by line, - expected and + played:", *changed_lines(wanted, text)]


def report_of(scenario):
    return scenario.path.with_suffix(".report")


def stored_of(scenario):
    """The text that is stored beside a scenario, or None."""
    if scenario.path is None:
        raise Stop("--expect takes files: beside standard input no report is stored")
    if scenario.path.suffix == ".report":
        raise Stop(f"--expect takes scenarios, and {scenario.name} is a report")
    try:
        return Path(report_of(scenario)).read_bytes()
    except FileNotFoundError:
        return None


def compare(words, given, explain):
    """Says which calls end otherwise in the second scenario than in the first."""
    to_play = [each for each in given if not report.is_report(each.data)]
    played = dict(zip(map(id, to_play), build.chosen(words).play([each.data for each in to_play]) if to_play else []))
    walks = []
    for each in given:
        result = played.get(id(each))
        if result is not None and result.status:
            out(f"{printable(each.name)}: ".encode() + result.text)
            explain(each, result)
            return result.status
        walks.append(showing.walked(each.name, result.text if result else each.data))
    out("\n".join(compared(*walks, [printable(each.name) for each in given])) + "\n")
    return 0


def compared(one, other, names):
    if names[0] == names[1]:
        names = [f"{names[0]} (first)", f"{names[1]} (second)"]
    lines = differences(one, other, names)
    count = len([line for line in lines if not line.startswith(" ")])
    total = max(len(one.tops()), len(other.tops()))
    head = f"all {counted(total, 'call')} end alike"
    if count:
        head = f"{count} of {counted(total, 'call')} {'ends' if count == 1 else 'end'} otherwise"
    commits = [len(walk.report.journal) for walk in (one, other)]
    return [head, *lines, f"commits: {commits[0]} in {names[0]}, {commits[1]} in {names[1]}", *rows_lines(one, other, names)]
