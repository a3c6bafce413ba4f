"""A report for people: a summary, and then the lines indented by calls, each with a reason where one helps."""
import sys

from tools.reasons import View
from tools.summary import summary_lines

COLOURS = {
    "commit": "32;1", "rollback": "31;1", "back_to": "31", "mark": "31", "mark_global": "31",
    "throw": "33", "swallow": "33", "catch": "33", "skip": "35",
    "call": "1", "this": "1", "leave": "1", "top": "36;1",
    "suspend": "34", "resume": "34", "unbind": "34", "bind": "34",
}
DIM = "2"
COLUMN = 44


def coloured(text, code, colour):
    return f"\033[{code}m{text}\033[0m" if colour and code else text


def code_of(step):
    kind = step.line.kind
    if "busy" in step.line.told or step.line.told.get("connection") == "empty":
        return "35;1"
    if kind == "end":
        return {"commit": "32", "rollback": "31", "unexpected": "31"}[step.line.told["ending"]]
    if kind == "leave" and "thrown" in step.line.told:
        return "33;1"
    return COLOURS.get(kind, "")


def step_line(steps, at, view, colour):
    step = steps[at]
    text = "  " * (step.depth + (step.line.kind != "top")) + step.line.text
    reason = view.reason(steps, at)
    shown = coloured(text, code_of(step), colour)
    if not reason:
        return shown
    return shown + " " * max(2, COLUMN - len(text)) + coloured(f"-- {reason}", DIM, colour)


def shown(walk, scenario, colour):
    """The whole text."""
    view = View(walk, scenario)
    lines = [*summary_lines(walk)]
    for client in walk.clients:
        lines += ["", coloured(f"client {client.number}", "36;1", colour)]
        lines += [step_line(client.steps, at, view, colour) for at in range(len(client.steps))]
    return "\n".join(lines) + "\n"


def wants_colour(asked):
    """Colours where they are asked for, or else on a terminal."""
    return sys.stdout.isatty() if asked is None else asked
