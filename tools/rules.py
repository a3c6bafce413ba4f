"""What each method decides for each class of exception, as a table for people, out of the program's text of the job rules."""
import re
from collections import namedtuple

from tools.form import BUILT_IN, listed
from tools.report import CLASS, NAME, NUMBER, Fault
from tools.say import shortened

LINE = re.compile(rf"rules ({NAME}\.{NAME}) ({CLASS}) (rollback|keep) by (default|{NUMBER})")
# What one method decides for one class; `by` is None where no rule matched.
Decision = namedtuple("Decision", "name rollback by")
DEFAULT = "by default RuntimeException, Error and all below them roll back, all others commit"


def read(data):
    """Each method's decisions, in the order of the text."""
    lines = data.decode("utf-8", "replace").split("\n")
    if lines[-2:] != ["end", ""]:
        raise Fault("the text of the rules is cut: it has no line `end`")
    methods = {}
    for number, text in enumerate(lines[:-2], 1):
        found = LINE.fullmatch(text)
        if not found:
            raise Fault(f"line {number} is no line of the rules: {shortened(text, 60)!r}")
        by = None if found[4] == "default" else int(found[4])
        methods.setdefault(found[1], []).append(Decision(found[2], found[3] == "rollback", by))
    return methods


def row(decision, rules, wide):
    text = f"  {decision.name:{wide}}  {'ROLLS BACK' if decision.rollback else 'commits   '}"
    if decision.by is None:
        return f"{text}  by default"
    rule = f": {rules[decision.by]}" if decision.by < len(rules) else ""
    return f"{text}  by rule {decision.by}{rule}"


def method_lines(method, decisions, rules):
    """The scenario's own classes, and then, folded by what decides, the built-in ones."""
    built_in = {name for name, _ in BUILT_IN}
    own = [each for each in decisions if each.name not in built_in]
    wide = max((len(each.name) for each in own), default=0)
    lines = [method] + [row(each, rules, wide) for each in own]
    groups = {}
    for each in decisions:
        if each.name in built_in and each.by is not None:
            groups.setdefault((each.by, each.rollback), []).append(each.name)
    for (by, rollback), names in groups.items():
        shown = listed(names[:4], "and") if len(names) <= 4 else f"{', '.join(names[:3])} and {len(names) - 3} more"
        rule = f": {rules[by]}" if by < len(rules) else ""
        lines.append(f"  built in: {shown} {'ROLL BACK' if rollback else 'commit'} by rule {by}{rule}")
    rest = sum(1 for each in decisions if each.name in built_in and each.by is None)
    if rest:
        lines.append(f"  {'the other ' if groups else ''}{rest} built-in classes: {DEFAULT}")
    return lines


def table(data, scenario):
    lines = []
    for method, decisions in read(data).items():
        lines += method_lines(method, decisions, scenario.rules(method) if scenario else [])
    return "\n".join(lines or ["no method has an attribute, so no rule is ever asked"]) + "\n"
