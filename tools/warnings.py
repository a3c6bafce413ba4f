"""What is no mistake for the program, and may be one all the same: warnings on a scenario that it accepts."""
from tools import places
from tools.decisions import winner
from tools.form import BODIES
from tools.say import shortened
from tools.sentences import rule_of, statement_of

MOST = 12
# Of very many rules and classes only so many pairs are looked at.
MOST_PAIRS = 100_000


def statements(scenario):
    """Each statement of the scenario in parts, with the bean of the method that holds it."""
    for method in scenario.methods.values():
        for text in method.body:
            yield statement_of(text), method.bean
    for sync in scenario.syncs.values():
        for body in BODIES:
            for text in sync.bodies[body]:
                yield statement_of(text), ""
    for listener in scenario.listeners.values():
        for text in listener.body:
            yield statement_of(text), ""


def named(scenario):
    """What some statement or client names: methods, events and synchronisations."""
    methods = {call for calls in scenario.clients for call in calls}
    events, syncs = set(), set()
    for statement, bean in statements(scenario):
        verb = statement.verb if statement else ""
        if verb == "call":
            methods.add(statement.name)
        elif verb == "this":
            methods.add(f"{bean}.{statement.name}")
        elif verb == "publish":
            events.add(statement.name)
        elif verb == "register":
            syncs.add(statement.name)
    return methods, events, syncs


def unused(scenario):
    """Warnings on methods, listeners and synchronisations that nothing leads to: path and text."""
    methods, events, syncs = named(scenario)
    for name, method in scenario.methods.items():
        if name not in methods:
            yield f"{method.path}.name", f"nothing calls {name}"
    for listener in scenario.listeners.values():
        if listener.event not in events:
            yield f"{listener.path}.event", f"nothing publishes {listener.event}, so listener {listener.name} never runs"
    for sync in scenario.syncs.values():
        if sync.name not in syncs:
            yield f"{sync.path}.name", f"nothing registers {sync.name}"


def rule_lists(document):
    """The rules of each tx of the file, once each, with their path."""
    for key in ("beans", "methods"):
        array = document.root.value.get(key)
        for number in range(len(array.value) if array is not None and array.kind == "array" else 0):
            path = f"{key}[{number}].tx.rules"
            node = places.node_at(document.root, places.steps_of(path))
            if node is not None and node.kind == "array":
                yield path, [each.value for each in node.value if each.kind == "string"]


def on_rules(document, scenario):
    names = "\n".join(scenario.parents)
    pairs = 0
    for path, texts in rule_lists(document):
        pairs += len(texts) * len(scenario.parents)
        if pairs > MOST_PAIRS:
            return
        rules = [rule_of(text) for text in texts]
        for number, rule in enumerate(rules):
            if rule and rule.is_pattern and rule.by not in names:
                hint = f"; names carry no package here: ~{rule.by.rpartition('.')[2]}?" if "." in rule.by else ""
                yield f"{path}[{number}]", f"no class has {rule.by!r} in its name, so this rule never matches{hint}"
        yield from out_of_order(path, rules, scenario)


def out_of_order(path, rules, scenario):
    """A keep rule before a rollback rule, where they tie for a class: Spring reads an annotation's rollback rules first."""
    if None in rules:
        return
    spring = sorted(range(len(rules)), key=lambda number: not rules[number].rollback)
    for name in scenario.parents:
        here, there = winner(scenario, rules, name), winner(scenario, [rules[each] for each in spring], name)
        if here is not None and rules[here].rollback != rules[spring[there]].rollback:
            yield f"{path}[{here}]", (
                f"for {name} this rule and `rollback` rule {spring[there]} are equally near, and the first one wins: keep. Spring "
                "reads an annotation's rollbackFor before its noRollbackFor, so there it would roll back: put the rollback rules first"
            )
            return


def warnings(document):
    """The warnings on a scenario as lines, each with its file and line."""
    if document.root is None:
        return []
    scenario = document.scenario()
    lines = []
    for path, text in [*on_rules(document, scenario), *unused(scenario)]:
        node = places.node_at(document.root, places.steps_of(path))
        line = document.line(node) if node is not None else 1
        lines.append(shortened(f"{document.name}:{line}: warning: {text}", 400))
    return lines if len(lines) <= MOST else [*lines[:MOST], f"{document.name}: {len(lines) - MOST} warnings more"]
