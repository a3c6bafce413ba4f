"""Advice on trees of classes, callbacks, calls and weight: stages 11 to 16."""
from tools import places, sentences
from tools.advice_parts import Advice, found, quoted
from tools.form import DEEPEST, HEAVIEST, listed
from tools.say import counted
from tools.scenario import client_weights, sizes, way_round


def entry_of(document, key, name):
    """The table of a list whose name this is."""
    array = document.root.value.get(key)
    for each in array.value if array is not None and array.kind == "array" else []:
        node = each.value.get("name") if each.kind == "table" else None
        if node is not None and node.value == name:
            return each
    return None


def place_of_class(document, name):
    entry = entry_of(document, "classes", name)
    node = entry.value.get("parent") if entry is not None else None
    return places.value_place(node) if node is not None else None


def class_cycle(document, refused):
    place = place_of_class(document, refused.argument)
    if place is None:
        return None
    ring = document.scenario().ancestors(refused.argument)
    shown = [*ring[:6], "..", ring[-1]] if len(ring) > 8 else ring
    return Advice(
        place, f"this class is below itself: {' -> '.join([*shown, refused.argument])}",
        "a parent that isn't below this class: a built-in one, or one that leads to it",
        "let one class of the ring have Exception (checked) or RuntimeException (unchecked) as its parent",
    )


def class_depth(document, refused):
    place = place_of_class(document, refused.argument)
    if place is None:
        return None
    way = document.scenario().ancestors(refused.argument)
    higher = "let it stand higher in the tree"
    if len(way) > DEEPEST:
        higher = f"let `{way[len(way) - DEEPEST]}` be its parent: so it is {DEEPEST} steps below Throwable"
    return Advice(
        place, f"the class is {len(way) - 1} steps below Throwable", f"a parent at most {DEEPEST - 1} steps below Throwable", higher,
    )


def callback_body(document, refused):
    steps, node = found(document, refused.argument)
    if node is None or node.kind != "string":
        return None
    scenario = document.scenario()
    phase = places.keys_of(steps)[-1]
    if steps[0] == "listeners":
        listener = places.node_at(document.root, steps[:2]).value.get("phase")
        phase = listener.value if listener is not None else "after_commit"
    statement = sentences.statement_of(node.value)
    early = phase == "before_commit"
    right = (
        "read, write, erase, add, need, and throw of a class that isn't TransactionException or below it" if early
        else "throw, and call of a method whose propagation is requires_new"
    )
    why, way = why_not_early(statement) if early else why_not_late(scenario, statement, phase)
    article = "an" if phase[0] == "a" else "a"
    says = f"{quoted(node.value)} may not stand in {article} {phase} callback: {why}"
    return Advice(places.value_place(node), says, right, way)


NOT_INSIDE = ("marks, registrations and publications inside callbacks aren't played", "do it in the method's own body, before it ends")


def why_not_early(statement):
    verb = statement.verb if statement else ""
    if verb == "throw":
        return (
            "where a TransactionException comes out of beforeCommit, Spring leaves the transaction neither committed nor rolled back",
            "throw a class that isn't below TransactionException, as IllegalStateException",
        )
    if verb in ("call", "this"):
        return "calls from beforeCommit aren't played", "write its reads and writes here, or call it from the method before it ends"
    return NOT_INSIDE


def why_not_late(scenario, statement, phase):
    verb = statement.verb if statement else ""
    if verb in ("read", "write", "erase", "add", "need"):
        return (
            "the transaction is over, so what is done here would run on its connection outside of it, and might never be "
            "committed",
            "put it into a method with propagation requires_new, and call that"
            + (", or use the phase before_commit" if phase != "before_completion" else ", or use before_commit"),
        )
    if verb == "call":
        propagation = scenario.propagation(statement.name) or "none"
        return (
            f"{statement.name} has propagation {propagation}: it would join a transaction that is over, so its writes would never "
            "be committed",
            f'give {statement.name} tx = {{propagation = "requires_new"}}, or call one that has it{others(scenario)}',
        )
    if verb == "this":
        return "a callback is no method of a bean, so there is no this", "call BEAN.METHOD with propagation requires_new" + others(scenario)
    return NOT_INSIDE


def others(scenario):
    fit = [each for each in scenario.methods if scenario.propagation(each) == "requires_new"]
    return f": {listed(fit[:4])}" if fit else ""


def place_of_path(document, path):
    node = places.node_at(document.root, places.steps_of(path))
    return places.value_place(node) if node is not None else None


def call_cycle(document, refused):
    scenario = document.scenario()
    ring = way_round(scenario, refused.argument)
    place = place_of_path(document, ring[0][2]) if ring else None
    if place is None:
        return None
    steps = [step_text(document, *step) for step in ring]
    shown = steps if len(steps) <= 6 else [*steps[:4], f".. {len(steps) - 5} steps more ..", steps[-1]]
    listener = next((holder for _, _, _, holder in ring if holder.startswith("listener")), "")
    way = "take one of these statements out: a call that comes back to itself would never end here"
    if listener:
        way = f"let {listener} call a method that doesn't publish this event"
    return Advice(place, f"{refused.argument} leads to itself: {'; '.join(shown)}", "a statement that doesn't lead back", way)


def step_text(document, method, target, path, holder):
    """A step of a way round, with the line of its statement."""
    place = place_of_path(document, path)
    line = document.line(place.node) if place else "?"
    return f"{method} -> {target} (line {line}{', by ' + holder if holder else ''})"


def longest_way(scenario, method):
    """The methods of a longest way from a method on."""
    ranks = {}
    todo = [method]
    while todo:
        each = todo[-1]
        below = [target for target, _, _ in scenario.leads_to(each)]
        missing = [target for target in below if target not in ranks]
        if missing and len(todo) <= len(scenario.methods):
            todo.append(missing[0])
        else:
            ranks[each] = 1 + max((ranks.get(target, 0) for target in below), default=-1)
            todo.pop()
    way = [method]
    while scenario.leads_to(way[-1]) and len(way) <= len(scenario.methods):
        way.append(max((target for target, _, _ in scenario.leads_to(way[-1])), key=lambda target: ranks.get(target, 0)))
    return way


def call_depth(document, refused):
    scenario = document.scenario()
    steps = scenario.leads_to(refused.argument)
    if not steps:
        return None
    way = longest_way(scenario, refused.argument)
    deepest = next((path for target, path, _ in steps if len(way) > 1 and target == way[1]), steps[0][1])
    place = place_of_path(document, deepest)
    if place is None:
        return None
    shown = [*way[:4], "..", way[-1]]
    return Advice(
        place, f"{refused.argument} leads {len(way) - 1} calls deep: {' -> '.join(shown)}",
        f"a call of a method that leads at most {DEEPEST - 1} calls deep",
        "take a call out on this way, or let a method in its middle be called by the client itself",
    )


def too_large(document, refused):
    scenario = document.scenario()
    weights = client_weights(scenario)
    if not weights or max(weights) == 0:
        return None
    heavy = weights.index(max(weights))
    place = place_of_path(document, f"clients[{heavy}].calls")
    if place is None:
        return None
    known = sizes(scenario)
    calls = scenario.clients[heavy]
    largest = max(calls, key=lambda each: known.get(each, (1, 0))[0])
    size, registrations = known.get(largest, (1, 0))
    whole, alone, size = (each if each < 10**15 else "more than 10^15" for each in (sum(weights), weights[heavy], size))
    says = f"the clients weigh {whole} together, client {heavy} alone {alone}; its heaviest call is {largest}, of size {size}"
    if registrations:
        says += f" with {counted(registrations, 'registration')}, and each one counts all of the client's size once more"
    return Advice(
        place, says, f"at most {HEAVIEST} together", f"let client {heavy} make fewer calls, or give some of them to another client or file",
    )
