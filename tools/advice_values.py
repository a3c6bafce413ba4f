"""Advice on keys, types, numbers and lengths: stages 2, 3, 4, 6 and 7."""
from tools import places
from tools.advice_parts import Advice, found, quoted
from tools.form import LIMITS, TABLES, TX, WORDS, listed
from tools.nearest import nearest

SAMPLES = {
    "name": 'name = "a"', "value": "value = 0", "parent": 'parent = "Exception"', "bean": 'bean = "b"', "event": 'event = "e"',
    "calls": 'calls = ["b.m"]', "clients": '[[clients]] with calls = ["b.m"]',
}
A_TYPE = {
    "string": "a text in quotes", "integer": "a whole number", "boolean": "true or false", "array": "a list in [ ]",
    "table": "a table in { }",
}
KINDS = {**A_TYPE, "string": "a text", "float": "a number with a fraction", "date": "a date or time"}


def keys_here(steps):
    """The keys of the table that steps lead to, and how it is called."""
    keys = places.keys_of(steps)
    name = keys[-1] if keys else ""
    return TABLES.get(name, {}), {"": "the file itself", "tx": "tx", "settings": "settings"}.get(name, f"an entry of {name}")


def unknown_key(document, refused):
    steps = places.steps_of(refused.argument)
    table = places.node_at(document.root, steps[:-1]) if steps else None
    if table is None or table.kind != "table":
        return None
    known, where = keys_here(steps[:-1])
    key = steps[-1]
    if key not in table.value:
        # A key that is no name is told as `?`. The least one comes first.
        others = sorted((each for each in table.value if each not in known), key=lambda each: each.encode("utf-8", "replace"))
        if not others:
            return None
        key = others[0]
    free = [each for each in known if each not in table.value]
    return Advice(
        places.key_place(table.value[key]), f"{where} has no key {quoted(key)}", f"one of {listed(known)}",
        way_of_key(key, steps[:-1], free, table),
    )


LEFT_OUT = ("isolation", "timeout", "timeoutstring", "label", "transactionmanager", "value")


def way_of_key(key, steps, free, table):
    if key.lower() in LEFT_OUT and steps:
        return "take it out: isolation, timeouts, labels and several managers aren't played"
    if key.lower().startswith(("rollbackfor", "norollbackfor")):
        rule = "keep" if key.lower().startswith("no") else "rollback"
        name = "~PATTERN" if key.lower().endswith("classname") else "CLASS"
        return f'write it as a rule of tx: rules = ["{rule} {name}"]'
    meant = nearest(key, free)
    if steps and key in TABLES[""] and table.how == "header":
        return f"in TOML a line belongs to the [head] above it: put `{key}` before the first head of the file"
    if meant:
        return f"did you mean `{meant}`?"
    within = nearest(key, TX) or (key if key in TX else "")
    if "tx" in free and within:
        return f"it belongs into tx: tx = {{ {within} = .. }}"
    within = key if key in TABLES["settings"] else nearest(key, TABLES["settings"])
    if not steps and within:
        return f"it belongs below [settings]: {within} = .."
    return "take it out"


def missing(document, refused):
    steps = places.steps_of(refused.argument)
    table = places.node_at(document.root, steps[:-1]) if steps else None
    if table is None:
        return None
    key = steps[-1]
    _, where = keys_here(steps[:-1])
    if not steps[:-1]:
        end = len(document.text.rstrip())
        place = places.Place(max(0, document.text.rfind("\n", 0, end) + 1), end, table)
    else:
        place = places.head_place(document.text, table)
    sample = SAMPLES.get(key, f"{key} = ..")
    return Advice(place, f"{where} needs the key `{key}`, and it isn't here", sample, f"add {sample}")


def type_due(steps):
    """The type that is due at a place."""
    keys = places.keys_of(steps)
    table = TABLES.get(keys[-2] if len(keys) > 1 else "", {})
    key = table.get(keys[-1])
    if key is None:
        return ""
    return key.of if isinstance(steps[-1], int) else key.type


def wrong_type(document, refused):
    steps, node = found(document, refused.argument)
    due = type_due(steps) if steps else ""
    if node is None or not due:
        return None
    text = document.text[node.start : node.end]
    says = f"here is {KINDS.get(node.kind, node.kind)}, and {places.keys_of(steps)[-1]} takes {A_TYPE[due]}"
    return Advice(places.value_place(node), says, A_TYPE[due], way_of_type(node, due, text, steps))


def way_of_type(node, due, text, steps):
    key = places.keys_of(steps)[-1]
    if node.kind == "string" and due in ("integer", "boolean"):
        value = node.value.strip()
        fits = value.lstrip("-").isdigit() if due == "integer" else value.lower() in ("true", "false")
        return f"leave the quotes out: {value.lower()}" if fits else f"write {A_TYPE[due]}, as {'8' if due == 'integer' else 'true'}"
    if due == "string":
        return f'put it in quotes: "{text}"' if node.kind in ("integer", "float", "boolean") else 'write a text in quotes, as ".."'
    if due == "array":
        if node.kind == "table" and node.how == "header":
            return f"of several tables each has two brackets: [[{key}]]"
        return f"put it in brackets: [{text[:60]}]" if node.kind in ("string", "integer", "table") else "write a list in brackets"
    if due == "table":
        if node.kind == "string" and key == "tx":
            meant = nearest(f"{node.value} ", WORDS["propagation"]) or "required"
            return f'tx = {{ propagation = "{meant}" }}, or tx = {{}} for @Transactional alone'
        if node.kind == "boolean" and key == "tx":
            return "tx = {} is @Transactional alone; leave tx out where there is none"
        return "write a table: { key = value }" if isinstance(steps[-1], int) or key == "tx" else f"[{key}], and its keys below"
    if due == "integer" and node.kind == "float":
        return f"write a whole number: {int(node.value) if abs(node.value) < 2**63 else 0}"
    return f"write {A_TYPE[due]}"


def out_of_range(document, refused):
    steps, node = found(document, refused.argument)
    if node is None:
        return None
    key = places.keys_of(steps)[-1]
    if key == "clients":
        says, way = "there is no client, so nobody calls anything", 'add one: [[clients]] with calls = ["BEAN.METHOD"]'
        return Advice(places.key_place(node), says, "1 to 64 clients", way)
    low, high = {"pool": (1, 64), "schedule": (0, 63)}.get(key, (-(2**31), 2**31 - 1))
    return Advice(
        places.value_place(node), f"{quoted(node.value)} is out of range", f"{low} to {high}",
        f"the nearest is {min(max(node.value, low), high)}" + ("; clients are counted from 0" if key == "schedule" else ""),
    )


OTHER_WAYS = {
    "clients": "play the others in a second file", "body": "move some into a method of their own, and call it",
    "calls": "give the others to a second client",
}


def too_many(document, refused):
    steps, node = found(document, refused.argument)
    if node is None or node.kind != "array":
        return None
    key = places.keys_of(steps)[-1]
    most = LIMITS.get(key, 0)
    first = node.value[most] if most < len(node.value) else node
    says = f"{key} has {len(node.value)} entries; here begins the first that is too many"
    way = f"take {len(node.value) - most} out"
    if key in OTHER_WAYS:
        way += f", or {OTHER_WAYS[key]}"
    return Advice(places.value_place(first), says, f"at most {most} entries", way)
