"""Advice on names, words, statements, rules and references: stages 5, 8, 9 and 10."""
import re

from tools import places, sentences
from tools.advice_parts import Advice, a_name, found, quoted
from tools.form import BUILT_IN, RULES, STATEMENTS, WORDS, listed
from tools.nearest import nearest

A_NAME = "a name: a letter or _, then up to 31 letters, digits or _"
A_CLASS = "a class name: one to eight names joined by dots, at most 64 bytes"


def bad_name(document, refused):
    steps, node = found(document, refused.argument)
    if node is None or node.kind != "string":
        return None
    text = node.value
    if "classes" in steps:
        return bad_class_name(node)
    dotted = steps[0] == "methods" and "." in text
    meant = like_a_name(text.rpartition(".")[2] if dotted else text)
    says = f"this is no name: {quoted(text)}; {sentences.wrong_name(text)}{' (a method is named without its bean)' if dotted else ''}"
    return Advice(places.value_place(node), says, A_NAME, f"for example `{meant if sentences.is_name(meant) else 'name_1'}`")


def bad_class_name(node):
    if node.value in dict(BUILT_IN):
        says, way = "a built-in class has this name", "take the entry out: the class is there"
    else:
        meant = ".".join([like_a_name(each) for each in node.value.split(".") if each][:8])
        says, way = "this is no class name", f"for example `{meant if sentences.is_class(meant) else 'Class_1'}`"
    return Advice(places.value_place(node), f"{says}: {quoted(node.value)}", A_CLASS, way)


def like_a_name(text):
    """A name that is like a text."""
    meant = re.sub(r"[^A-Za-z0-9_]", "_", text)
    return (f"_{meant}" if meant[:1].isdigit() else meant)[:32]


def name_nodes(document, *keys):
    """The nodes of the names in some lists of tables, or of the texts of a list."""
    nodes = []
    for key in keys:
        array = document.root.value.get(key)
        for each in array.value if array is not None and array.kind == "array" else []:
            node = each.value.get("name") if each.kind == "table" else each
            if node is not None and node.kind == "string":
                nodes.append(node)
    return nodes


def duplicate(document, refused):
    steps, node = found(document, refused.argument)
    if node is None or node.kind != "string":
        return None
    kind = steps[0]
    nodes = name_nodes(document, *(("syncs", "listeners") if kind in ("syncs", "listeners") else (kind,)))
    if kind == "methods":
        bean = text_at(document, [*steps[:2], "bean"])
        nodes = [each for number, each in numbered_names(document) if text_at(document, ["methods", number, "bean"]) == bean]
    if kind == "classes" and node.value in dict(BUILT_IN):
        return Advice(
            places.value_place(node), f"{quoted(node.value)} is a built-in class", "a name that no other class has",
            f"take the entry out and use the built-in class, or name yours `app.{node.value[:60]}`",
        )
    first = next((each for each in nodes if each.value == node.value), node)
    names = {each.value for each in nodes}
    both = "synchronisation or listener"
    one = {"methods": "method of this bean", "syncs": both, "listeners": both, "classes": "class"}.get(kind, kind[:-1])
    return Advice(
        places.value_place(node), f"{quoted(node.value)} stands twice: first on line {document.line(first)}",
        f"a name that no other {one} has", f"take one of them out, or name this one `{a_name(names, node.value)}`",
    )


def numbered_names(document):
    array = document.root.value.get("methods")
    for number, each in enumerate(array.value if array is not None and array.kind == "array" else []):
        node = each.value.get("name") if each.kind == "table" else None
        if node is not None and node.kind == "string":
            yield number, node


def text_at(document, steps):
    node = places.node_at(document.root, steps)
    return node.value if node is not None and node.kind == "string" else None


def bad_word(document, refused):
    steps, node = found(document, refused.argument)
    if node is None or node.kind != "string":
        return None
    key = places.keys_of(steps)[-1]
    text = node.value
    place = places.value_place(node)
    if key in WORDS:
        meant = nearest(text, WORDS[key])
        default = "after_commit" if key == "phase" else WORDS[key][0]
        way = f"did you mean `{meant}`?" if meant else f"`{default}` is what Spring does by default"
        return Advice(place, f"{quoted(text)} is no {key}", listed(WORDS[key]), way)
    what, wrong, forms = "statement", sentences.wrong_statement, STATEMENTS.values()
    if key == "rules":
        what, wrong, forms = "rule", sentences.wrong_rule, RULES
    why, meant = wrong(text)
    right = listed(f"`{each}`" for each in forms)
    return Advice(place, f"{quoted(text)} is no {what}: {why}", right, way_of_sentence(text, meant, forms))


def way_of_sentence(text, meant, forms):
    if meant:
        return f"did you mean `{meant}`?"
    first = text.split()[:1]
    form = next((each for each in forms if first and each.split()[0] == first[0]), None)
    return f"write it as `{form}`" if form else "write one of these"


def names_of(scenario):
    """The names that a reference may mean, by kind, and how one is declared."""
    return {
        "bean": (list(scenario.beans), 'beans = [{{name="{}"}}]'),
        "class": (list(scenario.parents), 'classes = [{{name="{}", parent="Exception"}}]'),
        "event": (scenario.events, 'events = ["{}"]'),
        "sync": (list(scenario.syncs), 'syncs = [{{name="{}"}}]'),
        "method": (list(scenario.methods), "[[methods]]"),
    }


def unknown(document, refused):
    steps, node = found(document, refused.argument)
    if node is None:
        return None
    scenario = document.scenario()
    key = places.keys_of(steps)[-1]
    place = places.value_place(node)
    if key == "schedule":
        last = max(0, len(scenario.clients) - 1)
        way = f"add a client, or write {last}: clients are counted from 0"
        return Advice(place, f"there is no client {node.value}", f"a client from 0 to {last}", way)
    if node.kind != "string":
        return None
    kind, name = missing_name(scenario, document, steps, key, node.value)
    advice = reference(scenario, place, kind, name)
    if kind == "method" and node.value.startswith("this "):
        other = next((each for each in scenario.methods if each.partition(".")[2] == name.partition(".")[2]), "")
        return advice._replace(way=f"did you mean `call {other}`? `this` is of the same bean alone") if other else advice
    return advice


def missing_name(scenario, document, steps, key, text):
    """The kind and the name of the reference that leads nowhere."""
    if key in ("parent", "bean", "event"):
        return {"parent": "class"}.get(key, key), text
    if key == "calls":
        return missing_method(scenario, text)
    if key == "rules":
        return "class", text.partition(" ")[2]
    statement = sentences.statement_of(text)
    if statement is None:
        return "method", text
    if statement.verb in ("publish", "register"):
        return {"publish": "event", "register": "sync"}[statement.verb], statement.name
    if statement.verb == "throw":
        return "class", statement.name
    target = statement.name
    if statement.verb == "this":
        target = f"{text_at(document, [*steps[:2], 'bean'])}.{statement.name}"
    kind, name = missing_method(scenario, target)
    in_callback = statement.verb == "this" and steps[0] != "methods"
    if (name is None or in_callback) and statement.catch:
        return "class", statement.catch
    return kind, name or target


def missing_method(scenario, target):
    bean, dot, _ = (target or "").partition(".")
    if not dot:
        return "call", target
    if bean not in scenario.beans:
        return "bean", bean
    return "method", None if target in scenario.methods else target


def reference(scenario, place, kind, name):
    """The advice on a name of nothing."""
    if kind == "call":
        meant = next((each for each in scenario.methods if each.partition(".")[2] == name), "") or nearest(name, scenario.methods)
        way = f"did you mean `{meant}`?" if meant else "write the bean, a dot and the method"
        return Advice(place, f"{quoted(name)} names no method", "BEAN.METHOD", way)
    names, how = names_of(scenario)[kind]
    name = name or ""
    meant = nearest(name, names)
    if kind == "method" and not meant:
        meant = next((each for each in names if each.partition(".")[2] == name.partition(".")[2]), "")
    what = {"sync": "synchronisation", "class": "class"}.get(kind, kind)
    declared = scenario.own_classes if kind == "class" else names
    some = listed(declared[:6], "and") + (" and more" if len(declared) > 6 else "")
    one = "a built-in class, or one" if kind == "class" else f"an {what}" if kind == "event" else f"a {what}"
    right = f"{one} that is declared: {some if declared else 'there is none yet'}"
    if kind == "sync" and name in scenario.listeners:
        way = f"{quoted(name)} is a listener, and those aren't registered: `publish {scenario.listeners[name].event}` does it"
    elif meant:
        way = f"did you mean `{meant}`?"
    elif not (sentences.is_class if kind == "class" else sentences.is_name)(name.partition(".")[2] if kind == "method" else name):
        way = f"write {A_CLASS if kind == 'class' else A_NAME}, and declare it"
    elif kind == "method":
        bean, _, method = name.partition(".")
        way = f'declare it: [[methods]] with bean = "{bean}" and name = "{method}"'
    else:
        way = f"declare it: {how.format(name)}"
    return Advice(place, f"there is no {what} {quoted(name)}", right, way)
