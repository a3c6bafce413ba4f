"""A scenario as people mean it: methods with their attributes, what leads to what, and what that weighs.

It is made of a document that the program has accepted, or has refused at a late stage, and skips what has no form."""
from collections import namedtuple

from tools.form import BODIES, BUILT_IN
from tools.sentences import rule_of, statement_of

Method = namedtuple("Method", "number bean name tx body path")
Sync = namedtuple("Sync", "name order bodies path")
Listener = namedtuple("Listener", "name event phase order fallback body path")


def texts(value):
    return [each for each in value if isinstance(each, str)] if isinstance(value, list) else []


def tables(value):
    return [(number, each) for number, each in enumerate(value) if isinstance(each, dict)] if isinstance(value, list) else []


def text_in(table, key, otherwise=""):
    value = table.get(key, otherwise)
    return value if isinstance(value, str) else otherwise


def number_in(table, key, otherwise):
    value = table.get(key, otherwise)
    return value if isinstance(value, int) and not isinstance(value, bool) else otherwise


class Scenario:
    def __init__(self, document):
        document = document if isinstance(document, dict) else {}
        settings = document.get("settings")
        settings = settings if isinstance(settings, dict) else {}
        self.pool = number_in(settings, "pool", 8)
        self.mode = text_in(settings, "sync", "always")
        self.nested = settings.get("nested", True) is not False
        self.events = texts(document.get("events", []))
        self.schedule = document.get("schedule", [])
        self.rows = {text_in(each, "name"): number_in(each, "value", 0) for _, each in tables(document.get("rows"))}
        self.parents = dict(BUILT_IN)
        for _, each in tables(document.get("classes")):
            self.parents.setdefault(text_in(each, "name"), text_in(each, "parent"))
        self.own_classes = [each for each in self.parents if each not in dict(BUILT_IN)]
        self.beans = {text_in(each, "name"): each.get("tx") for _, each in tables(document.get("beans"))}
        self.methods = {}
        for number, each in tables(document.get("methods")):
            self.add_method(number, each)
        self.syncs = {}
        for number, each in tables(document.get("syncs")):
            bodies = {body: texts(each.get(body, [])) for body in BODIES}
            made = Sync(text_in(each, "name"), number_in(each, "order", 2**31 - 1), bodies, f"syncs[{number}]")
            self.syncs.setdefault(made.name, made)
        self.listeners = {}
        for number, each in tables(document.get("listeners")):
            made = Listener(
                text_in(each, "name"), text_in(each, "event"), text_in(each, "phase", "after_commit"),
                number_in(each, "order", 2**31 - 1), each.get("fallback") is True, texts(each.get("body", [])),
                f"listeners[{number}]",
            )
            self.listeners.setdefault(made.name, made)
        self.steps, self.chains = {}, {}
        self.clients = [texts(each.get("calls", [])) for _, each in tables(document.get("clients"))]

    def add_method(self, number, table):
        bean = text_in(table, "bean")
        tx = table.get("tx", self.beans.get(bean))
        tx = tx if isinstance(tx, dict) else None
        made = Method(number, bean, text_in(table, "name"), tx, texts(table.get("body", [])), f"methods[{number}]")
        self.methods.setdefault(f"{bean}.{made.name}", made)

    def propagation(self, method):
        """A method's propagation, or "" where it has no attribute."""
        found = self.methods.get(method)
        return "" if found is None or found.tx is None else text_in(found.tx, "propagation", "required")

    def rules(self, method):
        """The rules of a method's attribute, as texts."""
        found = self.methods.get(method)
        return [] if found is None or found.tx is None else texts(found.tx.get("rules", []))

    def ancestors(self, name):
        """A class, its parent, and so on. It ends also in a ring."""
        if name not in self.chains:
            way = {}
            each = name
            while each in self.parents and each not in way:
                way[each] = True
                each = self.parents[each]
            self.chains[name] = list(way)
        return self.chains[name]

    def is_below(self, name, other):
        return other in self.ancestors(name)

    def listeners_of(self, event):
        found = [each for each in self.listeners.values() if each.event == event]
        return sorted(found, key=lambda each: each.order)

    def targets(self, text, bean):
        """The methods that a statement leads to, each with the text that says so and where that stands."""
        statement = statement_of(text)
        if statement is None:
            return []
        if statement.verb == "call":
            return [(statement.name, "")]
        if statement.verb == "this":
            return [(f"{bean}.{statement.name}", "")]
        if statement.verb == "register" and statement.name in self.syncs:
            sync = self.syncs[statement.name]
            bodies = [(body, f"{sync.name}'s {name}") for name, body in sync.bodies.items()]
        elif statement.verb == "publish":
            bodies = [(each.body, f"listener {each.name}") for each in self.listeners_of(statement.name)]
        else:
            return []
        found = []
        for body, holder in bodies:
            for each in body:
                inner = statement_of(each)
                if inner is not None and inner.verb == "call":
                    found.append((inner.name, holder))
        return found

    def leads_to(self, method):
        """The methods that a method leads to: each with the place of the statement, and whose callback calls it."""
        if method not in self.steps:
            found = self.methods.get(method)
            self.steps[method] = [
                (target, f"{found.path}.body[{number}]", holder)
                for number, text in enumerate(found.body if found else [])
                for target, holder in self.targets(text, found.bean)
                if target in self.methods
            ]
        return self.steps[method]


def way_round(scenario, method):
    """The shortest way from a method back to itself: the steps, or []."""
    came = {}
    wave = [method]
    while wave:
        after = []
        for each in wave:
            for target, path, holder in scenario.leads_to(each):
                if target == method:
                    steps = [(each, target, path, holder)]
                    while steps[0][0] != method:
                        steps.insert(0, came[steps[0][0]])
                    return steps
                if target not in came:
                    came[target] = (each, target, path, holder)
                    after.append(target)
        wave = after
    return []


def sizes(scenario):
    """The size and the registrations of each method. There must be no way round."""
    known = {}
    todo = list(scenario.methods)
    while todo:
        method = todo[-1]
        below = [] if method in known else list({each for each, _, _ in scenario.leads_to(method) if each not in known})
        if method in known or not below:
            known.setdefault(method, size_of(scenario, scenario.methods[method], known))
            todo.pop()
        elif len(todo) > 200_000:
            return known
        else:
            todo += below
    return known


def size_of(scenario, method, known):
    size, registrations = 1, 0
    for text in method.body:
        more, registered = weight_of(scenario, text, method.bean, known)
        size, registrations = size + more, registrations + registered
    return size, registrations


def weight_of(scenario, text, bean, known):
    """The size and the registrations that a statement counts."""
    statement = statement_of(text)
    verb = statement.verb if statement else ""
    if verb in ("call", "this"):
        size, registrations = known.get(statement.name if verb == "call" else f"{bean}.{statement.name}", (1, 0))
        return 1 + size, registrations
    if verb == "register" and statement.name in scenario.syncs:
        bodies = list(scenario.syncs[statement.name].bodies.values())
    elif verb == "publish":
        bodies = [each.body for each in scenario.listeners_of(statement.name)]
    else:
        return 1, 0
    inner = [weight_of(scenario, each, "", known) for body in bodies for each in body]
    own = 1 if verb == "register" else len(bodies)
    return 1 + sum(each for each, _ in inner) + (0 if verb == "register" else own), own + sum(each for _, each in inner)


def client_weights(scenario):
    """What each client weighs."""
    known = sizes(scenario)
    weights = []
    for calls in scenario.clients:
        found = [known.get(each, (1, 0)) for each in calls]
        weights.append(sum(each for each, _ in found) * (1 + sum(each for _, each in found)))
    return weights
