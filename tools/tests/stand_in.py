"""A plain player of scenarios that stands in for the program in the tests of the scripts. ./play never uses it.

usage: python3 tools/tests/stand_in.py --do play|check|rules <FILE"""
import sys
from pathlib import Path

if __name__ == "__main__":
    sys.path.insert(0, str(Path(__file__).resolve().parent.parent.parent))

from tools.decisions import winner
from tools.document import Document
from tools.scenario import client_weights
from tools.sentences import rule_of, statement_of

MOST = 2**63


class Thrown(Exception):
    def __init__(self, name):
        super().__init__(name)
        self.name = name


class Live:
    """A transaction that is bound, with its connection."""

    def __init__(self, connection, number):
        self.connection, self.number, self.mark = connection, number, False


class Scope:
    def __init__(self, kind, owns, held):
        self.kind, self.owns, self.held, self.local = kind, owns, held, False


class Shared:
    """The pool and the store."""

    def __init__(self, scenario):
        self.size, self.out = scenario.pool, set()
        self.rows, self.locks, self.undo = dict(scenario.rows), {}, {}
        self.begun = 0
        self.commits, self.places = [], {"p": 0, "s": 0}

    def answer(self, client, call):
        """The answer to a call, and its place in its history."""
        history = "p" if call[0] in ("take", "give") else "s"
        self.places[history] += 1
        return getattr(self, call[0])(client, *call[1:]), self.places[history]

    def take(self, client):
        free = [each for each in range(1, self.size + 1) if each not in self.out]
        self.out.update(free[:1])
        return free[0] if free else None

    def give(self, client, connection):
        self.out.remove(connection)

    def begin(self, client):
        self.begun += 1
        self.undo[self.begun] = [{}]
        return self.begun

    def access(self, client, tx, verb, row, value):
        holder = self.locks.get(row)
        if holder not in (None, tx):
            return "busy", holder
        if tx is None:
            self.commits.append((client, None, self.places["s"]))
        else:
            self.locks[row] = tx
        if verb == "read":
            return ("found", self.rows[row]) if row in self.rows else ("absent", 0)
        if tx is not None:
            self.undo[tx][-1].setdefault(row, self.rows.get(row))
        self.put(row, value)
        return "done", 0

    def put(self, row, value):
        if value is None:
            self.rows.pop(row, None)
        else:
            self.rows[row] = value

    def savepoint(self, client, tx):
        self.undo[tx].append({})

    def back_to(self, client, tx):
        for row, value in self.undo[tx][-1].items():
            self.put(row, value)
        self.undo[tx][-1] = {}

    def release(self, client, tx):
        for row, value in self.undo[tx].pop().items():
            self.undo[tx][-1].setdefault(row, value)

    def ended(self, tx):
        self.locks = {row: holder for row, holder in self.locks.items() if holder != tx}
        return self.undo.pop(tx)

    def commit(self, client, tx):
        self.ended(tx)
        self.commits.append((client, tx, self.places["s"]))
        return len(self.commits)

    def rollback(self, client, tx):
        for level in reversed(self.ended(tx)):
            for row, value in level.items():
                self.put(row, value)


class Client:
    """A client's course: a generator of shared calls, which gets the answers."""

    def __init__(self, scenario, number):
        self.scenario, self.number = scenario, number
        self.lines, self.scopes = [], []
        self.tx, self.registered = None, None
        self.course = self.run()
        self.call = next(self.course, None)

    def feed(self, shared):
        """Makes the client's next shared call."""
        try:
            self.call = self.course.send(shared.answer(self.number, self.call))
        except StopIteration:
            self.call = None

    def say(self, text):
        self.lines.append(text)

    def throw(self, name):
        self.say(f"throw {name}")
        raise Thrown(name)

    def run(self):
        for number, method in enumerate(self.scenario.clients[self.number]):
            self.say(f"top {number}")
            try:
                yield from self.method(method, "call")
            except Thrown:
                pass

    def method(self, name, word):
        method = self.scenario.methods[name]
        thrown = None
        if word == "this" or method.tx is None:
            self.say(f"{word} {name}" + ("" if word == "this" else " plain"))
            thrown = yield from self.caught(self.body(method))
        else:
            propagation = self.scenario.propagation(name)
            self.say(f"call {name} {propagation}" + (" read_only" if method.tx.get("read_only") else ""))
            thrown = yield from self.caught(self.intercepted(method, propagation))
        self.say(f"leave {name}" + (f" throws {thrown}" if thrown else ""))
        if thrown:
            raise Thrown(thrown)

    def caught(self, course):
        try:
            yield from course
        except Thrown as thrown:
            return thrown.name
        return None

    def intercepted(self, method, propagation):
        scope = yield from self.opened(propagation)
        self.scopes.append(scope)
        thrown = yield from self.caught(self.body(method))
        self.scopes.pop()
        ending = self.ending(scope, thrown and self.rolls_back(method, thrown))
        self.say(f"end {ending}")
        completion = yield from self.caught(self.completed(scope, ending))
        if completion or thrown:
            raise Thrown(completion or thrown)

    def rolls_back(self, method, thrown):
        rules = [rule_of(text) for text in self.scenario.rules(f"{method.bean}.{method.name}")]
        found = winner(self.scenario, rules, thrown)
        unchecked = any(self.scenario.is_below(thrown, each) for each in ("RuntimeException", "Error"))
        decision = unchecked if found is None else rules[found].rollback
        self.say(f"rules {'rollback' if decision else 'keep'} by {'default' if found is None else found}")
        return decision

    def opened(self, propagation):
        live = self.tx is not None
        if propagation == ("never" if live else "mandatory"):
            self.throw("IllegalTransactionStateException")
        if live and propagation in ("required", "supports", "mandatory"):
            self.say("open join")
            return Scope("join", False, None)
        if live and propagation == "nested":
            return (yield from self.point())
        if propagation in ("required", "requires_new", "nested"):
            return (yield from self.fresh())
        held = self.suspended() if propagation == "not_supported" and live else None
        owns = self.scenario.mode == "always" and self.registered is None
        self.registered = [] if owns else self.registered
        self.say("open empty" + (" sync" if owns else ""))
        return Scope("empty", owns, held)

    def point(self):
        if not self.scenario.nested:
            self.throw("NestedTransactionNotSupportedException")
        if self.tx.mark:
            self.throw("CannotCreateTransactionException")
        yield from self.store("savepoint")
        self.say("open point")
        return Scope("point", False, None)

    def fresh(self):
        held = self.suspended() if self.tx is not None or self.registered is not None else None
        connection = yield from self.taken()
        if connection is None:
            self.resumed(held)
            self.throw("CannotCreateTransactionException")
        number, place = yield ("begin",)
        self.say(f"begin {number} @s{place}")
        self.tx = Live(connection, number)
        owns = self.scenario.mode != "never"
        self.registered = [] if owns else None
        self.say("open fresh" + (" sync" if owns else ""))
        return Scope("fresh", owns, held)

    def taken(self):
        connection, place = yield ("take",)
        self.say(f"take {'empty' if connection is None else connection} @p{place}")
        return connection

    def given(self, connection):
        _, place = yield ("give", connection)
        self.say(f"give {connection} @p{place}")

    def store(self, what):
        number, place = yield (what, self.tx.number)
        self.say(f"{what} {number} @s{place}" if what == "commit" else f"{what} @s{place}")

    def ordered(self):
        return sorted(self.registered, key=lambda each: each.order)

    def suspended(self):
        held = (self.tx, self.registered)
        for each in self.ordered() if self.registered is not None else []:
            self.say(f"suspend {each.name}")
        if self.tx is not None:
            self.say(f"unbind {self.tx.connection}")
        self.tx = self.registered = None
        return held

    def resumed(self, held):
        if held is None:
            return
        self.tx, self.registered = held
        if self.tx is not None:
            self.say(f"bind {self.tx.connection}")
        for each in self.ordered() if self.registered is not None else []:
            self.say(f"resume {each.name}")

    def ending(self, scope, rolls_back):
        if rolls_back or scope.local:
            return "rollback"
        return "unexpected" if scope.kind != "empty" and self.tx.mark else "commit"

    def completed(self, scope, ending):
        if scope.kind == "join":
            if ending != "commit":
                self.tx.mark = True
                self.say("mark_global")
        elif scope.kind == "point":
            if ending != "commit":
                yield from self.store("back_to")
                self.tx.mark = False
            yield from self.store("release")
            if ending == "unexpected":
                self.throw("UnexpectedRollbackException")
        else:
            yield from self.ended(scope, ending)

    def ended(self, scope, ending):
        """The end of a fresh or an empty scope."""
        thrown = None
        if ending == "commit":
            thrown = yield from self.caught(self.round(scope, "before_commit"))
        commits = ending == "commit" and thrown is None
        yield from self.round(scope, "before_completion")
        if scope.kind == "fresh":
            yield from self.store("commit" if commits else "rollback")
        if commits:
            thrown = yield from self.caught(self.round(scope, "after_commit"))
        yield from self.round(scope, "after_completion", "committed" if commits else "rolled_back")
        if ending == "unexpected":
            thrown = yield from self.caught(self.thrower("UnexpectedRollbackException"))
        if scope.kind == "fresh":
            connection, self.tx = self.tx.connection, None
            yield from self.given(connection)
        if scope.owns:
            self.registered = None
        self.resumed(scope.held)
        if thrown:
            raise Thrown(thrown)

    def thrower(self, name):
        self.throw(name)
        yield

    def round(self, scope, name, status=""):
        if not scope.owns:
            return
        todo = self.ordered()
        if name == "after_completion":
            self.registered = None
        for each in todo:
            self.say(f"{name} {each.name}" + (f" {status}" if status else ""))
            thrown = yield from self.caught(self.callback(each, name, status))
            if thrown and name.endswith("completion"):
                self.say(f"swallow {thrown}")
            elif thrown:
                raise Thrown(thrown)

    def callback(self, registered, name, status):
        if hasattr(registered, "bodies"):
            yield from self.statements(registered.bodies[name], "")
            return
        runs = {"before_commit": name == "before_commit"}.get(
            registered.phase, name == "after_completion" and registered.phase in ("after_completion", {"committed": "after_commit"}.get(status, "after_rollback"))
        )
        if runs:
            self.say(f"listen {registered.name}")
            yield from self.statements(registered.body, "")

    def body(self, method):
        yield from self.statements(method.body, method.bean)

    def statements(self, texts, bean):
        for text in texts:
            statement = statement_of(text)
            yield from getattr(self, f"on_{statement.verb}", self.on_row)(statement, bean)

    def on_call(self, statement, bean):
        name = statement.name if statement.verb == "call" else f"{bean}.{statement.name}"
        thrown = yield from self.caught(self.method(name, statement.verb))
        if thrown and statement.catch and self.scenario.is_below(thrown, statement.catch):
            self.say(f"catch {thrown}")
        elif thrown:
            raise Thrown(thrown)

    on_this = on_call

    def on_throw(self, statement, bean):
        yield from self.thrower(statement.name)

    def on_mark(self, statement, bean):
        if not self.scopes:
            self.throw("NoTransactionException")
        self.scopes[-1].local = True
        self.say("mark")
        yield from ()

    def on_register(self, statement, bean):
        if self.registered is None:
            self.throw("IllegalStateException")
        self.registered.append(self.scenario.syncs[statement.name])
        self.say(f"register {statement.name}")
        yield from ()

    def on_publish(self, statement, bean):
        self.say(f"publish {statement.name}")
        for listener in self.scenario.listeners_of(statement.name):
            if self.registered is not None and self.tx is not None:
                self.registered.append(listener)
                self.say(f"register {listener.name}")
            elif listener.fallback:
                self.say(f"listen {listener.name}")
                yield from self.statements(listener.body, "")
            else:
                self.say(f"skip {listener.name}")

    def on_row(self, statement, bean):
        if self.tx is not None:
            thrown = yield from self.accesses(statement, self.tx.number)
        else:
            connection = yield from self.taken()
            if connection is None:
                self.throw("CannotGetJdbcConnectionException")
            thrown = yield from self.accesses(statement, None)
            yield from self.given(connection)
        if thrown:
            self.throw(thrown)

    def accesses(self, statement, tx):
        """Makes the accesses of a row statement; gives the class that it throws, or None."""
        verb, row, number = statement.verb, statement.name, statement.number
        if verb in ("read", "write", "erase"):
            what, _ = yield from self.access(tx, verb, row, number)
            return "CannotAcquireLockException" if what == "busy" else None
        what, value = yield from self.access(tx, "read", row, None)
        if what == "busy":
            return "CannotAcquireLockException"
        if verb == "need":
            return "IllegalStateException" if value < number else None
        if not -MOST <= value + number < MOST:
            return "ArithmeticException"
        what, _ = yield from self.access(tx, "write", row, value + number)
        return "CannotAcquireLockException" if what == "busy" else None

    def access(self, tx, verb, row, number):
        (what, value), place = yield ("access", tx, verb, row, number)
        text = f"{verb} {row}" + (f" {number}" if verb == "write" else "")
        told = f"{what} {value}" if what in ("busy", "found") else what
        self.say(f"{'auto ' if tx is None else ''}{text} {told} @s{place}")
        return what, value


def play(scenario, schedule):
    """The report of a scenario under a schedule."""
    shared = Shared(scenario)
    clients = [Client(scenario, number) for number in range(len(scenario.clients))]
    for number in schedule:
        if clients[number].call is not None:
            clients[number].feed(shared)
    for client in clients:
        while client.call is not None:
            client.feed(shared)
    lines = ["springtx 1"]
    for client in clients:
        lines += [f"client {client.number}", *client.lines]
    lines.append("journal")
    for number, (client, tx, place) in enumerate(shared.commits, 1):
        lines.append(f"commit {number} client {client} {'auto' if tx is None else f'tx {tx}'} @s{place}")
    lines += ["rows", *(f"row {row} {value}" for row, value in sorted(shared.rows.items())), "end"]
    return "\n".join(lines).encode() + b"\n"


def main(words, data):
    document = Document(data, "stdin")
    if words not in (["--do", "play"], ["--do", "check"], ["--do", "rules"]):
        return 2, b""
    if document.root is None:
        return 4, b"refused 1 NotToml\n"
    if "clients" not in document.root.value:
        return 4, b"refused 3 Missing clients\n"
    scenario = document.scenario()
    if not scenario.clients:
        return 4, b"refused 6 OutOfRange clients\n"
    if words[1] == "check":
        return 0, b"accepted weight %d\n" % sum(client_weights(scenario))
    if words[1] == "rules":
        return 0, b"end\n"
    return 0, play(scenario, scenario.schedule)


if __name__ == "__main__":
    status, text = main(sys.argv[1:], sys.stdin.buffer.read())
    sys.stdout.buffer.write(text)
    sys.exit(status)
