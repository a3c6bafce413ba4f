"""Why a line stands there, in a few plain words, where that helps. The scenario may be None: then less is said."""
from tools.form import listed
from tools.walk import UNEXPECTED


def of_call(step, view):
    return {
        "plain": "it has no @Transactional: no scope of its own", "mandatory": "needs a transaction that is there already",
        "never": "must not run inside a transaction", "supports": "joins a transaction if there is one",
    }.get(step.line.told["how"], "")


def of_this(step, view):
    return "a call of its own bean goes past the proxy, so no attribute counts"


def of_open(step, view):
    tx = step.tx.number if step.tx else "?"
    begins = step.line.told["scope"]
    if begins == "fresh":
        return f"begins transaction {tx}"
    if begins == "join":
        return f"joins transaction {tx}"
    if begins == "point":
        return f"a savepoint inside transaction {tx}"
    return "no transaction: each row statement commits for itself"


def of_suspend(step, view):
    return "set aside until the inner call is over"


def of_unbind(step, view):
    return f"transaction {step.tx.number} is set aside, and keeps its connection and its locks" if step.tx else ""


def of_bind(step, view):
    return f"transaction {step.tx.number} goes on" if step.tx else ""


def of_take(step, view):
    if step.line.told["connection"] != "empty":
        return ""
    return f"all {view.scenario.pool} connections are out" if view.scenario else "all connections are out"


def of_row(step, view):
    told = step.line.told
    if "busy" in told:
        return view.holder(int(told["busy"]), told["row"])
    return "commits at once: there is no transaction" if "auto" in told else ""


def of_back_to(step, view):
    return "what was written since the savepoint is undone, and a mark is cleared; locks stay"


def of_commit(step, view):
    if step.tx is None:
        return ""
    rows = list(step.tx.writes())
    there = f"{listed(rows, 'and')} {'is' if len(rows) == 1 else 'are'} there for all now"
    return f"transaction {step.tx.number}: {there}" if rows else f"transaction {step.tx.number}, which wrote nothing"


def of_rollback(step, view):
    if step.tx is None:
        return ""
    rows = listed(step.tx.writes(), "and")
    undone = f": what it wrote to {rows} is undone" if step.tx.writes() else ", which wrote nothing"
    return f"transaction {step.tx.number}{undone}"


def of_throw(step, view):
    thrown = step.line.told["thrown"]
    if thrown == UNEXPECTED and step.frame.ending == "unexpected" and not step.callback:
        return "the caller believed in a commit, and learns of the rollback"
    before = view.back(1)
    if before is not None and before.line.kind == "give":
        before = view.back(2)
    if before is None:
        return ""
    told = before.line.told
    if "busy" in told:
        return f"the row {told['row']} is locked, and the store doesn't wait"
    if told.get("access") == "read":
        return why_after_read(thrown, told.get("value", "0"))
    if before.line.kind == "call" and before.frame is step.frame:
        return {
            "mandatory": "there is no transaction", "never": "there is a transaction",
            "nested": "no savepoint can be made: savepoints are off, or the transaction is marked rollback-only",
        }.get(told["how"], "")
    taken = next((each for each in map(view.back, (1, 2, 3)) if each is not None and each.line.kind == "take"), None)
    empty = taken is not None and taken.line.told["connection"] == "empty" and taken.frame is step.frame
    return "there is no connection for it" if empty else ""


def why_after_read(thrown, value):
    if thrown == "IllegalStateException":
        return f"need wants more than the {value} that is there"
    return "the sum is outside 64 bits" if thrown == "ArithmeticException" else ""


def of_rules(step, view):
    by = step.line.told["by"]
    if by == "default":
        rolls_back = step.line.told["decision"] == "rollback"
        return f"no rule matches: {'RuntimeException and Error roll back' if rolls_back else 'a checked exception commits'}"
    text = view.rule(step.frame.method, int(by))
    return f"the nearest rule: {text}" if text else ""


def of_end(step, view):
    frame = step.frame
    if step.line.told["ending"] == "unexpected":
        by = frame.tx.marked_by if frame.tx and frame.tx.marked_by else "an inner call"
        return f"it would commit, but {by} has marked the transaction rollback-only"
    if step.line.told["ending"] == "rollback" and frame.local_mark:
        return "setRollbackOnly was called"
    return ""


def of_mark_global(step, view):
    return f"marks transaction {step.tx.number} rollback-only: {step.tx.frame.method} can only roll back now" if step.tx else ""


def of_mark(step, view):
    return "setRollbackOnly: this call's scope will roll back"


def of_register(step, view):
    listener = view.scenario.listeners.get(step.line.told["label"]) if view.scenario else None
    return f"its listener waits for {listener.phase}" if listener else ""


def of_publish(step, view):
    if view.scenario is None:
        return ""
    count = len(view.scenario.listeners_of(step.line.told["event"]))
    return "nobody listens" if count == 0 else ""


def of_skip(step, view):
    return "lost: no transaction is active here, and the listener has no fallback"


def of_listen(step, view):
    return "its body runs" if step.callback else "no transaction is active: it runs at once, as its fallback says"


def of_after_completion(step, view):
    listener = view.scenario.listeners.get(step.line.told["label"]) if view.scenario else None
    if listener is None:
        return ""
    status = step.line.told["status"]
    if (listener.phase, status) in (("after_commit", "rolled_back"), ("after_rollback", "committed")):
        return f"its listener doesn't run: it waits for {listener.phase}"
    return ""


def of_swallow(step, view):
    return "Spring writes it to the log and goes on"


def of_leave(step, view):
    thrown = step.line.told.get("thrown")
    if step.frame.outer is None and thrown:
        return f"the client gets {thrown}"
    return ""


REASONS = {name[3:]: each for name, each in list(globals().items()) if name.startswith("of_")}
REASONS["auto"] = of_row


class View:
    """What reasons are looked up in: the walk, the scenario, and the lines before."""

    def __init__(self, walk, scenario):
        self.walk, self.scenario = walk, scenario
        self.steps, self.at = [], 0

    def reason(self, steps, at):
        """Why the line at a place of a client's steps stands there, or ""."""
        self.steps, self.at = steps, at
        told = REASONS.get(steps[at].line.kind)
        return told(steps[at], self) if told else ""

    def back(self, count):
        """The step so many lines before this one."""
        return self.steps[self.at - count] if self.at >= count else None

    def holder(self, number, row):
        tx = self.walk.txs.get(number)
        return f"{row} is locked by transaction {number}" + (f" of client {tx.client}, begun for {tx.frame.method}" if tx else "")

    def rule(self, method, number):
        rules = self.scenario.rules(method) if self.scenario else []
        return f"{number}, `{rules[number]}`" if number < len(rules) else ""
