"""What a client's lines mean together: calls in each other, transactions with what they wrote, and what is set aside."""
from collections import namedtuple

from tools.report import Fault

# A line with the calls around it: how deep it stands, its call, its transaction, whose callback it is of, its top-level call.
Step = namedtuple("Step", "line client depth frame tx callback top")

UNEXPECTED = "UnexpectedRollbackException"
CALLBACKS = ("before_commit", "before_completion", "after_commit", "after_completion")
ENDS_CALLBACK = ("commit", "rollback", "give", "bind", "resume", "leave", "back_to", "release")


class Tx:
    """A transaction: who began it, what it wrote by savepoints, and how it ended."""

    def __init__(self, number, client, frame):
        self.number, self.client, self.frame = number, client, frame
        self.ended, self.commit = "", None
        self.levels = [{}]
        self.undone = {}
        self.marked_by = None

    def point(self):
        self.levels.append({})

    def back_to(self):
        if len(self.levels) > 1:
            self.undone.update(self.levels[-1])
            self.levels[-1] = {}
        self.marked_by = None

    def release(self):
        if len(self.levels) > 1:
            top = self.levels.pop()
            self.levels[-1].update(top)

    def writes(self):
        """The rows it has written and not undone, with their values; None where it erased one."""
        rows = {}
        for level in self.levels:
            rows.update(level)
        return rows


class Frame:
    """A call, from its first line to its `leave`."""

    def __init__(self, method, how, depth, outer):
        self.method, self.how, self.depth, self.outer = method, how, depth, outer
        self.scope, self.tx, self.owns = "", None, False
        self.held, self.suspends = None, False
        self.ending, self.thrown, self.callback = "", None, ""
        self.local_mark = False
        self.first = self.last = None
        self.indent = 0


class Top:
    """A call that a client makes from outside."""

    def __init__(self, client, number):
        self.client, self.number = client, number
        self.method, self.thrown, self.done = "", None, False
        self.txs, self.own = [], []


class Client:
    """The walk through the lines of one client."""

    def __init__(self, number, lines):
        self.number = number
        self.steps, self.frames, self.tops = [], [], []
        self.open = []
        self.tx = None
        for at, line in enumerate(lines):
            self.take(line, lines[at + 1] if at + 1 < len(lines) else None)
        if self.open:
            raise Fault(f"client {number}: the call of {self.open[-1].method} never ends")

    def fault(self, line):
        return Fault(f"line {line.number} doesn't fit what stands before it: {line.text}")

    def take(self, line, after):
        kind = line.kind
        if kind == "top":
            if self.open:
                raise self.fault(line)
            self.tops.append(Top(self.number, int(line.told["call"])))
        elif not self.tops or (not self.open and kind not in ("call", "this")):
            raise self.fault(line)
        frame = self.open[-1] if self.open else None
        if frame is not None and self.ends_callback(frame, line, after):
            frame.callback = ""
        inside = frame is not None and bool(frame.callback) and kind not in CALLBACKS
        depth = frame.indent + 1 + inside - (kind == "leave") if frame is not None else 0
        before = self.tx
        getattr(self, f"on_{kind}", self.on_other)(line, frame)
        tx = before if kind in ("unbind", "give") else self.tx
        own = self.frames[-1] if kind in ("call", "this") else frame
        callback = frame.callback if frame is not None else ""
        self.steps.append(Step(line, self.number, depth, own, tx, callback, self.tops[-1]))
        if kind in ("call", "this"):
            own.first = len(self.steps) - 1
        elif kind == "leave":
            frame.last = len(self.steps) - 1

    def ends_callback(self, frame, line, after):
        if line.kind in ENDS_CALLBACK:
            return True
        swallowed = after is not None and after.kind == "swallow"
        return line.kind == "throw" and line.told["thrown"] == UNEXPECTED and frame.ending == "unexpected" and not swallowed

    def on_other(self, line, frame):
        if line.kind in CALLBACKS:
            frame.callback = line.told["label"]

    def on_call(self, line, frame):
        self.push(line.told["method"], line.told["how"], frame)

    def on_this(self, line, frame):
        self.push(line.told["method"], "this", frame)

    def push(self, method, how, outer):
        made = Frame(method, how, len(self.open), outer)
        made.indent = outer.indent + 1 + bool(outer.callback) if outer is not None else 0
        if not self.open:
            if self.tops[-1].method:
                raise Fault(f"client {self.number}: top-level call {self.tops[-1].number} has two calls")
            self.tops[-1].method = method
        self.open.append(made)
        self.frames.append(made)

    def on_open(self, line, frame):
        frame.scope, frame.owns = line.told["scope"], "sync" in line.told
        frame.tx = self.tx

    def on_begin(self, line, frame):
        self.tx = Tx(int(line.told["tx"]), self.number, frame)
        self.tops[-1].txs.append(self.tx)

    def on_suspend(self, line, frame):
        frame.suspends = True

    def on_unbind(self, line, frame):
        frame.suspends = True
        frame.held, self.tx = self.tx, None

    def on_bind(self, line, frame):
        self.tx, frame.held = frame.held, None

    def on_give(self, line, frame):
        if self.tx is not None and self.tx.ended:
            self.tx = None

    def live(self, line):
        if self.tx is None:
            raise self.fault(line)
        return self.tx

    def on_savepoint(self, line, frame):
        self.live(line).point()

    def on_back_to(self, line, frame):
        self.live(line).back_to()

    def on_release(self, line, frame):
        self.live(line).release()

    def on_commit(self, line, frame):
        self.live(line).ended = "commit"
        self.tx.commit = int(line.told["commit"])

    def on_rollback(self, line, frame):
        self.live(line).ended = "rollback"

    def on_row(self, line, frame):
        told = line.told
        if told["access"] == "read" or "busy" in told:
            return
        value = int(told["value"]) if told["access"] == "write" else None
        if "auto" in told:
            self.tops[-1].own.append((told["row"], value))
        else:
            self.live(line).levels[-1][told["row"]] = value

    def on_auto(self, line, frame):
        self.on_row(line, frame)

    def on_mark_global(self, line, frame):
        tx = self.live(line)
        tx.marked_by = tx.marked_by or frame.method

    def on_mark(self, line, frame):
        marked = frame
        while marked is not None and not marked.scope:
            marked = marked.outer
        if marked is not None:
            marked.local_mark = True

    def on_end(self, line, frame):
        frame.ending = line.told["ending"]

    def on_leave(self, line, frame):
        if frame.method != line.told["method"]:
            raise self.fault(line)
        frame.thrown = line.told.get("thrown")
        self.open.pop()
        if not self.open:
            self.tops[-1].thrown, self.tops[-1].done = frame.thrown, True


class Walk:
    """The walk through a whole report."""

    def __init__(self, report):
        self.report = report
        self.clients = [Client(number, lines) for number, lines in enumerate(report.clients)]
        self.txs = {tx.number: tx for client in self.clients for top in client.tops for tx in top.txs}

    def tops(self):
        return [top for client in self.clients for top in client.tops]
