"""A report as Trace Events, which the viewers of Perfetto and Chrome open. A line is a microsecond there."""
import json

from tools.order import ordered
from tools.reasons import View

PID = 1


def times(walk):
    """The place of each client's each line in one order."""
    found = [[0] * len(client.steps) for client in walk.clients]
    for number, (client, at) in enumerate(ordered(walk.report)):
        found[client][at] = number
    return found


def frame_event(frame, client, when):
    name = f"{frame.method} {frame.scope or frame.how}"
    told = {"how": frame.how, "scope": frame.scope or "none"}
    if frame.tx is not None:
        told["transaction"] = frame.tx.number
    if frame.ending:
        told["ending"] = frame.ending
    if frame.thrown:
        told["throws"] = frame.thrown
    start, end = when[frame.first], when[frame.last]
    made = {"name": name, "cat": "call", "ph": "X", "pid": PID, "tid": client}
    return {**made, "ts": start, "dur": end - start + 1, "args": told}


def step_event(steps, at, client, when, view):
    line = steps[at].line
    told = {"line": line.number}
    reason = view.reason(steps, at)
    if reason:
        told["reason"] = reason
    made = {"name": line.text, "pid": PID, "tid": client, "ts": when[at], "args": told}
    if line.place is None:
        return {**made, "cat": "line", "ph": "i", "s": "t"}
    return {**made, "cat": {"p": "pool", "s": "store"}[line.place[0]], "ph": "X", "dur": 1}


def events(walk, scenario):
    view = View(walk, scenario)
    found = [{"name": "process_name", "ph": "M", "pid": PID, "args": {"name": "springtx"}}]
    whens = times(walk)
    for client in walk.clients:
        when = whens[client.number]
        name = {"name": f"client {client.number}"}
        found.append({"name": "thread_name", "ph": "M", "pid": PID, "tid": client.number, "args": name})
        found += [frame_event(frame, client.number, when) for frame in client.frames]
        for at, step in enumerate(client.steps):
            if step.line.kind not in ("call", "this", "leave", "top"):
                found.append(step_event(client.steps, at, client.number, when, view))
    return found


def trace(walk, scenario):
    return json.dumps({"displayTimeUnit": "ns", "traceEvents": events(walk, scenario)}, separators=(",", ":")) + "\n"
