"""The shared calls of a play with their answers, in the order in which they were made, and which of them commute.

Numbers of connections, transactions and commits are left out: no client's course, and no row, depends on them."""
from collections import namedtuple

from tools.walk import Walk

# A shared call with its answer: its history, a text for what is asked and answered, the row it accesses ("" for none), whether it
# was refused, the rows that it frees (None where it ends no transaction), and what it does to the committed rows.
Note = namedtuple("Note", "history text row refused frees changes")


class Run:
    """One play by a schedule: the clients in the order of their shared calls, each client's notes, and the outcome."""

    def __init__(self, report, schedule):
        walk = Walk(report)
        self.notes = [notes_of(client) for client in walk.clients]
        self.order = list(schedule)
        made = [0] * len(self.notes)
        for client in schedule:
            made[client] += 1
        for client, notes in enumerate(self.notes):
            self.order += [client] * (len(notes) - made[client])
        self.outcome = outcome_of(walk)


def outcome_of(walk):
    """How each top-level call ended, and the rows at the end."""
    ends = tuple((top.client, top.number, top.method, top.thrown or "") for top in walk.tops())
    return ends, tuple(walk.report.rows)


def notes_of(client):
    """The notes of a client. The walk's transactions are at their ends, so their writes and locks are told here anew."""
    notes = []
    locks, levels = {}, {}
    for step in client.steps:
        if step.line.place:
            notes.append(note_of(step.line, step.tx, locks, levels))
    return notes


def note_of(line, tx, locks, levels):
    told, history = line.told, line.place[0]
    if history == "p":
        empty = told["connection"] == "empty" and line.kind == "take"
        return Note("p", line.kind, "", empty, None, ())
    if line.kind == "begin":
        locks[tx], levels[tx] = set(), [{}]
    if "access" in told:
        return access_note(told, tx, locks, levels)
    if line.kind in ("commit", "rollback"):
        rows = {}
        for level in levels.pop(tx):
            rows.update(level)
        changes = tuple(sorted(rows.items())) if line.kind == "commit" else ()
        return Note("s", line.kind, "", False, frozenset(locks.pop(tx)), changes)
    move_levels(line.kind, levels[tx])
    return Note("s", line.kind, "", False, None, ())


def move_levels(kind, levels):
    if kind == "savepoint":
        levels.append({})
    elif kind == "back_to":
        levels[-1] = {}
    elif kind == "release":
        top = levels.pop()
        levels[-1].update(top)


def access_note(told, tx, locks, levels):
    row, busy = told["row"], "busy" in told
    own = "auto" in told
    answer = "busy" if busy else told.get("value", "absent") if told["access"] == "read" else "done"
    value = told.get("value", "") if told["access"] == "write" else ""
    text = f"{'auto ' if own else ''}{told['access']} {row} {value} {answer}"
    writes = told["access"] != "read" and not busy
    new = int(value) if told["access"] == "write" else None
    if not own and not busy:
        locks[tx].add(row)
        if writes:
            levels[tx][-1][row] = new
    return Note("s", text, row, busy, None, ((row, new),) if own and writes else ())


def commute(one, other, free):
    """Whether two notes of two clients are the same in both orders. `free` is how many connections were free before."""
    if one.history != other.history:
        return True
    if one.history == "p":
        if one.text == other.text == "take":
            return one.refused and other.refused or free >= 2
        return not (one.refused or other.refused)
    if one.row and other.row:
        return one.row != other.row or (one.refused and other.refused)
    if one.frees is not None and other.row:
        return other.row not in one.frees
    if other.frees is not None and one.row:
        return one.row not in other.frees
    return True
