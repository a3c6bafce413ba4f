"""Where things stand in a picture of a play: a column for each shared call, lanes of clients, and bars for their calls.

The columns run in the order of the histories, and are folded into strips, as music is; a strip has lanes only for the clients
that are at work or wait in it."""
from bisect import bisect_left, bisect_right
from collections import namedtuple

from tools.order import ordered

# A column: the client, the place of the line in its steps, and whether it is a shared call or a call without one.
Column = namedtuple("Column", "client at shared")
# A call as a bar: its frame, depth, first and last column, and the columns in which its transaction is set aside.
Bar = namedtuple("Bar", "frame client depth first last aside")
# A part of a bar in a strip: its columns, and whether it goes on before and after.
Part = namedtuple("Part", "bar first last opens closes")
Lane = namedtuple("Lane", "client parts columns depth")


def quiet_calls(client):
    """The places of the first lines of calls within which there is no shared call and no call."""
    quiet, open_calls = set(), []
    for at, step in enumerate(client.steps):
        if step.line.kind in ("call", "this"):
            open_calls = []
            open_calls.append(at)
        elif step.line.place:
            open_calls = []
        elif step.line.kind == "leave":
            quiet.update(open_calls)
            open_calls = []
    return quiet


def columns_of(walk):
    quiet = [quiet_calls(client) for client in walk.clients]
    columns = []
    for client, at in ordered(walk.report):
        shared = walk.clients[client].steps[at].line.place is not None
        if shared or at in quiet[client]:
            columns.append(Column(client, at, shared))
    return columns


def bars_of(walk, columns):
    """The bars of all calls, outer ones first."""
    by_client = [[] for _ in walk.clients]
    for number, column in enumerate(columns):
        by_client[column.client].append((column.at, number))
    bars = []
    for client in walk.clients:
        made = {}
        numbers = [number for _, number in by_client[client.number]]
        places = [at for at, _ in by_client[client.number]]
        for frame in client.frames:
            first, last = bisect_left(places, frame.first), bisect_right(places, frame.last) - 1
            made[frame] = Bar(frame, client.number, frame.depth, numbers[first], numbers[last], [])
        for frame, bar in made.items():
            if frame.suspends:
                set_aside(frame, bar, made)
        bars += made.values()
    return bars


def set_aside(frame, bar, made):
    """Notes in the bars around a call that suspends that their scope is set aside meanwhile."""
    outer = frame.outer
    while outer is not None:
        made[outer].aside.append((bar.first, bar.last))
        if outer.scope in ("fresh", "empty"):
            return
        outer = outer.outer


def strips_of(columns, bars, wide):
    """The lanes of each strip of so many columns."""
    strips = [{} for _ in range((len(columns) + wide - 1) // wide)]
    for bar in bars:
        for strip in range(bar.first // wide, min(bar.last // wide + 1, len(strips))):
            low, high = strip * wide, strip * wide + wide - 1
            part = Part(bar, max(bar.first, low), min(bar.last, high), bar.first >= low, bar.last <= high)
            strips[strip].setdefault(bar.client, []).append(part)
    lanes = []
    for number, strip in enumerate(strips):
        here = list(enumerate(columns[number * wide : number * wide + wide], number * wide))
        lanes.append([
            Lane(client, parts, [each for each in here if each[1].client == client], 1 + max(part.bar.depth for part in parts))
            for client, parts in sorted(strip.items())
        ])
    return lanes
