"""One order of all lines of a report: each client's own, the pool's and the store's history are all kept in it."""
import heapq

from tools.report import Fault


def keys_of(lines):
    """For each line the next place in the store's history at or after it: so others' lines come no sooner than they need to."""
    keys = []
    after = float("inf")
    for line in reversed(lines):
        if line.place and line.place[0] == "s":
            after = line.place[1]
        keys.append(after)
    return keys[::-1]


def check_histories(clients):
    """The places of both histories are 1, 2 and so on."""
    for history in "ps":
        places = sorted(line.place[1] for lines in clients for line in lines if line.place and line.place[0] == history)
        if places != list(range(1, len(places) + 1)):
            raise Fault(f"the places @{history} aren't 1, 2 and so on")


def ordered(report):
    """The client and the place in its lines of each line, in one order."""
    check_histories(report.clients)
    keys = [keys_of(lines) for lines in report.clients]
    at = [0] * len(report.clients)
    due = {"p": 1, "s": 1}
    ready, waiting, order = [], {}, []

    def offer(client):
        if at[client] == len(report.clients[client]):
            return
        line = report.clients[client][at[client]]
        if line.place and line.place[1] != due[line.place[0]]:
            waiting[line.place] = client
        else:
            heapq.heappush(ready, (keys[client][at[client]], client))

    for client in range(len(report.clients)):
        offer(client)
    while ready:
        _, client = heapq.heappop(ready)
        line = report.clients[client][at[client]]
        order.append((client, at[client]))
        at[client] += 1
        if line.place:
            history = line.place[0]
            due[history] += 1
            freed = waiting.pop((history, due[history]), None)
            if freed is not None:
                heapq.heappush(ready, (keys[freed][at[freed]], freed))
        offer(client)
    if len(order) != sum(map(len, report.clients)):
        raise Fault("the clients' lines and the two histories can't be brought into one order")
    return order
