#!/usr/bin/env python3
"""Runs random scenarios with clients on threads, and checks each report by rules of its own: a pool and a store replayed by
their places, locks against their holders, and the commits replayed alone in the order of the journal.

usage: bench/stress.py [RUNS] [SEED]     1,000 runs, and a seed of the clock, unless they are given

The program is crates/springtx_run/out/springtx_run: build it first (`rt ci`). Nothing in the gate depends on this. The last
line says how many runs passed, and in how many of them the calls of two clients stand between each other."""
import random
import subprocess
import sys
import time
from pathlib import Path

PROGRAM = Path(__file__).resolve().parents[1] / "crates" / "springtx_run" / "out" / "springtx_run"
ROWS = "abcde"
SECONDS = 60


class Wrong(Exception):
    """What a report says that can't be."""


def need(holds, what):
    if not holds:
        raise Wrong(what)


# ---- scenarios


def statement(rng, method, methods):
    """A statement of a method. It calls later ones alone, so there is no cycle."""
    row = rng.choice(ROWS)
    later = range(method + 1, methods)
    forms = [f"read {row}", f"write {row} {rng.randrange(9)}", f"add {row} {rng.randrange(-3, 4)}", f"erase {row}"]
    forms += [f"need {row} {rng.randrange(4)}", f"write {row} {rng.randrange(9)}", f"add {row} 1"]
    if rng.random() < 0.1:
        return rng.choice(["mark", "throw RuntimeException", "throw Exception"])
    if later and rng.random() < 0.4:
        caught = rng.choice(["", " catch RuntimeException", " catch Throwable"])
        return f"call b.m{rng.choice(later)}{caught}"
    return rng.choice(forms)


def scenario(rng):
    """The text of a scenario, and the size of its pool."""
    pool = rng.randrange(1, 6)
    methods = rng.randrange(2, 7)
    lines = ['beans = [{name="b"}]', f"settings = {{pool={pool}}}"]
    lines.append("rows = [" + ",".join(f'{{name="{row}",value={rng.randrange(5)}}}' for row in ROWS[: rng.randrange(6)]) + "]")
    ways = ["required", "required", "required", "requires_new", "supports", "not_supported", "mandatory", "never"]
    for method in range(methods):
        lines.append(f'[[methods]]\nbean="b"\nname="m{method}"')
        if rng.random() < 0.85:
            lines.append(f'tx={{propagation="{rng.choice(ways)}"}}')
        lines.append("body=[" + ",".join(f'"{statement(rng, method, methods)}"' for _ in range(rng.randrange(1, 7))) + "]")
    for _ in range(rng.randrange(2, 9)):
        calls = ",".join(f'"b.m{rng.randrange(methods)}"' for _ in range(rng.randrange(1, 6)))
        lines.append(f"[[clients]]\ncalls=[{calls}]")
    return "\n".join(lines) + "\n", pool


def first_rows(text):
    """The rows that a scenario of this form begins with."""
    line = next(line for line in text.splitlines() if line.startswith("rows = "))
    entries = [entry.split('"') for entry in line.split("{")[1:]]
    return {entry[1]: int(entry[2].split("=")[1].split("}")[0]) for entry in entries}


# ---- reports


def sections(report):
    """The lines of each client, the journal and the rows."""
    lines = report.splitlines()
    need(lines and lines[0] == "springtx 1" and lines[-1] == "end" and report.endswith("end\n"), "no whole report")
    journal, rows = lines.index("journal"), lines.index("rows")
    clients = []
    for line in lines[1:journal]:
        if line.startswith("client "):
            need(line == f"client {len(clients)}", f"{line!r} in place of client {len(clients)}")
            clients.append([])
        else:
            clients[-1].append(line)
    return clients, lines[journal + 1 : rows], lines[rows + 1 : -1]


def events(clients, letter):
    """The calls on the pool (p) or the store (s), by their places: the client, and the words of the line."""
    placed = {}
    for client, lines in enumerate(clients):
        last = 0
        for line in lines:
            text, at, place = line.rpartition(f" @{letter}")
            if at:
                need(int(place) > last, f"the place of {line!r} comes after a later one")
                last = int(place)
                need(last not in placed, f"two lines have the place {letter}{last}")
                placed[last] = (client, text.split())
    need(sorted(placed) == list(range(1, len(placed) + 1)), f"the places of {letter} have a gap")
    return [placed[place] for place in range(1, len(placed) + 1)]


def check_pool(calls, size):
    """Each take has the least connection that is in, or none where none is in; all are given back by their takers."""
    out = {}
    for client, (verb, what) in calls:
        if verb == "give":
            need(out.pop(int(what), None) == client, f"client {client} gives {what} back and hasn't taken it")
        elif what == "empty":
            need(len(out) == size, f"none is in, and {len(out)} of {size} are out")
        else:
            least = min(set(range(1, size + 1)) - set(out), default=None)
            need(int(what) == least, f"{what} is taken, and {least} is the least")
            out[int(what)] = client
    need(not out, f"connections are still out: {sorted(out)}")


class Rows:
    """Rows with copies for savepoints."""

    def __init__(self, rows):
        self.now = dict(rows)
        self.copies = []

    def access(self, words):
        """What an access finds or does, as a report's words."""
        verb, row = words[:2]
        if verb == "read":
            return ["found", str(self.now[row])] if row in self.now else ["absent"]
        if verb == "write":
            self.now[row] = int(words[2])
        else:
            self.now.pop(row, None)
        return ["done"]

    def do(self, words):
        """A transaction's work: an access that wasn't busy, a savepoint, a return or a release."""
        if words == ["savepoint"]:
            self.copies.append(dict(self.now))
        elif words == ["back_to"]:
            self.now = dict(self.copies[-1])
        elif words == ["release"]:
            self.copies.pop()
        else:
            cut = 3 if words[0] == "write" else 2
            need(self.access(words) == words[cut:], f"{' '.join(words)!r} isn't what is found")


def check_store(calls, rows):
    """Replays the store. Gives the rows that are committed, and the lines that the journal has to have."""
    committed, journal, works = dict(rows), [], []
    live, holders, open_by, begun = {}, {}, {}, 0
    for place, (client, words) in enumerate(calls, 1):
        mine = open_by.setdefault(client, [])
        own = words[0] == "auto"
        access = words[1:] if own else words
        if access[0] in ("read", "write", "erase"):
            row, cut = access[1], 3 if access[0] == "write" else 2
            holder = holders.get(row)
            if holder is not None and (own or holder != mine[-1]):
                need(access[cut:] == ["busy", str(holder)], f"{' '.join(words)!r}, and {holder} holds the row")
                continue
            need(access[cut] != "busy", f"{' '.join(words)!r}, and nobody else holds the row")
        if own:
            one = Rows(committed)
            one.do(access)
            committed = one.now
            works.append([access])
            journal.append(f"commit {len(journal) + 1} client {client} auto @s{place}")
        elif words[0] == "begin":
            begun += 1
            need(words[1] == str(begun), f"{' '.join(words)!r} in place of {begun}")
            mine.append(begun)
            live[begun] = []
        elif words[0] in ("commit", "rollback"):
            tx = mine.pop()
            work = live.pop(tx)
            holders = {row: holder for row, holder in holders.items() if holder != tx}
            if words[0] == "commit":
                committed = replayed(committed, work)
                works.append(work)
                journal.append(f"commit {len(journal) + 1} client {client} tx {tx} @s{place}")
                need(words[1] == str(len(journal)), f"{' '.join(words)!r} in place of {len(journal)}")
        else:
            tx = mine[-1]
            live[tx].append(words)
            replayed(committed, live[tx])
            if words[0] in ("read", "write", "erase"):
                holders[words[1]] = tx
    need(not live, f"transactions still live: {sorted(live)}")
    alone = dict(rows)
    for work in works:
        alone = replayed(alone, work)
    need(alone == committed, "the commits, one after the other, give other rows")
    return committed, journal


def replayed(rows, work):
    """The rows after a transaction's work, each access of which has to find what it found."""
    alone = Rows(rows)
    for words in work:
        alone.do(words)
    return alone.now


def check(text, pool, report):
    """Whether the report can be one of this scenario. Gives whether the calls of two clients stand between each other."""
    clients, journal, rows = sections(report)
    check_pool(events(clients, "p"), pool)
    calls = events(clients, "s")
    committed, wanted = check_store(calls, first_rows(text))
    need(journal == wanted, "the journal isn't that of the commits")
    need(rows == [f"row {row} {committed[row]}" for row in sorted(committed)], "the rows aren't those of the commits")
    turns = [client for client, _ in calls]
    changes = sum(one != other for one, other in zip(turns, turns[1:]))
    return changes >= len(set(turns)) > 1


def main():
    runs = int(sys.argv[1]) if len(sys.argv) > 1 else 1000
    seed = int(sys.argv[2]) if len(sys.argv) > 2 else time.time_ns() % 2**32
    if not PROGRAM.exists():
        sys.exit(f"there is no program {PROGRAM}: build it first")
    print(f"seed {seed}", flush=True)
    mixed = 0
    for run in range(runs):
        text, pool = scenario(random.Random(f"{seed} {run}"))
        done = subprocess.run([PROGRAM, "--do", "run"], input=text, capture_output=True, text=True, timeout=SECONDS)
        try:
            need(done.returncode == 0, f"status {done.returncode}: {done.stdout.strip()}{done.stderr.strip()}")
            mixed += check(text, pool, done.stdout)
        except (Wrong, ValueError, IndexError, KeyError) as wrong:
            sys.exit(f"run {run} of seed {seed}: {wrong!r}\n{text}\n{done.stdout}")
    print(f"{runs} runs passed; the calls of clients were mixed in {mixed}")


if __name__ == "__main__":
    main()
