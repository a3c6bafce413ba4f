#!/usr/bin/env python3
"""Measures clients on threads against the same clients by a schedule on one thread, in shared calls a second of wall time.

usage: bench/threads.py [TIMES]     how often each is run, 5 unless it is given; the best time counts

The programs are crates/springtx/out/springtx and crates/springtx_run/out/springtx_run: build them first (`rt ci`). Nothing in
the gate depends on this. The time is that of the whole program: reading and writing are the same for both."""
import subprocess
import sys
import time
from pathlib import Path

CRATES = Path(__file__).resolve().parents[1] / "crates"
MOST_WEIGHT = 200_000
CALLS = 64


def scenario(clients):
    """So many clients with 64 calls each, each of as many statements as a scenario may have. A client has rows of its own, so no
    statement is refused, and each is a shared call."""
    body = min(250, MOST_WEIGHT // (clients * CALLS) - 4)
    lines = ['beans = [{name="b"}]', f"settings = {{pool={clients}}}"]
    for client in range(clients):
        statements = ",".join(f'"write r{client}x{row % 40} {row}"' for row in range(body))
        lines.append(f'[[methods]]\nbean="b"\nname="m{client}"\ntx={{}}\nbody=[{statements}]')
    for client in range(clients):
        lines.append("[[clients]]\ncalls=[" + ",".join([f'"b.m{client}"'] * CALLS) + "]")
    return "\n".join(lines) + "\n"


def best(program, job, text, times):
    """The best time of some runs, and the count of shared calls in the report."""
    seconds = []
    for _ in range(times):
        start = time.perf_counter()
        done = subprocess.run([CRATES / program / "out" / program, "--do", job], input=text, capture_output=True, text=True)
        seconds.append(time.perf_counter() - start)
        if done.returncode != 0:
            sys.exit(f"{program} ends with {done.returncode}: {done.stdout[:200]}")
    clients = done.stdout.split("\njournal\n")[0]
    return min(seconds), clients.count(" @p") + clients.count(" @s")


def main():
    times = int(sys.argv[1]) if len(sys.argv) > 1 else 5
    for clients in (2, 8, 64):
        text = scenario(clients)
        alone, calls = best("springtx", "play", text, times)
        side, again = best("springtx_run", "run", text, times)
        if calls != again:
            sys.exit(f"{again} shared calls on threads, and {calls} on one")
        print(f"{clients:3} clients, {calls:6} shared calls: {calls / alone:10.0f} a second on one thread, {calls / side:10.0f} on threads: {alone / side:.2f} times")


if __name__ == "__main__":
    main()
