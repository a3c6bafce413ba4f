#!/usr/bin/env python3
"""Measures the built program on plays, in processor time, the least of some runs each, and gives the ratios between them.

Beside each play stands what a plain store in Rust takes for the same calls on the store, where there is a `rustc`: it is
written over std alone, replays the report and compares each answer. Build the program first (`rt ci`, or ./play once).

usage: bench/ratios.py [--rounds N]"""
import argparse
import os
import pathlib
import re
import shutil
import subprocess
import sys
import tempfile

TOP = pathlib.Path(__file__).resolve().parent.parent
PROGRAM = TOP / "crates/springtx/out/springtx"

# Each play by its name, and the words that bench/scenarios.py makes it of.
PLAYS = {
    "64 clients, 8 calls of 47": "clients 64 8 47",
    "64 clients, 16 calls of 47": "clients 64 16 47",
    "64 clients, 32 calls of 47": "clients 64 32 47",
    "64 clients, 64 calls of 47": "clients 64 64 47",
    "2 calls of 250 calls of 198": "load 2",
    "4 calls of 250 calls of 198": "load 4",
    "50,000 short, 100 rows held": "holder 100 50000",
    "50,000 short, 10,000 rows held": "holder 10000 50000",
    "in turn, rows of their own": "turns 64 8 40 1",
    "in turn, the same rows": "turns 64 8 40 0",
}

# What is compared: the longer play, the shorter one, and the most times its time that it may take.
COMPARED = [
    ("64 clients, 16 calls of 47", "64 clients, 8 calls of 47", 2.2),
    ("64 clients, 32 calls of 47", "64 clients, 16 calls of 47", 2.2),
    ("64 clients, 64 calls of 47", "64 clients, 32 calls of 47", 2.2),
    ("4 calls of 250 calls of 198", "2 calls of 250 calls of 198", 2.2),
    ("50,000 short, 10,000 rows held", "50,000 short, 100 rows held", 1.2),
]

# And the time of one shared call, without reading: where clients wait for each other's rows it is no longer.
COMPARED_EACH = [("in turn, the same rows", "in turn, rows of their own", 1.5)]

# The most processor time of a whole run, its report written.
WITHIN = {"64 clients, 64 calls of 47": 0.5, "4 calls of 250 calls of 198": 0.05}


def scenario(words):
    command = [sys.executable, TOP / "bench" / "scenarios.py", *words.split()]
    return subprocess.run(command, check=True, capture_output=True).stdout


def run(job, read, write):
    """The processor time of one run."""
    source = os.open(read, os.O_RDONLY)
    sink = os.open(write, os.O_WRONLY | os.O_CREAT | os.O_TRUNC)
    actions = [(os.POSIX_SPAWN_DUP2, source, 0), (os.POSIX_SPAWN_DUP2, sink, 1)]
    child = os.posix_spawn(PROGRAM, [str(PROGRAM), "--do", job], os.environ, file_actions=actions)
    _, status, used = os.wait4(child, 0)
    os.close(source)
    os.close(sink)
    if os.waitstatus_to_exitcode(status) != 0:
        sys.exit(f"--do {job} ended with status {os.waitstatus_to_exitcode(status)}: {write.read_bytes()[:200]}")
    return used.ru_utime + used.ru_stime


def plain_store(folder):
    """The program of the plain store, if it can be built."""
    if shutil.which("rustc") is None:
        return None
    program = folder / "plain"
    subprocess.run(["rustc", "-O", "-o", program, TOP / "bench/plain/store.rs"], check=True)
    return program


def main():
    parser = argparse.ArgumentParser(description=__doc__, formatter_class=argparse.RawDescriptionHelpFormatter)
    parser.add_argument("--rounds", type=int, default=15)
    rounds = parser.parse_args().rounds
    if not PROGRAM.exists():
        sys.exit(f"there is no program {PROGRAM}: build it first")
    with tempfile.TemporaryDirectory() as name:
        folder = pathlib.Path(name)
        plain = plain_store(folder)
        files = {play: (folder / f"{place}.toml", folder / f"{place}.report") for place, play in enumerate(PLAYS)}
        for play, words in PLAYS.items():
            files[play][0].write_bytes(scenario(words))
        # Round by round, so that what else the machine does meets all plays alike.
        checked = {play: float("inf") for play in PLAYS}
        taken = dict(checked)
        each = {}
        for _ in range(rounds):
            for play, (read, write) in files.items():
                checked[play] = min(checked[play], run("check", read, write))
                taken[play] = min(taken[play], run("play", read, write))
        print("| play | lines | shared calls | whole run | without reading | a shared call | plain store |")
        print("|---|---|---|---|---|---|---|")
        for play, (_, write) in files.items():
            report = write.read_text()
            lines = report.count("\n")
            calls = len(re.findall(r" @[ps]\d+$", report.split("\njournal\n")[0], re.M))
            told = "-"
            if plain:
                told = subprocess.run([plain], input=report, text=True, check=True, capture_output=True).stdout.strip()
            own = taken[play] - checked[play]
            each[play] = own / calls
            print(f"| {play} | {lines:,} | {calls:,} | {taken[play] * 1e3:.1f} ms | {own * 1e3:.1f} ms | {each[play] * 1e9:.0f} ns | {told} |")
    faults = 0
    print()
    for more, less, most in COMPARED:
        times = taken[more] / taken[less]
        faults += times > most
        print(f"{more}: {times:.2f} times the time of {less} (at most {most})")
    for more, less, most in COMPARED_EACH:
        times = each[more] / each[less]
        faults += times > most
        print(f"a shared call {more}: {times:.2f} times one {less} (at most {most})")
    for play, most in WITHIN.items():
        faults += taken[play] > most
        print(f"{play}: {taken[play] * 1e3:.0f} ms (at most {most * 1e3:.0f})")
    sys.exit(1 if faults else 0)


if __name__ == "__main__":
    main()
