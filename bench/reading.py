#!/usr/bin/env python3
"""Times how long the built program takes to read and check valid files of nearly the greatest size, and Python's tomllib to
parse them alone: the best of RUNS runs of each, five unless said, which take turns.

  bench/reading.py [PROGRAM [RUNS]]
"""
import platform
import subprocess
import sys
import tempfile
import time
import tomllib
from pathlib import Path

HERE = Path(__file__).resolve().parent


def timed(work):
    start = time.perf_counter()
    work()
    return time.perf_counter() - start


def compare(program, runs, kind):
    text = subprocess.run([sys.executable, HERE / "scenarios.py", kind], stdout=subprocess.PIPE, check=True).stdout
    checked, parsed = [], []
    with tempfile.TemporaryFile() as file:
        file.write(text)
        file.flush()
        for _ in range(runs):
            file.seek(0)
            checked.append(timed(lambda: subprocess.run([program, "--do", "check"], stdin=file, stdout=subprocess.DEVNULL, check=True)))
            parsed.append(timed(lambda: tomllib.loads(text.decode())))
    print(f"{kind}, {len(text)} bytes: read and checked in {min(checked):.4f} s, parsed by tomllib of Python "
          f"{platform.python_version()} in {min(parsed):.4f} s, {min(parsed) / min(checked):.1f} times as long")


def main():
    program = sys.argv[1] if len(sys.argv) > 1 else str(HERE.parent / "crates" / "springtx" / "out" / "springtx")
    runs = int(sys.argv[2]) if len(sys.argv) > 2 else 5
    for kind in ("reading", "dense"):
        compare(program, runs, kind)


if __name__ == "__main__":
    main()
