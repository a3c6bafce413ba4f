#!/usr/bin/env python3
"""Gives the built program input that is meant to hurt, and says how long each took and how it ended. Each has to end at
once, with a refusal or an answer. Nothing in the gate depends on it."""
import pathlib
import random
import subprocess
import time

PROGRAM = pathlib.Path(__file__).resolve().parent.parent / "crates/springtx/out/springtx"
LIMIT = 1_048_576


def cut(text):
    """The whole lines of a text within the limit."""
    text = text[:LIMIT]
    return text[: text.rfind("\n") + 1]


def run(name, data):
    if isinstance(data, str):
        data = data.encode()
    start = time.time()
    done = subprocess.run([PROGRAM, "--do", "check"], input=data, capture_output=True, timeout=100)
    print(f"{name:34} {len(data):9} bytes {time.time() - start:7.3f} s status {done.returncode} {done.stdout[:60]!r}")


def method(number, statements):
    body = ",".join(f'"{s}"' for s in statements)
    return f'{{bean="b",name="m{number}",tx={{}},body=[{body}]}}'


def methods(all_methods):
    return 'beans=[{name="b"}]\nmethods=[' + ",".join(all_methods) + ']\nclients=[{calls=["b.m0"]}]\n'


CLIENTS = "clients=[{calls=[]}]\n"
random.seed(1)
run("many root keys", cut("".join(f"k{i}=1\n" for i in range(200_000))))
run("many root keys, unordered", cut("".join(f"{chr(97 + i % 26)}{i}=0\n" for i in range(150_000))))
run("keys in one table", "settings={" + ",".join(f"x{i}=1" for i in range(110_000)) + "}\n")
run("deep arrays", "a=" + "[" * 500_000)
run("deep tables", "a=" + "{a=" * 250_000)
run("deep dotted key", ".".join(["a"] * 400_000) + "=1")
run("many row tables", "rows=[" + "{}," * 340_000 + "]\n")
run("many schedule entries", "schedule=[" + "1," * 500_000 + "]\n" + CLIENTS)
run("wrong schedule entries", "schedule=[" + '"",' * 340_000 + "]\n" + CLIENTS)
run("one long string", 'events=["' + "a" * 1_000_000 + '"]\n' + CLIENTS)
run("a number that is too large", "settings={pool=1e400}\n" + CLIENTS)
run("a float", "settings={pool=1.5}\n" + CLIENTS)
run("a date", "settings={pool=1979-05-27}\n" + CLIENTS)
run("an integer of 65 bits", "settings={pool=9223372036854775808}\n" + CLIENTS)
run("a byte order mark", "\ufeff" + CLIENTS)
run("a key twice", CLIENTS + "clients=[]\n")
run("quoted keys", '"clients"=[{"calls"=[]}]\n"a b"=1\n')
run("dotted keys", "settings.pool=3\n" + CLIENTS)
run("a zero byte", b"\x00")
run("no UTF-8", b'clients=[{calls=["\xff"]}]')
run("60,000 row names", methods(method(j, [f"read r{j}_{i}" for i in range(60)]) for j in range(1_000)))
ahead = [[f"call b.m{random.randrange(j + 1, 1_000)}" for _ in range(40)] if j < 999 else [] for j in range(1_000)]
run("a great call graph", methods(method(j, calls) for j, calls in enumerate(ahead)))
around = [[f"call b.m{random.randrange(1_000)}" for _ in range(40)] for _ in range(1_000)]
run("a great call graph with cycles", methods(method(j, calls) for j, calls in enumerate(around)))
ring = ",".join(f'{{name="c{i}",parent="c{(i + 1) % 1_000}"}}' for i in range(1_000))
run("a great cycle of classes", "classes=[" + ring + "]\n" + CLIENTS)
