#!/usr/bin/env python3
"""Writes a large scenario to standard output, for the measurements of bench/measure.

  clients N CALLS BODY   N clients with CALLS calls each of methods whose bodies have BODY statements, one client after the other
  turns N CALLS BODY ROWS   the same in turn, one call on the store at a time; ROWS is 1 where each client has rows of its own
                   and 0 where all have the same
  load N           one client with N calls, each of 250 calls inside it that make 198 reads each: the shape of a run of transactions
  holder ROWS SHORT   the last client writes ROWS rows 10,000 times and stays in its transaction, while another one makes SHORT
                   short transactions
  reading          a valid file of nearly the greatest size, laid out as people do: 10,000 rows and 1,000 methods with 31
                   statements each, within 1,048,576 bytes
  dense            the same with each table on a line, short names, and as many statements as then fit: 57,584
  rules            1,000 methods with an attribute over nearly 1,000 classes: about a million lines of `--do rules`
  calls DEPTH N    one client with N calls of an empty method that joins, and as many of one that runs without a transaction,
                   each under DEPTH calls that are open; three of a thousand make a shared call
"""
import random
import sys

LIMIT = 1_048_576


def statements_of(rows):
    """A read and a write in turn, of these rows."""
    return ", ".join(f'"write {row} {place}"' if place % 2 else f'"read {row}"' for place, row in enumerate(rows))


def clients(count, calls, body):
    random.seed(count * 1000 + body)
    print('beans = [{name="b"}]')
    print(f"settings = {{pool={min(64, count)}}}")
    for method in range(8):
        rows = [f"r{method}x{place % 40}" for place in range(body)]
        print(f'[[methods]]\nbean = "b"\nname = "m{method}"\ntx = {{}}\nbody = [{statements_of(rows)}]')
    for _ in range(count):
        listed = ", ".join(f'"b.m{random.randrange(8)}"' for _ in range(calls))
        print(f"[[clients]]\ncalls = [{listed}]")


def turns(count, calls, body, own):
    print('beans = [{name="b"}]')
    print(f"settings = {{pool={count}}}")
    print("schedule = " + str([place % count for place in range(min(100_000, count * calls * (body + 4)))]))
    for method in range(count):
        rows = [f"r{method if own else 0}x{place}" for place in range(body)]
        print(f'[[methods]]\nbean = "b"\nname = "m{method}"\ntx = {{}}\nbody = [{statements_of(rows)}]')
    for client in range(count):
        listed = ", ".join([f'"b.m{client}"'] * calls)
        print(f"[[clients]]\ncalls = [{listed}]")


def load(tops):
    def method(bean, name, body):
        return f'{{bean="{bean}",name="{name}",tx={{}},body=[' + ",".join(f'"{statement}"' for statement in body) + "]}"

    print('beans = [{name="b"},{name="c"}]\nmethods = [')
    methods = [method("b", "m", ["call c.a"] * 249 + ["call c.c"]), method("c", "a", ["read a"] * 198), method("c", "c", ["read a"] * 197)]
    print(",\n".join(methods) + "]\nclients = [{calls=[" + ",".join(['"b.m"'] * tops) + "]}]")


def holder(rows, short):
    writes, most = 10_000, 250

    def method(name, body, tx="tx={},"):
        print(f'{{bean="b",name="{name}",{tx}body=[' + ",".join(f'"{statement}"' for statement in body) + "]},")

    print('beans = [{name="b"}]\nsettings = {pool=64}')
    print("schedule = " + str([1] * (writes + 2)) + "\nmethods = [")
    groups = writes // most
    for group in range(groups):
        method(f"group{group}", [f"write h{(group * most + place) % rows} {place}" for place in range(most)])
    method("hold", [f"call b.group{group}" for group in range(groups)] + ["read z"])
    method("short", ["write s 1"])
    method("many", ["call b.short"] * most, tx="")
    method("all", ["call b.many"] * (short // most), tx="")
    print(']\nclients = [{calls=["b.all"]},{calls=["b.hold"]}]')


def written(text):
    assert len(text) <= LIMIT
    sys.stdout.write(text)


def reading():
    rows, methods, body = 10_000, 1_000, 31
    random.seed(rows)
    text = "settings = { pool = 8 }\n\n[[beans]]\nname = \"b\"\n\n"
    text += "".join(f'[[rows]]\nname = "row_{row:04}"\nvalue = {row}\n\n' for row in range(rows))
    for method in range(methods):
        named = [f"row_{random.randrange(rows):04}" for _ in range(body)]
        text += f'[[methods]]\nbean = "b"\nname = "m{method}"\ntx = {{}}\nbody = [{statements_of(named)}]\n\n'
    written(text + '[[clients]]\ncalls = ["b.m0"]\n')


def dense():
    head = "rows = [" + ",".join(f'{{name="r{row}",value={row}}}' for row in range(10_000)) + "]\n"
    head += 'beans = [{name="b"}]\n'
    tail = 'clients = [{calls=["b.m0"]}]\n'
    left = LIMIT - len(head) - len(tail) - len("methods = [\n]\n")
    each = left // 1_000
    methods = []
    for method in range(1_000):
        start = f'{{bean="b",name="m{method}",tx={{}},body=['
        statements = []
        size = len(start) + 4
        while len(statements) < 256:
            statement = f'"read r{(method * 97 + len(statements) * 31) % 10_000}"'
            if size + len(statement) + 1 > each:
                break
            size += len(statement) + 1
            statements.append(statement)
        methods.append(start + ",".join(statements) + "]},\n")
    written(head + "methods = [\n" + "".join(methods) + "]\n" + tail)


def rules():
    print('beans = [{name="b",tx={rules=["rollback Exception","keep ~Soft","rollback c5"]}}]')
    print("classes = [" + ",".join(f'{{name="c{n}",parent="{"Exception" if n % 60 == 0 else f"c{n - 1}"}"}}' for n in range(983)) + "]")
    print("methods = [" + ",".join(f'{{bean="b",name="m{n}"}}' for n in range(1_000)) + "]")
    print('clients = [{calls=["b.m0"]}]')


def calls(depth, count):
    """Each leaf is called from `batch`, 125 times in turn; `work` calls `batch`, and a chain of joined calls leads to it."""
    def method(name, body, propagation="required"):
        statements = ",".join(f'"{statement}"' for statement in body)
        print(f'{{bean="b",name="{name}",tx={{propagation="{propagation}"}},body=[{statements}]}},')

    pairs = 125
    batches, rest = divmod(count, pairs)
    print('beans = [{name="b"}]\nmethods = [')
    method("joined", [])
    method("empty", [], "not_supported")
    method("batch", ["call b.joined", "call b.empty"] * pairs)
    method("rest", ["call b.joined", "call b.empty"] * rest)
    works = [min(256, batches - start) for start in range(0, batches, 256)]
    for place, size in enumerate(works):
        method(f"work{place}", ["call b.batch"] * size)
    chain = depth - 2
    inner = [f"call b.work{place}" for place in range(len(works))] + ["call b.rest"]
    for place in range(chain):
        method(f"chain{place}", [f"call b.chain{place + 1}"] if place < chain - 1 else inner)
    tops = ["b.chain0"] if chain > 0 else [call.removeprefix("call ") for call in inner]
    print("]\nclients = [{calls=[" + ",".join(f'"{top}"' for top in tops) + "]}]")


if __name__ == "__main__":
    kind, *numbers = sys.argv[1:]
    {"clients": clients, "turns": turns, "load": load, "holder": holder, "reading": reading, "dense": dense, "rules": rules, "calls": calls}[kind](*map(int, numbers))
