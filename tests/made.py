#!/usr/bin/env python3
"""Writes the input of a case to standard output, where it is large and regular.

usage: tests/made.py KIND ARGUMENTS.., by the functions below"""
import pathlib
import sys

sys.path.insert(0, str(pathlib.Path(__file__).resolve().parent.parent))
from tools.load_draws import drawn

LIMIT = 1_048_576
BUILT_IN = [
    ("Throwable", None), ("Exception", "Throwable"), ("Error", "Throwable"), ("RuntimeException", "Exception"),
    ("IllegalStateException", "RuntimeException"), ("ArithmeticException", "RuntimeException"),
    ("NestedRuntimeException", "RuntimeException"), ("TransactionException", "NestedRuntimeException"),
    ("CannotCreateTransactionException", "TransactionException"),
    ("NestedTransactionNotSupportedException", "CannotCreateTransactionException"),
    ("TransactionUsageException", "TransactionException"),
    ("IllegalTransactionStateException", "TransactionUsageException"),
    ("NoTransactionException", "TransactionUsageException"),
    ("UnexpectedRollbackException", "TransactionException"), ("DataAccessException", "NestedRuntimeException"),
    ("CannotAcquireLockException", "DataAccessException"), ("CannotGetJdbcConnectionException", "DataAccessException"),
]
NOBODY = "clients=[{calls=[]}]\n"
BEAN = 'beans=[{name="b"}]\n'


def repeat(count, text, before=""):
    """A text so many times, behind another."""
    return before + text * int(count)


def bytes_of(digits):
    """The bytes that these hexadecimal digits say."""
    return bytes.fromhex(digits)


def array(entries):
    return "[" + ",".join(entries) + "]"


def method(name, body, rest="tx={},"):
    statements = array(f'"{statement}"' for statement in body)
    return f'{{bean="b",name="{name}",{rest}body={statements}}}'


def methods(all_methods, calls=()):
    """A bean with these methods, and a client with these calls."""
    called = array(f'"{call}"' for call in calls)
    return BEAN + "methods=[\n" + ",\n".join(all_methods) + f"\n]\nclients=[{{calls={called}}}]\n"


def entries(kind, count):
    """A scenario in which the array of this kind has so many entries."""
    numbers = range(int(count))
    named = array(f'{{name="n{number}"}}' for number in numbers)
    marks = array('"mark"' for _ in numbers)
    reads = array('"read a"' for _ in numbers)
    throws = array('"throw Error"' for _ in numbers)
    of_event = array(f'{{name="n{number}",event="e"}}' for number in numbers)
    one_method = BEAN + 'methods=[{bean="b",name="m"}]\n'
    return {
        "events": "events=" + array(f'"e{number}"' for number in numbers) + "\n" + NOBODY,
        "schedule": "schedule=" + array("0" for _ in numbers) + "\n" + NOBODY,
        "rows": "rows=" + array(f'{{name="r{number}",value={number}}}' for number in numbers) + "\n" + NOBODY,
        "classes": "classes=" + array(f'{{name="c{number}",parent="Error"}}' for number in numbers) + "\n" + NOBODY,
        "beans": f"beans={named}\n{NOBODY}",
        "methods": BEAN + "methods=" + array(f'{{bean="b",name="m{number}"}}' for number in numbers) + "\n" + NOBODY,
        "syncs": f"syncs={named}\n{NOBODY}",
        "listeners": f'events=["e"]\nlisteners={of_event}\n{NOBODY}',
        "clients": "clients=" + array("{calls=[]}" for _ in numbers) + "\n",
        "calls": one_method + "clients=[{calls=[]},{calls=" + array('"b.m"' for _ in numbers) + "}]\n",
        "statements": BEAN + 'methods=[{bean="b",name="m",body=' + marks + "}]\n" + NOBODY,
        "rules": 'beans=[{name="b",tx={rules=' + array('"keep Error"' for _ in numbers) + "}}]\n" + NOBODY,
        "before_commit": f'syncs=[{{name="s",before_commit={reads}}}]\n{NOBODY}',
        "before_completion": f'syncs=[{{name="s",before_completion={throws}}}]\n{NOBODY}',
        "after_commit": f'syncs=[{{name="s",after_commit={throws}}}]\n{NOBODY}',
        "after_completion": f'syncs=[{{name="s",after_completion={throws}}}]\n{NOBODY}',
        "body": f'events=["e"]\nlisteners=[{{name="l",event="e",body={throws}}}]\n{NOBODY}',
    }[kind]


def long_name(count):
    """An event whose name has so many bytes."""
    return 'events=["' + "a" * int(count) + '"]\n' + NOBODY


def marks(count):
    """A method of so many statements, called once."""
    return methods([method("m", ["mark"] * int(count))], ["b.m"])


def class_chain(count, more=""):
    """So many classes, the first below Throwable and each next below the one before; with `cycle` one below itself."""
    classes = [(f"c{number}", f"c{number - 1}" if number > 1 else "Throwable") for number in range(1, int(count) + 1)]
    if more == "cycle":
        classes.append(("d", "d"))
    return "classes=" + array(f'{{name="{name}",parent="{parent}"}}' for name, parent in classes) + "\n" + NOBODY


def class_ring(count):
    """So many classes, each below the next and the last below the first."""
    ring = [(number, (number + 1) % int(count)) for number in range(int(count))]
    return "classes=" + array(f'{{name="c{one}",parent="c{other}"}}' for one, other in ring) + "\n" + NOBODY


def call_chain(count, times="1"):
    """So many methods, each with so many calls of the next."""
    count = int(count)
    chain = [[f"call b.m{number + 1}"] * int(times) for number in range(count - 1)] + [[]]
    return methods([method(f"m{number}", body) for number, body in enumerate(chain)], ["b.m0"])


def call_graph(count, calls, shape):
    """So many methods with so many calls each: the next and others further on, in a `line`; in a `knot` the last two call
    each other, and in a `ring` the last calls the first, and half of all calls go back."""
    count, calls = int(count), int(calls)
    bodies = []
    for number in range(count - 1):
        left = count - 1 - number
        ahead = [number + 1 + (step * 7 + number) % left for step in range(calls - 1)]
        if shape == "ring":
            ahead = [(number * 31 + step * 17) % count if step % 2 else other for step, other in enumerate(ahead)]
        bodies.append([number + 1, *ahead])
    bodies.append({"line": [], "knot": [count - 2], "ring": [0]}[shape])
    calling = [[f"this m{other}" for other in body] for body in bodies]
    return methods([method(f"m{number}", body, "") for number, body in enumerate(calling)], ["b.m0"])


def heavy_calls(count):
    """So many calls of a method of size 65,793."""
    light, heavy = method("light", ["read a"] * 255), method("heavy", ["call b.light"] * 256)
    return methods([light, heavy], ["b.heavy"] * int(count))


def largest():
    """A valid file of exactly the most bytes: 10,000 rows, and 1,000 methods with 31 statements each."""
    rows = "rows=" + array(f'{{name="r{row}",value={row}}}' for row in range(10_000)) + "\n"
    reads = [[f"read r{(number * 97 + place * 31) % 10_000}" for place in range(31)] for number in range(1_000)]
    text = rows + methods([method(f"m{number}", body) for number, body in enumerate(reads)], ["b.m999"])
    return text + "#" * (LIMIT - len(text))


WIDE_RULES = ["rollback Exception", "keep ~c1", "rollback c5"]
WIDE_CLASSES = [(f"c{number}", f"c{number - 1}" if number % 60 else "Exception") for number in range(983)]


def wide_rules(count):
    """So many methods of one attribute with three rules, over nearly 1,000 classes in chains of 60."""
    classes = array(f'{{name="{name}",parent="{parent}"}}' for name, parent in WIDE_CLASSES)
    rules = array(f'"{rule}"' for rule in WIDE_RULES)
    named = array(f'{{bean="b",name="m{number}"}}' for number in range(int(count)))
    return f'classes={classes}\nbeans=[{{name="b",tx={{rules={rules}}}}}]\nmethods={named}\n{NOBODY}'


def wide_rules_text(count):
    """What these rules decide for each class: by the nearest rule, and else by default."""
    parents = dict(BUILT_IN + WIDE_CLASSES)
    decisions = []
    for thrown in parents:
        line = [thrown]
        while parents[line[-1]]:
            line.append(parents[line[-1]])
        depths = []
        for place, (word, by) in enumerate(rule.split() for rule in WIDE_RULES):
            matches = [depth for depth, name in enumerate(line) if (by[1:] in name if by[0] == "~" else by == name)]
            depths += [(depth, place, word) for depth in matches[:1]]
        default = "rollback" if "RuntimeException" in line or "Error" in line else "keep"
        _, place, word = min(depths, default=(0, "default", default))
        decisions.append(f"{thrown} {word} by {place}\n")
    return "".join(f"rules b.m{number} {decision}" for number in range(int(count)) for decision in decisions) + "end\n"


def new_rows():
    """1,000 methods with 60 reads each, all of rows that no other statement has."""
    reads = [[f"read r{number}_{place}" for place in range(60)] for number in range(1_000)]
    return methods([method(f"m{number}", body) for number, body in enumerate(reads)], ["b.m0"])


def many_keys():
    """110,000 unknown keys in one table, in no order."""
    keys = ",".join(f"{chr(97 + number * 7 % 26)}{number}=1" for number in range(110_000))
    return "settings={" + keys + "}\n" + NOBODY


def many_empty_rows():
    """340,000 rows without a name."""
    return "rows=[" + "{}," * 340_000 + "]\n" + NOBODY


def additions(calls, count):
    """A client that calls so often a method which adds 1 to a row so many times."""
    return methods([method("m", ["add a 1"] * int(count))], ["b.m"] * int(calls))


def additions_text(calls, count):
    """What becomes of these additions: each reads, and writes one more."""
    calls, count = int(calls), int(count)
    lines = ["springtx 1", "client 0"]
    commits = []
    place = value = 0
    for call in range(calls):
        lines += [f"top {call}", "call b.m required", f"take 1 @p{2 * call + 1}"]
        place += 1
        lines += [f"begin {call + 1} @s{place}", "open fresh sync"]
        for _ in range(count):
            found = f"found {value}" if value else "absent"
            lines += [f"read a {found} @s{place + 1}", f"write a {value + 1} done @s{place + 2}"]
            place, value = place + 2, value + 1
        place += 1
        lines += ["end commit", f"commit {call + 1} @s{place}", f"give 1 @p{2 * call + 2}", "leave b.m"]
        commits.append(f"commit {call + 1} client 0 tx {call + 1} @s{place}")
    return "\n".join(lines + ["journal"] + commits + ["rows", f"row a {value}", "end"]) + "\n"


def most_lines(more=""):
    """The heaviest scenario: four calls of a method that calls others, which only read; with `more`, one call of nothing too."""
    bodies = [("b", "m", ["call c.a"] * 249 + ["call c.c"]), ("c", "a", ["read a"] * 198), ("c", "c", ["read a"] * 197)]
    bodies += [("b", "n", [])] * bool(more)
    return "\n".join([
        'beans=[{name="b"},{name="c"}]',
        "methods=" + array(
            f'{{bean="{bean}",name="{name}",tx={{}},body={array(chr(34) + each + chr(34) for each in body)}}}'
            for bean, name, body in bodies),
        "clients=[{calls=" + array(['"b.m"'] * 4 + ['"b.n"'] * bool(more)) + "}]",
    ]) + "\n"


def most_lines_text():
    """What becomes of it: each call joins, and finds no row."""
    lines = ["springtx 1", "client 0"]
    commits = []
    place = 0
    for call in range(4):
        lines += [f"top {call}", "call b.m required", f"take 1 @p{2 * call + 1}"]
        place += 1
        lines += [f"begin {call + 1} @s{place}", "open fresh sync"]
        for name, reads in [("a", 198)] * 249 + [("c", 197)]:
            lines += [f"call c.{name} required", "open join"]
            lines += [f"read a absent @s{place + read}" for read in range(1, reads + 1)]
            lines += ["end commit", f"leave c.{name}"]
            place += reads
        place += 1
        lines += ["end commit", f"commit {call + 1} @s{place}", f"give 1 @p{2 * call + 2}", "leave b.m"]
        commits.append(f"commit {call + 1} client 0 tx {call + 1} @s{place}")
    return "\n".join(lines + ["journal"] + commits + ["rows", "end"]) + "\n"


def many_turns(count):
    """A client with one call, and so many turns of it."""
    return "schedule=" + array("0" for _ in range(int(count))) + "\n" + methods([method("m", ["write a 1"])], ["b.m"])


def load(seed, clients):
    """The scenario for load that a seed gives for so many clients."""
    payments, calls, turns = drawn(int(seed), int(clients))
    rows = [(f"acct{n:02}", 1000) for n in range(16)] + [("stock", 100000), ("audit", 0), ("mails", 0)]
    of_beans = [("shop", ""), ("stock", 'propagation="nested"'), ("audit", 'propagation="requires_new"')]
    bodies = [("shop", f"t{t:02}", [
        f"need acct{account:02} {amount}", f"add acct{account:02} -{amount}", f"add acct{other:02} {amount}",
        "call stock.pick catch RuntimeException", "call audit.note catch RuntimeException", "publish paid",
    ]) for t, (account, other, amount) in enumerate(payments)]
    bodies += [("stock", "pick", ["need stock 1", "add stock -1"]), ("audit", "note", ["add audit 1"]), ("audit", "mail", ["add mails 1"])]
    return "\n".join([
        'events=["paid"]',
        "schedule=" + array(map(str, turns)),
        f"settings={{pool={min(64, int(clients) + 1)},sync=\"always\",nested=true}}",
        "rows=" + array(f'{{name="{name}",value={value}}}' for name, value in rows),
        "beans=" + array(f'{{name="{name}",tx={{{tx}}}}}' for name, tx in of_beans),
        "methods=" + array(
            f'{{bean="{bean}",name="{name}",body={array(chr(34) + each + chr(34) for each in body)}}}' for bean, name, body in bodies),
        'listeners=[{name="mail",event="paid",phase="after_commit",fallback=false,body=["call audit.mail"]}]',
        "clients=" + array("{calls=" + array(f'"shop.t{t:02}"' for t in of_client) + "}" for of_client in calls),
    ]) + "\n"


KINDS = [
    repeat, bytes_of, entries, long_name, marks, class_chain, class_ring, call_chain, call_graph, heavy_calls, largest,
    wide_rules, wide_rules_text, new_rows, many_keys, many_empty_rows, additions, additions_text, many_turns,
    most_lines, most_lines_text, load,
]


def main():
    kind, *arguments = sys.argv[1:]
    made = {known.__name__: known for known in KINDS}[kind](*arguments)
    sys.stdout.buffer.write(made.encode() if isinstance(made, str) else made)


if __name__ == "__main__":
    main()
