"""Random small scenarios, and a plain enumeration of all their schedules: what --outcomes is held against.

usage: python3 -m tools.tests.enumeration PROGRAM [COUNT [flat]]

plays COUNT scenarios (200) under every schedule by PROGRAM, with and without what --outcomes leaves out, and counts those whose
outcomes differ. Scenarios with more than MOST schedules are passed over (the stand-in finds them, since it is quicker). `flat` are
those without calls between methods."""
import random
import subprocess
import sys

from tools import report
from tools.document import Document, with_schedule
from tools.explore import Explorer
from tools.notes import Run
from tools.tests.stand_in import play

MOST = 500


def texts(items):
    return "[" + ", ".join(f'"{each}"' for each in items) + "]"


def statements(draw, count, callees):
    """Random statements of a body."""
    made = []
    for _ in range(draw.randint(0 if callees else 1, count)):
        row = draw.choice("ab")
        made.append(draw.choice([f"read {row}", f"write {row} {draw.randint(0, 2)}", f"add {row} {draw.choice((1, -1))}", f"need {row} 1", f"erase {row}",
                                 "throw app.Soft" if draw.random() < 0.3 else f"add {row} 1"]))
    if callees and draw.random() < 0.8:
        caught = draw.choice(("", " catch RuntimeException", " catch Throwable"))
        made.insert(draw.randint(0, len(made)), f"call {draw.choice(callees)}{caught}")
    return made


def scenario(seed, flat=False):
    """The text of a random small scenario. A flat one has no calls between methods."""
    draw = random.Random(seed)
    lines = [
        f"settings = {{pool = {draw.randint(1, 3)}}}", 'events = ["e"]', f'rows = [{{name = "a", value = {draw.randint(0, 2)}}}]',
        'classes = [{name = "app.Soft", parent = "Exception"}]', 'beans = [{name = "b"}, {name = "c"}]',
    ]
    inner = [] if flat else ["c.m"]
    method = '[[methods]]\nbean = "{}"\nname = "{}"\n{}body = {}'
    parts = []
    for name in ("m", "n"):
        rules = draw.choice(([], ["rollback Exception"], ["keep RuntimeException"]))
        body = statements(draw, 2, inner)
        if not flat and draw.random() < 0.3:
            body.append("publish e")
        tx = f"tx = {{rules = {texts(rules)}}}\n" if flat or draw.random() < 0.85 else ""
        parts.append(method.format("b", name, tx, texts(body)))
    if not flat:
        propagation = draw.choice(("required", "requires_new", "nested", "supports", "not_supported"))
        parts.append(method.format("c", "m", f'tx = {{propagation = "{propagation}"}}\n', texts(statements(draw, 1, []))))
        parts.append(method.format("c", "l", 'tx = {propagation = "requires_new"}\n', texts(["add a 1"])))
        phase = draw.choice(("after_commit", "after_rollback", "after_completion"))
        parts.append(f'[[listeners]]\nname = "l"\nevent = "e"\nphase = "{phase}"\nbody = ["call c.l"]')
    for _ in range(draw.choice((2, 2, 2, 3))):
        parts.append(f"[[clients]]\ncalls = {texts(draw.choice(('b.m', 'b.n')) for _ in range(draw.choice((1, 1, 1, 2))))}")
    return "\n".join(lines + parts) + "\n"


def enumerated(run_of, most=MOST):
    """The outcomes of all schedules, each with how many schedules end so; None where there are more than so many."""
    found = {}
    todo = [[]]
    count = 0
    while todo:
        prefix = todo.pop()
        run = run_of(prefix)
        count += 1
        if count > most:
            return None
        found[run.outcome] = found.get(run.outcome, 0) + 1
        made = [0] * len(run.notes)
        for client in prefix:
            made[client] += 1
        for at in range(len(prefix), len(run.order)):
            for client, notes in enumerate(run.notes):
                if client != run.order[at] and made[client] < len(notes):
                    todo.append([*run.order[:at], client])
            made[run.order[at]] += 1
    return found


def stand_in(document):
    """Plays a schedule by the stand-in."""
    made = document.scenario()
    return lambda schedule: Run(report.read(play(made, schedule)), schedule)


def by_program(path):
    """Plays a schedule by a program."""
    def runs(document):
        def run_of(schedule):
            done = subprocess.run([path, "--do", "play"], input=with_schedule(document, schedule), stdout=subprocess.PIPE)
            done.check_returncode()
            return Run(report.read(done.stdout), schedule)
        return run_of
    return runs


def explored(run_of, pool, most=MOST):
    explorer = Explorer(lambda schedules: [run_of(each) for each in schedules], pool, most)
    explorer.explore()
    return explorer


def differences(count, runs, flat=False):
    """The seeds whose outcomes differ, how many were compared, and how many plays each way took."""
    wrong, compared, plain_plays, plays, seed = [], 0, 0, 0, 0
    while compared < count:
        seed += 1
        document = Document(scenario(seed, flat).encode(), str(seed))
        run_of = runs(document)
        plain = None if enumerated(stand_in(document)) is None else enumerated(run_of)
        if plain is None:
            continue
        explorer = explored(run_of, document.scenario().pool)
        compared += 1
        plain_plays += sum(plain.values())
        plays += explorer.plays
        witnesses = all(run_of(schedule).outcome == outcome for outcome, schedule in explorer.shortest.items())
        if plain != explorer.ways or set(explorer.shortest) != set(plain) or not witnesses:
            wrong.append(seed)
    return wrong, compared, plain_plays, plays


if __name__ == "__main__":
    count = int(sys.argv[2]) if len(sys.argv) > 2 else 200
    wrong, compared, plain_plays, plays = differences(count, by_program(sys.argv[1]), "flat" in sys.argv[3:])
    print(f"{compared} scenarios compared, {len(wrong)} differ: {wrong}; {plain_plays} plays without pruning, {plays} with it")
    sys.exit(1 if wrong else 0)
