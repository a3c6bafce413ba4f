"""The job --outcomes: what can happen under any schedule, how often, and by which schedule."""
import os
import random
import sys
from concurrent.futures import ThreadPoolExecutor

from tools import build, report, summary
from tools.document import Document, with_schedule
from tools.explore import Explorer, TooMany
from tools.notes import Run
from tools.say import Stop, counted, out, printable, say


class Plays:
    """Plays schedules of one scenario on all processors."""

    def __init__(self, program, document):
        self.program, self.document = program, document
        self.pool = ThreadPoolExecutor(os.cpu_count() or 1)

    def one(self, schedule):
        result = self.program.play([with_schedule(self.document, schedule)])[0]
        if result.status:
            said = printable(result.text.decode("utf-8", "replace").strip())
            raise Stop(f"{self.document.name}: the program ended with status {result.status} under a schedule: {said}")
        try:
            return Run(report.read(result.text), schedule)
        except report.Fault as fault:
            raise Stop(f"{self.document.name}: {fault}") from None

    def __call__(self, schedules):
        return list(self.pool.map(self.one, schedules))


class Bar:
    """A line on a terminal that says how far it is."""

    def __init__(self):
        self.shown = sys.stderr.isatty()

    def __call__(self, plays, states):
        if self.shown:
            sys.stderr.write(f"\rplay: {plays} plays, {states} states")
            sys.stderr.flush()

    def done(self):
        if self.shown:
            sys.stderr.write("\r\033[K")


def outcomes(words, given, explain):
    scenario = given[0]
    program = build.chosen(words)
    if isinstance(program, build.QuickBuild):
        raise Stop(f"--outcomes plays often, so it needs the program itself. {build.TO_PROVE}; --program PATH names another one")
    first = program.play([scenario.data])[0]
    if first.status:
        out(first.text)
        explain(scenario, first)
        return first.status
    document = Document(scenario.data, scenario.name)
    if document.root is None:
        raise Stop(f"{scenario.name}: its schedule wasn't found, so no other can stand in its place")
    play, bar = Plays(program, document), Bar()
    explorer = Explorer(play, document.scenario().pool, words.plays, bar)
    try:
        explorer.explore()
        lines = all_lines(explorer)
    except TooMany:
        bar.done()
        say(f"there are more plays than {words.plays}, so a sample is drawn by the seed {words.seed}")
        lines = sample_lines(sampled(play, document.scenario(), words, bar), explorer, words)
    bar.done()
    out("\n".join([f"{printable(scenario.name)}: {lines[0]}", *lines[1:]]) + "\n")
    return 0


def schedule_text(schedule, clients):
    """How a schedule is told, so that --schedule takes it."""
    if not schedule:
        return "one client after the other, --schedule ''" if clients > 1 else "--schedule ''"
    return f"--schedule {','.join(map(str, schedule))}"


def outcome_lines(outcome):
    ends, rows = outcome
    lines = []
    for client, number, method, thrown in ends:
        lines.append(f"  client {client}, call {number}: {method}: {f'the caller got {thrown}' if thrown else 'it returned normally'}")
    return [*lines, f"  rows at the end: {summary.rows_text(dict(rows)) or 'none'}"]


def share(part, whole):
    """A share in percent, told so that what happens is never 0% and what doesn't always happen never 100%."""
    percent = 100 * part / whole
    if part == whole:
        return "100%"
    return "under 0.1%" if percent < 0.1 else "over 99.9%" if percent > 99.9 else f"{percent:.1f}%"


def listed(ways, shortest, what):
    """The outcomes, the most frequent first."""
    whole = sum(ways.values())
    lines = []
    found = sorted(ways, key=lambda outcome: (-ways[outcome], len(shortest[outcome]), shortest[outcome]))
    for number, outcome in enumerate(found, 1):
        clients = len({client for client, _, _, _ in outcome[0]})
        how_often = f"{share(ways[outcome], whole)} of {what} ({ways[outcome]})"
        lines += ["", f"outcome {number} of {len(found)}: {how_often}; {schedule_text(shortest[outcome], clients)}"]
        lines += outcome_lines(outcome)
    return lines


def all_lines(explorer):
    whole = sum(explorer.ways.values())
    schedules = ("all " if whole > 1 else "") + counted(whole, "schedule")
    return [
        f"{counted(len(explorer.ways), 'outcome')} under {schedules}, by {counted(explorer.plays, 'play')}",
        *listed(explorer.ways, explorer.shortest, "the schedules"),
    ]


def sampled(play, scenario, words, bar):
    """So many runs by schedules that a seed draws."""
    draw = random.Random(words.seed)
    clients = range(len(scenario.clients))
    longest = sum(map(len, play([[]])[0].notes))
    runs = []
    while len(runs) < words.plays:
        count = min(1000, words.plays - len(runs))
        schedules = [[draw.choice(clients) for _ in range(min(100_000, 3 * longest * len(clients)))] for _ in range(count)]
        runs += [(run.outcome, drawn(schedule, run)) for schedule, run in zip(schedules, play(schedules))]
        bar(len(runs), 0)
    return runs


def drawn(schedule, run):
    """The schedule without entries of clients that had ended, and without an end to which the clients run by themselves."""
    left = [len(notes) for notes in run.notes]
    kept = []
    for client in schedule:
        if left[client]:
            left[client] -= 1
            kept.append(client)
    while kept and all(client >= kept[-1] for client, count in enumerate(left) if count):
        left[kept.pop()] += 1
    return kept


def sample_lines(runs, explorer, words):
    ways, shortest = {}, {}
    for outcome, schedule in runs:
        ways[outcome] = ways.get(outcome, 0) + 1
        if outcome not in shortest or len(schedule) < len(shortest[outcome]):
            shortest[outcome] = schedule
    for outcome, schedule in explorer.shortest.items():
        if outcome not in ways or len(schedule) < len(shortest[outcome]):
            shortest[outcome] = schedule
            ways.setdefault(outcome, 0)
    sample = f"a sample of {counted(len(runs), 'schedule')}, drawn by the seed {words.seed}"
    return [
        f"{counted(len(ways), 'outcome')} in {sample}: there may be others",
        *listed(ways, shortest, "the sample"),
    ]
