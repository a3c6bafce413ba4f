"""Every schedule of a scenario, with each state played once: states in which all clients have had the same answers, and the
committed rows are the same, go on in the same ways."""
from tools.notes import commute


class TooMany(Exception):
    """There are more plays than were asked for."""


class State:
    """Where some schedules lead: the shortest of them, a run that goes on from there, and how many lead there."""

    def __init__(self, prefix, ids, rows, free, run):
        self.prefix, self.ids, self.rows, self.free, self.run = prefix, ids, rows, free, run
        self.ways = 0
        self.came = []
        self.next = {}


class Explorer:
    """Explores level by level. `play` gives the runs of a list of schedules, in order."""

    def __init__(self, play, pool, most, told=lambda plays, states: None):
        self.play, self.pool, self.most, self.told = play, pool, most, told
        self.plays, self.states = 0, 0
        # Numbers for the lists of notes that clients have had, each with its length.
        self.numbers, self.lengths = {}, [0]
        # For each outcome the shortest schedule, and how many schedules end so.
        self.shortest, self.ways = {}, {}

    def runs(self, schedules):
        self.plays += len(schedules)
        if self.plays > self.most:
            raise TooMany()
        found = self.play(schedules)
        self.told(self.plays, self.states)
        return found

    def explore(self):
        (run,) = self.runs([[]])
        level = {}
        first = State([], (0,) * len(run.notes), frozenset(), self.pool, run)
        first.ways = 1
        level[()] = first
        while level:
            level = self.next_level(level)

    def next_level(self, level):
        """The states one shared call further on."""
        self.states += len(level)
        after, due = {}, []
        for state in level.values():
            self.shortest.setdefault(state.run.outcome, state.prefix)
            enabled = [client for client, notes in enumerate(state.run.notes) if self.made(state, client) < len(notes)]
            if not enabled:
                self.ways[state.run.outcome] = self.ways.get(state.run.outcome, 0) + state.ways
            for client in enabled:
                self.step(state, client, after, due)
        self.played(after, due)
        for state in level.values():
            state.came = []
        return after

    def made(self, state, client):
        """How many shared calls a client has made."""
        return self.lengths[state.ids[client]]

    def advanced(self, number, note):
        """The number of a list of notes with one more."""
        key = (number, note)
        if key not in self.numbers:
            self.numbers[key] = len(self.lengths)
            self.lengths.append(self.lengths[number] + 1)
        return self.numbers[key]

    def step(self, state, client, after, due):
        """Goes on from a state by a client: at once where its answer is known, and else by a play."""
        at = len(state.prefix)
        if state.run.order[at] == client:
            self.enter(state, client, state.run.notes[client][self.made(state, client)], after, state.run)
            return
        note = self.foretold(state, client)
        if note is None:
            due.append((state, client))
        else:
            self.enter(state, client, note, after, None)

    def foretold(self, state, client):
        """The client's answer where it was known one step before, and the step between commutes with it."""
        for before, other, note in state.came:
            known = before.next.get(client)
            if other != client and known is not None and commute(note, known, before.free):
                return known
        return None

    def enter(self, state, client, note, after, run):
        """Notes a step, and the state that it leads to."""
        state.next[client] = note
        ids = list(state.ids)
        ids[client] = self.advanced(state.ids[client], note)
        rows = dict(state.rows)
        rows.update(note.changes)
        free = state.free + {"take": 0 if note.refused else -1, "give": 1}.get(note.text, 0)
        key = (tuple(ids), frozenset(rows.items()))
        found = after.get(key)
        if found is None:
            found = after[key] = State([*state.prefix, client], tuple(ids), frozenset(rows.items()), free, None)
        if found.run is None and run is not None:
            # The run has to go on from this state's own schedule.
            found.prefix, found.run = [*state.prefix, client], run
        found.ways += state.ways
        found.came.append((state, client, note))

    def played(self, after, due):
        """Plays what no run went through yet."""
        for (state, client), run in zip(due, self.runs([[*state.prefix, client] for state, client in due]) if due else []):
            self.enter(state, client, run.notes[client][self.made(state, client)], after, run)
        blind = [state for state in after.values() if state.run is None]
        for state, run in zip(blind, self.runs([state.prefix for state in blind]) if blind else []):
            state.run = run
