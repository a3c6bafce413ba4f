"""What can happen under all schedules, against stored texts and against a plain enumeration."""
import unittest
from types import SimpleNamespace

from tools import outcomes
from tools.document import Document, with_schedule
from tools.explore import Explorer, TooMany
from tools.notes import Note, commute
from tools.sources import TOP
from tools.tests import enumeration
from tools.tests.stand_in import play

STORED = tuple(TOP / "examples" / f"{name}.toml" for name in ("withdrawals", "kept", "short_pool", "lost_listener"))
# A small scenario of enumeration.py, one of whose outcomes comes by a schedule in more than a thousand.
RARE = 56


def explored(document):
    return enumeration.explored(enumeration.stand_in(document), document.scenario().pool)


class Outcomes(unittest.TestCase):
    def test_stored_outcomes(self):
        for path in STORED:
            document = Document(path.read_bytes(), path.name)
            lines = outcomes.all_lines(explored(document))
            text = "\n".join([f"{path.name}: {lines[0]}", *lines[1:]]) + "\n"
            self.assertEqual(text, path.with_suffix(".outcomes").read_text())

    def test_each_witness_leads_to_its_outcome_and_none_is_shorter(self):
        document = Document(STORED[0].read_bytes(), "s")
        run_of = enumeration.stand_in(document)
        explorer = explored(document)
        for outcome, schedule in explorer.shortest.items():
            self.assertEqual(run_of(schedule).outcome, outcome)
        todo = [[]]
        while todo:
            schedule = todo.pop()
            self.assertLessEqual(len(explorer.shortest[run_of(schedule).outcome]), len(schedule))
            if len(schedule) < 5:
                todo += [[*schedule, 0], [*schedule, 1]]

    def test_the_same_outcomes_as_a_plain_enumeration(self):
        seeds = [seed for seed in range(1000, 1090)]
        wrong, compared = [], 0
        for flat in (False, True):
            for seed in seeds:
                document = Document(enumeration.scenario(seed, flat).encode(), str(seed))
                run_of = enumeration.stand_in(document)
                if sum(map(len, run_of([]).notes)) > 11:
                    continue
                plain = enumeration.enumerated(run_of, 250)
                if plain is not None:
                    compared += 1
                    explorer = explored(document)
                    if plain != explorer.ways or set(plain) != set(explorer.shortest):
                        wrong.append(seed)
        self.assertEqual(wrong, [])
        self.assertGreaterEqual(compared, 12)

    def test_an_outcome_that_comes_by_one_schedule_of_a_thousand(self):
        document = Document(enumeration.scenario(RARE).encode(), "s")
        explorer = explored(document)
        rarest = min(explorer.ways, key=explorer.ways.get)
        self.assertGreater(sum(explorer.ways.values()), 1000 * explorer.ways[rarest])
        self.assertEqual(enumeration.stand_in(document)(explorer.shortest[rarest]).outcome, rarest)

    def test_too_many_plays_stop_it_and_a_sample_says_so(self):
        document = Document(STORED[0].read_bytes(), "s")
        run_of = enumeration.stand_in(document)

        def runs(schedules):
            return [run_of(each) for each in schedules]

        explorer = Explorer(runs, 8, 5)
        with self.assertRaises(TooMany):
            explorer.explore()
        words = SimpleNamespace(plays=200, seed=3)
        sample = outcomes.sampled(runs, document.scenario(), words, lambda plays, states: None)
        lines = outcomes.sample_lines(sample, explorer, words)
        self.assertEqual(lines[0], "4 outcomes in a sample of 200 schedules, drawn by the seed 3: there may be others")
        for outcome, schedule in sample:
            self.assertEqual(run_of(schedule).outcome, outcome)
        self.assertEqual(sample, outcomes.sampled(runs, document.scenario(), words, lambda plays, states: None))

    def test_what_commutes(self):
        take, none, give = Note("p", "take", "", False, None, ()), Note("p", "take", "", True, None, ()), Note("p", "give", "", False, None, ())
        read = Note("s", "read a found 1", "a", False, None, ())
        busy, other = read._replace(refused=True), read._replace(row="b")
        ends, begin = Note("s", "commit", "", False, frozenset("a"), ()), Note("s", "begin", "", False, None, ())
        yes = [(take, take, 2), (none, none, 0), (take, give, 1), (give, give, 0), (take, read, 1), (read, other, 1), (busy, busy, 1), (ends, other, 1),
               (ends, begin, 1), (ends, ends, 1), (begin, read, 1)]
        no = [(take, take, 1), (none, give, 0), (read, read, 1), (busy, read, 1), (ends, read, 1), (ends, busy, 1)]
        for expected, pairs in ((True, yes), (False, no)):
            for one, two, free in pairs:
                self.assertEqual(bool(commute(one, two, free)), expected, (one, two))
                self.assertEqual(bool(commute(two, one, free)), expected, (two, one))

    def test_shares_never_hide_what_happens(self):
        self.assertEqual([outcomes.share(*each) for each in ((1, 1), (1, 100_000), (99_999, 100_000), (1, 3))], ["100%", "under 0.1%", "over 99.9%", "33.3%"])


class Schedules(unittest.TestCase):
    def test_a_schedule_takes_the_place_of_the_scenarios_own(self):
        for text in ("clients = []\n", "schedule = [0]\nclients = []\n", "'schedule' = [ # x\n 0, 1]\nclients = []\n", "# x\n[settings]\npool = 1\n[[clients]]\ncalls = []\n"):
            document = Document(text.encode(), "s")
            changed = Document(with_schedule(document, [1, 0]), "s").plain()
            self.assertEqual(changed.pop("schedule"), [1, 0])
            plain = document.plain()
            plain.pop("schedule", None)
            self.assertEqual(changed, plain)


class StandIn(unittest.TestCase):
    def test_it_plays_the_samples_line_by_line(self):
        from tools.tests import samples
        for name in samples.NAMES:
            made = samples.scenario_of(name)
            self.assertEqual(play(made, made.schedule), samples.data_of(name))


if __name__ == "__main__":
    unittest.main()
