"""Reports for people: reasons, summaries, traces and tables of rules."""
import json
import unittest

from tools import report, rules, show, summary
from tools.document import Document
from tools.tests import samples
from tools.trace import trace
from tools.walk import Walk


def lines_of(data, scenario=None):
    return show.shown(Walk(report.read(data)), scenario, False).splitlines()


def reason(lines, start):
    """What stands after the line that begins so."""
    (line,) = [each for each in lines if each.strip().startswith(start)]
    return line.partition("-- ")[2]


class Showing(unittest.TestCase):
    def test_the_shop_as_stored(self):
        walk = samples.walk_of("shop")
        self.assertEqual(show.shown(walk, samples.scenario_of("shop"), False), (samples.FOLDER / "shop.show").read_text())

    def test_every_line_of_the_report_stands_there_in_order(self):
        for name in samples.NAMES:
            walk = samples.walk_of(name)
            shown = show.shown(walk, samples.scenario_of(name), False).split("\nclient 0\n", 1)[1].splitlines()
            texts = [line.partition("  -- ")[0].strip() for line in shown]
            wanted = [line.text for lines in walk.report.clients for line in lines]
            self.assertEqual([each for each in texts if each and not each.startswith("client ")], wanted)

    def test_the_depth_is_that_of_the_calls(self):
        lines = lines_of(samples.UNEXPECTED)
        self.assertIn("    call c.n required", lines)
        self.assertIn("      end rollback", lines)
        self.assertIn("    leave c.n throws RuntimeException", lines)

    def test_colours_change_nothing_but_colours(self):
        import re
        for name in samples.NAMES:
            walk, scenario = samples.walk_of(name), samples.scenario_of(name)
            self.assertEqual(re.sub("\033\\[[0-9;]*m", "", show.shown(walk, scenario, True)), show.shown(walk, scenario, False))

    def test_reasons_of_a_rollback_that_nobody_expects(self):
        lines = lines_of(samples.UNEXPECTED)
        self.assertEqual(lines[0], "client 0, call 0: b.m: the caller got UnexpectedRollbackException; its writes were ROLLED BACK")
        self.assertEqual(reason(lines, "open join"), "joins transaction 1")
        self.assertEqual(reason(lines, "mark_global"), "marks transaction 1 rollback-only: b.m can only roll back now")
        self.assertEqual(reason(lines, "end unexpected"), "it would commit, but c.n has marked the transaction rollback-only")
        self.assertEqual(reason(lines, "throw Unexpected"), "the caller believed in a commit, and learns of the rollback")

    def test_reasons_of_an_empty_pool(self):
        scenario = Document(b"settings = {pool = 1}", "s").scenario()
        lines = lines_of(samples.EMPTY_POOL, scenario)
        self.assertEqual(reason(lines, "take empty"), "all 1 connections are out")
        self.assertEqual(reason(lines, "throw CannotCreate"), "there is no connection for it")
        self.assertEqual(reason(lines, "bind 1"), "transaction 1 goes on")

    def test_a_rule_is_told_by_its_text(self):
        scenario = Document(b'methods = [{bean="b",name="m",tx={rules=["rollback Exception","keep app.Soft"]}}]', "s").scenario()
        lines = lines_of(samples.KEPT, scenario)
        self.assertEqual(reason(lines, "rules keep"), "the nearest rule: 1, `keep app.Soft`")
        self.assertEqual(lines[0], "client 0, call 0: b.m: the caller got app.Soft; its writes were COMMITTED")

    def test_what_is_lost_outside_of_a_transaction(self):
        lines = lines_of(samples.OUTSIDE)
        self.assertEqual(reason(lines, "skip g"), "lost: no transaction is active here, and the listener has no fallback")
        self.assertEqual(reason(lines, "auto write"), "commits at once: there is no transaction")
        self.assertIn("  outside of a transaction, each for itself: a = 2", lines)

    def test_busy_names_the_client(self):
        lines = lines_of(samples.data_of("one_row"), samples.scenario_of("one_row"))
        self.assertIn("acct01 is locked by transaction 1 of client 0, begun for Bean_1.gA", "\n".join(lines))

    def test_what_is_undone_at_a_savepoint(self):
        tops = [top for name in samples.NAMES for top in samples.walk_of(name).tops()]
        told = {summary.data_text(top) for top in tops}
        for wanted in ("its writes were COMMITTED", "its writes were ROLLED BACK", "nothing was written", "its writes were COMMITTED IN PART"):
            self.assertIn(wanted, told)


class Traces(unittest.TestCase):
    def test_events_of_a_client_lie_in_each_other(self):
        for name in samples.NAMES:
            events = json.loads(trace(samples.walk_of(name), samples.scenario_of(name)))["traceEvents"]
            calls = [each for each in events if each["ph"] == "X" and each["cat"] == "call"]
            self.assertEqual(len(calls), sum(len(client.frames) for client in samples.walk_of(name).clients))
            for client in {each["tid"] for each in calls}:
                open_until = []
                for each in sorted((each for each in calls if each["tid"] == client), key=lambda each: (each["ts"], -each["dur"])):
                    while open_until and open_until[-1] <= each["ts"]:
                        open_until.pop()
                    if open_until:
                        self.assertLessEqual(each["ts"] + each["dur"], open_until[-1])
                    open_until.append(each["ts"] + each["dur"])

    def test_every_shared_call_is_an_event_with_its_reason(self):
        events = json.loads(trace(samples.walk_of("shop"), samples.scenario_of("shop")))["traceEvents"]
        commit = next(each for each in events if each["name"] == "commit 2 @s12")
        self.assertEqual(commit["args"]["reason"], "transaction 1: orders is there for all now")
        self.assertEqual(sum(each.get("cat") in ("pool", "store") for each in events), 22)


class Rules(unittest.TestCase):
    TEXT = b"rules b.m Throwable keep by default\nrules b.m RuntimeException rollback by 0\nrules b.m app.Soft keep by 1\nrules b.n app.Soft keep by default\nend\n"

    def test_own_classes_stand_first_and_defaults_are_folded(self):
        scenario = Document(b'methods = [{bean="b",name="m",tx={rules=["rollback Exception","keep app.Soft"]}}]', "s").scenario()
        self.assertEqual(rules.table(self.TEXT, scenario).splitlines(), [
            "b.m", "  app.Soft  commits     by rule 1: keep app.Soft", "  built in: RuntimeException ROLL BACK by rule 0: rollback Exception",
            f"  the other 1 built-in classes: {rules.DEFAULT}", "b.n", "  app.Soft  commits     by default",
        ])

    def test_no_method_with_an_attribute(self):
        self.assertEqual(rules.table(b"end\n", None), "no method has an attribute, so no rule is ever asked\n")

    def test_a_text_that_is_cut_is_told_so(self):
        for length in range(len(self.TEXT)):
            with self.assertRaises(report.Fault):
                rules.read(self.TEXT[:length])


if __name__ == "__main__":
    unittest.main()
