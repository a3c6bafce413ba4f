"""Warnings on scenarios that are valid."""
import unittest

from tools.document import Document
from tools.warnings import warnings

PLAIN = """events = ["e"]
[[beans]]
name = "b"
[[methods]]
bean = "b"
name = "m"
tx = {rules = [%s]}
body = [%s]
[[clients]]
calls = ["b.m"]
"""


def told(rules="", body="", more=""):
    return warnings(Document((PLAIN % (rules, body) + more).encode(), "s.toml"))


class Warnings(unittest.TestCase):
    def test_a_plain_scenario_has_none(self):
        self.assertEqual(told('"rollback Exception", "keep RuntimeException"', '"read a"'), [])

    def test_a_pattern_that_matches_nothing(self):
        (line,) = told('"rollback ~Sold"')
        self.assertEqual(line, "s.toml:7: warning: no class has 'Sold' in its name, so this rule never matches")

    def test_a_pattern_with_a_package(self):
        (line,) = told('"rollback ~java.lang.Exception"')
        self.assertIn("~Exception?", line)

    def test_keep_before_rollback_where_they_tie(self):
        (line,) = told('"keep Exception", "rollback ~Exception"')
        self.assertIn("put the rollback rules first", line)
        self.assertEqual(told('"keep RuntimeException", "rollback Exception"'), [])

    def test_a_listener_that_nothing_publishes(self):
        more = '[[listeners]]\nname = "l"\nevent = "e"\n'
        (line,) = told(more=more)
        self.assertEqual(line, "s.toml:13: warning: nothing publishes e, so listener l never runs")
        self.assertEqual(told(body='"publish e"', more=more), [])

    def test_a_method_that_nothing_calls(self):
        more = '[[methods]]\nbean = "b"\nname = "n"\n'
        (line,) = told(more=more)
        self.assertEqual(line, "s.toml:13: warning: nothing calls b.n")
        self.assertEqual(told(body='"this n"', more=more), [])

    def test_a_synchronisation_that_nothing_registers(self):
        more = '[[syncs]]\nname = "s"\n'
        self.assertEqual(told(more=more), ["s.toml:12: warning: nothing registers s"])
        self.assertEqual(told(body='"register s"', more=more), [])

    def test_many_are_cut(self):
        more = "".join(f'[[methods]]\nbean = "b"\nname = "n{each}"\n' for each in range(40))
        self.assertEqual(len(told(more=more)), 13)
        self.assertEqual(told(more=more)[-1], "s.toml: 28 warnings more")


if __name__ == "__main__":
    unittest.main()
