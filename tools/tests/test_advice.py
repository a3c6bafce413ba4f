"""Advice on refusals: every mistake with its stored text, and a place, a right form and a way out for all refused cases."""
import random
import unittest

from tools.advice import advise
from tools.document import Document
from tools.sources import TOP
from tools.tests import mistakes
from tools.tests.cases import refused_cases
from tools.warnings import warnings


class Advice(unittest.TestCase):
    def test_each_mistake_has_its_stored_advice(self):
        stored = mistakes.STORED.read_text(encoding="utf-8").split("== ")
        for wanted, (name, _, lines) in zip(stored[1:], mistakes.advised()):
            self.assertEqual(wanted, "{}\n{}\n".format(name, "\n".join(lines)))
        self.assertEqual(len(stored) - 1, len(list(mistakes.advised())))

    def test_mistakes_are_of_all_stages(self):
        stages = {int(text.split()[1]) for _, text, _ in mistakes.advised()}
        self.assertEqual(stages, set(range(1, 17)))

    def test_every_refused_case_gets_a_place_what_is_right_and_a_way_out(self):
        count = 0
        for path in sorted((TOP / "tests").glob("*.case")):
            for name, data, text in refused_cases(path):
                lines = advise(data, text, "shop.toml")
                with self.subTest(case=f"{path.stem}: {name}"):
                    self.assertRegex(lines[0], r"^shop\.toml:[0-9]+:[0-9]+$")
                    self.assertRegex(lines[1], r"^ *[0-9]+ \| ")
                    self.assertIn("^", lines[2])
                    self.assertTrue(lines[4].startswith("  right here: "))
                    self.assertTrue(lines[5].startswith("  way out: "))
                count += 1
        self.assertGreater(count, 280)

    def test_the_marks_stand_under_the_text_that_is_meant(self):
        data = b'clients = [{calls = ["b.m"]}]\n[[beans]]\nname = "b"\ntx = {propagation = "require_new"}\n'
        lines = advise(data, b"refused 9 BadWord beans[0].tx.propagation\n", "s.toml")
        start = lines[2].index("^")
        self.assertEqual(lines[1][start : start + lines[2].count("^")], '"require_new"')
        self.assertEqual(lines[5], "  way out: did you mean `requires_new`?")

    def test_refusals_that_fit_nothing_are_one_line(self):
        for text in (b"", b"refused", b"refused 99 Odd x\n", b"refused 2 UnknownKey a.b.c\n", b"refused 9 BadWord methods[7].body[1]\n",
                     b"refused 11 ClassCycle Nobody\n", b"refused 14 CallCycle b.m\n", b"refused 16 TooLarge\n", b"\xff\xfe"):
            lines = advise(b"a = 1\n", text, "s.toml")
            self.assertEqual(len(lines), 1, lines)

    def test_advice_on_texts_that_fit_no_refusal_is_some_lines(self):
        draw = random.Random(3)
        cases = [case for name in ("mistakes", "statement_forms", "references", "callbacks") for case in refused_cases(TOP / "tests" / f"{name}.case")]
        for _ in range(400):
            data, text = bytearray(draw.choice(cases)[1]), draw.choice(cases)[2]
            for _ in range(draw.randint(0, 3)):
                data[draw.randrange(len(data))] = draw.choice(b'[]{}".,= \n\xff\x00azT1-')
            lines = advise(bytes(data), text, "s.toml")
            self.assertTrue(lines and all("\n" not in line for line in lines))
            warnings(Document(bytes(data), "s.toml"))

    def test_odd_bytes_are_told_as_such(self):
        lines = advise(b'clients = "\xff"', b"refused 1 NotToml\n", "s.toml")
        self.assertIn("ff is no text in UTF-8", lines[3])
        self.assertEqual(Document(b"\xef\xbb\xbfa = 1", "s").data[:3], b"\xef\xbb\xbf")


if __name__ == "__main__":
    unittest.main()
