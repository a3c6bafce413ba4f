"""The draws that are proved to be those of the definition are the ones that the script works out."""
import unittest

from tools.load_draws import SEEDS, worked
from tools.sources import TOP

DEFINITION = TOP / "crates" / "stx_load" / "specs" / "WorkedDraws.antt"


class LoadDraws(unittest.TestCase):
    def test_definition_has_them(self):
        lines = [line.strip() for line in DEFINITION.read_text(encoding="utf-8").splitlines()]
        for seed in SEEDS:
            want = [f"IsWorkedOut {'(2 ^ 64 - 1)' if seed == 2**64 - 1 else seed}", *worked(seed)]
            self.assertIn(want, [lines[at:at + len(want)] for at in range(len(lines))], seed)


if __name__ == "__main__":
    unittest.main()
