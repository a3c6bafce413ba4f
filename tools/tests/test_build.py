"""Which program plays, quick builds and what is kept of them; a script stands in for `rt`."""
import io
import os
import sys
import tempfile
import unittest
from pathlib import Path
from types import SimpleNamespace
from unittest import mock

from tools import build, keep, sources
from tools.say import Stop
from tools.sources import TOP

FIRST = (TOP / "examples" / "first.toml").read_bytes()
REPORT = (TOP / "examples" / "first.report").read_bytes()

# What `rt try --cases FOLDER -- WORDS` does, with the stand-in as the program. Other commands are noted.
RT = """#!/bin/sh
if [ "$1" != try ]; then
  echo "$* in $(basename "$PWD")" >>"{here}/said"
  exit {status}
fi
printf x >>"{here}/tries"
exec "{python}" -S -B "{here}/try.py" "$@"
"""
TRY = """
import pathlib, sys
sys.path.insert(0, "{top}")
from tools.tests.stand_in import main
for file in sorted(pathlib.Path(sys.argv[3]).iterdir()):
    status, text = main(sys.argv[5:], file.read_bytes())
    sys.stdout.buffer.write(b"== " + file.name.encode() + b"\\n" + text)
    print(f"case={{file.name}} {say}", file=sys.stderr)
print("cases=1 proved=no", file=sys.stderr)
"""


class Building(unittest.TestCase):
    def setUp(self):
        self.folder = tempfile.TemporaryDirectory()
        self.here = Path(self.folder.name)
        self.rt()
        self.patches = [
            mock.patch.dict(os.environ, {"PATH": f"{self.here}:{os.environ['PATH']}"}), mock.patch.object(keep, "FOLDER", self.here / "kept"),
            mock.patch.object(sys, "stderr", io.StringIO()), mock.patch.object(build, "LOG", self.here / "prove.log"),
        ]
        for each in self.patches:
            each.start()

    def tearDown(self):
        for each in reversed(self.patches):
            each.stop()
        self.folder.cleanup()

    def rt(self, say="run=ended status={status} runners=1 proved=no", status=0):
        path = self.here / "rt"
        path.write_text(RT.format(python=sys.executable, here=self.here, status=status))
        (self.here / "try.py").write_text(TRY.format(top=TOP, say=say))
        path.chmod(0o755)

    def tries(self):
        return len((self.here / "tries").read_text()) if (self.here / "tries").exists() else 0

    def test_many_inputs_are_played_by_one_build_and_then_kept(self):
        inputs = [FIRST, b"x", FIRST, b"clients = []"]
        for _ in range(2):
            played = build.QuickBuild("why").play(inputs)
            self.assertEqual([each.status for each in played], [0, 4, 0, 4])
            self.assertEqual(played[0].text, REPORT)
            self.assertEqual(played[1].text, b"refused 1 NotToml\n")
            self.assertEqual(self.tries(), 1)
        build.QuickBuild("why").play([FIRST], "check")
        self.assertEqual(self.tries(), 2)
        self.assertIn("nothing of that is proved", sys.stderr.getvalue())
        self.assertEqual(sys.stderr.getvalue().count("\n"), 3)

    def test_other_sources_or_another_kit_play_anew(self):
        build.QuickBuild("why").play([FIRST])
        with mock.patch.object(sources, "quick_hash", return_value="other"):
            build.QuickBuild("why").play([FIRST])
        self.assertEqual(self.tries(), 2)
        os.utime(self.here / "rt", (1, 1))
        build.QuickBuild("why").play([FIRST])
        self.assertEqual(self.tries(), 3)

    def test_what_is_kept_and_spoilt_is_played_anew(self):
        build.QuickBuild("why").play([FIRST])
        (kept,) = (self.here / "kept").iterdir()
        for data in (b"", b"0", kept.read_bytes()[:-5], b"\xff" * 100):
            kept.write_bytes(data)
            self.assertEqual(build.QuickBuild("why").play([FIRST])[0].text, REPORT)
        self.assertEqual(self.tries(), 5)

    def test_nothing_is_kept_where_nothing_can_be_written(self):
        (self.here / "kept").write_text("a file")
        self.assertEqual(build.QuickBuild("why").play([FIRST])[0].text, REPORT)

    def test_only_so_many_are_kept(self):
        with mock.patch.object(keep, "MOST", 3):
            for number in range(6):
                keep.keep(f"key{number}", 0, b"text")
        self.assertEqual(len(list((self.here / "kept").iterdir())), 3)

    def test_a_build_without_an_answer_stops(self):
        for say in ("run=fault proved=no", "run=no-answer", ""):
            self.rt(say)
            with self.assertRaises(Stop):
                build.QuickBuild(say).play([FIRST + say.encode()])

    def test_without_rt_it_says_where_to_get_it(self):
        with mock.patch.dict(os.environ, {"PATH": str(self.here / "nowhere")}):
            with self.assertRaisesRegex(Stop, "there is no command rt"):
                build.QuickBuild("why").play([b"other"])

    def test_which_program_plays(self):
        words = SimpleNamespace(program=None, threads=False, quick=False)
        program = self.here / "springtx"
        with mock.patch.object(sources, "program_of", return_value=program):
            self.assertIsInstance(build.chosen(words), build.QuickBuild)
            program.write_text("#!/bin/sh\n")
            program.chmod(0o755)
            self.assertIsInstance(build.chosen(words), build.BuiltProgram)
            os.utime(program, (1, 1))
            self.assertEqual(build.chosen(words).why, "the sources have changed since the program was proved")
            words.quick = True
            self.assertEqual(build.chosen(words).why, "you asked for it")

    def test_running_threads_are_another_program_with_a_word_of_caution(self):
        words = SimpleNamespace(program=None, threads=True, quick=False)
        program = self.here / "springtx_run"
        with mock.patch.object(sources, "program_of", return_value=program):
            with self.assertRaisesRegex(Stop, "isn't built"):
                build.chosen(words)
            program.write_text('#!/bin/sh\necho "$@"\n')
            program.chmod(0o755)
            self.assertEqual(build.chosen(words).play([FIRST])[0].text, b"--do run\n")
        self.assertIn("the order may differ each time", sys.stderr.getvalue())

    def test_proving_goes_crate_by_crate_and_stops_at_a_failure(self):
        with mock.patch.object(sources, "program_of", return_value=self.here / "rt"):
            build.prove()
        said = (self.here / "said").read_text().splitlines()
        self.assertEqual([line.split(" in ")[1] for line in said], sources.crates_below("springtx"))
        self.assertEqual(said[-1], "run -- --do play in springtx")
        self.assertIn("crate 1 of ", sys.stderr.getvalue())
        self.rt(status=1)
        with self.assertRaisesRegex(Stop, "stx_scenario wasn't proved"):
            build.prove()


class Sources(unittest.TestCase):
    def test_a_crate_comes_after_those_it_stands_on(self):
        crates = sources.crates_below("springtx")
        self.assertEqual(crates[0], "stx_scenario")
        self.assertEqual(crates[-1], "springtx")
        self.assertNotIn("stx_tests", crates)

    def test_cases_of_a_quick_build_are_told_apart(self):
        texts = b"== case00000\na\n== odd\n== case00001\n== case00002\nb\n"
        told = b"case=case00000 run=ended status=0 x\ncase=case00001 run=ended status=4 x\ncase=case00002 run=fault\n"
        self.assertEqual(build.results_of(texts, told), {"case00000": (0, b"a\n== odd\n"), "case00001": (4, b"")})


if __name__ == "__main__":
    unittest.main()
