"""./play as its users call it, by a program that stands in for the real one."""
import io
import os
import random
import re
import subprocess
import sys
import tempfile
import unittest
from pathlib import Path
from types import SimpleNamespace

from tools.main import main
from tools.sources import TOP
from tools.tests import samples

FIRST = TOP / "examples" / "first.toml"
STAND_IN = TOP / "tools" / "tests" / "stand_in.py"


class Playing(unittest.TestCase):
    def setUp(self):
        self.folder = tempfile.TemporaryDirectory()
        self.here = Path(self.folder.name)
        self.program = self.here / "program"
        self.program.write_text(f'#!/bin/sh\nexec "{sys.executable}" -S -B "{STAND_IN}" "$@"\n')
        self.program.chmod(0o755)

    def tearDown(self):
        self.folder.cleanup()

    def play(self, *words, stdin=b"", program=True):
        """Does what ./play does with these words, within this process."""
        own = ["--program", self.program] if program else []
        given = [os.fsdecode(each) for each in (*words, *own)]
        ends = [io.TextIOWrapper(io.BytesIO(data), "utf-8", errors="backslashreplace", write_through=True) for data in (stdin, b"", b"")]
        before, before_there = (sys.stdin, sys.stdout, sys.stderr), os.getcwd()
        os.chdir(self.here)
        sys.stdin, sys.stdout, sys.stderr = ends
        try:
            status = main(given)
        finally:
            sys.stdin, sys.stdout, sys.stderr = before
            os.chdir(before_there)
        self.assertNotIn(b"a fault of ./play itself", ends[2].buffer.getvalue())
        return SimpleNamespace(returncode=status, stdout=ends[1].buffer.getvalue(), stderr=ends[2].buffer.getvalue())

    def run_play(self, *words, command=TOP / "play"):
        """Runs ./play itself."""
        done = subprocess.run([command, *words], stdout=subprocess.PIPE, stderr=subprocess.PIPE, cwd=self.here, timeout=60)
        self.assertNotIn(b"Traceback", done.stderr)
        return done

    def stops(self, *words, status=1, **more):
        """It ends with one line on standard error, and writes nothing."""
        done = self.play(*words, **more)
        self.assertEqual((done.returncode, done.stdout), (status, b""), done.stderr)
        self.assertEqual(done.stderr.count(b"\n"), 1, done.stderr)
        return done.stderr.decode()

    def write(self, name, text):
        path = self.here / name
        path.write_bytes(text if isinstance(text, bytes) else text.encode())
        return path


class Words(Playing):
    def test_help_and_version(self):
        done = self.play("--help", program=False)
        self.assertEqual((done.returncode, done.stderr), (0, b""))
        for flag in ("--show", "--picture", "--trace", "--rules", "--expect", "--compare", "--outcomes", "--prove", "--quick", "--threads", "--schedule"):
            self.assertIn(flag.encode(), done.stdout)
        self.assertEqual(self.play("--version", program=False).returncode, 0)

    def test_words_are_checked_before_anything_is_built(self):
        for words in ([], ["--nonsense", "x"], ["--do"], ["--do", "jump", FIRST], ["--show", "--rules", FIRST], ["--compare", FIRST], ["--sho", FIRST],
                      ["--outcomes", FIRST, FIRST], ["--picture", "a.svg", FIRST, FIRST], ["--schedule", "0,x", FIRST], ["--schedule", "64", FIRST],
                      ["--quick", "--threads", FIRST], ["nothing.toml"], ["--plays", "0", "--outcomes", FIRST], ["--plays", "x", FIRST],
                      ["--program", "/nowhere", FIRST], ["--expect", "-"], ["-", "-"], [self.here / "empty"],
                      ["--do", "load", FIRST], ["--do", "load", "--show"], ["--do", "load", "--clients", "65"],
                      ["--do", "load", "--seed", "-1"], ["--clients", "2", FIRST]):
            (self.here / "empty").mkdir(exist_ok=True)
            self.stops(*words, program=False)

    def test_a_load_takes_no_file(self):
        told = self.write("tells its words", "#!/bin/sh\ncat\necho $*\n")
        told.chmod(0o755)
        for words, wanted in (([], b"--seed 1 --clients 4\n"), (["--clients", "64", "--seed", "7"], b"--seed 7 --clients 64\n")):
            done = self.play("--do", "load", "--program", told, *words, program=False)
            self.assertEqual((done.returncode, done.stdout), (0, b"--do load " + wanted), done.stderr)

    def test_flags_in_any_order(self):
        for words in (["--do", "check", FIRST], [FIRST, "--do", "check"], [FIRST, "--do=check"], ["--do", "check", "--", FIRST]):
            own = ["--program", self.program]
            done = self.play(*own, *words, program=False)
            self.assertEqual((done.returncode, done.stdout), (0, b"accepted weight 3\n"), done.stderr)

    def test_names_that_begin_with_a_dash(self):
        self.write("-a.toml", FIRST.read_bytes())
        done = self.play("--program", self.program, "--", "-a.toml", program=False)
        self.assertEqual((done.returncode, done.stdout), (0, FIRST.with_suffix(".report").read_bytes()))

    def test_a_link_to_it_works_from_anywhere(self):
        link = self.here / "bin"
        link.symlink_to(TOP / "play")
        second = self.here / "link to it"
        second.symlink_to("bin")
        done = self.run_play("--program", self.program, FIRST, command=second)
        self.assertEqual((done.returncode, done.stdout), (0, FIRST.with_suffix(".report").read_bytes()))


class Texts(Playing):
    def test_a_file_standard_input_and_a_folder(self):
        report = FIRST.with_suffix(".report").read_bytes()
        self.assertEqual(self.play(FIRST).stdout, report)
        self.assertEqual(self.play("-", stdin=FIRST.read_bytes()).stdout, report)
        self.write("a.toml", FIRST.read_bytes())
        self.write("b.toml", "nothing")
        done = self.play(self.here)
        self.assertEqual(done.returncode, 4)
        self.assertEqual(done.stdout, f"== {self.here}/a.toml\n".encode() + report + f"== {self.here}/b.toml\n".encode() + b"refused 1 NotToml\n")

    def test_refusals_get_help_beside_the_programs_text(self):
        path = self.write("b.toml", "a = 1\nb = x\n")
        done = self.play(path)
        self.assertEqual((done.returncode, done.stdout), (4, b"refused 1 NotToml\n"))
        self.assertIn(b"b.toml:2:5\n    2 | b = x\n      |     ^\n", done.stderr)

    def test_warnings_stand_on_standard_error(self):
        path = self.write("a.toml", FIRST.read_text() + '[[beans]]\nname = "c"\n' if "[[" in FIRST.read_text() else FIRST.read_text().replace("methods = [", 'methods = [{bean="b",name="idle"},'))
        done = self.play(path)
        self.assertIn(b"warning: nothing calls b.idle", done.stderr)
        self.assertEqual(done.stdout, FIRST.with_suffix(".report").read_bytes())

    def test_another_schedule(self):
        text = '[[beans]]\nname="b"\n[[methods]]\nbean="b"\nname="m"\ntx={}\nbody=["add a 1"]\n[[clients]]\ncalls=["b.m"]\n[[clients]]\ncalls=["b.m"]\n'
        path = self.write("two.toml", text)
        self.assertIn(b"client 1\ntop 0\ncall b.m required\ntake 1 @p1\n", self.play("--schedule", "1", path).stdout)
        self.assertIn(b"client 1\ntop 0\ncall b.m required\ntake 1 @p3\n", self.play("--schedule", "", path).stdout)

    def test_a_program_that_is_none(self):
        for text, words in (("#!/bin/sh\nexit 1\n", "status 1"), ("not a program", "doesn't start"), ("#!/bin/sh\nkill -9 $$\n", "status -9")):
            self.program.write_text(text)
            self.assertIn(words, self.stops(FIRST))

    def test_each_status_is_handed_on_with_a_line(self):
        for status, word in ((3, "couldn't be read"), (5, "couldn't be written"), (6, "memory"), (7, "1,048,576")):
            self.program.write_text(f"#!/bin/sh\nexit {status}\n")
            self.assertIn(word, self.stops(FIRST, status=status))


class Showing(Playing):
    def test_a_stored_report_is_shown_without_a_program(self):
        done = self.play("--show", samples.FOLDER / "shop.report", program=False)
        self.assertEqual((done.returncode, done.stdout, done.stderr), (0, (samples.FOLDER / "shop.show").read_bytes(), b""))

    def test_a_scenario_is_played_and_shown(self):
        done = self.play("--show", samples.FOLDER / "shop.toml")
        self.assertEqual((done.returncode, done.stdout), (0, (samples.FOLDER / "shop.show").read_bytes()))

    def test_colours_where_they_are_asked_for(self):
        self.assertIn(b"\033[", self.play("--show", "--colour", FIRST).stdout)
        self.assertNotIn(b"\033[", self.play("--show", "--plain", FIRST).stdout)

    def test_pictures_and_traces_replace_nothing_unasked(self):
        for flag, name in (("--picture", "a.svg"), ("--trace", "a.json")):
            self.write(name, "mine")
            self.assertIn("is there already", self.stops(flag, name, FIRST))
            self.assertEqual((self.here / name).read_text(), "mine")
            done = self.play(flag, name, "--force", FIRST)
            self.assertEqual((done.returncode, done.stdout), (0, b""))
            self.assertNotEqual((self.here / name).read_text(), "mine")
            self.stops(flag, "nowhere/a", FIRST)
            self.stops(flag, self.here, FIRST)

    def test_a_cut_report_is_one_line(self):
        data = samples.data_of("shop")
        for length in (11, 100, 500, len(data) - 1):
            self.assertIn("the report is cut", self.stops("--show", self.write("cut.report", data[:length]), program=False))
        for odd in (b"springtx \xff\n", b"springtx 1\nclient 0\n\x00\nend\n", b"springtx 1\nclient 0\ntop 0\nleave b.m\njournal\nrows\nend\n"):
            self.stops("--show", "--picture", "b.svg", self.write("odd.report", odd), program=False)
        self.assertFalse((self.here / "b.svg").exists())

    def test_rules(self):
        done = self.play("--rules", FIRST)
        self.assertEqual((done.returncode, done.stdout), (0, b"no method has an attribute, so no rule is ever asked\n"))


class Comparing(Playing):
    CHECKED = '[[beans]]\nname="b"\n[[methods]]\nbean="b"\nname="m"\ntx={%s}\nbody=["write a 1","throw Exception"]\n[[clients]]\ncalls=["b.m"]\n'

    def test_what_differs_between_two_scenarios(self):
        first, second = self.write("plain.toml", self.CHECKED % ""), self.write("rule.toml", self.CHECKED % 'rules=["rollback Exception"]')
        done = self.play("--compare", first, second)
        self.assertEqual(done.returncode, 0)
        self.assertEqual(done.stdout.decode().replace(f"{self.here}/", "").splitlines(), [
            "1 of 1 call ends otherwise", "client 0, call 0: b.m",
            "  plain.toml: the caller got Exception; its writes were COMMITTED (a = 1)", "  rule.toml: the caller got Exception; its writes were ROLLED BACK",
            "commits: 1 in plain.toml, 0 in rule.toml", "rows at the end", "  plain.toml: a = 1", "  rule.toml: none",
        ])
        self.assertIn(b"all 1 call end alike", self.play("--compare", first, first).stdout)

    def test_expectations(self):
        self.write("a.toml", FIRST.read_bytes())
        self.write("a.report", FIRST.with_suffix(".report").read_bytes())
        done = self.play("--expect", "a.toml")
        self.assertEqual((done.returncode, done.stdout), (0, b"a.toml: as expected\n"))
        self.write("a.report", FIRST.with_suffix(".report").read_bytes().replace(b"a 5", b"a 6"))
        done = self.play("--expect", "a.toml")
        self.assertEqual(done.returncode, 8)
        self.assertIn(b"    expected: it returned normally; its writes were COMMITTED (a = 6)\n    played: it returned normally; its writes were COMMITTED (a = 5)\n", done.stdout)
        self.assertIn(b"  -write a 6 done @s2\n", done.stdout)
        self.write("b.toml", FIRST.read_bytes())
        done = self.play("--expect", self.here)
        self.assertEqual(done.returncode, 8)
        self.assertIn(b"b.toml: DIFFERS from b.report\n  it isn't there yet", done.stdout)

    def test_another_jobs_text_can_be_expected(self):
        self.write("a.toml", FIRST.read_bytes())
        self.write("a.report", "accepted weight 3\n")
        self.assertEqual(self.play("--expect", "--do", "check", "a.toml").stdout, b"a.toml: as expected\n")

    def test_a_refusal_can_be_expected(self):
        self.write("a.toml", "x")
        self.write("a.report", "refused 1 NotToml\n")
        self.assertEqual(self.play("--expect", "a.toml").returncode, 0)
        self.write("a.report", b"\xff\x00")
        self.assertEqual(self.play("--expect", "a.toml").returncode, 8)


class Outcomes(Playing):
    def test_outcomes_of_an_example(self):
        path = TOP / "examples" / "withdrawals.toml"
        self.write("withdrawals.toml", path.read_bytes())
        done = self.play("--outcomes", "withdrawals.toml")
        self.assertEqual((done.returncode, done.stdout), (0, path.with_suffix(".outcomes").read_bytes()))

    def test_a_refused_scenario_has_none(self):
        done = self.play("--outcomes", self.write("b.toml", "x"))
        self.assertEqual((done.returncode, done.stdout), (4, b"refused 1 NotToml\n"))

    def test_a_sample(self):
        done = self.play("--outcomes", "--plays", "7", "--seed", "5", TOP / "examples" / "withdrawals.toml")
        self.assertEqual(done.returncode, 0)
        self.assertIn(b"in a sample of 7 schedules, drawn by the seed 5", done.stdout)


class Hostile(Playing):
    def test_it_runs_by_itself_with_odd_words(self):
        done = self.run_play("--show", b"odd \xff\x1b", "-\n")
        self.assertEqual((done.returncode, done.stdout, done.stderr.count(b"\n")), (1, b"", 1))
        self.assertNotIn(b"\x1b", done.stderr)

    def test_names_with_odd_bytes(self):
        name = os.fsencode(self.here) + b"/odd \xff\n\x1b[31m.toml"
        with open(name, "wb") as file:
            file.write(FIRST.read_bytes())
        self.assertEqual(self.play(name).stdout, FIRST.with_suffix(".report").read_bytes())
        for flag in ("--show", "--rules", "--expect", "--outcomes"):
            done = self.play(flag, name)
            self.assertNotIn(b"\x1b", done.stdout + done.stderr)
        self.assertEqual(self.play("--picture", b"odd\xff.svg", name).returncode, 0)
        with open(name, "wb") as file:
            file.write(b"\xff")
        self.assertNotIn(b"\x1b", self.play(name).stderr)
        self.stops(b"there/is\xffno")

    def test_large_scenarios(self):
        many = b"x = [" + b"[" * 1_000_000
        for data in (many, b"\n" * 1_048_576, b"a" * 1_048_576, b'clients = "' + b"y" * 1_048_000 + b'"', b"\x00" * 1_048_577):
            path = self.write("large.toml", data)
            done = self.play(path)
            self.assertIn(done.returncode, (4, 7))
            self.assertLess(len(done.stderr), 3000)

    def test_an_output_that_closes_early(self):
        with subprocess.Popen([TOP / "play", "--show", samples.FOLDER / "set_aside.report"], stdout=subprocess.PIPE, stderr=subprocess.PIPE) as process:
            process.stdout.close()
            self.assertEqual(process.stderr.read(), b"")
            process.wait()

    def test_no_word_ends_in_a_traceback(self):
        draw = random.Random(11)
        pieces = ["--show", "--rules", "--do", "check", "--picture", "p.svg", "--", "-", str(FIRST), "--outcomes", "--plays", "3", "", "\n", "--schedule", "0,0", "--expect", "é", "--force"]
        for _ in range(25):
            words = [draw.choice(pieces) for _ in range(draw.randint(1, 6))]
            done = self.play(*words)
            self.assertIn(done.returncode, (0, 1, 4, 8), (words, done.stderr))
            self.assertTrue(re.fullmatch(rb"([^\n]*\n)*", done.stderr))


if __name__ == "__main__":
    unittest.main()
