"""The program that plays: the proved one, a quick build that nobody has proved, or one that is named."""
import os
import re
import shutil
import subprocess
import tempfile
import time
from collections import namedtuple
from pathlib import Path

from tools import keep, sources
from tools.say import Stop, counted, say

# What came of one input: the program's status, and its text in bytes.
Played = namedtuple("Played", "status text")

SECONDS = 600
LOG = sources.TOP / "out" / "prove.log"
TO_PROVE = "./play --prove proves and builds the program"
LONG = "from nothing this takes half an hour to an hour; what is proved stays, also where it is interrupted"


class BuiltProgram:
    """A program that is there."""

    def __init__(self, path, job="play"):
        self.path = path
        self.job = job

    def play(self, inputs, job="play", more=()):
        """Plays each input, in order, by these words."""
        job = self.job if job == "play" else job
        return [self.play_one(data, ["--do", job, *more]) for data in inputs]

    def play_one(self, data, words):
        try:
            done = subprocess.run([str(self.path), *words], input=data, stdout=subprocess.PIPE, timeout=SECONDS)
        except subprocess.TimeoutExpired:
            raise Stop(f"the program wasn't done after {SECONDS} seconds") from None
        except OSError as error:
            raise Stop(f"{self.path} doesn't start: {error.strerror}") from None
        if done.returncode not in range(8) or done.returncode == 1:
            raise Stop(f"{self.path} ended with status {done.returncode}, which the program never does")
        return Played(done.returncode, done.stdout)


class QuickBuild:
    """Plays by `rt try`, which builds for each run and proves nothing. Its results are kept."""

    def __init__(self, why):
        self.why = why
        self.build = sources.quick_hash()

    def play(self, inputs, job="play", more=()):
        """Plays each input, in order: those that aren't kept by one build."""
        words = ["--do", job, *more]
        keys = [keep.key_of(self.build, words, data) for data in inputs]
        found = {key: keep.kept(key) for key in keys}
        missing = {key: data for key, data in zip(keys, inputs) if not found[key]}
        how = "it is played by a quick build now" if missing else "this text is kept from a quick build"
        say(f"{self.why}: {how}, and nothing of that is proved. {TO_PROVE}")
        if missing:
            found.update(self.tried(missing, words))
        return [Played(*found[key]) for key in keys]

    def tried(self, missing, words):
        need_rt()
        with tempfile.TemporaryDirectory(prefix="play-") as folder:
            cases = Path(folder) / "cases"
            cases.mkdir()
            names = {f"case{number:05}": key for number, key in enumerate(missing)}
            for name, key in names.items():
                (cases / name).write_bytes(missing[key])
            done = subprocess.run(
                ["rt", "try", "--cases", str(cases), "--", *words], cwd=sources.TOP / "crates" / sources.CRATE,
                stdin=subprocess.DEVNULL, stdout=subprocess.PIPE, stderr=subprocess.PIPE,
            )
        results = results_of(done.stdout, done.stderr)
        gained = {}
        for name, key in names.items():
            if name not in results:
                raise Stop(f"the quick build gave no answer: {last_line(done.stderr)}")
            gained[key] = results[name]
            keep.keep(key, *results[name])
        return gained


def results_of(texts, told):
    """The status and text of each case, out of what `rt try --cases` writes."""
    by_name = {}
    name = None
    for line in texts.splitlines(keepends=True):
        if re.fullmatch(rb"== case\d+\n", line):
            name = line[3:-1].decode()
            by_name[name] = b""
        elif name:
            by_name[name] += line
    ends = re.findall(rb"^case=(case\d+) .*?\bended status=(\d+)", told, re.M)
    return {name.decode(): (int(status), by_name.get(name.decode(), b"")) for name, status in ends}


def last_line(told):
    lines = [each for each in told.decode("utf-8", "replace").splitlines() if each.strip()]
    return lines[-1] if lines else "it said nothing"


def need_rt():
    if not shutil.which("rt"):
        raise Stop(
            "there is no command rt, which proves and builds the program. It is in the folder bin of the kit that README.md "
            "names: put that folder on the PATH"
        )


def chosen(words):
    """The program that the words ask for, or the proved one, or else a quick build."""
    if words.program:
        if not os.access(words.program, os.X_OK) or os.path.isdir(words.program):
            raise Stop(f"there is no program {words.program}")
        return BuiltProgram(os.path.realpath(words.program))
    if words.threads:
        program = sources.program_of("springtx_run")
        if not os.access(program, os.X_OK):
            raise Stop("the program with running threads isn't built. Where crates/springtx_run is there, rt run builds it")
        say("threads run now, so the order may differ each time")
        return BuiltProgram(program, job="run")
    if words.quick:
        return QuickBuild("you asked for it")
    if sources.is_current():
        return BuiltProgram(sources.program_of())
    if sources.program_of().exists():
        return QuickBuild("the sources have changed since the program was proved")
    return QuickBuild("the program isn't proved and built yet")


def prove():
    """Proves and builds the program, crate by crate. What one crate proved stays with its crate."""
    need_rt()
    crates = sources.crates_below(sources.CRATE)
    LOG.parent.mkdir(exist_ok=True)
    say(f"{counted(len(crates), 'crate')} to prove; {LONG}. The log is {LOG}")
    began = time.monotonic()
    with open(LOG, "wb") as log:
        for number, crate in enumerate(crates, 1):
            minutes = (time.monotonic() - began) / 60
            say(f"crate {number} of {len(crates)}: {crate}, after {minutes:.0f} minutes")
            last = crate == sources.CRATE
            words = ["rt", "run", "--", "--do", "play"] if last else ["rt", "lib"]
            stdin = (sources.TOP / "crates" / crate / "stdin").open("rb") if last else subprocess.DEVNULL
            status = subprocess.call(words, cwd=sources.TOP / "crates" / crate, stdin=stdin, stdout=log, stderr=log)
            if status:
                raise Stop(f"crate {crate} wasn't proved: rt ended with status {status}. What it said ends the log {LOG}")
    os.utime(sources.program_of())
    say("the program is proved and built")
