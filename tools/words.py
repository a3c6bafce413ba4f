"""The words of ./play: what each means, and which go together."""
import argparse

from tools.say import Stop

VERSION = "play 1 (reports in form 1)"

USAGE = """usage: ./play [OPTION].. FILE..

FILE is a scenario; - is standard input, and of a folder all *.toml are played. Words come in any order; -- ends options.
Without an option it prints the report.

what to do
  --do JOB            the program's own job: play, check (is it valid, what does it weigh) or rules; or load, which takes
                      no FILE: it plays a scenario of --clients N that --seed N gives
  --show              the report indented by calls, with reasons, after a summary
  --picture FILE.svg  a picture: clients as lanes, scopes as bars
  --trace FILE.json   a trace for Perfetto's and Chrome's viewers
  --rules             a table of what each method decides for each class
  --expect            compares with NAME.report beside each scenario; status 8 where one differs. It goes with --do
  --compare A B       says which calls end otherwise in scenario B than in scenario A
  --outcomes          plays every schedule, and says what can happen, how often, and by which schedule
  --prove             proves and builds the program first (alone: only that)
  --help, --version

how
  --quick             by a quick build, of which nothing is proved, even where the program is proved
  --threads           by the program with running threads
  --program PATH      by this program
  --schedule LIST     by this schedule in place of the scenario's own, as 0,0,1
  --plays N           with --outcomes: at most so many plays (50000), else a sample
  --seed N            with --outcomes: what a sample is drawn by (1); with --do load: what the scenario is (1)
  --clients N         with --do load: how many clients there are, 1 to 64 (4)
  --force             a picture or trace may replace a file that is there
  --plain, --colour   with --show: without or with colours, wherever it is written

statuses: the program's own (0 done, 2 to 7), 1 where ./play couldn't do it, 8 where --expect found a difference
"""

SHOWN = ("show", "picture", "trace")
ALONE = ("do", "rules", "expect", "compare", "outcomes")


class Parser(argparse.ArgumentParser):
    def error(self, message):
        raise Stop(f"{message}. ./play --help says what there is")


def parser():
    made = Parser(prog="./play", add_help=False, allow_abbrev=False)
    for flag in ("help", "version", "show", "rules", "expect", "compare", "outcomes", "prove", "quick", "threads", "force"):
        made.add_argument(f"--{flag}", action="store_true")
    made.add_argument("--do", choices=("play", "check", "rules", "load"))
    for flag in ("picture", "trace", "program", "schedule"):
        made.add_argument(f"--{flag}")
    made.add_argument("--plays", type=int, default=50000)
    made.add_argument("--seed", type=int, default=1)
    made.add_argument("--clients", type=int)
    made.add_argument("--plain", dest="colour", action="store_false", default=None)
    made.add_argument("--colour", "--color", dest="colour", action="store_true")
    made.add_argument("files", nargs="*")
    return made


def check_together(words):
    """Stops where the words don't go together, before anything is built."""
    chosen = [f"--{each}" for each in ALONE if getattr(words, each) and not (each == "do" and words.expect)]
    shown = [f"--{each}" for each in SHOWN if getattr(words, each)]
    if len(chosen) + bool(shown) > 1:
        raise Stop(f"{' and '.join((chosen + shown)[:2])} don't go together")
    ways = [f"--{each}" for each in ("quick", "threads", "program") if getattr(words, each)]
    if len(ways) > 1:
        raise Stop(f"{ways[0]} and {ways[1]} don't go together")
    check_load(words)
    if words.threads and (words.rules or words.outcomes or words.do in ("check", "rules")):
        raise Stop("--threads plays: it goes with the report, --show, --picture, --trace, --expect and --compare")
    if words.compare and len(words.files) != 2:
        raise Stop("--compare takes two scenarios")
    if words.outcomes and len(words.files) != 1:
        raise Stop("--outcomes takes one scenario")
    if (words.picture or words.trace or words.schedule) and len(words.files) != 1:
        raise Stop("--picture, --trace and --schedule take one scenario")
    if words.plays < 1:
        raise Stop("--plays takes a number from 1 on")
    if not words.files and not words.prove and words.do != "load":
        raise Stop("no scenario is named. ./play --help says what there is")


def check_load(words):
    """Stops where the words state no load, or more than one."""
    if words.do != "load":
        if words.clients is not None:
            raise Stop("--clients goes with --do load")
        return
    if words.files or words.expect:
        raise Stop("--do load takes no scenario: it plays one that --seed gives")
    words.clients = 4 if words.clients is None else words.clients
    if not 1 <= words.clients <= 64:
        raise Stop("--clients takes a number from 1 to 64")
    if not 0 <= words.seed < 2**64:
        raise Stop("--seed takes a number from 0 to 18446744073709551615")


def schedule_of(text):
    """The numbers of a schedule that the words give."""
    if text is None:
        return None
    numbers = text.replace(",", " ").strip("[] ").split()
    if not all(each.isascii() and each.isdigit() and int(each) < 64 for each in numbers):
        raise Stop("--schedule takes numbers of clients, as 0,0,1")
    return [int(each) for each in numbers]


def read_words(given):
    """The words as an object with a field for each option."""
    end = given.index("--") if "--" in given else len(given)
    words = parser().parse_intermixed_args(given[:end])
    words.files += given[end + 1 :]
    if not (words.help or words.version):
        words.schedule = schedule_of(words.schedule)
        check_together(words)
    return words
