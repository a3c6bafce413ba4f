"""What ./play does with its words."""
import os
import sys

from tools import build, comparing, deciding, inputs, outcomes, showing
from tools.advice import advise
from tools.document import Document
from tools.say import Stop, out, printable, say
from tools.warnings import warnings
from tools.words import USAGE, VERSION, read_words

TEXTS = {
    2: "the words state no job",
    3: "the scenario couldn't be read",
    5: "the text couldn't be written",
    6: "memory ran out",
    7: "a scenario has at most 1,048,576 bytes, and this one has more",
}


def main(given):
    """Does it, and gives the status. What stops it is one line on standard error."""
    try:
        return done(read_words(given))
    except Stop as stop:
        say(str(stop))
        return stop.status
    except KeyboardInterrupt:
        say("interrupted")
        return 130
    except BrokenPipeError:
        os.dup2(os.open(os.devnull, os.O_WRONLY), sys.stdout.fileno())
        return 141
    except (MemoryError, RecursionError):
        say("this is more than ./play can work on")
        return 1
    except OSError as error:
        say(f"{error.filename or 'a file'}: {error.strerror or error}")
        return 1
    except Exception as error:
        say(f"a fault of ./play itself, and not of the program: {type(error).__name__}: {error}")
        return 1


def done(words):
    if words.help or words.version:
        out(USAGE if words.help else VERSION + "\n")
        return 0
    given = inputs.read_inputs(words.files)
    for path in (words.picture, words.trace):
        inputs.check_target(path, words.force)
    if words.prove:
        build.prove()
    if words.do == "load":
        return load(words)
    return job_of(words)(words, given) if given else 0


def job_of(words):
    """The function that does what the words ask for."""
    jobs = (
        (words.show or words.picture or words.trace, showing.show_all), (words.rules, deciding.rules_of_all),
        (words.expect, comparing.expect_all), (words.compare, comparing.compare), (words.outcomes, outcomes.outcomes),
    )
    job = next((each for asked, each in jobs if asked), texts)
    return lambda words, given: job(words, given, explain)


def load(words):
    """Prints what becomes of a scenario that the program generates."""
    more = ["--seed", str(words.seed), "--clients", str(words.clients)]
    [result] = build.chosen(words).play([b""], "load", more)
    out(result.text)
    if result.status in TEXTS:
        say(TEXTS[result.status])
    return result.status


def texts(words, given, explain):
    """Prints the program's own text of each scenario."""
    given = showing.scheduled(words, given)
    player = build.chosen(words)
    played = player.play([each.data for each in given], words.do or "play")
    status = 0
    for each, result in zip(given, played):
        if len(given) > 1:
            out(f"== {each.name}\n")
        out(result.text)
        explain(each, result)
        status = max(status, result.status)
    return status


def explain(scenario, result):
    """Says on standard error what the program's status means: of a refusal the place and the way out."""
    if result.status in TEXTS:
        say(f"{scenario.name}: {TEXTS[result.status]}")
    elif result.status == 4:
        tell(advise(scenario.data, result.text, scenario.name))
    elif result.status == 0:
        tell(warnings(Document(scenario.data, scenario.name)))


def tell(lines):
    """Writes lines to standard error, odd characters spelled out."""
    sys.stderr.write("".join(f"{printable(line)}\n" for line in lines))
