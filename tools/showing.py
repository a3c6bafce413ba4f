"""The jobs that show a report to people: --show, --picture and --trace, of a scenario or of a report that is stored."""
from tools import build, order, report, show
from tools.document import Document, with_schedule
from tools.inputs import write_target
from tools.picture import picture
from tools.say import Stop, out, say
from tools.trace import trace
from tools.walk import Walk


def scheduled(words, given):
    """The scenarios, each with the schedule that the words give in place of its own."""
    if words.schedule is None:
        return given
    document = Document(given[0].data, given[0].name)
    if document.root is None or "clients" not in document.root.value:
        return given
    return [given[0]._replace(data=with_schedule(document, words.schedule))]


def beside(scenario):
    """The scenario that a stored report stands beside, or None."""
    if scenario.path is None or scenario.path.suffix != ".report":
        return None
    try:
        data = scenario.path.with_suffix(".toml").read_bytes()
    except OSError:
        return None
    return Document(data, scenario.name).scenario()


def walked(name, text):
    """The walk through a report's text."""
    try:
        return Walk(report.read(text))
    except report.Fault as fault:
        raise Stop(f"{name}: {fault}") from None


def show_all(words, given, explain):
    """Shows each scenario. Stored reports are shown as they are, and the others are played first."""
    given = scheduled(words, given)
    to_play = [each for each in given if not report.is_report(each.data)]
    played = iter(build.chosen(words).play([each.data for each in to_play]) if to_play else [])
    status = 0
    for each in given:
        if report.is_report(each.data):
            show_one(words, each.name, each.data, beside(each), len(given) > 1)
            continue
        result = next(played)
        explain(each, result)
        status = max(status, result.status)
        if result.status == 0:
            show_one(words, each.name, result.text, Document(each.data, each.name).scenario(), len(given) > 1)
        elif result.status == 4:
            out(result.text)
    return status


def show_one(words, name, text, scenario, many):
    walk = walked(name, text)
    try:
        if words.show:
            out((f"== {name}\n" if many else "") + show.shown(walk, scenario, show.wants_colour(words.colour)))
        if words.picture:
            write_target(words.picture, picture(walk, name))
            say(f"{words.picture} is written")
        if words.trace:
            write_target(words.trace, trace(walk, scenario))
            say(f"{words.trace} is written")
    except order.Fault as fault:
        raise Stop(f"{name}: {fault}") from None
