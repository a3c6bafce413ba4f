"""The job --rules: what each method decides for each class of exception."""
from tools import build, rules
from tools.document import Document
from tools.report import Fault
from tools.say import Stop, out


def rules_of_all(words, given, explain):
    status = 0
    for each, result in zip(given, build.chosen(words).play([each.data for each in given], "rules")):
        explain(each, result)
        status = max(status, result.status)
        head = f"== {each.name}\n" if len(given) > 1 else ""
        if result.status == 4:
            out(head.encode() + result.text)
        elif result.status == 0:
            try:
                out(head + rules.table(result.text, Document(each.data, each.name).scenario()))
            except Fault as fault:
                raise Stop(f"{each.name}: {fault}") from None
    return status
