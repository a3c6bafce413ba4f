"""The cases of tests/, read by the script of the gate that plays them."""
import importlib.machinery
import importlib.util

from tools.sources import TOP

LOADER = importlib.machinery.SourceFileLoader("play_cases", str(TOP / ".ci" / "cases"))
CASES = importlib.util.module_from_spec(importlib.util.spec_from_loader("play_cases", LOADER))
LOADER.exec_module(CASES)


def refused_cases(path):
    """The cases of a file that are refused, and whose input is written there: name, input and the program's text."""
    for name, case in CASES.cases_in(path):
        if case["status"] == "4" and "text" in case and "made" not in case:
            text = case["text"].replace("@@", case.get("with", ""))
            yield name, CASES.input_of(case, path.parent), text.encode()
