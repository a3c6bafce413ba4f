"""Statements and rules, as texts and in parts, and what is wrong with one that has no form."""
import re
from collections import namedtuple

from tools.form import BUILT_IN, STATEMENTS
from tools.nearest import nearest

NAME = re.compile(r"[A-Za-z_][A-Za-z0-9_]{0,31}")
INT = re.compile(r"0|-?[1-9][0-9]*")
PATTERN = re.compile(r"[A-Za-z0-9_.]{1,64}")
CLASSES = {name for name, _ in BUILT_IN}

# A statement in parts; what a verb doesn't have is None.
Statement = namedtuple("Statement", "verb name number catch", defaults=(None, None, None))
Rule = namedtuple("Rule", "rollback by is_pattern")


def is_name(text):
    return bool(NAME.fullmatch(text))


def is_class(text):
    return text in CLASSES or (len(text) <= 64 and len(text.split(".")) <= 8 and all(map(is_name, text.split("."))))


def is_int(text):
    return bool(INT.fullmatch(text)) and len(text) < 21 and -(2**63) <= int(text) < 2**63


def statement_of(text):
    """The parts of a statement, or None."""
    words = text.split(" ")
    verb, count = words[0], len(words)
    if verb == "mark" and count == 1:
        return Statement(verb)
    if verb in ("read", "erase", "publish", "register") and count == 2 and is_name(words[1]):
        return Statement(verb, words[1])
    if verb in ("write", "add", "need") and count == 3 and is_name(words[1]) and is_int(words[2]):
        return Statement(verb, words[1], int(words[2]))
    if verb == "throw" and count == 2 and is_class(words[1]):
        return Statement(verb, words[1])
    if verb in ("call", "this") and count in (2, 4):
        parts = words[1].split(".") if verb == "call" else ["b", words[1]]
        caught = count == 2 or (words[2] == "catch" and is_class(words[3]))
        if caught and len(parts) == 2 and all(map(is_name, parts)):
            return Statement(verb, words[1], None, words[3] if count == 4 else None)
    return None


def rule_of(text):
    """The parts of a rule, or None."""
    word, space, by = text.partition(" ")
    if word not in ("rollback", "keep") or not space:
        return None
    if by[:1] == "~":
        return Rule(word == "rollback", by[1:], True) if PATTERN.fullmatch(by[1:]) else None
    return Rule(word == "rollback", by, False) if is_class(by) else None


def spaces_wrong(text):
    return text != " ".join(text.split())


def wrong_name(text, what="name"):
    """Why a text is no name."""
    if not text:
        return f"a {what} has at least one letter"
    if len(text) > 32 and "." not in text:
        return f"a {what} has at most 32 bytes, and this one has {len(text.encode('utf-8', 'replace'))}"
    if text[0].isdigit():
        return f"a {what} begins with a letter or _"
    odd = next((each for each in text if not re.match(r"[A-Za-z0-9_]", each)), "")
    return f"a {what} has letters a to z, digits and _ alone, and no {odd!r}"


def wrong_int(text):
    if re.fullmatch(r"[+-]?[0-9_]+", text) and len(text.strip("+-0_")) > 18:
        return f"`{text}` is outside 64 bits"
    if re.fullmatch(r"\+[0-9]+", text):
        return f"a number has no +: `{text[1:]}`"
    if re.fullmatch(r"-?0[0-9]+|-0", text):
        return f"a number doesn't begin with 0: `{int(text)}`"
    return f"`{text}` is no whole number"


def wrong_statement(text):
    """Why a text is no statement, and the text that may be meant, or ""."""
    words = text.split()
    if not words:
        return "a statement has at least one word", ""
    if statement_of(text):
        return "the program takes no such statement here", ""
    verb = words[0]
    if verb not in STATEMENTS:
        meant = nearest(verb, STATEMENTS)
        fixed = " ".join([meant, *words[1:]]) if meant else ""
        return f"none begins with `{verb}`", fixed if statement_of(fixed) else STATEMENTS.get(meant, "")
    one = " ".join(words)
    if one != text and statement_of(one):
        return "exactly one space stands between words, and none before or after", one
    return wrong_words(verb, words[1:])


def wrong_words(verb, words):
    """What is wrong with the words after a verb."""
    form = f"`{STATEMENTS[verb]}`"
    if verb in ("call", "this") and len(words) >= 1:
        return wrong_call(verb, words, form)
    due = {"mark": 0, "write": 2, "add": 2, "need": 2}.get(verb, 1)
    if len(words) != due:
        return f"{form} is the form: {due or 'no'} word{'' if due == 1 else 's'} after `{verb}`, and not {len(words)}", ""
    if verb == "throw":
        return f"`{words[0]}` is no class name: one to eight names joined by dots, at most 64 bytes", ""
    if not is_name(words[0]):
        return f"{form} is the form, and {wrong_name(words[0])}", ""
    why = wrong_int(words[1])
    fixed = f"{verb} {words[0]} {why.split('`')[1]}" if ": `" in why else ""
    return f"{form} is the form, and {why}", fixed


def wrong_call(verb, words, form):
    if verb == "this" and "." in words[0]:
        return f"{form} is the form: the method of the same bean, without the bean's name", f"this {words[0].rpartition('.')[2]}"
    target = words[0].replace("()", "")
    if verb == "call" and target.count(".") != 1:
        return f"{form} is the form: a bean, a dot, and a method", ""
    if target != words[0]:
        return f"{form} is the form, without brackets", " ".join([verb, target, *words[1:]])
    if not all(map(is_name, target.split("."))):
        return f"{form} is the form, and {wrong_name(next(each for each in target.split('.') if not is_name(each)))}", ""
    if len(words) == 3 and words[1] == "catch":
        return f"`{words[2]}` is no class name: one to eight names joined by dots, at most 64 bytes", ""
    if len(words) == 2:
        meant = f"{verb} {target}" if words[1] == "catch" else f"{verb} {target} catch {words[1]}"
        return f"{form} is the form: `catch` goes with a class", meant
    if len(words) == 3 and nearest(words[1], ["catch"]):
        return f"{form} is the form", f"{verb} {target} catch {words[2]}"
    return f"{form} is the form, and here are too many words", f"{verb} {target}"


SPRINGS_RULES = {
    "rollbackfor": "rollback", "rollback_for": "rollback", "norollbackfor": "keep", "norollback": "keep", "commit": "keep",
}


def wrong_rule(text):
    """Why a text is no rule, and the text that may be meant, or ""."""
    words = text.split()
    forms = "a rule is the word rollback or keep, a space, and a class or a ~PATTERN"
    one = " ".join(words)
    if one != text and rule_of(one):
        return "exactly one space stands between words, and none before or after", one
    meant = SPRINGS_RULES.get(words[0].lower().rstrip("=:"), "") or nearest(words[0], ["rollback", "keep"]) if words else ""
    fixed = " ".join([meant, *(each.replace(".class", "") for each in words[1:])])
    if words and words[0] in ("rollback", "keep") and len(words) == 2 and words[1].endswith(".class"):
        return forms, f"{words[0]} {words[1][:-6]}"
    if words and words[0] in ("rollback", "keep") and words[-1].startswith("~"):
        return f"{forms}; a PATTERN has 1 to 64 bytes out of letters, digits, _ and ., and stands for itself: no * and no ?", (
            f"{words[0]} ~{re.sub(r'[^A-Za-z0-9_.]', '', words[-1])}" if re.search(r"[A-Za-z0-9_]", words[-1]) else "")
    return forms, fixed if meant and rule_of(fixed) else ""
