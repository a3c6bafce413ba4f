"""The values of TOML that hold no others: strings, numbers, booleans and dates."""
import re

WORD = re.compile(r"[0-9A-Za-z_+.:-]+(?: (?=[0-9]{2}:)[0-9A-Za-z_+.:-]+)?")
INTEGER = re.compile(r"[+-]?(?:0|[1-9](?:_?[0-9])*)|0x[0-9A-Fa-f](?:_?[0-9A-Fa-f])*|0o[0-7](?:_?[0-7])*|0b[01](?:_?[01])*")
FLOAT = re.compile(
    r"[+-]?(?:(?:0|[1-9](?:_?[0-9])*)(?:\.[0-9](?:_?[0-9])*)?(?:[eE][+-]?[0-9](?:_?[0-9])*)?|inf|nan)"
)
DATE = re.compile(
    r"(?:\d{4}-\d\d-\d\d)?(?:(?<=\d)[Tt ])?(?:\d\d:\d\d(?::\d\d(?:\.\d+)?)?(?:[Zz]|[+-]\d\d:\d\d)?)?"
)
PLAIN = {
    '"': re.compile(r'[^"\\\x00-\x08\x0a-\x1f\x7f]*'),
    "'": re.compile(r"[^'\x00-\x08\x0a-\x1f\x7f]*"),
    '"""': re.compile(r'(?:[^"\\\x00-\x08\x0b\x0c\x0e-\x1f\x7f\r]|\r\n|"(?!""))*'),
    "'''": re.compile(r"(?:[^'\x00-\x08\x0b\x0c\x0e-\x1f\x7f\r]|\r\n|'(?!''))*"),
}
ESCAPES = {"b": "\b", "t": "\t", "n": "\n", "f": "\f", "r": "\r", "e": "\x1b", '"': '"', "\\": "\\"}
CODES = re.compile(r"x([0-9A-Fa-f]{2})|u([0-9A-Fa-f]{4})|U([0-9A-Fa-f]{8})")
LINE_END = re.compile(r"[ \t]*\r?\n(?:[ \t\n]|\r\n)*")


def scalar(word):
    """The kind and value of a word, or ("", None) where it is none."""
    if word in ("true", "false"):
        return "boolean", word == "true"
    if INTEGER.fullmatch(word):
        digits = word.replace("_", "")
        value = int(digits, 0) if digits[:1] == "0" and digits != "0" else int(digits) if len(digits) < 30 else 2**70
        return ("integer", value) if -(2**63) <= value < 2**63 else ("", None)
    if FLOAT.fullmatch(word):
        value = float(word.replace("_", ""))
        return ("float", value) if "inf" in word or abs(value) != float("inf") else ("", None)
    if len(word) >= 5 and DATE.fullmatch(word):
        return "date", word
    return "", None


def escaped(text, at):
    """The character that an escape after a backslash stands for, and where it ends; None where it is none."""
    if text[at : at + 1] in ESCAPES and text[at : at + 1]:
        return ESCAPES[text[at]], at + 1
    found = CODES.match(text, at)
    if found:
        code = int(found.group()[1:], 16)
        if code < 0xD800 or 0xDFFF < code < 0x110000:
            return chr(code), found.end()
    return None, at


def string(text, start):
    """The value of a string, where it ends, and what is wrong with it, if anything."""
    mark = text[start] * 3 if text.startswith(text[start] * 3, start) else text[start]
    at = start + len(mark)
    if len(mark) == 3:
        at += 2 if text.startswith("\r\n", at) else 1 if text.startswith("\n", at) else 0
    parts = []
    while True:
        piece = PLAIN[mark].match(text, at)
        parts.append(piece.group())
        at = piece.end()
        if text.startswith(mark, at):
            at += len(mark)
            while len(mark) == 3 and text.startswith(mark[0], at) and at - piece.end() < 5:
                parts.append(mark[0])
                at += 1
            return "".join(parts), at, ""
        if text[at : at + 1] != "\\" or mark[0] == "'":
            closed = text[at : at + 1] not in ("", "\n", "\r")
            return "", at, "a string can't hold this character" if closed else "this string isn't closed"
        line_end = LINE_END.match(text, at + 1) if len(mark) == 3 else None
        if line_end:
            at = line_end.end()
            continue
        character, end = escaped(text, at + 1)
        if character is None:
            return "", at, "this is no escape of TOML: a backslash itself is written \\\\"
        parts.append(character)
        at = end
