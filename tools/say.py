"""What ./play says of itself, on standard error, and how it stops."""
import sys


class Stop(Exception):
    """Ends ./play with one line on standard error. Status 1 is the script's own: the program never ends with it."""

    def __init__(self, text, status=1):
        super().__init__(text)
        self.status = status


def printable(text):
    """The text in one line, with odd bytes and characters spelled out."""
    text = text.encode("utf-8", "backslashreplace").decode("utf-8", "backslashreplace")
    return "".join(each if each.isprintable() else each.encode("unicode_escape").decode() for each in text)


def shortened(text, length=120):
    """The text in one line, cut where it is long."""
    text = printable(text)
    return text if len(text) <= length else text[: length - 3] + "..."


def say(text):
    sys.stderr.write(f"play: {printable(text)}\n")
    sys.stderr.flush()


def out(text):
    """Writes a text, or bytes, to standard output."""
    data = text if isinstance(text, bytes) else text.encode("utf-8", "backslashreplace")
    sys.stdout.buffer.write(data)
    sys.stdout.buffer.flush()


def counted(number, one, many=None):
    """`1 commit`, `2 commits`."""
    return f"{number} {one if number == 1 else many or one + 's'}"
