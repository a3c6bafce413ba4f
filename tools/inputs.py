"""The scenarios that the words of ./play name, read before anything is built."""
import sys
from collections import namedtuple
from pathlib import Path

from tools.say import Stop, printable
from tools.sources import TOP

# A scenario: how it is called in texts, where it lies (None: standard input), and its bytes.
Input = namedtuple("Input", "name path data")

LIMIT = 1_048_576
# A stored report may be longer than a scenario.
REPORT_LIMIT = 64 * LIMIT


def read_all(name, file):
    """The bytes of a scenario or a stored report. Of what is longer than a scenario may be one byte more is read."""
    data = file.read(LIMIT + 1)
    if len(data) <= LIMIT or not data.startswith(b"springtx "):
        return data
    data += file.read(REPORT_LIMIT)
    if len(data) > REPORT_LIMIT:
        raise Stop(f"{name}: this report is longer than ./play takes")
    return data


def read_input(name):
    if name == "-":
        return Input("standard input", None, read_all("standard input", sys.stdin.buffer))
    path = Path(name)
    try:
        with open(path, "rb") as file:
            return Input(name, path, read_all(name, file))
    except FileNotFoundError:
        begin = " ".join(f"examples/{each.name}" for each in sorted((TOP / "examples").glob("*.toml"))[:8])
        raise Stop(f"there is no file {name}. Scenarios to begin with: {begin}") from None
    except (OSError, ValueError) as error:
        raise Stop(f"{name} can't be read: {getattr(error, 'strerror', None) or error}") from None


def files_of(name):
    """A file by itself, and of a folder its scenarios."""
    try:
        if name == "-" or not Path(name).is_dir():
            return [name]
        found = sorted(str(each) for each in Path(name).glob("*.toml"))
    except (OSError, ValueError) as error:
        raise Stop(f"{name} can't be read: {getattr(error, 'strerror', None) or error}") from None
    if not found:
        raise Stop(f"the folder {name} has no *.toml")
    return found


def read_inputs(names):
    if names.count("-") > 1:
        raise Stop("standard input can be one scenario alone")
    return [read_input(file) for name in names for file in files_of(name)]


def check_target(path, force):
    """Stops where a file to be written is there already, or can't be."""
    if path is None:
        return
    target = Path(path)
    try:
        if target.is_dir():
            raise Stop(f"{path} is a folder")
        if target.exists() and not force:
            raise Stop(f"{path} is there already; with --force it is replaced")
        if not target.parent.is_dir():
            raise Stop(f"there is no folder {target.parent}")
    except (OSError, ValueError) as error:
        raise Stop(f"{path} can't be written: {getattr(error, 'strerror', None) or error}") from None


def write_target(path, text):
    try:
        with open(path, "w", encoding="utf-8", errors="backslashreplace", newline="\n") as file:
            file.write(text)
    except OSError as error:
        raise Stop(f"{printable(path)} can't be written: {error.strerror}") from None
