"""Where the program and its sources lie, and whether the program is of these sources."""
import hashlib
import os
import shutil
from pathlib import Path

TOP = Path(__file__).resolve().parent.parent
CRATE = "springtx"


def program_of(crate=CRATE):
    return TOP / "crates" / crate / "out" / crate


def crates_below(crate):
    """The crates of this repository that a crate stands on, lowest first, and itself as the last."""
    stands_on = {}
    for line in (TOP / "crates.txt").read_text(encoding="utf-8").splitlines():
        head, colon, rest = line.partition("#")[0].partition(":")
        if colon and head.split():
            stands_on[head.split()[0]] = rest.split()
    wanted = {crate}
    for name in reversed(list(stands_on)):
        if name in wanted:
            wanted.update(stands_on[name])
    return [name for name in stands_on if name in wanted]


def source_files(crate, folders=("src", "specs", "proofs")):
    """The files that the program of a crate is built from."""
    files = [TOP / "crates.txt"]
    for name in crates_below(crate):
        for folder in folders:
            files += sorted(each for each in (TOP / "crates" / name / folder).rglob("*") if each.is_file())
    return files


def hash_of_files(files):
    """One hash of the names and bytes of files."""
    whole = hashlib.sha256()
    for file in files:
        data = file.read_bytes()
        whole.update(f"{file.relative_to(TOP)} {len(data)}\n".encode() + data)
    return whole.hexdigest()


def kit_of():
    """The text that tells the kit that `rt` is of from others, and "" where there is no `rt`."""
    found = shutil.which("rt")
    if not found:
        return ""
    real = os.path.realpath(found)
    return f"{real} {os.stat(real).st_mtime_ns}"


def quick_hash():
    """What a quick build's results depend on, beside its input: the sources without specs and proofs, and the kit."""
    return hashlib.sha256(f"{hash_of_files(source_files(CRATE, ('src',)))} {kit_of()}".encode()).hexdigest()


def is_current(crate=CRATE):
    """Whether the program is there, and no file that it is built from is newer."""
    program = program_of(crate)
    if not os.access(program, os.X_OK):
        return False
    built = program.stat().st_mtime_ns
    return all(file.stat().st_mtime_ns <= built for file in source_files(crate))
