"""Results of quick builds, kept by a hash of what they come from, so that the same play starts at once the next time."""
import hashlib
import os
import tempfile

from tools.sources import TOP

FOLDER = TOP / "out" / "play"
# The oldest go where there are more.
MOST = 400


def key_of(build, words, data):
    """The name of a result: a hash of the build, the words and the input."""
    whole = hashlib.sha256()
    for part in (build.encode(), " ".join(words).encode(), data):
        whole.update(b"%d\n" % len(part) + part)
    return whole.hexdigest()


def kept(key):
    """The status and the text that are kept, or None. A file that isn't whole counts as none."""
    try:
        data = (FOLDER / key).read_bytes()
    except OSError:
        return None
    head, _, text = data.partition(b"\n")
    parts = head.split(b" ")
    if len(parts) == 2 and parts[0].isdigit() and parts[1] == hashlib.sha256(text).hexdigest().encode():
        return int(parts[0]), text
    return None


def keep(key, status, text):
    """Keeps a result. Where nothing can be written there, nothing is kept, and that is all."""
    try:
        FOLDER.mkdir(parents=True, exist_ok=True)
        with tempfile.NamedTemporaryFile(dir=FOLDER, prefix="new-", delete=False) as file:
            file.write(b"%d %s\n" % (status, hashlib.sha256(text).hexdigest().encode()) + text)
        os.replace(file.name, FOLDER / key)
        drop_oldest()
    except OSError:
        pass


def drop_oldest():
    files = sorted(FOLDER.iterdir(), key=lambda each: each.stat().st_mtime_ns)
    for file in files[:-MOST]:
        file.unlink()
