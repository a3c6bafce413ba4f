"""TOML text with places: what a document says, and where in the text each key and value stands.

It reads TOML 1.1, as the program does, on every Python from 3.8 on. The program alone decides what a document is; this says
where, and is asked only afterwards."""
import re

from tools import toml_scalars as scalars

MOST_LEVELS = 80


class Fault(Exception):
    """The text is no document: why, and the offset of the place."""

    def __init__(self, why, at):
        super().__init__(why)
        self.at = at


class Node:
    """A value with its place. Of a table `value` is a dict, of an array a list, each of nodes."""

    __slots__ = ("kind", "value", "start", "end", "key_start", "key_end", "how")

    def __init__(self, kind, value, start, end, how=""):
        self.kind, self.value, self.start, self.end, self.how = kind, value, start, end, how
        self.key_start = self.key_end = start


BLANK = re.compile(r"[ \t]*")
GAP = re.compile(r"(?:[ \t\n]|\r\n|#[^\n\x00-\x08\x0b-\x1f\x7f]*(?=\r?\n|\Z))*")
REST = re.compile(r"[ \t]*(?:#[^\n\x00-\x08\x0b-\x1f\x7f]*?)?(?:\r?\n|\Z)")
BARE_KEY = re.compile(r"[A-Za-z0-9_-]+")


class Reader:
    """Reads a document from its text."""

    def __init__(self, text):
        self.text = text
        self.at = 0

    def skip(self, what):
        self.at = what.match(self.text, self.at).end()

    def takes(self, word):
        if self.text.startswith(word, self.at):
            self.at += len(word)
            return True
        return False

    def fault(self, why, at=None):
        return Fault(why, self.at if at is None else at)

    def document(self):
        root = Node("table", {}, 0, len(self.text), "header")
        table = root
        while True:
            self.skip(GAP)
            if self.at == len(self.text):
                return root
            if self.text[self.at] == "[":
                table = self.header(root)
            else:
                self.entry(table, 0)
            found = REST.match(self.text, self.at)
            if not found:
                raise self.fault("this should be the end of the line, or a comment with #")
            self.at = found.end()

    def header(self, root):
        """A line `[key]` or `[[key]]`, and the table that the lines after it are of."""
        start = self.at
        many = self.takes("[[")
        if not many:
            self.takes("[")
        self.skip(BLANK)
        keys = self.key()
        if not self.takes("]]" if many else "]"):
            raise self.fault("the head of a table isn't closed: " + ("']]'" if many else "']'") + " was due")
        table = root
        for name, at, _ in keys[:-1]:
            table = self.way(table, name, at, start)
        return (self.next_of_array if many else self.new_table)(table, keys[-1], start)

    def way(self, table, name, at, start):
        """The table below a table that a head leads through."""
        if name not in table.value:
            table.value[name] = Node("table", {}, start, start, "through")
        node = table.value[name]
        if node.kind == "array" and node.how == "header":
            return node.value[-1]
        if node.kind != "table" or node.how == "inline":
            raise self.fault(f"the key {name!r} has a value already, and can't be a table too", at)
        return node

    def new_table(self, table, key, start):
        name, at, end = key
        node = table.value.get(name)
        if node is None:
            node = table.value[name] = Node("table", {}, start, self.at)
            node.key_start, node.key_end = at, end
        elif node.kind != "table" or node.how != "through":
            raise self.fault(f"the key {name!r} stands twice", at)
        node.how, node.start, node.end = "header", start, self.at
        return node

    def next_of_array(self, table, key, start):
        name, at, end = key
        array = table.value.get(name)
        if array is None:
            array = table.value[name] = Node("array", [], start, self.at, "header")
            array.key_start, array.key_end = at, end
        elif array.kind != "array" or array.how != "header":
            raise self.fault(f"the key {name!r} has a value already, and can't be a list of tables too", at)
        made = Node("table", {}, start, self.at, "header")
        made.key_start, made.key_end = at, end
        array.value.append(made)
        return made

    def key(self):
        """The parts of a key with dots, each with its place."""
        parts = []
        while True:
            start = self.at
            mark = self.text[start : start + 1]
            bare = BARE_KEY.match(self.text, start)
            if bare:
                name, self.at = bare.group(), bare.end()
            elif mark in ("'", '"') and mark:
                name = self.string().value
            else:
                raise self.fault("a key was due")
            parts.append((name, start, self.at))
            if len(parts) > MOST_LEVELS:
                raise self.fault(f"a key has more than {MOST_LEVELS} parts", start)
            self.skip(BLANK)
            if not self.takes("."):
                return parts
            self.skip(BLANK)

    def entry(self, table, level):
        """A line, or a part of an inline table, `key = value`."""
        keys = self.key()
        if not self.takes("="):
            raise self.fault("'=' was due after the key")
        self.skip(BLANK)
        node = self.value(level)
        for name, at, end in keys[:-1]:
            below = table.value.get(name)
            if below is None:
                below = table.value[name] = Node("table", {}, at, end, "dotted")
                below.key_start, below.key_end = at, end
            elif below.kind != "table" or below.how not in ("dotted", "through"):
                raise self.fault(f"the key {name!r} has a value already", at)
            table = below
        name, node.key_start, node.key_end = keys[-1]
        if name in table.value:
            raise self.fault(f"the key {name!r} stands twice", node.key_start)
        table.value[name] = node

    def value(self, level):
        if level > MOST_LEVELS:
            raise self.fault(f"values lie in each other more than {MOST_LEVELS} levels deep")
        mark = self.text[self.at : self.at + 1]
        if mark == "[":
            return self.array(level)
        if mark == "{":
            return self.inline_table(level)
        if mark in ("'", '"') and mark:
            return self.string()
        start = self.at
        found = scalars.WORD.match(self.text, start)
        kind, value = scalars.scalar(found.group() if found else "")
        if not kind:
            raise self.fault("a value was due" if not found else f"{found.group()!r} is no value; a text needs quotes: \"..\"")
        self.at = found.end()
        return Node(kind, value, start, self.at)

    def string(self):
        start = self.at
        value, self.at, why = scalars.string(self.text, start)
        if why:
            raise self.fault(why)
        return Node("string", value, start, self.at)

    def array(self, level):
        start = self.at
        self.takes("[")
        items = []
        while True:
            self.skip(GAP)
            if self.takes("]"):
                return Node("array", items, start, self.at)
            items.append(self.value(level + 1))
            self.skip(GAP)
            if not self.takes(",") and self.text[self.at : self.at + 1] != "]":
                raise self.fault("',' or ']' was due in this list, which begins on line {}".format(line_of(self.text, start)))

    def inline_table(self, level):
        start = self.at
        self.takes("{")
        made = Node("table", {}, start, start, "header")
        while True:
            self.skip(GAP)
            if self.takes("}"):
                break
            self.entry(made, level + 1)
            self.skip(GAP)
            if not self.takes(",") and self.text[self.at : self.at + 1] != "}":
                raise self.fault("',' or '}}' was due in this table, which begins on line {}".format(line_of(self.text, start)))
        made.end, made.how = self.at, "inline"
        return made


def line_of(text, at):
    """The number of the line of a place, from 1."""
    return text.count("\n", 0, at) + 1


def read(text):
    """The root of a document, or a Fault."""
    return Reader(text).document()


def plain(node):
    """The document without places: dicts, lists, strings, numbers and booleans."""
    if node.kind == "table":
        return {key: plain(each) for key, each in node.value.items()}
    if node.kind == "array":
        return [plain(each) for each in node.value]
    return node.value
