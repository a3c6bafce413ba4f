"""The text of a scenario, read once for all that speaks of its places."""
from tools import toml_text
from tools.scenario import Scenario


class Document:
    """A scenario's text with its tree of places; where it is no document, with the fault."""

    def __init__(self, data, name):
        self.name = name
        self.data = data
        self.fault = None
        self.root = None
        try:
            self.text = data.decode("utf-8")
        except UnicodeDecodeError as error:
            self.text = data.decode("utf-8", "replace")
            at = len(data[: error.start].decode("utf-8"))
            self.fault = toml_text.Fault(f"the byte {data[error.start]:02x} is no text in UTF-8", at)
            return
        try:
            self.root = toml_text.read(self.text)
        except toml_text.Fault as fault:
            self.fault = fault

    def plain(self):
        return toml_text.plain(self.root) if self.root else {}

    def scenario(self):
        return Scenario(self.plain())

    def line(self, node):
        return toml_text.line_of(self.text, node.start)


def with_schedule(document, numbers):
    """The scenario's text with another schedule."""
    wanted = f"schedule = [{','.join(map(str, numbers))}]"
    node = document.root.value.get("schedule")
    if node is None:
        head = "\ufeff" if document.text.startswith("\ufeff") else ""
        return f"{head}{wanted}\n{document.text[len(head):]}".encode()
    return (document.text[: node.key_start] + wanted + document.text[node.end :]).encode()
