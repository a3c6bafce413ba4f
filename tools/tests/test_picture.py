"""Pictures: well-formed, small enough, with all calls, and no text over another."""
import re
import unittest
import xml.etree.ElementTree as tree

from tools import picture, report
from tools.layout import bars_of, columns_of
from tools.tests import samples
from tools.walk import Walk

TEXT = re.compile(r'<text (?:class="([a-z ]+)" )?x="([0-9]+)" y="([0-9]+)"(?: class="([a-z ]+)")?>([^<]*)</text>')


def boxes(svg):
    """The place of each text: left, right, top and bottom, with room for the widest letters."""
    for found in TEXT.finditer(svg):
        small = (found[1] or found[4] or "") == "s"
        x, y, wide = int(found[2]), int(found[3]), len(found[5]) * (picture.SMALL if small else picture.LETTER)
        left = x - wide / 2 if small else x
        yield left, left + wide, y - (7 if small else 8), y + 2, found[5]


def overlaps(svg):
    found = sorted((box for box in boxes(svg) if box[4]), key=lambda box: box[2])
    for number, one in enumerate(found):
        for other in found[number + 1 :]:
            if other[2] >= one[3]:
                break
            if one[0] < other[1] and other[0] < one[1]:
                yield one, other


def many_clients(count, calls):
    """A report of so many clients whose calls lie in each other: all take before the first gives."""
    lines = [[] for _ in range(count)]
    entry = {"p": 0, "s": 0}

    def shared(client, text, history):
        entry[history] += 1
        lines[client].append(f"{text} @{history}{entry[history]}")

    tx = 0
    commits = []
    for call in range(calls):
        begun = []
        for client in range(count):
            tx += 1
            begun.append(tx)
            lines[client] += [f"top {call}", "call orders.place required"]
            shared(client, f"take {client + 1}", "p")
            shared(client, f"begin {tx}", "s")
            lines[client].append("open fresh sync")
        for client in range(count):
            shared(client, f"write row{client} {call} done", "s")
            lines[client].append("end commit")
            commits.append(f"commit {len(commits) + 1} client {client} tx {begun[client]} @s{entry['s'] + 1}")
            shared(client, f"commit {len(commits)}", "s")
            shared(client, f"give {client + 1}", "p")
            lines[client].append("leave orders.place")
    clients = "".join(f"client {number}\n" + "".join(f"{line}\n" for line in each) for number, each in enumerate(lines))
    return f"springtx 1\n{clients}journal\n" + "".join(f"{each}\n" for each in commits) + "rows\nend\n"


class Pictures(unittest.TestCase):
    def drawn(self, data, name="play"):
        return picture.picture(Walk(report.read(data)), name)

    def test_samples_are_well_formed_small_and_without_overlaps(self):
        for name in samples.NAMES:
            svg = self.drawn(samples.data_of(name), name)
            tree.fromstring(svg)
            self.assertLess(len(svg.encode()), 200_000)
            self.assertEqual(list(overlaps(svg)), [])

    def test_eight_clients_with_savepoints_and_what_is_set_aside(self):
        svg = self.drawn(samples.data_of("eight_clients"))
        for number in range(8):
            self.assertIn(f">client {number}<", svg)
        for shape in "fjpnhCXVKADOQRWUT":
            self.assertIn(f'class="{shape}" d=', svg)

    def test_every_call_and_every_shared_call_is_there(self):
        for name in samples.NAMES:
            walk = samples.walk_of(name)
            columns = columns_of(walk)
            shared = sum(line.place is not None for lines in walk.report.clients for line in lines)
            self.assertEqual(sum(column.shared for column in columns), shared)
            bars = bars_of(walk, columns)
            self.assertEqual(len(bars), sum(len(client.frames) for client in walk.clients))
            for bar in bars:
                self.assertLessEqual(bar.first, bar.last)
        svg = self.drawn(samples.data_of("shop"))
        self.assertEqual(len(re.findall(r'<path class="[A-SU-Z]" d="[^"]*"><title>', svg)), 22)

    def test_titles_and_names_are_escaped(self):
        svg = self.drawn(samples.data_of("shop"), 'a<b>&"\x00\udcff.toml')
        tree.fromstring(svg)
        self.assertIn("a&lt;b&gt;&amp;", svg)

    def test_sixty_four_clients_are_within_the_bound(self):
        svg = self.drawn(many_clients(64, 8).encode())
        tree.fromstring(svg)
        self.assertLess(len(svg.encode()), 200_000)
        self.assertEqual(list(overlaps(svg)), [])

    def test_what_has_no_room_is_counted(self):
        svg = self.drawn(many_clients(64, 24).encode())
        tree.fromstring(svg)
        self.assertLess(len(svg.encode()), 200_000)
        self.assertRegex(svg, r"[0-9]+ columns more had no room here")


if __name__ == "__main__":
    unittest.main()
