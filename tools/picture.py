"""A picture of a play as SVG, of the report alone: clients as lanes, calls as bars in each other, shared calls as ticks."""
from collections import namedtuple
from html import escape

from tools import shapes
from tools.layout import bars_of, columns_of, strips_of
from tools.say import counted, printable

MOST_BYTES = 195_000
LEFT, TOP, BAR, GAP = 74, 118, 17, 8
# The widths of a letter of the two sizes, a little more than they are.
LETTER, SMALL = 6.1, 5.5

# How much a picture says: the width of a column, columns in a strip, what stands below a tick, whether titles are given, and the
# most columns that are worth a try.
Detail = namedtuple("Detail", "column wide place words titles most")
DETAILS = (
    Detail(46, 26, True, True, True, 1_200), Detail(46, 26, True, True, False, 2_000), Detail(32, 38, True, False, False, 4_000),
    Detail(10, 122, False, False, False, 20_000),
)
WORDS = {"savepoint": "point", "rollback": "undo", "back_to": "back"}


def cut(text, wide, letter):
    """As much of a text as fits."""
    most = int(wide // letter)
    return text if len(text) <= most else text[: most - 1] + "~" if most > 2 else ""


class Drawing:
    """Draws with one amount of detail."""

    def __init__(self, walk, columns, bars, detail):
        self.walk, self.columns, self.detail = walk, columns, detail
        self.strips = strips_of(columns[: detail.most], [bar for bar in bars if bar.first < detail.most], detail.wide)
        self.right = LEFT + detail.wide * detail.column
        self.texts, self.paths, self.titled = [], {}, []

    def x(self, column):
        return LEFT + (column % self.detail.wide) * self.detail.column

    def drawn(self, name):
        """The whole picture. With the least detail what there is no room for is left out, and counted."""
        y, size, parts = TOP, 4000, []
        for lanes in self.strips:
            text, below = self.strip(lanes, y)
            if size + len(text) > MOST_BYTES and self.detail is DETAILS[-1]:
                break
            y = below
            size += len(text)
            parts.append(text)
        left_out = max(0, len(self.columns) - len(parts) * self.detail.wide)
        wide, high = self.right + 12, y + 24
        head = f'<svg xmlns="http://www.w3.org/2000/svg" width="{wide}" height="{high}" viewBox="0 0 {wide} {high}">\n'
        paper = f'<rect width="{wide}" height="{high}" fill="#fff"/>\n'
        return head + shapes.head() + paper + "".join([*self.legend(name), *parts]) + self.foot(left_out, y) + "</svg>\n"

    def legend(self, name):
        shared = counted(sum(column.shared for column in self.columns), "shared call")
        clients = counted(len(self.walk.clients), "client")
        title = f"{name}: {clients}, {shared}, from left to right in the order of the two histories"
        yield f'<text x="10" y="18" class="b">{escape(cut(title, self.right, LETTER))}</text>\n'
        for number, (shape, (_, text)) in enumerate(shapes.BARS.items()):
            x = 10 + number * 190
            if shape == "h":
                yield f'<path class="f" d="{shapes.bar(x, 28, 34, 12)}"/>'
            yield f'<path class="{shape}" d="{shapes.bar(x, 28, 34, 12)}"/><text x="{x + 40}" y="38">{text}</text>\n'
        for number, (shape, (_, _, text)) in enumerate(shapes.TICKS.items()):
            x, y = 18 + number % 6 * 190, 56 + number // 6 * 18
            yield f'<path class="{shape}" d="{shapes.tick(shape, x, y)}"/><text x="{x + 12}" y="{y + 4}">{text}</text>\n'
        if self.detail.place:
            text = "below a tick its place: s12 is entry 12 of the store's history, p3 entry 3 of the pool's"
            yield f'<text x="10" y="100" class="g">{text}</text>\n'

    def foot(self, left_out, y):
        if not left_out:
            return ""
        text = f"{counted(left_out, 'column')} more had no room here: ./play --show has all"
        return f'<text x="10" y="{y + 12}" class="b">{text}</text>\n'

    def strip(self, lanes, y):
        """The text of a strip, and where the next one begins."""
        self.texts, self.paths, self.titled = [], {}, []
        for lane in lanes:
            if not lane.columns:
                continue
            self.texts.append(f'<text x="6" y="{y + 12}">client {lane.client}</text>')
            for part in lane.parts:
                self.part(part, y + part.bar.depth * BAR)
            for at, column in lane.columns:
                if column.shared:
                    self.tick(at, column, y + lane.depth * BAR + 8)
            y += self.lane_height(lane)
            self.path("l", f"M6 {y - 5}H{self.right}")
        waiting = [f"client {lane.client} in {lane.parts[-1].bar.frame.method}" for lane in lanes if not lane.columns]
        if waiting:
            text = cut("meanwhile waiting: " + ", ".join(waiting), self.right - 8, LETTER)
            self.texts.append(f'<text x="6" y="{y + 9}" class="g">{text}</text>')
            y += 18
        self.path("z", f"M6 {y - 3}H{self.right}")
        order = [each for each in self.paths if each not in "hT"] + [each for each in "hT" if each in self.paths]
        paths = "".join(f'<path class="{each}" d="{"".join(self.paths[each])}"/>\n' for each in order)
        return "".join([paths, *self.titled, *self.texts]) + "\n", y + 8

    def lane_height(self, lane):
        below = 15 + (11 if self.detail.place else 0) + (20 if self.detail.words else 0) if lane.columns else 0
        return lane.depth * BAR + below + GAP

    def path(self, shape, d, title=""):
        if title and self.detail.titles:
            self.titled.append(f'<path class="{shape}" d="{d}"><title>{escape(title)}</title></path>\n')
        else:
            self.paths.setdefault(shape, []).append(d)

    def part(self, part, y):
        """A call, as far as it is in this strip."""
        frame = part.bar.frame
        throws = bool(frame.thrown) and part.closes
        x, end = self.x(part.first) + 1, self.x(part.last) + self.detail.column - 1
        self.path(shapes.bar_of(frame), shapes.bar(x, y + 1, end - x, BAR - 3), title_of(frame))
        room = whole = end - x - 8 - (10 if throws else 0)
        for first, last in part.bar.aside:
            if first <= part.last and last >= part.first:
                start = self.x(max(first, part.first)) + 1
                wide = self.x(min(last, part.last)) + self.detail.column - 1 - start
                self.titled.append(f'<path class="h" d="{shapes.bar(start, y + 2, wide, BAR - 5)}"/>')
                room = min(room, start - x - 6)
        name = ("" if part.opens else "..") + frame.method
        label = cut(name, room, LETTER)
        if label != name and room < whole:
            # The name stands on a plate over the hatching.
            label = cut(name, whole, LETTER)
            plate = shapes.bar(x + 2, y + 3, int(len(label) * LETTER) + 3, BAR - 7)
            self.titled.append(f'<path class="P" d="{plate}"/>' if label else "")
        if label:
            self.texts.append(f'<text x="{x + 4}" y="{y + 11}">{label}</text>')
        if throws:
            self.titled.append(f'<path class="T" d="{shapes.tick("T", end - 7, y + BAR // 2)}"/>')

    def tick(self, at, column, y):
        """A shared call: its shape, and below it its place, what it is and of what."""
        line = self.walk.clients[column.client].steps[column.at].line
        middle = self.x(at) + self.detail.column // 2
        shape = shapes.tick_of(line)
        self.path(shape, shapes.tick(shape, middle, y), line.text)
        texts = [f"{line.place[0]}{line.place[1]}"] if self.detail.place else []
        if self.detail.words:
            told = line.told
            texts.append(told.get("access") or WORDS.get(line.kind, line.kind))
            texts.append(told.get("row") or told.get("connection") or told.get("tx") or told.get("commit") or "")
        for number, text in enumerate(texts):
            shown = cut(text, self.detail.column - 4, SMALL)
            if shown:
                self.texts.append(f'<text class="s" x="{middle}" y="{y + 15 + 10 * number}">{shown}</text>')


def title_of(frame):
    parts = [frame.method, frame.how, frame.scope]
    if frame.tx is not None:
        parts.append(f"transaction {frame.tx.number}")
    if frame.ending:
        parts.append(f"end {frame.ending}")
    if frame.thrown:
        parts.append(f"throws {frame.thrown}")
    return ", ".join(each for each in parts if each)


def picture(walk, name):
    """The picture with as much detail as there is room for."""
    columns = columns_of(walk)
    bars = bars_of(walk, columns)
    for detail in DETAILS:
        if len(columns) > detail.most and detail is not DETAILS[-1]:
            continue
        text = Drawing(walk, columns, bars, detail).drawn(printable(name))
        if len(text.encode()) < MOST_BYTES:
            break
    return text
