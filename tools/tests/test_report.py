"""Reading of reports, and what their lines mean together."""
import random
import unittest

from tools import order, report, show
from tools.picture import picture
from tools.tests import samples
from tools.trace import trace
from tools.walk import Walk

FAULTS = (report.Fault, order.Fault)


def all_shown(data):
    """Everything that is made of a report."""
    walk = Walk(report.read(data))
    return show.shown(walk, None, True), picture(walk, "a"), trace(walk, None)


class Reading(unittest.TestCase):
    def test_samples_are_read_whole(self):
        for name in samples.NAMES:
            data = samples.data_of(name)
            found = report.read(data)
            texts = [f"client {number}\n" + "".join(f"{line.text}\n" for line in lines) for number, lines in enumerate(found.clients)]
            self.assertTrue(data.decode().startswith("springtx 1\n" + "".join(texts) + "journal\n"))

    def test_journal_and_rows_are_what_the_walk_says(self):
        for name in samples.NAMES:
            walk = samples.walk_of(name)
            ended = {tx.commit: tx for tx in walk.txs.values() if tx.ended == "commit"}
            rows = dict(samples.scenario_of(name).rows)
            own = {line.place[1]: line for lines in walk.report.clients for line in lines if line.kind == "row" and "auto" in line.told}
            for commit in walk.report.journal:
                told = own[commit.place].told if commit.tx is None else {}
                writes = ended[commit.number].writes() if commit.tx else {}
                if told and told["access"] != "read":
                    writes = {told["row"]: int(told["value"]) if told["access"] == "write" else None}
                rows.update(writes)
            self.assertEqual(sorted((row, value) for row, value in rows.items() if value is not None), walk.report.rows)

    def test_a_report_that_is_cut_anywhere_is_told_so(self):
        for data in (samples.data_of("shop"), *samples.SHORT):
            for length in range(len(data)):
                with self.assertRaises(report.Fault):
                    report.read(data[:length])

    def test_reports_that_are_spoilt_end_in_a_fault_or_a_text(self):
        draw = random.Random(7)
        ended = {"shown": 0, "fault": 0}
        for data in (samples.data_of("shop"), *samples.SHORT):
            for _ in range(60):
                lines = data.decode().splitlines(keepends=True)
                place, other = draw.randrange(1, len(lines)), draw.randrange(1, len(lines))
                change = draw.randrange(4)
                if change == 0:
                    del lines[place]
                elif change == 1:
                    lines[place], lines[other] = lines[other], lines[place]
                elif change == 2:
                    lines.insert(place, lines[other])
                else:
                    lines[place] = lines[place].replace("1", "2", 1)
                try:
                    all_shown("".join(lines).encode())
                    ended["shown"] += 1
                except FAULTS as fault:
                    self.assertNotIn("\n", str(fault))
                    ended["fault"] += 1
        self.assertGreater(min(ended.values()), 20)

    def test_odd_bytes_are_faults(self):
        for data in (b"", b"\xff", b"springtx 1\n", b"springtx 2\nend\n", b"springtx 1\nend\n", b"springtx 1\njournal\nend\n",
                     b"springtx 1\nclient 0\ntop 0\ncall b.m\xc3\xa9 plain\nleave b.m\njournal\nrows\nend\n",
                     b"springtx 1\nclient 0\ntop 0\ncall b.<m> plain\njournal\nrows\nend\n", b"springtx 1\nclient 1\njournal\nrows\nend\n"):
            with self.assertRaises(report.Fault):
                Walk(report.read(data))

    def test_places_that_fit_no_order_are_faults(self):
        with self.assertRaises(order.Fault):
            order.ordered(report.read(samples.KEPT.replace(b"@s2", b"@s3", 1)))
        crossed = b"springtx 1\nclient 0\ntop 0\ncall b.m plain\ntake 1 @p2\nauto read a absent @s1\ngive 1 @p3\nleave b.m\n" \
                  b"client 1\ntop 0\ncall b.m plain\nauto read a absent @s2\ntake 1 @p1\ngive 1 @p4\nleave b.m\njournal\nrows\nend\n"
        with self.assertRaises(order.Fault):
            order.ordered(report.read(crossed))
        straight = crossed.replace(b"@s1", b"@s3").replace(b"@s2", b"@s1").replace(b"@s3", b"@s2")
        self.assertEqual(len(order.ordered(report.read(straight))), 12)


if __name__ == "__main__":
    unittest.main()
