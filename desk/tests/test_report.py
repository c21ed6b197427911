"""report: the page is XML, stands alone, and has every window and every record."""
import contextlib
import io
import os
import pathlib
import re
import sys
import tempfile
import unittest
import xml.etree.ElementTree as xml

ROOT = pathlib.Path(__file__).resolve().parents[2]
sys.path.insert(0, str(ROOT / "desk"))

from pirkvezo import Refused, read
from pirkvezo.cli import main
from pirkvezo.history import history
from pirkvezo.report import page, refused_page
from pirkvezo.report.timeline import messages

EXAMPLES = sorted((ROOT / "examples").glob("*.plan"))
SVG = "{http://www.w3.org/2000/svg}"
HOSTILE = ["<script>alert(1)</script>.plan", "a&b\"'.plan", "]]>.plan", "<!--.plan",
           "new\nline.plan", "esc\x1b[31m.plan", "\u202egnp.plan", "-->.plan", "&lt;.plan"]


def longest():
    """A plan of 34048 steps: 32000 switches and 2048 ops, the most that a run can have.

    Seven scripts take 256 rounds, so that 8192 windows must be drawn.
    """
    lines = ["(pad 376)", "(run 1000)"]
    lines += [f"(domain {d}(share 99)(may))" for d in range(8)]
    lines += [f"(window {min(k, 7)}(length 1))" for k in range(32)]
    lines += [f"(op {d}(read 0))" for d in range(8) for _ in range(256)]
    return "\n".join(lines).encode()


def shapes(tree, tag, style):
    return [e for e in tree.iter(SVG + tag) if e.get("class") == style]


def indexes(tree):
    """The windows that the timeline draws, and those that the table lists."""
    drawn = [int(e.get("data-window")) for e in tree.iter(SVG + "g") if e.get("data-window")]
    listed = [int(e.get("data-window")) for e in tree.iter() if e.tag.endswith("}tr")
              and e.get("data-window")]
    return drawn, listed


class Pages(unittest.TestCase):
    def pages(self):
        for path in EXAMPLES:
            text = path.read_bytes()
            try:
                yield path.name, read(text), page(path.name, read(text))
            except Refused as refused:
                yield path.name, None, refused_page(path.name, refused, text)

    def test_stands_alone(self):
        for name, _, written in self.pages():
            with self.subTest(name):
                xml.fromstring(written)
                self.assertNotIn("<script", written)
                bare = written.replace("http://www.w3.org/2000/svg", "").replace(
                    "http://www.w3.org/1999/xhtml", "")
                self.assertIsNone(re.search(r"https?:|src=|href=|@import|url\((?!#)", bare))

    def test_every_window_and_record(self):
        for name, plan, written in self.pages():
            if plan is None:
                continue
            with self.subTest(name):
                tree, run = xml.fromstring(written), history(plan)
                everything = list(range(plan.windows_total))
                self.assertEqual(indexes(tree), (everything, everything))
                tips = [t.text for t in tree.iter(SVG + "title")]
                for w in run:
                    for k, e in enumerate(w.ops):
                        start = f"domain {w.owner}, window {w.index}, op {k}: "
                        tip, = [t for t in tips if t.startswith(start)]
                        self.assertIn(f"saw {e.record} at {e.record.clock}, ", tip)
                rows = [[c for c in row] for row in tree.iter() if row.get("data-record")]
                cells = [["".join(c.itertext()) for c in row] for row in rows]
                wanted = [[str(w.index), str(k), str(plan.ops(d)[e.position]), str(e.record),
                           str(e.record.clock), str(e.end - e.begin)]
                          for d in range(plan.domains) for w in run if w.owner == d
                          for k, e in enumerate(w.ops)]
                self.assertEqual(cells, wanted)

    def test_sixteen_colours(self):
        for name, plan, written in self.pages():
            if plan is None:
                continue
            groups = [g for g in xml.fromstring(written).iter(SVG + "g") if g.get("data-colour")]
            self.assertEqual(len(groups), 16)
            for colour, group in enumerate(groups):
                style = group.find(SVG + "rect").get("class")
                holder = [d for d in range(plan.domains) if plan.masks[d] >> colour & 1]
                wanted = "kernel" if colour == 15 else f"d{holder[0]}" if holder else "unsold"
                self.assertEqual(style, wanted)

    def test_rounding(self):
        text = b"(pad 376)\n(domain 0 (share 300) (may))\n(domain 1 (share 75) (may))\n" \
               b"(domain 2 (share 400) (may))\n(window 0 (length 9))\n(run 1)"
        tree = xml.fromstring(page("rounding", read(text)))
        found = [row for row in tree.iter() if row.tag.endswith("}tr")][:4]
        heads, *rows = [["".join(cell.itertext()) for cell in row] for row in found]
        self.assertEqual([row[heads.index("Rounded")] for row in rows], ["+0.500", "-0.125", "0.000"])
        self.assertEqual([row[heads.index("Held")] for row in rows], ["5", "1", "6"])

    def test_messages_are_arrows(self):
        text = (ROOT / "examples" / "filter.plan").read_bytes()
        plan = read(text)
        self.assertEqual([(m.sender, m.recipient, m.word) for m in messages(plan, history(plan))],
                         [(0, 1, 500), (1, 2, 501), (1, 0, 1)])
        arrows = shapes(xml.fromstring(page("filter", plan)), "path", "message")
        self.assertEqual(len(arrows), 3)

    def test_an_overwritten_word_has_no_arrow(self):
        text = b"(pad 376)\n(domain 0 (share 100) (may 1))\n(domain 1 (share 100) (may))\n" \
               b"(window 0 (length 900))\n(window 1 (length 900))\n(run 1)\n(op 0 (send 1 5))\n" \
               b"(op 0 (send 1 6))\n(op 1 (receive 0))\n(op 1 (receive 0))"
        plan = read(text)
        self.assertEqual([(m.word, m.sent, m.got) for m in messages(plan, history(plan))],
                         [(6, (0, 1), (1, 0))])

    def test_a_part_of_the_windows(self):
        plan = read((ROOT / "examples" / "filter.plan").read_bytes())
        tree = xml.fromstring(page("filter", plan, windows=range(1, 3)))
        self.assertEqual(indexes(tree), ([1, 2], [1, 2]))

    def test_the_longest_run(self):
        plan = read(longest())
        written = page("longest", plan)
        self.assertIn("34048 steps of at most 34048", written)
        self.assertLess(len(written.encode()), 5_000_000)
        tree = xml.fromstring(written)
        drawn, listed = indexes(tree)
        self.assertEqual(drawn, listed)
        fold, = [e for e in tree.iter() if e.get("data-from")]
        first, last = int(fold.get("data-from")), int(fold.get("data-to"))
        self.assertEqual(drawn + list(range(first, last + 1)), list(range(32000)))
        self.assertGreaterEqual(len(drawn), 8192)
        self.assertEqual(sum(1 for e in tree.iter() if e.get("data-record")), 2048)

    def test_refused(self):
        text = b"(pad 376)\n(domain 0 (share 400)\t(may))\n<b>&\n"
        with self.assertRaises(Refused) as caught:
            read(text)
        written = refused_page("tab.plan", caught.exception, text)
        words = "".join(xml.fromstring(written).itertext())
        self.assertIn(caught.exception.words, words)
        self.assertIn(caught.exception.fix, words)
        self.assertIn(f"tab.plan:2:{caught.exception.column}", words)
        self.assertIn("<b>&", words)

    def test_binary_plans(self):
        for text in (bytes(range(256)), b"\xff\xfe\x00(", b"\xef\xbb\xbf(pad 376)", b"\x00" * 40000,
                     b""):
            with self.assertRaises(Refused) as caught:
                read(text)
            xml.fromstring(refused_page("binary", caught.exception, text))

    def test_hostile_names(self):
        plan = read((ROOT / "examples" / "worked_example.plan").read_bytes())
        for name in HOSTILE + [os.fsdecode(b"\xff\x80.plan")]:
            with self.subTest(name):
                written = page(name, plan, warnings=[name])
                tree = xml.fromstring(written.encode("utf-8"))
                self.assertFalse([e for e in tree.iter() if e.tag.endswith("}script")])
                self.assertNotIn("\x1b", written)
                self.assertNotIn("\u202e", written)


class Command(unittest.TestCase):
    def said(self, *arguments):
        out, errors = io.StringIO(), io.StringIO()
        # streams that the command may set up as it does its own
        out.reconfigure = errors.reconfigure = lambda **_: None
        with contextlib.redirect_stdout(out), contextlib.redirect_stderr(errors):
            status = main(["report", *arguments])
        self.assertNotIn("Traceback", errors.getvalue())
        return status, out.getvalue(), errors.getvalue()

    def test_writes_a_page(self):
        with tempfile.TemporaryDirectory() as folder:
            for source in HOSTILE[:1] + ["plain.plan"]:
                plan = pathlib.Path(folder, source.replace("/", "_"))
                plan.write_bytes((ROOT / "examples" / "filter.plan").read_bytes())
                target = os.path.join(folder, "out.html")
                status, _, errors = self.said(str(plan), "-o", target)
                self.assertEqual((status, errors), (0, ""))
                xml.parse(target)

    def test_bad_arguments(self):
        plan = str(ROOT / "examples" / "filter.plan")
        with tempfile.TemporaryDirectory() as folder:
            target = os.path.join(folder, "out.html")
            for arguments in ([plan], ["missing.plan", "-o", target], [folder, "-o", target],
                              [plan, "-o", folder], [plan, "-o", os.path.join(folder, "no", "x")],
                              [plan, "-o", target, "--windows", "3"],
                              [plan, "-o", target, "--windows", "5..2"],
                              [plan, "-o", target, "--windows", "0..6"],
                              [plan, "-o", target, "--log-length", "-1"],
                              [plan, "-o", "/dev/full"]):
                with self.subTest(arguments):
                    status, _, errors = self.said(*arguments)
                    self.assertEqual(status, 2)
                    self.assertEqual(errors.count("\n"), 1)
                    self.assertFalse(os.path.exists(target))

    def test_a_plan_is_not_overwritten(self):
        with tempfile.TemporaryDirectory() as folder:
            plan = pathlib.Path(folder, "a.plan")
            plan.write_bytes((ROOT / "examples" / "filter.plan").read_bytes())
            self.assertEqual(self.said(str(plan), "-o", str(plan))[0], 2)
            self.assertEqual(plan.read_bytes(), (ROOT / "examples" / "filter.plan").read_bytes())

    def test_a_refused_plan(self):
        with tempfile.TemporaryDirectory() as folder:
            target = os.path.join(folder, "out.html")
            status, _, errors = self.said(str(ROOT / "examples" / "oversold.plan"), "-o", target)
            self.assertEqual(status, 1)
            self.assertIn("[7]", errors)
            self.assertIn("the shares total 1100", "".join(xml.parse(target).getroot().itertext()))


if __name__ == "__main__":
    unittest.main()
