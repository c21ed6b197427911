"""compare: pairs of plans that do and do not leak through boxes, and pairs beyond the promise."""
import contextlib
import io
import json
import pathlib
import random
import sys
import tempfile
import unittest

ROOT = pathlib.Path(__file__).resolve().parents[2]
sys.path.insert(0, str(ROOT / "desk"))

from pirkvezo import read
from pirkvezo.commands import compare as command
from pirkvezo.compare import compare
from pirkvezo.cli import parser

FILTER = (ROOT / "examples" / "filter.plan").read_bytes()


def said(a, b, *options):
    """Exit status and output of the command on two texts."""
    with tempfile.TemporaryDirectory() as folder:
        names = []
        for name, text in (("a.plan", a), ("b.plan", b)):
            path = pathlib.Path(folder, name)
            path.write_bytes(text)
            names.append(str(path))
        args = parser().parse_args(["compare", *options, *names])
        out, errors = io.StringIO(), io.StringIO()
        with contextlib.redirect_stdout(out), contextlib.redirect_stderr(errors):
            status = command.run(args)
        return status, out.getvalue(), errors.getvalue()


class Pairs(unittest.TestCase):
    def test_the_same_plan(self):
        found = compare(read(FILTER), read(FILTER))
        self.assertTrue(found.all_same)
        self.assertEqual((found.beyond, found.scripts, found.broken()), ((), (), ()))
        status, out, _ = said(FILTER, FILTER)
        self.assertEqual(status, 0)
        self.assertIn("The two plans say the same", out)

    def test_rivals_that_send_nothing_are_not_seen(self):
        other = FILTER.replace(b"(op 0 (compute 200))", b"(op 0 (compute 7))")
        found = compare(read(FILTER), read(other))
        self.assertEqual([d.same for d in found.domains], [False, True, True])
        self.assertEqual(found.scripts, (0,))
        self.assertFalse(any(d.crossed for d in found.domains))
        status, out, _ = said(FILTER, other)
        self.assertEqual(status, 3)
        self.assertIn("domain 1: sees the same, 4 records", out)
        self.assertIn("Every domain whose own script is the same sees the same.", out)

    def test_a_word_that_crossed_is_named(self):
        other = FILTER.replace(b"(send 1 500)", b"(send 1 600)")
        found = compare(read(FILTER), read(other))
        self.assertEqual([d.same for d in found.domains], [True, False, True])
        first = found.domains[1].first
        self.assertEqual((first.number, first.a.window, first.a.index), (0, 1, 0))
        self.assertEqual((str(first.a.record), str(first.b.record)), ("(got 500)", "(got 600)"))
        crossing, = found.domains[1].crossed
        self.assertEqual((crossing.window, crossing.start, crossing.sender, crossing.a, crossing.b),
                         (1, 1000, 0, 500, 600))
        self.assertEqual(found.broken(), ())
        _, out, _ = said(FILTER, other)
        self.assertIn("the box from domain 0, when window 1 began at 1000: word 500 in A, "
                      "word 600 in B", out)

    def test_an_empty_box_against_a_word(self):
        other = FILTER.replace(b"(op 0 (send 1 500))\n", b"")
        found = compare(read(FILTER), read(other))
        crossing = found.domains[1].crossed[0]
        self.assertEqual((crossing.a, crossing.b), (500, None))

    def test_one_run_with_fewer_records(self):
        other = FILTER.replace(b"(op 1 (send 0 1))\n", b"")
        first = compare(read(FILTER), read(other)).domains[1].first
        self.assertEqual((first.number, first.b), (3, None))

    def test_plans_beyond_the_promise(self):
        other = FILTER.replace(b"(pad 400)", b"(pad 401)").replace(b"(may 0 2)", b"(may 2)")
        found = compare(read(FILTER), read(other))
        self.assertEqual(found.beyond, ("pad: 400 in A, 401 in B",
                                        "domain 1 may send to: 0 and 2 in A, 2 in B"))
        self.assertFalse(any(found.covered(d) for d in found.domains))
        status, out, _ = said(FILTER, other)
        self.assertEqual(status, 3)
        self.assertIn("the promise does not cover this pair", out)

    def test_a_domain_that_one_plan_lacks(self):
        other = b"(pad 400)\n(domain 0 (share 300) (may))\n(window 0 (length 600))\n(run 2)\n"
        status, out, _ = said(FILTER, other)
        self.assertEqual(status, 3)
        self.assertIn("domain 2: only A has it", out)

    def test_json(self):
        other = FILTER.replace(b"(send 1 500)", b"(send 1 600)")
        values = json.loads(said(FILTER, other, "--json")[1])
        self.assertTrue(values["covered"])
        self.assertEqual(values["domains"][1]["first_difference"]["b"]["value"], 600)

    def test_windows(self):
        other = FILTER.replace(b"(send 1 500)", b"(send 1 600)")
        self.assertEqual(said(FILTER, other, "--windows", "1")[0], 0)

    def test_a_refused_plan(self):
        status, out, errors = said(FILTER, b"(pad 1)")
        self.assertEqual((status, out), (1, ""))
        self.assertIn(":1:6: ", errors)

    def test_the_promise_on_random_pairs(self):
        """Plans that differ in one rival's script: what differs elsewhere came through a box."""
        dice = random.Random(16)
        for _ in range(40):
            head, scripts, rival = random_plan(dice)
            changed = dict(scripts)
            changed[rival] = [random_op(dice) for _ in range(dice.randrange(1, 12))]
            found = compare(*(read(text(head, ops)) for ops in (scripts, changed)))
            self.assertEqual(found.beyond, ())
            self.assertEqual(found.broken(), ())
            for domain in found.domains:
                if domain.domain != rival and not domain.crossed:
                    self.assertTrue(domain.same)


def random_op(dice):
    return dice.choice([f"(read {dice.randrange(70)})", f"(write {dice.randrange(70)})",
                        f"(send {dice.randrange(4)} {dice.randrange(3)})",
                        f"(receive {dice.randrange(4)})", f"(compute {dice.randrange(1, 201)})"])


def random_plan(dice):
    domains = dice.randrange(2, 5)
    lines = [f"(pad {dice.randrange(376, 500)})", f"(run {dice.randrange(1, 4)})"]
    for d in range(domains):
        may = " ".join(str(r) for r in range(domains) if r != d and dice.random() < 0.5)
        # at most three colours each
        lines.append(f"(domain {d} (share {dice.randrange(34, 234)}) (may {may}))")
    for _ in range(dice.randrange(1, 8)):
        lines.append(f"(window {dice.randrange(domains)} (length {dice.randrange(1, 900)}))")
    scripts = {d: [random_op(dice) for _ in range(dice.randrange(12))] for d in range(domains)}
    return lines, scripts, dice.randrange(domains)


def text(head, scripts):
    ops = [f"(op {d} {op})" for d, script in scripts.items() for op in script]
    return "\n".join(head + ops).encode()


if __name__ == "__main__":
    unittest.main()
