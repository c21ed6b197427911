"""The package against the kept outputs of examples/, against planrun, and against itself."""
import doctest
import glob
import os
import random
import subprocess
import unittest

import pirkvezo
from pirkvezo import advice, canonical, frames, history, layout, library, plans, refusals, shares, worlds
from pirkvezo.commands.table import table
from plans_at_random import plan_text

ROOT = str(library.ROOT)
PLANRUN = os.path.join(ROOT, "target", "bin", "planrun")


def printed(text):
    """What planrun prints for a text, said by the package."""
    try:
        plan = pirkvezo.read(text)
    except pirkvezo.Refused as refused:
        return f"(refused {refused.number} {refused.companion})\n"
    world = pirkvezo.World.fresh(plan)
    world.run()
    seen = [f"(seen {domain} {record.clock} {record})\n"
            for domain in range(plan.domains) for record in world.log(domain)]
    return "".join(seen) + f"(end {world.windows} {world.clock})\n"


def contents(name):
    with open(name, "rb") as opened:
        return opened.read()


class Package(unittest.TestCase):
    def test_examples_print_what_is_kept(self):
        found = sorted(glob.glob(os.path.join(ROOT, "examples", "*.plan")))
        self.assertTrue(found)
        for name in found:
            self.assertEqual(printed(contents(name)), contents(name[:-5] + ".out").decode(), name)

    @unittest.skipUnless(os.access(PLANRUN, os.X_OK), "planrun is not built")
    def test_random_texts_print_what_planrun_prints(self):
        chance = random.Random(16)
        for _ in range(40):
            text = plan_text(chance)
            if chance.random() < 0.5:
                at = chance.randrange(len(text))
                text = text[:at] + chance.choice([b"", b"(", b"9", b"\t", b"\xff", b" "]) + text[at + 1:]
            ran = subprocess.run([PLANRUN], input=text, stdout=subprocess.PIPE, check=True)
            self.assertEqual(printed(text), ran.stdout.decode(), text)

    def test_docstring_examples(self):
        here = os.getcwd()
        os.chdir(ROOT)
        try:
            for module in (pirkvezo, advice, canonical, frames, history, layout, plans, refusals, shares, worlds):
                names = dict(vars(module), read=pirkvezo.read)
                said = doctest.testmod(module, extraglobs=names)
                self.assertEqual(said.failed, 0, module.__name__)
        finally:
            os.chdir(here)

    def test_history_is_the_log_cut_into_windows(self):
        chance = random.Random(17)
        for _ in range(25):
            plan = pirkvezo.read(plan_text(chance))
            length = chance.choice([0, 100, 1000, 16384])
            passed = history.history(plan, length)
            world = pirkvezo.World.fresh(plan, length)
            world.run()
            self.assertEqual(len(passed), plan.windows_total)
            self.assertEqual(passed[-1].padded_end, world.clock)
            for domain in range(plan.domains):
                seen = [event.record for window in passed if window.owner == domain for event in window.ops]
                self.assertEqual(seen, world.log(domain))
            for window in passed:
                self.assertEqual(window.start, plan.window_start(window.index))
                self.assertEqual(window.end, plan.window_end(window.index))
                for event in window.ops:
                    self.assertTrue(window.start <= event.begin < window.end)
                    self.assertEqual(event.end, event.record.clock)

    def test_bad_values(self):
        plan = pirkvezo.read(contents(os.path.join(ROOT, "examples", "worked_example.plan")))
        for length in (-1, 1.5, "8"):
            self.assertRaises(ValueError, pirkvezo.World.fresh, plan, length)
        world = pirkvezo.World.fresh(plan, 0)
        self.assertEqual(world.run(0), pirkvezo.Run(0, False))
        for limit in (-1, 2**64, "1"):
            self.assertRaises(ValueError, world.run, limit)
        with self.assertRaises(pirkvezo.Refused) as caught:
            world.log(2)
        self.assertEqual((caught.exception.number, caught.exception.line), (4, None))
        self.assertRaises(ValueError, world.log, -1)
        self.assertRaises(IndexError, plan.window, 2)
        self.assertTrue(world.run().ended)
        self.assertEqual(world.log(0), [])


def nearest(share):
    """The colours that a share gives, said in another way than the package's."""
    whole, rest = divmod(15 * share, 1000)
    return whole + (rest >= 500)


class Table(unittest.TestCase):
    def test_arithmetic_is_that_of_the_masks(self):
        chance = random.Random(18)
        for _ in range(120):
            plan = pirkvezo.read(plan_text(chance))
            made = table(plan)
            for entry in made["domains"]:
                mask = plan.numbers[84 + entry["domain"]]
                self.assertEqual(sum(1 << colour for colour in entry["colours"]), mask)
                self.assertEqual(entry["holding"], bin(mask).count("1"))
                self.assertEqual(entry["holding"], nearest(entry["share"]))
                lines = [line for line in range(4096) if mask >> (line % 64 // 4) & 1]
                self.assertEqual(entry["lines"], len(lines))
                self.assertEqual(entry["sets"], sorted({line % 64 for line in lines}))
                less = entry["share"] - entry["spare"]
                self.assertEqual(nearest(less), entry["holding"])
                self.assertLess(nearest(less - 1), entry["holding"])
                self.assertTrue(-500 < entry["rounded"] <= 500)
                self.assertEqual(1000 * entry["holding"] - entry["rounded"], 15 * entry["share"])
            self.assertTrue(max(made["let"]) <= 1)
            self.assertEqual(made["let"][15], 0)
            self.assertEqual(sum(made["let"]) + len(made["unsold"]), 15)
            ticks = sum(entry["ticks_sold"] + entry["ticks_padded"] for entry in made["domains"])
            self.assertEqual(ticks, plan.ticks_total)
            world = pirkvezo.World.fresh(plan)
            world.run()
            self.assertEqual((made["windows_total"], made["ticks_total"]), (world.windows, world.clock))


class Advice(unittest.TestCase):
    def test_never_allowed_is_what_the_library_bars_or_denies(self):
        chance = random.Random(19)
        for _ in range(60):
            plan = pirkvezo.read(plan_text(chance))
            world = pirkvezo.World.fresh(plan)
            world.run()
            for domain in range(plan.domains):
                for op, record in zip(plan.ops(domain), world.log(domain)):
                    self.assertEqual(advice.never_allowed(plan, domain, op) is not None,
                                     record.kind in ("barred", "denied"), (op, record))

    def test_warnings(self):
        eight = "(pad 376)\n" + "".join(f"(domain {d} (share 99) (may))\n" for d in range(8))
        found = advice.warnings(pirkvezo.read(eight + "(window 0 (length 100))\n(run 1)\n"
                                              "(op 0 (read 0))\n(op 0 (read 1))\n(op 0 (read 60))\n"))
        self.assertIn("rounding loses 3 of 11 colours that the shares pay for: they total 792, and the domains hold "
                      "8 colours", found[0].words)
        self.assertEqual([w.kind for w in found].count("no window"), 7)
        self.assertIn(("unfinished", 13, 1), [(w.kind, w.line, w.column) for w in found])
        self.assertIn(("never allowed", 14, 1), [(w.kind, w.line, w.column) for w in found])
        quiet = contents(os.path.join(ROOT, "examples", "worked_example.plan"))
        self.assertEqual(advice.warnings(pirkvezo.read(quiet)), [])


if __name__ == "__main__":
    unittest.main()
