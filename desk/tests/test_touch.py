"""The touch of the return path: pads too short for it first; then where it leaves line 60, and what it costs."""
import random
import unittest
from unittest import mock

import pirkvezo
from pirkvezo import library
from pirkvezo.report import page, refused_page
from plans_at_random import plan_text
from test_bound import HEAD, WORKED, contents, with_file
from test_only import lent

LEAST = ("it is at least 376: 212 (the dearest op, begun in the last tick) + 64 (both flushes) + 100 (the touch of the "
         "return path)")
BEFORE = "; such a pad was enough before the touch"
FIX = "write a number from 376 to 1000000; plans that were written for 276 need at least 376"
# line 60 at its index of L1, and at the front of its set; and what else of the table a switch empties
TOUCHED = {12: 61, 256: 61}
EMPTIED = [*range(16), *range(256, 272)]


def with_pad(pad):
    """A plan that is whole, with this pad."""
    return contents(WORKED).replace(b"(pad 376)", b"(pad %b)" % str(pad).encode())


def refused(text):
    try:
        pirkvezo.read(text)
    except pirkvezo.Refused as why:
        return why
    return None


def held(cache):
    """What L1 and the kernel's sets hold."""
    return {at: cache[at] for at in EMPTIED if cache[at]}


class ShortPads(unittest.TestCase):
    def test_every_pad_below_the_least(self):
        for pad in range(376):
            why = refused(with_pad(pad))
            self.assertEqual((why.number, why.companion, why.line, why.column), (3, 5, 1, 6))
            self.assertEqual(why.words, f"the pad is {pad}; {LEAST}{BEFORE if pad >= 276 else ''}")
            self.assertEqual(why.fix, FIX)
        for pad in (376, 377, 1000000):
            self.assertEqual(pirkvezo.read(with_pad(pad)).pad, pad)

    def test_however_it_is_spelled(self):
        for text, column, pad in [("(pad 0000000276)", 6, 276), (" ( pad  00275 )", 9, 275), ("(pad 375", 6, 375),
                                  ("(pad 300 x", 6, 300)]:
            why = refused(text)
            self.assertEqual((why.number, why.line, why.column), (3, 1, column))
            self.assertTrue(why.words.startswith(f"the pad is {pad}; {LEAST}"))
            self.assertEqual(why.words.endswith(BEFORE), pad >= 276)
        # in any line, a second pad too: a number is judged before its line is whole
        why = refused(HEAD + "(pad 276)")
        self.assertEqual((why.number, why.line, why.column), (3, 4, 6))
        self.assertTrue(why.words.endswith(BEFORE))

    def test_other_numbers_are_told_as_before(self):
        for text, words, fix in [
                ("(pad 00000000276)", "the pad has 11 digits; 10 are allowed", "write a number from 376 to 1000000"),
                ("(pad 1000001)", "the pad is 1000001; it is at most 1000000", "write a number from 376 to 1000000"),
                ("(run 0)", "the run is 0; it is at least 1", "write a number from 1 to 1000"),
                (HEAD + "(window 0 (length 0))", "the length is 0; it is at least 1",
                 "write a number from 1 to 1000000")]:
            why = refused(text)
            self.assertEqual((why.number, why.words, why.fix), (3, words, fix))

    def test_commands(self):
        told = [f"plan:1:6: the pad is 300; {LEAST}{BEFORE} [3]", "    (pad 300)", "         ^", f"    fix: {FIX}"]
        for command in (["check"], ["table"], ["bound"], ["latest"]):
            status, out, errors = with_file(with_pad(300), *command)
            self.assertEqual((status, out.splitlines(), errors), (1, told, ""))
        status, out, errors = with_file(with_pad(300), "run")
        self.assertEqual((status, out, errors.splitlines()), (1, "(refused 3 5)\n", told))
        # nothing that could come into a plan
        status, out, errors = with_file(with_pad(300), "write")
        self.assertEqual((status, out, errors.splitlines()), (1, "", told))
        made = refused_page("plan", refused(with_pad(300)), with_pad(300))
        self.assertIn(f"Refused: the pad is 300; {LEAST}{BEFORE} [3]", made)
        self.assertIn(FIX, made)

    def test_the_verdict_is_the_library_s(self):
        # what it refuses is refused, also where the desk sees no cause
        for pad in (376, 400, 1000000):
            with mock.patch.object(library, "read_plan", return_value=(3, 5, 0, 0)):
                why = refused(with_pad(pad))
            self.assertEqual((why.number, why.column), (3, 6))
            self.assertEqual((why.words, why.fix), (f"the pad is {pad}, which is outside its limits",
                                                    "see the limits of its form"))
        # and what it takes is taken
        with mock.patch.object(library, "read_plan", return_value=(0, 0, 0, 0)):
            self.assertIsNone(refused(with_pad(276)))

    def test_numbers_that_no_text_gives(self):
        plan, scripts, *tables = lent(with_pad(376))
        for pad, number in [(0, 12), (276, 12), (375, 12), (376, 0), (1000000, 0), (1000001, 12)]:
            plan[0] = pad
            self.assertEqual(library.fresh_start(plan, *tables)[0], number)
            self.assertEqual(library.step_bound(plan, scripts)[0], number)


class Starts(unittest.TestCase):
    """What L1 and the kernel's sets hold when a window starts: that comes from the plan alone."""

    def test_every_window_but_the_first(self):
        chance = random.Random(51)
        for _ in range(40):
            plan, length = pirkvezo.read(plan_text(chance)), chance.choice([0, 100, 16384])
            for world in (pirkvezo.World.fresh(plan, length), pirkvezo.KeptWorld.fresh(plan, 0, length // 8)):
                self.assertEqual(held(world.cache), {})
                for window in range(1, plan.windows_total):
                    world.run_windows(window)
                    self.assertEqual((world.clock, held(world.cache)), (plan.window_start(window), TOUCHED))
                # the last switch takes it out again
                world.run()
                self.assertEqual((world.clock, held(world.cache)), (plan.ticks_total, {}))

    def test_one_window_is_the_first_and_the_last(self):
        world = pirkvezo.World.fresh(pirkvezo.read(HEAD + "(window 0 (length 400))\n(run 1)\n(op 0 (send 1 7))"))
        world.step()
        self.assertEqual(held(world.cache), {12: 61, 13: 32768 + 126, 256: 61, 260: 126})
        self.assertTrue(world.step().ended)
        self.assertEqual(held(world.cache), {})

    def test_lent_tables(self):
        """A table with whatever it may hold: the next window starts when the plan says, with line 60 alone."""
        chance, (plan, scripts, state, cache, boxes) = random.Random(52), lent(contents(WORKED))
        log = (library.ctypes.c_uint8 * 64)()
        for late, full in [(212, True), (212, False), (0, True)] + [(chance.randrange(213), False) for _ in range(60)]:
            library.fresh_start(plan, state, cache, boxes)
            state[1] = 400 + late
            for index in range(16):
                # domain 0 has the lines 0 to 23 of each 64
                if full or chance.random() < 0.5:
                    cache[index] = 1 + index + (32768 if full or chance.random() < 0.5 else 0)
            for at in range(4):
                for way in range(4 if full else chance.randrange(5)):
                    cache[256 + 4 * at + way] = 61 + at + 64 * way
            self.assertEqual(library.step(plan, scripts, state, cache, boxes, log, 64), (0, 0, 1, 0))
            self.assertEqual((state[0], state[1], held(cache)), (1, 400 + 376, TOUCHED))
        # a tick later is no state that there is
        library.fresh_start(plan, state, cache, boxes)
        state[1] = 400 + 213
        self.assertEqual(library.step(plan, scripts, state, cache, boxes, log, 64)[0], 14)

    def test_line_60_in_a_lent_table(self):
        """It is allowed as any of the kernel's lines is, and not in L1 after the end."""
        plan, scripts, state, cache, boxes = lent(contents(WORKED))
        log = (library.ctypes.c_uint8 * 64)()

        def answer(at, number):
            lent_cache = library.CacheTable(*cache)
            lent_cache[at] = number
            return library.run(plan, scripts, library.StateNumbers(*state), lent_cache, boxes, log, 64, 0)[0]

        tables = [(12, 61, 0), (12, 32768 + 61, 0), (256, 61, 0), (13, 61, 13), (0, 61, 13), (257, 61, 13),
                  (260, 61, 13), (256, 32768 + 61, 13)]
        for at, number, told in tables:
            self.assertEqual(answer(at, number), told, (at, number))
        library.run(plan, scripts, state, cache, boxes, log, 64, 1000)
        self.assertEqual(state[0], 2)
        for at, number, told in tables:
            self.assertEqual(answer(at, number), 13 if at < 16 else told, (at, number))


class Costs(unittest.TestCase):
    """What an op that reads line 60 costs, in the run's first window and in others, by hand."""

    def clocks(self, ops, rest=""):
        """When the ops of domain 0 end, counted from their window's start: as the run's first, and as its second."""
        found = []
        for windows in ("(window 0 (length 900))", "(window 1 (length 1))\n(window 0 (length 900))"):
            plan = pirkvezo.read(f"{HEAD}{windows}\n(run 1)\n" + "\n".join(f"(op 0 {op})" for op in ops) + rest)
            world = pirkvezo.World.fresh(plan)
            world.run()
            start = plan.window_start(len(plan.windows) - 1)
            found.append([record.clock - start for record in world.log(0)])
        return found

    def test_by_hand(self):
        for ops, first, second in [
                # 5, line 60 and the box's line, 125; the second time both are in L1
                (["(send 1 7)", "(send 1 8)"], [205, 212], [106, 113]),
                # denied: line 60 alone
                (["(send 0 7)", "(receive 1)"], [105, 111], [6, 12]),
                # a line of the domain's own, 12, takes line 60's index in L1: line 60 is found in L2, and 12 is dirty
                (["(write 12)", "(send 0 7)", "(read 12)"], [100, 209, 219], [100, 119, 129]),
                # no message: the touch is nothing to it
                (["(write 3)", "(read 3)", "(compute 9)", "(read 60)"], [100, 101, 110, 115], [100, 101, 110, 115])]:
            self.assertEqual(self.clocks(ops), [first, second])

    def test_the_worked_example(self):
        # window 0: a miss, a hit1, 5 and two misses; window 1 from 400 + 376: 5, line 60 in L1, a miss; then a miss
        clocks = [100, 101, 101 + 205], [776 + 106, 776 + 106 + 100]
        world = pirkvezo.World.fresh(pirkvezo.read(contents(WORKED)))
        world.run()
        self.assertEqual([[record.clock for record in world.log(domain)] for domain in (0, 1)], list(map(list, clocks)))
        self.assertEqual(world.clock, 400 + 376 + 300 + 376)


class Shown(unittest.TestCase):
    def test_report(self):
        self.assertIn("switch (both flushes, the touch) and pad", page("plan", pirkvezo.read(contents(WORKED))))


if __name__ == "__main__":
    unittest.main()
