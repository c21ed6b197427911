"""run --only: bad input first; then one domain's log held to the log of all, on examples and on plans at random."""
import contextlib
import csv
import ctypes
import dataclasses
import io
import json
import os
import pathlib
import random
import subprocess
import tempfile
import unittest
from unittest import mock

import pirkvezo
from pirkvezo import library
from pirkvezo.history import history, history_of
from plans_at_random import plan_text
from test_bound import ACCEPTED, ALL_RUN, WORKED, contents, ran, told_without_the_library, with_file
from test_commands import FULL, ROOT, call
from test_frame import said
from test_refusals import CASES
from test_report import longest

FORMS = ([], ["--table"], ["--csv"], ["--json"])
MOST = 2097152
KEPT = ["run", "--only", "0", "--part", "4"]
LENGTHS = (0, 8, 100, 1000, 16384)


def only(domain, part, *more):
    """The arguments of a run that keeps one domain's log."""
    return ["run", "--only", str(domain), "--part", str(part), *more]


def lent(text):
    """A plan's numbers and scripts, with state, cache table and boxes at a fresh start."""
    plan = pirkvezo.read(text)
    numbers, scripts = library.PlanNumbers(*plan.numbers), library.Scripts(*plan.scripts)
    tables = library.StateNumbers(), library.CacheTable(), library.Boxes()
    library.fresh_start(numbers, *tables)
    return numbers, scripts, *tables


def without_records(window):
    """A window's history where the log of its owner is not kept."""
    return dataclasses.replace(window, ops=[dataclasses.replace(event, record=None) for event in window.ops])


def copies(arrays):
    return [type(array)(*array) for array in arrays]


def lendable(log):
    """A buffer of these bytes; one of none has an address too."""
    return ctypes.create_string_buffer(log, max(len(log), 1))


@contextlib.contextmanager
def named(text):
    """A file of this text: its name."""
    with tempfile.TemporaryDirectory() as folder:
        name = os.path.join(folder, "plan")
        pathlib.Path(name).write_bytes(text)
        yield name


class BadInput(unittest.TestCase):
    def test_one_without_the_other(self):
        for arguments, part in [
                (["--only", "0"], "--only needs --part"), (["--part", "4"], "--part needs --only"),
                (["--only", "9", "--table"], "--only needs --part"), (["--part", "0", "--json"], "--part needs --only"),
                (["--only", "0", "--log-length", "64"], "--only needs --part"),
                (["--part", "4", "--log-length", "64"], "--part needs --only")]:
            told_without_the_library(self, part, "run", *arguments, WORKED)
            told_without_the_library(self, part, "run", WORKED, *arguments)

    def test_with_the_log_of_all(self):
        for length in ("0", "64", "16384"):
            told_without_the_library(self, "--log-length is for the log of all domains", *KEPT, "--log-length", length,
                                     WORKED)

    def test_numbers(self):
        for bad in ("x", "", "-1", "0.0", "0x0", "+0", "٠", "1e3", "4 ", "all", "0,1", "9" * 5000):
            told_without_the_library(self, "--only: a number from 0 to 7 is due", *only(bad, 4), WORKED)
            told_without_the_library(self, f"--part: a number from 0 to {MOST} is due", *only(0, bad), WORKED)
        told_without_the_library(self, "--only: a number from 0 to 7 is due", *only(2**32, 4), WORKED)
        # what memory may not have is refused before any is asked for
        for part in (MOST + 1, 2**31, 2**32, 2**61, 2**64 - 1, 2**64):
            told_without_the_library(self, f"--part: a number from 0 to {MOST} is due", *only(0, part), WORKED)

    def test_other_arguments(self):
        for arguments, part in [
                ([*KEPT], "PLAN"), ([*KEPT, WORKED, WORKED], "unrecognized"), ([*KEPT, "nowhere.plan"], "no such file"),
                (["run", "--only", WORKED], "--only: a number"), (["run", WORKED, "--only"], "--only: expected"),
                (["run", WORKED, "--only", "0", "--part"], "--part: expected"),
                ([*KEPT, "--csv", "--json", WORKED], "--json"), ([*KEPT, "--windows", "-1", WORKED], "0 to 32000"),
                ([*KEPT, "--windows", "32001", WORKED], "0 to 32000"), ([*KEPT, "/dev/zero"], "more than 1048576"),
                ([*KEPT, os.path.join(ROOT, "examples")], "is a directory")]:
            told_without_the_library(self, part, *arguments)
        for command in ("check", "table", "bound"):
            told_without_the_library(self, "unrecognized arguments: --only=0", command, "--only=0", WORKED)

    def test_the_library_is_missing(self):
        for shared, part in [("/nowhere.so", "is not there"), (WORKED, "is not Pirkvezo's shared library")]:
            with mock.patch.dict(os.environ, PIRKVEZO_SHARED=shared):
                status, out, errors = said(*KEPT, WORKED)
            self.assertEqual((status, out, errors.count("\n")), (2, "", 1))
            self.assertIn(part, errors)

    def test_a_refused_plan_is_told_as_without(self):
        for text, number, *_ in CASES:
            for form in FORMS:
                with self.subTest(f"{text[:60]} {form}"):
                    told = with_file(text, "run", *form)
                    self.assertEqual(told[0], 1)
                    # and before an undeclared domain
                    for domain in (0, 7):
                        self.assertEqual(with_file(text, *only(domain, 4), *form), told)

    def test_what_is_no_plan(self):
        for text in (b"", b"\0\1\2", bytes(range(256)), b"\x1b[2J", b"(" * 100000):
            status, out, errors = with_file(text, *KEPT)
            self.assertEqual(status, 1)
            self.assertNotIn("\x1b", out + errors)

    def test_an_undeclared_domain(self):
        one = b"(pad 376)\n(domain 0 (share 34) (may))\n(window 0 (length 9))\n(run 1)"
        for text, domain, fix in [(ALL_RUN, 2, "one of the domains 0 to 1"), (ALL_RUN, 7, "one of the domains 0 to 1"),
                                  (ALL_RUN, 8, "one of the domains 0 to 1"), (ALL_RUN, 2**32 - 1, "one of the domains"),
                                  (one, 1, "domain 0")]:
            for part in (0, 4, MOST):
                words = f"plan: the plan does not declare domain {domain} [4]\n    fix: ask for {fix}"
                for form, out, errors in [([], "(refused 4 0)\n", words), (["--csv"], "", words),
                                          (["--table"], words, "")]:
                    told = with_file(text, *only(domain, part), *form, "--windows", "0")
                    self.assertEqual(told, with_file(text, *only(domain, part), *form))
                    self.assertEqual((told[0], told[1].startswith(out), told[2].startswith(errors)), (1, True, True))
                    self.assertEqual((told[1] + told[2]).count("\n"), 3 if form == [] else 2)
                status, out, errors = with_file(text, *only(domain, part), "--json")
                self.assertEqual((status, errors), (1, ""))
                refusal = json.loads(out)["refusal"]
                self.assertEqual((refusal["number"], refusal["companion"], refusal["line"]), (4, 0, None))
                self.assertEqual(refusal["words"], f"the plan does not declare domain {domain}")

    def test_standard_input(self):
        self.assertEqual(call(*KEPT, "-", text=b"(pad 1)")[:2], (1, "(refused 3 5)\n"))
        for form in FORMS:
            status, out, errors = call(*KEPT, *form, "-", text=contents(WORKED))
            told = said(*KEPT, *form, WORKED)
            self.assertEqual((status, out, errors), tuple(
                part.replace(WORKED, "standard input") if isinstance(part, str) else part for part in told))

    @unittest.skipUnless(os.path.exists(FULL), "no " + FULL)
    def test_a_failed_write_is_not_status_0(self):
        for form in FORMS:
            with open(FULL, "wb") as full:
                done = ran(*KEPT, *form, WORKED, stdout=full, stderr=subprocess.PIPE)
            self.assertEqual((done.returncode, done.stderr.count(b"\n")), (2, 1), done.stderr)

    def test_bad_values(self):
        plan = pirkvezo.read(ALL_RUN)
        for domain in (-1, 2**32, "0", None, 0.0):
            self.assertRaises(ValueError, pirkvezo.KeptWorld.fresh, plan, domain, 4)
        for part in (-1, MOST + 1, 2**64, "4", None, 4.0):
            self.assertRaisesRegex(ValueError, f"0 to {MOST} records", pirkvezo.KeptWorld.fresh, plan, 0, part)
        world = pirkvezo.KeptWorld.fresh(plan, 1, 4)
        for domain in (0, 2, -1, None):
            self.assertRaises(ValueError, world.log, domain)
            self.assertRaises(ValueError, world.last_record, domain)
        self.assertRaises(IndexError, world.last_record, 1)
        for limit in (-1, 2**64, "1"):
            self.assertRaises(ValueError, world.run, limit)

    def test_an_undeclared_domain_from_python(self):
        plan = pirkvezo.read(ALL_RUN)
        for asked in (lambda: pirkvezo.KeptWorld.fresh(plan, 2, 4), lambda: pirkvezo.World.fresh(plan).log(2)):
            with self.assertRaises(pirkvezo.Refused) as caught:
                asked()
            self.assertEqual(str(caught.exception), "the plan does not declare domain 2 [4]")
            self.assertEqual(caught.exception.companion, 0)
            self.assertEqual(caught.exception.fix, "ask for one of the domains 0 to 1")

    def test_values_that_no_text_gives(self):
        plan = pirkvezo.read(ALL_RUN)
        for at, number in [(0, 375), (1, 0), (2, 9), (3, 33), (4, 1001), (84, 0)]:
            numbers = plan.numbers[:at] + (number,) + plan.numbers[at + 1:]
            # 12 comes before 4
            for domain in (0, 7):
                with self.assertRaises(pirkvezo.Refused) as caught:
                    pirkvezo.KeptWorld.fresh(dataclasses.replace(plan, numbers=numbers), domain, 4)
                self.assertEqual((caught.exception.number, caught.exception.companion), (12, 0))

    def test_the_order_of_refusals(self):
        """All that can be wrong is, and is put right from the first to the last; nothing that is lent changes."""
        plan, scripts, state, cache, boxes = lent(ALL_RUN)
        kept = ctypes.create_string_buffer(b"x" * 40, 40)
        plan[0], boxes[0], state[11] = 375, 1, 5

        def answer(length, domain=2, part=4):
            before = [bytes(array) for array in (plan, scripts, state, cache, boxes, kept)]
            told = library.run_kept(plan, scripts, state, cache, boxes, kept, length, domain, part, 100)
            if told[0]:
                self.assertEqual([bytes(array) for array in (plan, scripts, state, cache, boxes, kept)], before)
            return told

        for length in (0, 24, 31, 33, 40):
            self.assertEqual(answer(length), (11, 0, 0, 0))
        # products that 64 bits would cut to 0 and to 32
        for length, part in [(0, 2**61), (32, 2**61 + 4), (0, 2**63), (32, 2**64 - 1)]:
            self.assertEqual(answer(length, part=part), (11, 0, 0, 0))
        self.assertEqual(answer(32), (12, 0, 0, 0))
        plan[0] = 376
        self.assertEqual(answer(32), (13, 0, 0, 0))
        boxes[0] = 0
        # records of a domain that is not kept
        self.assertEqual(answer(32, domain=0), (14, 0, 0, 0))
        self.assertEqual(answer(32), (14, 0, 0, 0))
        state[11] = 0
        self.assertEqual(answer(32), (4, 0, 0, 0))
        self.assertEqual(answer(32, domain=2**32 - 1), (4, 0, 0, 0))
        self.assertEqual(answer(32, domain=1), (0, 0, 11, 1))
        self.assertEqual(kept.raw[16:], b"x" * 24)


class Same(unittest.TestCase):
    """What is printed of one domain is what run prints of it with the log of all."""

    def held(self, name, length, *more):
        """Every form and every declared domain, with the room that a log of this length has."""
        domains = pirkvezo.read(contents(name)).domains
        for form, cut in [([], self.lines), (["--csv"], self.rows), (["--json"], self.values),
                          (["--table"], self.table)]:
            whole = said("run", "--log-length", str(length), *form, *more, name)
            for domain in range(domains):
                with self.subTest(f"{name} {domain} {length} {form} {more}"):
                    one = said(*only(domain, length // (8 * domains)), *form, *more, name)
                    self.assertEqual((one[0], one[2]), (0, whole[2]))
                    self.assertEqual(*cut(domain, whole[1], one[1]))

    # what is due of the output of run, and what was printed

    def lines(self, domain, whole, one):
        *seen, end = whole.splitlines()
        return [line for line in seen if line.startswith(f"(seen {domain} ")] + [end], one.splitlines()

    def rows(self, domain, whole, one):
        head, *rows = csv.reader(io.StringIO(whole))
        return [head] + [row for row in rows if row[0] == str(domain)], list(csv.reader(io.StringIO(one)))

    def values(self, domain, whole, one):
        values = json.loads(whole)
        del values["log_length"]
        return dict(values, only=domain, domains=[values["domains"][domain]]), json.loads(one)

    def table(self, domain, whole, one):
        head, *blocks = whole.split("\n\n")
        first, steps = head.split("\n")
        sums = blocks[-1].split("\n")
        kept = [f"{first}, and only domain {domain}'s are kept", steps, blocks[domain], *sums[:2], sums[2 + domain]]
        # columns are as wide as what stands in them
        return " ".join(kept).split(), one.split()

    def test_examples(self):
        self.assertTrue(ACCEPTED)
        for name in ACCEPTED:
            for length in LENGTHS:
                self.held(name, length)

    def test_examples_stopped_after_some_windows(self):
        for name in ACCEPTED:
            for windows in {0, 1, pirkvezo.read(contents(name)).windows_total - 1, 32000}:
                self.held(name, 100, "--windows", str(windows))

    def test_the_kept_outputs_of_examples(self):
        for name in ACCEPTED:
            plan, kept = pirkvezo.read(contents(name)), contents(name[:-5] + ".out").decode()
            for domain in range(plan.domains):
                # 256 are as good as what the log of run has room for
                for part in (256, 16384 // (8 * plan.domains), MOST):
                    out = said(*only(domain, part), name)[1]
                    self.assertEqual(*self.lines(domain, kept, out))

    def test_at_random(self):
        chance = random.Random(51)
        for _ in range(40):
            more = chance.choice([[], [], ["--windows", str(chance.randrange(12))]])
            with named(plan_text(chance)) as name:
                self.held(name, chance.choice([*LENGTHS, chance.randrange(2000)]), *more)

    def test_the_longest_run(self):
        with named(longest()) as name:
            for domain in (0, 7):
                whole, one = said("run", name), said(*only(domain, 256), name)
                self.assertEqual((one[0], one[2]), (0, whole[2]))
                self.assertEqual(*self.lines(domain, whole[1], one[1]))


class Worlds(unittest.TestCase):
    """All that a run leaves, call by call, beside the run with the log of all."""

    def tables(self, world, domain, part):
        """State, cache table and boxes of a world, and the bytes of one domain's part."""
        offset = 0 if isinstance(world, pirkvezo.KeptWorld) else 8 * part * domain
        return bytes(world._state), world.cache, world.boxes, bytes(world._log)[offset:offset + 8 * part]

    def test_however_a_run_is_cut(self):
        chance = random.Random(52)
        for _ in range(60):
            plan = pirkvezo.read(plan_text(chance))
            domain, length = chance.randrange(plan.domains), chance.choice([*LENGTHS, chance.randrange(2000)])
            whole = pirkvezo.World.fresh(plan, length)
            one = pirkvezo.KeptWorld.fresh(plan, domain, whole.records_room)
            self.assertEqual(one.records_room, whole.records_room)
            ended = False
            while not ended:
                steps, windows = chance.choice([0, 1, 2, 10, 40]), chance.randrange(4)
                some = chance.choice([lambda world: world.step(), lambda world: world.run(steps),
                                      lambda world: world.run_windows(world.windows + windows)])
                done = some(whole)
                self.assertEqual(some(one), done)
                self.assertEqual(self.tables(one, domain, one.part), self.tables(whole, domain, one.part))
                self.assertEqual((one.log(domain), one.steps), (whole.log(domain), whole.steps))
                ended = done.ended
            self.assertEqual(one.run(), pirkvezo.Run(0, True))

    def test_history(self):
        chance = random.Random(53)
        for _ in range(20):
            plan, length = pirkvezo.read(plan_text(chance)), chance.choice(LENGTHS)
            passed = history(plan, length)
            for domain in range(plan.domains):
                found = history_of(pirkvezo.KeptWorld.fresh(plan, domain, length // (8 * plan.domains)))
                self.assertEqual(found, [window if window.owner == domain else without_records(window)
                                         for window in passed])

    def test_any_tables(self):
        """State, tables and log at random: the same answer, and the same left behind, refused or not."""
        chance, numbers = random.Random(54), set()
        for _ in range(300):
            plan, scripts, *tables = lent(plan_text(chance))
            domain, length = chance.randrange(plan[2]), chance.choice([*LENGTHS, chance.randrange(2000)])
            part = length // (8 * plan[2])
            for array, most in zip(tables, (part + 2, 5000, 3)):
                for _ in range(chance.choice([0, 0, 1, 3])):
                    array[chance.randrange(len(array))] = chance.randrange(most)
            own, log = slice(8 * part * domain, 8 * part * (domain + 1)), chance.randbytes(length)
            others, whole, kept = copies(tables), lendable(log), lendable(log[own])
            answer = library.run(plan, scripts, *tables, whole, length, 30)
            self.assertEqual(library.run_kept(plan, scripts, *others, kept, 8 * part, domain, part, 30), answer)
            self.assertEqual([bytes(array) for array in others], [bytes(array) for array in tables])
            self.assertEqual(kept.raw[:8 * part], whole.raw[own])
            numbers.add(answer[0])
        self.assertEqual(numbers, {0, 13, 14})


class Only(unittest.TestCase):
    def test_another_domain_goes_idle_where_its_part_would_be_full(self):
        sent, missed = "(seen 1 882 (got 77))", "(seen 1 882 (empty 0))"
        for part, lines, steps in [(0, [], 2), (1, [missed], 4), (2, [missed, "(seen 1 982 (miss 100))"], 6),
                                   (3, [sent, "(seen 1 982 (miss 100))"], 7),
                                   (256, [sent, "(seen 1 982 (miss 100))"], 7)]:
            status, out, errors = said(*only(1, part), WORKED)
            self.assertEqual((status, out.splitlines()), (0, lines + ["(end 2 1452)"]))
            self.assertEqual(errors, f"{WORKED}: {steps} steps of at most 7\n")

    def test_no_room_for_anybody(self):
        for name in ACCEPTED:
            plan = pirkvezo.read(contents(name))
            for domain in range(plan.domains):
                status, out, errors = said(*only(domain, 0), name)
                self.assertEqual((status, out), (0, f"(end {plan.windows_total} {plan.ticks_total})\n"))
                self.assertIn(f": {plan.windows_total} steps of at most {plan.bound}\n", errors)

    def test_nothing_of_others_is_stored(self):
        chance = random.Random(55)
        for _ in range(40):
            plan = pirkvezo.read(plan_text(chance))
            domain = chance.randrange(plan.domains)
            world = pirkvezo.KeptWorld.fresh(plan, domain, 256)
            world.run()
            length = 8 * world.counts[domain]
            self.assertEqual((len(world.log(domain)), any(bytes(world._log)[length:])), (length // 8, False))

    def test_arguments_in_any_order(self):
        told = said(*only(1, 4), "--table", WORKED)
        for arguments in (["--part", "4", "--table", WORKED, "--only", "1"],
                          [WORKED, "--only=1", "--part=4", "--table"],
                          ["--table", "--only", "01", "--part", "0004", WORKED]):
            self.assertEqual(said("run", *arguments), told)

    def test_without_it_nothing_has_changed(self):
        self.assertEqual(said("run", WORKED), said("run", "--log-length", "16384", WORKED))
        values = json.loads(said("run", "--json", WORKED)[1])
        self.assertEqual(list(values), ["file", "refusal", "windows", "clock", "ended", "steps", "bound", "log_length",
                                        "records_room", "domains"])
        self.assertEqual((values["log_length"], values["records_room"]), (16384, 1024))

    def test_help(self):
        status, out, _ = said("run", "--help")
        self.assertEqual(status, 0)
        for part in ("pirkvezo run --only 1 --part 256 examples/", "--only DOMAIN", "--part N", "BYTES / (8 * domains)",
                     "goes idle", "exit status of run: 1 also where the DOMAIN of --only is refused"):
            self.assertIn(part, out)


class Wrong(unittest.TestCase):
    """Answers that the proved library does not give: the desk says so, or takes its word."""

    def told(self, wrong, words, domain=0):
        """One line with these words and status 2, in every form."""
        with mock.patch.object(library, "run_kept", wrong):
            for form in FORMS:
                status, out, errors = said(*only(domain, 2), *form, WORKED)
                self.assertEqual((status, out, errors.count("\n")), (2, "", 1))
                self.assertIn(words, errors)

    def test_the_verdict_is_the_library_s(self):
        """Whatever it refuses is refused, also where the desk sees no cause."""
        with mock.patch.object(library, "run_kept", return_value=(4, 0, 0, 0)):
            status, out, errors = said(*KEPT, WORKED)
            self.assertEqual((status, out), (1, "(refused 4 0)\n"))
            self.assertEqual(errors, f"{WORKED}: the plan does not declare that domain [4]\n")

    def test_another_refusal(self):
        for number in (11, 12, 13, 14):
            self.told(lambda *_: (number, 0, 0, 0), "the library refused a call: ")

    def test_a_domain_that_is_not_declared_is_taken(self):
        for domain in (2, 7, 9):
            self.told(lambda *_: (0, 0, 0, 0), f"THIS MUST NOT HAPPEN: a log is kept for domain {domain}", domain)

    def test_what_cannot_be(self):
        right = library.run_kept

        def changed(change):
            """The library's own answer, with what it leaves changed behind its back."""
            def wrong(plan, scripts, state, cache, boxes, kept, *rest):
                answer = right(plan, scripts, state, cache, boxes, kept, *rest)
                if answer[2]:
                    change(state, kept)
                return answer
            return wrong

        def more_records(state, _kept):
            state[10] = 3

        def no_kind(_state, kept):
            kept[0] = 0

        def odd_kind(_state, kept):
            kept[0] = 10

        for change, words in [(more_records, "domain 0 has 3 records, and its part has room for 2"),
                              (no_kind, "a record has the kind 0"), (odd_kind, "a record has the kind 10")]:
            self.told(changed(change), f"THIS MUST NOT HAPPEN: {words}")

    def test_steps_and_ending(self):
        for answer, words in [((0, 0, 3, 0), "a run has not ended"), ((0, 0, 8, 1), "its bound is 7")]:
            def wrong(*lent_and_limit):
                # nothing is wrong with the verdict
                return answer if lent_and_limit[-1] else (0, 0, 0, 0)
            with mock.patch.object(library, "run_kept", wrong):
                status, out, errors = said(*KEPT, WORKED)
            self.assertEqual((status, out, errors.count("\n")), (2, "", 1))
            self.assertIn(words, errors)


if __name__ == "__main__":
    unittest.main()
