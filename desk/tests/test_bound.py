"""bound: bad input first; then the bound held to runs of examples, of plans at random and of plans made for it."""
import collections
import csv
import dataclasses
import glob
import io
import json
import os
import pathlib
import random
import re
import subprocess
import sys
import tempfile
import unittest
from unittest import mock

import pirkvezo
from pirkvezo import library
from pirkvezo.history import history
from pirkvezo.report import page
from plans_at_random import plan_text
from test_commands import FULL, ROOT, call
from test_frame import said
from test_refusals import CASES
from test_report import longest

EXAMPLES = sorted(glob.glob(os.path.join(ROOT, "examples", "*.plan")))
ACCEPTED = [name for name in EXAMPLES if not pathlib.Path(name[:-5] + ".out").read_text().startswith("(refused ")]
WORKED = os.path.join(ROOT, "examples", "worked_example.plan")
SUFFICES = "A limit that always suffices: a run with it ends, however long its log is."

HEAD = "(pad 376)\n(domain 0 (share 400) (may 1))\n(domain 1 (share 300) (may))\n"
# three ops and two, and all of them run
ALL_RUN = HEAD + ("(window 0 (length 1000))\n(window 1 (length 1000))\n(run 3)\n(op 0 (compute 5))\n(op 0 (read 3))\n"
                  "(op 0 (send 1 7))\n(op 1 (receive 0))\n(op 1 (read 9999))\n")
# the same ops where domain 1 has no window, and where four windows have one tick each
NO_WINDOW = ALL_RUN.replace("(window 1 ", "(window 0 ")
SHORT = ALL_RUN.replace("1000", "1").replace("(run 3)", "(run 2)")
# 256 ops of one tick, and two windows of 100: both are full to their ends
FULL_WINDOWS = HEAD + "(window 0 (length 100))\n(run 2)\n" + "(op 0 (compute 1))\n" * 256

# numbers that no op has: they end a script
NO_OPS = [0, 65535, 1 << 20 | 1 << 16, 3 << 20 | 8 << 16, 4 << 20 | 1, 5 << 20, 5 << 20 | 201, 6 << 20, 2**32 - 1]


def contents(name):
    return pathlib.Path(name).read_bytes()


def by_hand(text):
    """The ops of each domain, the windows of a round and the rounds, counted in a text that is accepted."""
    text = text if isinstance(text, str) else text.decode()
    ops = collections.Counter(map(int, re.findall(r"\(op (\d)", text)))
    domains = len(re.findall(r"\(domain ", text))
    return ([ops[domain] for domain in range(domains)], len(re.findall(r"\(window ", text)),
            int(re.search(r"\(run (\d+)", text).group(1)))


def with_file(text, *arguments):
    """The command line with these arguments and a file of this text behind them; its name is plan."""
    with tempfile.TemporaryDirectory() as folder:
        name = os.path.join(folder, "plan")
        pathlib.Path(name).write_bytes(text if isinstance(text, bytes) else text.encode("utf-8"))
        status, out, errors = said(*arguments, name)
        return status, out.replace(name, "plan"), errors.replace(name, "plan")


def ran(*arguments, **options):
    """python3 -m pirkvezo with these arguments and streams, as a process that has ended.

    Its streams hold lines back, as they do by themselves: that is when a failed write comes late.
    """
    kept = dict(os.environ, PYTHONPATH=os.path.join(ROOT, "desk"), PYTHONUNBUFFERED="")
    return subprocess.run([sys.executable, "-m", "pirkvezo", *arguments], cwd=ROOT, timeout=60, env=kept, **options)


def told_without_the_library(test, part, *arguments):
    """Bad arguments are told in one line, before the library is looked for."""
    with test.subTest(arguments):
        with mock.patch.dict(os.environ, PIRKVEZO_SHARED="/nowhere.so"), \
                mock.patch("sys.stdin", io.TextIOWrapper(io.BytesIO(b""))), \
                mock.patch("pirkvezo.inputs._taken", []):
            status, out, errors = said(*arguments)
        test.assertEqual((status, out), (2, ""))
        test.assertEqual(errors.count("\n"), 1, errors)
        test.assertIn(part, errors)


def told_to_be_missing(test, command, plan):
    """A library that is not there, or is another file, is told in one line."""
    for shared, part in [("/nowhere.so", "is not there"), (plan, "is not Pirkvezo's shared library")]:
        with mock.patch.dict(os.environ, PIRKVEZO_SHARED=shared):
            status, out, errors = said(command, plan)
        test.assertEqual((status, out, errors.count("\n")), (2, "", 1))
        test.assertIn(part, errors)


def told_as_by_table(test, command):
    """A plan that is refused is told with line and column, just as `table` tells it."""
    for text, number, line, column, *_ in CASES:
        with test.subTest(text[:60]):
            told = with_file(text, command)
            test.assertEqual(told, with_file(text, "table"))
            test.assertEqual((told[0], told[2]), (1, ""))
            test.assertTrue(told[1].startswith(f"plan:{line}:{column}: ") and f" [{number}]\n" in told[1], told[1])
            status, out, errors = with_file(text, command, "--json")
            test.assertEqual((status, errors), (1, ""))
            values = json.loads(out)
            test.assertEqual(set(values), {"file", "refusal"})
            test.assertEqual((values["refusal"]["number"], values["refusal"]["line"]), (number, line))


class BadInput(unittest.TestCase):
    def test_arguments(self):
        for arguments, part in [
                ([], "PLAN"), ([WORKED, WORKED], "unrecognized"), ([WORKED, "7"], "unrecognized"),
                (["-", "-"], "unrecognized"), ([WORKED, "--nothing"], "--nothing"), ([WORKED, "--csv"], "--csv"),
                ([WORKED, "--windows", "1"], "--windows"), ([WORKED, "--json=1"], "--json"),
                (["nowhere.plan"], "nowhere.plan: no such file"), ([""], "no such file"),
                ([os.path.join(ROOT, "examples")], "is a directory"), (["a\0b"], "is no file name"),
                (["/dev/zero"], "more than 1048576 bytes"), (["a\nb\x1b[1m"], "a␊b␛[1m")]:
            told_without_the_library(self, part, "bound", *arguments)

    def test_the_library_is_missing(self):
        told_to_be_missing(self, "bound", WORKED)

    def test_every_refusal_is_told_as_by_table(self):
        told_as_by_table(self, "bound")

    def test_what_is_no_plan(self):
        readme = contents(os.path.join(ROOT, "README.md"))
        for text in (b"", b"\0\1\2", bytes(range(256)), b"\x1b[2J", b"(" * 100000, readme):
            status, out, errors = with_file(text, "bound")
            self.assertEqual((status, errors), (1, ""))
            self.assertNotIn("\x1b", out)

    def test_standard_input(self):
        self.assertEqual(call("bound", "-", text=b"(pad 1)")[::2], (1, ""))
        status, out, errors = call("bound", "-", text=contents(WORKED))
        self.assertEqual((status, errors), (0, ""))
        self.assertEqual(out, said("bound", WORKED)[1].replace(WORKED, "standard input"))

    @unittest.skipUnless(os.path.exists(FULL), "no " + FULL)
    def test_a_failed_write_is_not_status_0(self):
        for command in (["bound"], ["bound", "--json"], ["run"], ["run", "--csv"]):
            with open(FULL, "wb") as full:
                done = ran(*command, WORKED, stdout=full, stderr=subprocess.PIPE)
            self.assertEqual((done.returncode, done.stderr.count(b"\n")), (2, 1), done.stderr)

    def test_values_that_no_text_gives(self):
        plan = pirkvezo.read(ALL_RUN)
        for at, number in [(0, 375), (1, 0), (1, 1001), (2, 9), (3, 0), (3, 33), (4, 1001), (84, 0)]:
            numbers = plan.numbers[:at] + (number,) + plan.numbers[at + 1:]
            with self.subTest(f"{at} {number}"), self.assertRaises(pirkvezo.Refused) as caught:
                dataclasses.replace(plan, numbers=numbers).bound
            self.assertEqual((caught.exception.number, caught.exception.companion), (12, 0))


class Bound(unittest.TestCase):
    def test_text(self):
        status, out, errors = said("bound", WORKED)
        self.assertEqual((status, errors), (0, ""))
        self.assertEqual(out.splitlines(), [
            f"{WORKED}: a run takes at most 7 steps", SUFFICES, "",
            "domain  ops stored",
            "     0           3",
            "     1           2",
            "   all           5",
            "ops stored: also those that the run never reaches, so it may take fewer steps.", "",
            "Switches: 2 windows x 1 round = 2",
            "Added up: 5 ops and 2 switches make 7 steps, as the library says."])
        self.assertTrue(out.isascii())
        one = with_file("(pad 376)\n(domain 0 (share 34) (may))\n(window 0 (length 1))\n(run 1)", "bound")[1]
        self.assertIn("plan: a run takes at most 1 step\n", one)
        self.assertIn("Switches: 1 window x 1 round = 1\nAdded up: 0 ops and 1 switch make 1 step,", one)

    def test_json(self):
        status, out, errors = with_file(ALL_RUN, "bound", "--json")
        self.assertEqual((status, errors), (0, ""))
        self.assertEqual(json.loads(out), dict(
            file="plan", refusal=None, bound=11, ops=5, windows=2, run=3, switches=6,
            domains=[dict(domain=0, ops=3), dict(domain=1, ops=2)], faults=[]))

    def test_help(self):
        status, out, _ = said("bound", "--help")
        self.assertEqual(status, 0)
        for part in ("pirkvezo bound examples/", "--json", "or - for standard input", "always suffices", "exit status"):
            self.assertIn(part, out)

    def test_examples(self):
        self.assertTrue(ACCEPTED)
        for name in EXAMPLES:
            with self.subTest(name):
                status, out, _ = said("bound", "--json", name)
                self.assertEqual(status, 0 if name in ACCEPTED else 1)
                if name in ACCEPTED:
                    self.held(json.loads(out), contents(name))

    def test_at_random(self):
        chance = random.Random(25)
        for _ in range(60):
            text = plan_text(chance)
            status, out, errors = with_file(text, "bound", "--json")
            self.assertEqual((status, errors), (0, ""), text)
            self.held(json.loads(out), text)

    def held(self, values, text):
        """What the command says of a plan is what stands in its text, and no run takes more."""
        ops, windows, rounds = by_hand(text)
        self.assertEqual(values, dict(
            file=values["file"], refusal=None, bound=sum(ops) + windows * rounds, ops=sum(ops), windows=windows,
            run=rounds, switches=windows * rounds, faults=[],
            domains=[dict(domain=domain, ops=number) for domain, number in enumerate(ops)]))
        plan = pirkvezo.read(text)
        self.assertEqual(plan.bound, values["bound"])
        for length in (0, 100, 16384):
            done = pirkvezo.World.fresh(plan, length).run(plan.bound)
            self.assertTrue(done.ended and done.steps <= plan.bound, (text, length))
            self.assertEqual(pirkvezo.World.fresh(plan, length).run(2**64 - 1), done)
            self.assertEqual(pirkvezo.World.fresh(plan, length).run(), done)

    def test_any_scripts(self):
        """The library counts a script's ops up to the first number that is none, and so does the desk."""
        chance, plan = random.Random(26), pirkvezo.read("(pad 376)\n" + "".join(
            f"(domain {domain} (share 99) (may))\n" for domain in range(8)) + "(window 3 (length 9))\n(run 5)")
        for _ in range(40):
            # some numbers that are no ops, near those that are
            rare = chance.choice([0, 0.01, 0.3])
            scripts = [chance.choice(NO_OPS) if chance.random() < rare else chance.choice([1, 2]) << 20
                       | chance.randrange(65536) for _ in range(2048)]
            made = dataclasses.replace(plan, scripts=tuple(scripts))
            self.assertEqual(made.bound, 5 + sum(len(made.ops(domain)) for domain in range(8)))
            self.assertTrue(pirkvezo.World.fresh(made, 1 << 20).run().ended)

    def test_scripts_of_domains_that_are_not_declared_count(self):
        plan = pirkvezo.read(ALL_RUN)
        scripts = plan.scripts[:-256] + (1 << 20,) * 256
        self.assertEqual(dataclasses.replace(plan, scripts=scripts).bound, plan.bound + 256)


class Runs(unittest.TestCase):
    def steps(self, text, length=16384):
        """The steps of a run to its end, and the bound."""
        plan = pirkvezo.read(text)
        world = pirkvezo.World.fresh(plan, length)
        done = world.run()
        self.assertTrue(done.ended)
        self.assertEqual((world.steps, world.windows), (done.steps, plan.windows_total))
        return done.steps, plan.bound

    def test_exactly_the_bound(self):
        self.assertEqual(self.steps(ALL_RUN), (11, 11))
        plan = pirkvezo.read(ALL_RUN)
        self.assertEqual(pirkvezo.World.fresh(plan).run(10), pirkvezo.Run(10, False))
        self.assertEqual(pirkvezo.World.fresh(plan).run(11), pirkvezo.Run(11, True))

    def test_fewer(self):
        # a log without room, or with room for one record of each domain
        self.assertEqual(self.steps(ALL_RUN, 0), (6, 11))
        self.assertEqual(self.steps(ALL_RUN, 16), (8, 11))
        # two ops of a domain that has no window
        self.assertEqual(self.steps(NO_WINDOW), (9, 11))
        # windows so short that one op begins in each
        self.assertEqual(self.steps(SHORT), (8, 9))
        self.assertEqual(self.steps(FULL_WINDOWS), (202, 258))

    def test_the_largest_bound(self):
        self.assertEqual(self.steps(longest()), (34048, 34048))

    def test_a_window_takes_no_more_steps_than_its_length_and_one(self):
        chance = random.Random(27)
        self.assertEqual([window.steps for window in history(pirkvezo.read(FULL_WINDOWS))], [101, 101])
        self.assertEqual([window.steps for window in history(pirkvezo.read(SHORT))], [2, 2, 2, 2])
        for _ in range(25):
            plan, length = pirkvezo.read(plan_text(chance)), chance.choice([0, 100, 16384])
            passed = history(plan, length)
            for window in passed:
                self.assertEqual(window.steps, len(window.ops) + 1)
                self.assertLessEqual(window.steps, window.end - window.start + 1)
            self.assertEqual(sum(window.steps for window in passed), pirkvezo.World.fresh(plan, length).run().steps)

    def test_calls_together(self):
        """However a run is cut into calls, they take the steps of one; and the rest needs no limit."""
        chance = random.Random(28)
        for _ in range(40):
            plan = pirkvezo.read(plan_text(chance))
            whole = pirkvezo.World.fresh(plan).run().steps
            world, done = pirkvezo.World.fresh(plan), 0
            for _ in range(chance.randrange(5)):
                some = chance.choice([world.step, lambda: world.run(chance.randrange(20)),
                                      lambda: world.run_windows(world.windows + 1)])
                done += some().steps
                self.assertEqual(world.steps, done)
            last = world.run()
            self.assertEqual((last.ended, done + last.steps, world.steps), (True, whole, whole))
            self.assertEqual(world.run(), pirkvezo.Run(0, True))
            self.assertEqual(world.steps, whole)


class Shown(unittest.TestCase):
    """The steps and the bound in what run and report say."""

    def test_planrun_s_form_and_csv(self):
        for name in ACCEPTED:
            plan = pirkvezo.read(contents(name))
            steps = pirkvezo.World.fresh(plan).run().steps
            line = f"{name}: {steps} steps of at most {plan.bound}\n"
            self.assertEqual(said("run", name), (0, contents(name[:-5] + ".out").decode(), line))
            status, out, errors = said("run", "--csv", name)
            self.assertEqual((status, errors), (0, line))
            rows = list(csv.reader(io.StringIO(out)))
            self.assertEqual(rows[0], ["domain", "window", "index", "position", "begin", "clock", "kind", "value"])
            self.assertEqual(len(rows) - 1 + plan.windows_total, steps)

    def test_a_refused_plan_has_no_such_line(self):
        for form in ([], ["--csv"], ["--table"], ["--json"]):
            status, out, errors = with_file("(pad 1)", "run", *form)
            self.assertEqual(status, 1)
            self.assertNotIn("of at most", out + errors)

    def test_table_and_json(self):
        for options, state, steps in [([], "ended after 6 windows", 11), (["--log-length", "16"], "ended after 6", 8),
                                      (["--windows", "0"], "stopped after 0 windows", 0),
                                      (["--windows", "1"], "stopped after 1 window", 4)]:
            said_of_it = f"{steps} steps of at most 11"
            status, out, errors = with_file(ALL_RUN, "run", "--table", *options)
            self.assertEqual((status, errors), (0, ""))
            first, second, third = out.splitlines()[:3]
            self.assertIn(state, first)
            self.assertEqual((second, third), (said_of_it, ""))
            status, out, errors = with_file(ALL_RUN, "run", "--json", *options)
            self.assertEqual((status, errors), (0, ""))
            values = json.loads(out)
            self.assertEqual((values["steps"], values["bound"]), (steps, 11))
            self.assertEqual(with_file(ALL_RUN, "run", *options)[2], f"plan: {said_of_it}\n")

    def test_report(self):
        plan = pirkvezo.read(ALL_RUN)
        self.assertIn("5 ops done; 11 steps of at most 11; log of 16384 bytes", page("plan", plan))
        self.assertIn("0 ops done; 6 steps of at most 11; log of 0 bytes", page("plan", plan, log_length=0))
        # of the whole run, also where a part of it is drawn
        self.assertIn("; 11 steps of at most 11; ", page("plan", plan, windows=range(1, 2)))

    def test_standard_error_takes_nothing(self):
        """Then the line is lost, and neither the output nor the status changes."""
        def printed(name, **options):
            done = ran("run", name, stdout=subprocess.PIPE, **options)
            return done.returncode, done.stdout
        closed, kept = dict(preexec_fn=lambda: os.close(2)), contents(WORKED[:-5] + ".out")
        self.assertEqual(printed(WORKED, **closed), (0, kept))
        self.assertEqual(printed("examples/oversold.plan", **closed), (1, b"(refused 7 1100)\n"))
        reader, writer = os.pipe()
        os.close(reader)
        self.assertEqual(printed(WORKED, stderr=writer), (0, kept))
        os.close(writer)
        if os.path.exists(FULL):
            with open(FULL, "wb") as full:
                self.assertEqual(printed(WORKED, stderr=full), (0, kept))


class Wrong(unittest.TestCase):
    """Answers that the proved library does not give: the desk says so."""

    def test_parts_that_do_not_add_up(self):
        for bound in (10, 12, 0, 2**64 - 1):
            with mock.patch.object(library, "step_bound", return_value=(0, 0, bound, 0)):
                status, out, _ = with_file(ALL_RUN, "bound")
                self.assertEqual(status, 2)
                self.assertNotIn("suffices", out)
                wrong = f"5 ops and 6 switches make 11 steps, and the library says {bound}"
                self.assertTrue(out.endswith(f"Added up: WRONG, {wrong}.\n"), out)
                status, out, _ = with_file(ALL_RUN, "bound", "--json")
                self.assertEqual((status, json.loads(out)["bound"], json.loads(out)["faults"]), (2, bound, [wrong]))

    def test_a_bound_that_is_too_small(self):
        with mock.patch.object(library, "step_bound", return_value=(0, 0, 10, 0)):
            world = pirkvezo.World.fresh(pirkvezo.read(ALL_RUN))
            with self.assertRaisesRegex(pirkvezo.Fault, "with a limit of 10 steps, its bound, a run has not ended"):
                world.run()
            with self.assertRaisesRegex(pirkvezo.Fault, "a run has taken 11 steps, and its bound is 10"):
                world.step()
            world = pirkvezo.World.fresh(pirkvezo.read(ALL_RUN))
            self.assertRaises(pirkvezo.Fault, world.run, 2**64 - 1)
            self.assertRaises(pirkvezo.Fault, pirkvezo.World.fresh(pirkvezo.read(ALL_RUN)).run_windows, 6)
            self.assertRaises(pirkvezo.Fault, history, pirkvezo.read(ALL_RUN))

    def test_a_run_that_has_not_ended(self):
        with mock.patch.object(library, "run", return_value=(0, 0, 3, 0)):
            world = pirkvezo.World.fresh(pirkvezo.read(ALL_RUN))
            self.assertEqual(world.run(3), pirkvezo.Run(3, False))
            self.assertRaises(pirkvezo.Fault, world.run)

    def test_commands_say_it_in_one_line(self):
        with mock.patch.object(library, "step_bound", return_value=(0, 0, 10, 0)):
            for arguments in (["run"], ["run", "--table"], ["run", "--csv"], ["run", "--json"], ["check"],
                              ["report", "-o", "-"], ["compare", WORKED]):
                with self.subTest(arguments):
                    status, out, errors = with_file(ALL_RUN, *arguments)
                    self.assertEqual((status, out, errors.count("\n")), (2, "", 1))
                    self.assertIn("THIS MUST NOT HAPPEN: ", errors)


if __name__ == "__main__":
    unittest.main()
