"""frame: bad input first, then frames worked out by hand, and plans made of the printed lines."""
import contextlib
import io
import json
import os
import pathlib
import random
import sys
import tempfile
import unittest
from unittest import mock

ROOT = pathlib.Path(__file__).resolve().parents[2]
sys.path.insert(0, str(ROOT / "desk"))

import pirkvezo
from pirkvezo import library
from pirkvezo.cli import main
from pirkvezo.frames import Frame
from pirkvezo.inputs import refusal_lines

# count, weights, and the frame, worked out by hand
WORKED = [
    (7, [3, 2, 2], [0, 1, 2, 0, 1, 2, 0]),
    (10, [1, 1, 1], [0, 1, 2, 0, 1, 2, 0, 1, 2, 0]),
    (5, [3, 2, 2], [0, 1, 2, 0, 1]),
    (5, [0, 0, 7, 0, 0, 0, 0, 1], [2, 7, 2, 2, 2]),
    (1, [1] * 8, [0]),
    (6, [1000, 1, 1], [0] * 6),
    (10, [5, 3, 2, 1], [0, 1, 2, 3, 0, 1, 2, 0, 1, 0]),
    (3, [0, 1], [1, 1, 1]),
    (32, [1000] * 8, list(range(8)) * 4),
]


def said(*arguments):
    """The command line with these arguments: status, output, errors."""
    out, errors = io.StringIO(), io.StringIO()
    # streams that the command may set up as it does its own
    out.reconfigure = errors.reconfigure = lambda **_: None
    with contextlib.redirect_stdout(out), contextlib.redirect_stderr(errors):
        status = main(list(arguments))
    return status, out.getvalue(), errors.getvalue()


def lines(owners, length):
    return [f"(window {owner} (length {length}))" for owner in owners]


def counts(owners):
    return [owners.count(domain) for domain in range(8)]


def by_the_rule(count, weights):
    """The frame by another way: leftover windows by comparing every two domains."""
    total = sum(weights)
    rest = [count * weight % total for weight in weights]
    left = sum(rest) // total
    got = []
    for domain, weight in enumerate(weights):
        before = sum(rest[d] > rest[domain] or rest[d] == rest[domain] and d < domain
                     for d in range(len(weights)))
        got.append(count * weight // total + (before < left))
    return [domain for turn in range(count) for domain in range(len(weights)) if turn < got[domain]]


class BadInput(unittest.TestCase):
    def test_arguments(self):
        for arguments, part in [
                ([], "COUNT"), (["7"], "WEIGHT"), (["x", "1"], "COUNT: a number from 1 to 32"),
                (["7", "x"], "WEIGHT: a number from 0 to 1000"), (["", "1"], "COUNT"), (["7", ""], "WEIGHT"),
                (["-1", "1"], "COUNT"), (["7", "-1"], "WEIGHT"), (["7", "1", "-1"], "WEIGHT"),
                (["7.0", "1"], "COUNT"), (["7", "1,000"], "WEIGHT"), (["7", "1", "٣"], "WEIGHT"),
                (["0x7", "1"], "COUNT"), (["7", "1e2"], "WEIGHT"), (["7", "+1"], "WEIGHT"),
                (["7"] + ["1"] * 9, "at most 8"), (["7"] + ["1"] * 4000, "at most 8"),
                (["4294967296", "1"], "COUNT"), (["7", "4294967296"], "WEIGHT"),
                (["9" * 5000, "1"], "COUNT"), (["7", "9" * 5000], "WEIGHT"),
                (["7", "1", "--length", "0"], "1 to 1000000"), (["7", "1", "--length", "1000001"], "1 to 1000000"),
                (["7", "1", "--length", "long"], "1 to 1000000"), (["7", "1", "--length"], "--length"),
                (["7", "1", "--lines", "--json"], "--json"), (["7", "1", "--nothing"], "--nothing"),
                (["7", "1", "--length", "5", "2"], "2")]:
            with self.subTest(arguments[:4]):
                # said before the library is looked for
                with mock.patch.dict(os.environ, PIRKVEZO_SHARED="/nowhere.so"):
                    status, out, errors = said("frame", *arguments)
                self.assertEqual((status, out), (2, ""))
                self.assertEqual(errors.count("\n"), 1, errors)
                self.assertIn(part, errors)

    def test_the_library_is_missing(self):
        with mock.patch.dict(os.environ, PIRKVEZO_SHARED="/nowhere.so"):
            status, out, errors = said("frame", "7", "1")
        self.assertEqual((status, out, errors.count("\n")), (2, "", 1))
        self.assertIn("/nowhere.so", errors)

    def test_refused(self):
        for arguments, words, fix in [
                (["0", "1"], "the window count is 0; it is at least 1", "1 to 32 windows"),
                (["33", "1"], "the window count is 33; it is at most 32", "1 to 32 windows"),
                (["4294967295", "1"], "the window count is 4294967295; it is at most 32", "1 to 32 windows"),
                (["7", "1001"], "the weight of domain 0 is 1001; it is at most 1000", "0 to 1000"),
                (["7", "1", "2", "4294967295"], "the weight of domain 2 is 4294967295", "0 to 1000"),
                (["7"] + ["0"] * 7 + ["1001"], "the weight of domain 7 is 1001", "0 to 1000"),
                (["7", "0"], "all weights are 0", "at least one domain"),
                (["32"] + ["0"] * 8, "all weights are 0", "at least one domain"),
                # of several faults the first is named
                (["33", "1001"], "the window count is 33", "1 to 32 windows"),
                (["0", "0"], "the window count is 0", "1 to 32 windows"),
                (["7", "0", "1002", "1001"], "the weight of domain 1 is 1002", "0 to 1000")]:
            for form in ([], ["--lines"], ["--length", "600"]):
                with self.subTest(arguments + form):
                    status, out, errors = said("frame", *arguments, *form)
                    # nothing that could come into a plan
                    self.assertEqual((status, out), (1, ""))
                    cause, advice = errors.splitlines()
                    self.assertTrue(cause.startswith(f"pirkvezo frame: {words}") and cause.endswith(" [15]"), cause)
                    self.assertTrue(advice.startswith("    fix: ") and fix in advice, advice)
            status, out, errors = said("frame", "--json", *arguments)
            self.assertEqual((status, errors), (1, ""))
            values = json.loads(out)
            self.assertEqual((values["refusal"]["number"], values["refusal"]["companion"]), (15, 0))
            self.assertTrue(values["refusal"]["words"].startswith(words))
            self.assertEqual([values["count"]] + values["weights"], list(map(int, arguments)))

    def test_the_verdict_is_the_library_s(self):
        """Whatever it refuses is refused, also where the desk sees no cause; and the other way."""
        with mock.patch.object(library, "frame", return_value=(15, 0, 0, 0)):
            status, out, errors = said("frame", "7", "3", "2", "2")
            self.assertEqual((status, out, errors.count("\n")), (1, "", 1))
            self.assertIn("[15]", errors)
        with mock.patch.object(library, "frame", return_value=(0, 0, 0, 0)):
            self.assertEqual(pirkvezo.frame(33, [1001]).numbers, (0,) * 32)

    def test_values_of_the_package(self):
        for count, weights in [(-1, [1]), (2**32, [1]), ("7", [1]), (7.0, [1]), (None, [1]), (7, [-1]), (7, [2**32]),
                               (7, ["1"]), (7, [1.5]), (7, [1] * 9)]:
            with self.subTest(f"{count} {weights}"):
                self.assertRaises(ValueError, pirkvezo.frame, count, weights)
        for count, weights in [(0, [1]), (33, [1]), (7, [1001]), (7, [0] * 8), (7, []), (2**32 - 1, [2**32 - 1])]:
            with self.subTest(f"{count} {weights}"):
                with self.assertRaises(pirkvezo.Refused) as caught:
                    pirkvezo.frame(count, weights)
                refused = caught.exception
                self.assertEqual((refused.number, refused.companion, refused.line, refused.text), (15, 0, None, None))
                self.assertTrue(refused.words and refused.fix)

    def test_a_refusal_without_words_has_no_empty_fix(self):
        self.assertEqual(len(refusal_lines("a", pirkvezo.Refused(15, 0))), 1)


class Frames(unittest.TestCase):
    def test_worked(self):
        for count, weights, owners in WORKED:
            with self.subTest(f"{count} {weights}"):
                made = pirkvezo.frame(count, weights)
                self.assertEqual(list(made.owners), owners)
                self.assertEqual(made.numbers, tuple(owners) + (0,) * (32 - count))
                self.assertEqual(made.faults(), [])
                numbers = [str(count)] + list(map(str, weights))
                self.assertEqual(said("frame", *numbers, "--lines"), (0, "\n".join(lines(owners, 1000)) + "\n", ""))
        made = pirkvezo.frame(32, [500, 300, 150, 50])
        self.assertEqual(counts(made.owners), [16, 10, 5, 1, 0, 0, 0, 0])
        self.assertEqual(made.owners[:7], (0, 1, 2, 3, 0, 1, 2))
        self.assertEqual(made.owners[-6:], (0,) * 6)

    def test_limits_are_taken(self):
        for count, weights in [(1, [1]), (32, [1]), (1, [1000]), (32, [1000] * 8), (32, [0] * 7 + [1])]:
            self.assertEqual(len(pirkvezo.frame(count, weights).owners), count)
        for length in ("1", "1000000", "007"):
            self.assertEqual(said("frame", "1", "1", "--lines", "--length", length)[1],
                             f"(window 0 (length {int(length)}))\n")

    def test_table(self):
        status, out, errors = said("frame", "5", "3", "2", "2", "0", "--length", "600")
        self.assertEqual((status, errors), (0, ""))
        windows, table, counted = out.split("\n\n")
        self.assertEqual(windows.splitlines(), lines([0, 1, 2, 0, 1], 600))
        self.assertEqual([row.split() for row in table.splitlines()[1:6]], [
            ["0", "3", "15/7", "2", "1/7", "2"],
            ["1", "2", "10/7", "1", "3/7", "2"],
            ["2", "2", "10/7", "1", "3/7", "1"],
            # a weight of 0 that was given has its line
            ["3", "0", "0/7", "0", "0/7", "0"],
            ["all", "7", "35/7", "4", "7/7", "5"]])
        self.assertEqual(counted, "Counted window by window: every domain has its whole part or one more, in turns; "
                         "5 in all.\n")
        self.assertTrue(max(map(len, out.splitlines())) <= 100)
        self.assertTrue(out.isascii())

    def test_json(self):
        status, out, errors = said("frame", "--json", "--length", "600", "5", "3", "2", "2")
        self.assertEqual((status, errors), (0, ""))
        values = json.loads(out)
        self.assertEqual((values["count"], values["weights"], values["refusal"], values["faults"]),
                         (5, [3, 2, 2], None, []))
        self.assertEqual((values["length"], values["total"]), (600, 7))
        self.assertEqual([(w["window"], w["domain"], w["length"]) for w in values["windows"]],
                         [(0, 0, 600), (1, 1, 600), (2, 2, 600), (3, 0, 600), (4, 1, 600)])
        self.assertEqual(values["domains"][1], dict(domain=1, weight=2, quota="10/7", whole=1, remainder=3, got=2))

    def test_at_random(self):
        chance = random.Random(21)
        for _ in range(400):
            most = chance.choice([1, 3, 10, 1000])
            weights = [chance.randint(0, most) for _ in range(chance.randint(1, 8))]
            weights[chance.randrange(len(weights))] = chance.randint(1, most)
            made = pirkvezo.frame(chance.randint(1, 32), weights)
            self.assertEqual(list(made.owners), by_the_rule(made.count, weights), made)
            self.assertEqual(made.faults(), [])
            for domain in range(8):
                self.assertEqual(made.quota(domain) * made.total,
                                 made.whole(domain) * made.total + made.remainder(domain))
                self.assertIn(made.got(domain) - made.whole(domain), (0, 1) if made.weights[domain] else (0,))

    def test_help(self):
        status, out, _ = said("frame", "--help")
        self.assertEqual(status, 0)
        for part in ("pirkvezo frame 7 3 2 2", "--lines", "--json", "(1000)", "1 to 32", "0 to 1000", "exit status"):
            self.assertIn(part, out)


class Wrong(unittest.TestCase):
    """Frames that the proved library does not give: the desk says so, and no line gets into a plan."""

    def test_any_other_frame_is_a_fault(self):
        for count, weights, owners in WORKED:
            made = pirkvezo.frame(count, weights)
            for at in range(32):
                for number in range(9):
                    other = made.numbers[:at] + (number,) + made.numbers[at + 1:]
                    faults = Frame(count, made.weights, other).faults()
                    self.assertEqual(not faults, other == made.numbers, (count, weights, other))
            for k in range(count - 1):
                other = made.numbers[:k] + (owners[k + 1], owners[k]) + made.numbers[k + 2:]
                faults = Frame(count, made.weights, other).faults()
                self.assertEqual(not faults, other == made.numbers, (count, weights, other))

    def test_faults_in_words(self):
        for numbers, part in [([0, 1, 0, 0, 0], "neither the whole part nor one more: domain 0, 2"),
                              ([0, 1, 2, 0, 8], "4 windows of domains, and not 5"),
                              ([0, 1, 2, 0, 2], "not among the largest"),
                              ([0, 2, 1, 0, 1], "not laid in turns"),
                              ([0, 1, 2, 0, 1, 1], "behind the last window")]:
            with self.subTest(part):
                def lent(_count, _weights, frame):
                    frame[:len(numbers)] = numbers
                    return 0, 0, 0, 0
                with mock.patch.object(library, "frame", lent):
                    status, out, _ = said("frame", "5", "3", "2", "2")
                    self.assertEqual(status, 2)
                    self.assertIn("Counted window by window: WRONG, ", out)
                    self.assertIn(part, out)
                    status, out, errors = said("frame", "--lines", "5", "3", "2", "2")
                    self.assertEqual((status, out, errors.count("\n")), (2, "", 1))
                    self.assertIn("WRONG", errors)
                    status, out, _ = said("frame", "--json", "5", "3", "2", "2")
                    self.assertEqual(status, 2)
                    self.assertIn(part, " ".join(json.loads(out)["faults"]))


class Plans(unittest.TestCase):
    """A plan made of the printed lines is accepted, and its windows are the frame."""

    def test_a_plan_of_the_printed_lines(self):
        with tempfile.TemporaryDirectory() as folder:
            name = os.path.join(folder, "made.plan")
            for count, weights, owners in WORKED:
                with self.subTest(f"{count} {weights}"):
                    domains = [f"(domain {domain} (share 99) (may))" for domain in range(len(weights))]
                    printed = said("frame", str(count), *map(str, weights), "--lines", "--length", "450")[1]
                    text = "\n".join(["(pad 376)", *domains, printed + "(run 1)"])
                    pathlib.Path(name).write_text(text)
                    status, out, _ = said("check", name)
                    self.assertEqual(status, 0, out)
                    self.assertIn(f": accepted: {len(weights)} domain", out)
                    plan = pirkvezo.read(text)
                    self.assertEqual(plan.windows, tuple(pirkvezo.Window(owner, 450) for owner in owners))
                    self.assertEqual(plan.windows, tuple(pirkvezo.frame(count, weights).windows(450)))

    def test_the_longest_run_of_the_default_length(self):
        printed = said("frame", "32", "1", "--lines")[1]
        text = f"(pad 376)\n(domain 0 (share 34) (may))\n{printed}(run 1000)"
        self.assertEqual(pirkvezo.read(text).windows_total, 32000)


if __name__ == "__main__":
    unittest.main()
