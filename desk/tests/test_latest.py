"""latest: bad input first; then figures by hand, and the scripts run, with their lateness counted in the tables."""
import dataclasses
import itertools
import json
import os
import pathlib
import random
import re
import subprocess
import tempfile
import unittest
from unittest import mock

import pirkvezo
from pirkvezo import library
from pirkvezo.report import page
from pirkvezo.shares import least_share
from plans_at_random import plan_text, shares_at_random
from test_bound import ACCEPTED, WORKED, contents, ran, told_as_by_table, told_to_be_missing
from test_bound import told_without_the_library, with_file
from test_commands import FULL, ROOT, call
from test_frame import said
from test_refusals import CASES

LATE = os.path.join(ROOT, "examples", "late_finish.plan")
NOTES = [
    "at most: ticks from a window's end until the switch has emptied L1 and touched line 60, touch",
    "counted, in every run from a fresh start and whatever any script holds. left: what no script of",
    "the domain uses of the pad. --script prints scripts that take so long, each in its domain's",
    "first window."]
ROOM = 8 * 8 * 256

# the switch's read of line 60, which always misses
TOUCH = 100

# shares, who may send to whom, and the latest finish of each domain, worked out by hand; domain 0 has the first window
FIGURES = [
    # fourteen colours and one right: 212 past the end, 8 and two kernel lines, 8 and fifteen dirty lines, the touch;
    # colour 14 alone, in a later window: 199, 8 and two kernel lines, 8 and five dirty lines, the touch
    ([934, 66], {0: [1]}, [360, 327]),
    ([934, 66], {1: [0]}, [360, 327]),
    # nobody may send: 199, 8 and the entry line, 8 and every own line dirty, the touch, in any window
    ([934, 66], {}, [348, 324]),
    ([34], {}, [324]),
    ([1000], {}, [348]),
    # one colour each, 0 to 3: the last one meets the kernel's lines in L1, so that its dirty lines are four, not five
    ([34] * 4, {0: [1], 2: [3]}, [332, 327, 327, 325]),
    ([34] * 4, {3: [0]}, [332, 324, 324, 325]),
    # two colours each, 0 to 7; three, 0 to 8, where only the first domain has none of 3, 7, 11
    ([134] * 4, {0: [1, 2, 3]}, [340, 333, 335, 333]),
    ([134] * 4, {}, [332] * 4),
    ([200] * 3, {1: [0, 2]}, [348, 342, 341]),
    ([200] * 3, {}, [340] * 3),
    # four and more have every index of L1
    ([267, 333, 400], {2: [0], 0: [1]}, [360, 349, 349]),
    # in a later window each box is one kernel line more, up to four, which fill their set
    ([34] * 6, {0: [5]}, [332, 324, 324, 324, 324, 327]),
    ([34] * 6, {0: [5], 1: [5]}, [332, 327, 324, 324, 324, 328]),
    ([34] * 6, {0: [5], 1: [5], 2: [5]}, [332, 327, 327, 324, 324, 329]),
    ([34] * 6, {0: [5], 1: [5], 2: [5], 3: [5]}, [332, 327, 327, 325, 324, 330]),
    ([34] * 6, {0: [5], 1: [5], 2: [5], 3: [5], 4: [5]}, [332, 327, 327, 325, 327, 330]),
    # both ways between two domains are two boxes
    ([34] * 2, {0: [1], 1: [0]}, [332, 328]),
    # fourteen boxes each
    ([67] * 8, {domain: [other for other in range(8) if other != domain] for domain in range(8)},
     [332, 330, 330, 328, 330, 330, 330, 328]),
]
# with 4 * held indexes of L1, held from 1 to 4: no box; a box in the run's first window; one to four in a later one.
# Four colours in a row always meet the kernel's lines
EVERY_FIGURE = {316 + 8 * held for held in (1, 2, 3, 4)} \
    | {324 + 8 * held for held in (1, 2, 3)} | {328 + 8 * held for held in (1, 2, 3, 4)} \
    | {318 + boxes + 8 * held for held in (1, 2, 3) for boxes in (1, 2, 3, 4)} \
    | {316 + boxes + 8 * held for held in (1, 2, 3, 4) for boxes in (1, 2, 3, 4)}


def text_of(shares, may, windows, pad=376):
    """A plan's text with these shares, rights and windows, each an owner and a length; no ops."""
    lines = [f"(pad {pad})"]
    for domain, share in enumerate(shares):
        lines.append(f"(domain {domain} (share {share}) (may {' '.join(map(str, may.get(domain, [])))}))")
    lines += [f"(window {owner} (length {length}))" for owner, length in windows]
    return "\n".join(lines + ["(run 1)\n"])


def two(*windows):
    """A plan of two domains, in lines 2 and 3, with these windows from line 4 on."""
    return text_of([934, 66], {0: [1]}, windows)


GOOD = two((0, 4000), (1, 20000))


def asked(text, *arguments):
    """The command with a file of this text and these arguments behind it; the file's name is plan."""
    with tempfile.TemporaryDirectory() as folder:
        name = os.path.join(folder, "plan")
        pathlib.Path(name).write_bytes(text if isinstance(text, bytes) else text.encode("utf-8"))
        status, out, errors = said("latest", name, *arguments)
        return status, out.replace(name, "plan"), errors.replace(name, "plan")


def by_the_rule(plan, domain):
    """The figure by the lines that a domain can bring into L1 and the kernel's sets, counted one by one."""
    own = {line % 16 for line in range(4096) if plan.masks[domain] >> (line % 64 // 4) & 1}
    # the lines of the boxes that it may fill or empty: 61 and so on by 64, all in one set of four ways
    boxes = {61 + 64 * (8 * a + b) for a, may in enumerate(plan.recipients) for b in may if domain in (a, b)}
    if plan.windows[0].owner != domain or not boxes:
        # a compute of 200 is the dearest: a message finds the entry line, or there is none but denied ones
        dirty = own | {line % 16 for line in boxes}
        return 199 + 8 + 1 + min(4, len(boxes)) + 8 + 2 * len(dirty) + TOUCH
    # the window's first message misses the entry line, 60, and a box's line, and may replace two dirty lines
    met = {60 % 16, 61 % 16} & own
    return 5 + 2 * 100 + 4 * len(met) - 1 + 8 + 2 + 8 + 2 * (len(own) - len(met) + 1) + TOUCH


def latenesses(plan, scripts, length=ROOM):
    """How late each window of a run finishes, counted in the tables as they are right before its switch."""
    world, found = pirkvezo.World.fresh(dataclasses.replace(plan, scripts=tuple(scripts)), length), []
    while len(found) < plan.windows_total:
        clock, cache = world.clock, world.cache
        world.step()
        if world.windows > len(found):
            end = plan.window_end(len(found))
            kernel = sum(number > 0 for number in cache[256:])
            dirty = sum(number >= 32768 for number in cache[:16])
            found.append(max(clock, end) - end + 8 + kernel + 8 + 2 * dirty + TOUCH)
    return found


def first_window(plan, domain):
    return [window.owner for window in plan.windows].index(domain)


def with_script(scripts, domain, script):
    """A store with another script for one domain."""
    return scripts[:256 * domain] + list(script) + scripts[256 * (domain + 1):]


def store_at_random(chance):
    """2048 numbers, nearly all of them ops: of lines and domains that may be anybody's."""
    def number():
        kind = chance.choice([1, 2, 2, 2, 3, 4, 5])
        rest = chance.randrange(8) << 16 if kind in (3, 4) else chance.randint(1, 200)
        return 0 if chance.random() < 0.002 else kind << 20 | rest
    return [number() for _ in range(2048)]


def long_windows(chance, text):
    """The text of a plan at random with windows as long as a latest finish asks for."""
    def length(_):
        return b"(length %d)" % chance.choice([4000, 4001, 4204, 5000, 9999, 20000])
    return re.sub(rb"\(length \d+\)", length, text)


class BadInput(unittest.TestCase):
    def test_arguments(self):
        for arguments, part in [
                ([], "PLAN"), ([LATE, "0", "1"], "unrecognized"), ([LATE, LATE], "DOMAIN: a number from 0 to 7"),
                ([LATE, "x"], "DOMAIN: a number from 0 to 7"), ([LATE, ""], "DOMAIN"), ([LATE, "-1"], "DOMAIN"),
                ([LATE, "0.0"], "DOMAIN"), ([LATE, "0x0"], "DOMAIN"), ([LATE, "+0"], "DOMAIN"),
                ([LATE, "٠"], "DOMAIN"), ([LATE, "all"], "DOMAIN"), ([LATE, "4294967296"], "DOMAIN"),
                ([LATE, "9" * 5000], "DOMAIN"), (["-", "-"], "DOMAIN"),
                (["0", LATE], "0: no such file"), ([LATE, "0", "--nothing"], "--nothing"), ([LATE, "--csv"], "--csv"),
                ([LATE, "--script", "--json"], "not allowed with"), ([LATE, "0", "--script=1"], "--script"),
                ([LATE, "--json=1"], "--json"), (["nowhere.plan"], "nowhere.plan: no such file"),
                (["nowhere.plan", "0", "--script"], "nowhere.plan: no such file"), ([""], "no such file"),
                ([os.path.join(ROOT, "examples")], "is a directory"), (["a\0b"], "is no file name"),
                (["/dev/zero"], "more than 1048576 bytes"), (["a\nb\x1b[1m"], "a␊b␛[1m")]:
            told_without_the_library(self, part, "latest", *arguments)

    def test_the_library_is_missing(self):
        told_to_be_missing(self, "latest", LATE)

    def test_every_refused_plan_is_told_as_by_table(self):
        told_as_by_table(self, "latest")
        for text, *_ in CASES:
            with self.subTest(text[:60]):
                # nothing that could come into a plan
                self.assertEqual(asked(text, "--script"), (1, "", asked(text)[1]))

    def test_what_is_no_plan(self):
        readme = contents(os.path.join(ROOT, "README.md"))
        for text in (b"", b"\0\1\2", bytes(range(256)), b"\x1b[2J", b"(" * 100000, readme):
            status, out, errors = asked(text)
            self.assertEqual((status, errors), (1, ""))
            self.assertNotIn("\x1b", out)

    def test_standard_input(self):
        self.assertEqual(call("latest", "-", text=b"(pad 1)")[::2], (1, ""))
        for arguments in ([], ["1"], ["--script"], ["0", "--json"]):
            status, out, errors = call("latest", "-", *arguments, text=contents(LATE))
            self.assertEqual((status, errors), (0, ""))
            self.assertEqual(out, said("latest", LATE, *arguments)[1].replace(LATE, "standard input"))

    @unittest.skipUnless(os.path.exists(FULL), "no " + FULL)
    def test_a_failed_write_is_not_status_0(self):
        for arguments in ([], ["0"], ["--json"], ["--script"], ["0", "--script"]):
            with open(FULL, "wb") as full:
                done = ran("latest", LATE, *arguments, stdout=full, stderr=subprocess.PIPE)
            self.assertEqual((done.returncode, done.stderr.count(b"\n")), (2, 1), done.stderr)

    def test_a_refused_domain(self):
        for text, domain, where, words, fix in [
                (GOOD, 2, None, "the plan does not declare domain 2", "ask for one of the domains 0 to 1"),
                (GOOD, 7, None, "the plan does not declare domain 7", "ask for one of the domains 0 to 1"),
                (GOOD, 8, None, "the plan does not declare domain 8", "ask for one of the domains 0 to 1"),
                (GOOD, 2**32 - 1, None, "the plan does not declare domain 4294967295", "ask for one of"),
                (text_of([34], {}, [(0, 4000)]), 1, None, "the plan does not declare domain 1", "ask for domain 0"),
                (two((0, 4000)), 1, "3:1", "domain 1 has no window", "give it one of 4000 to 20000 ticks"),
                (two((1, 300)), 0, "2:1", "domain 0 has no window", "give it one of 4000 to 20000 ticks"),
                (two((0, 3999)), 0, "4:19", "domain 0 has a window of 3999 ticks, outside 4000 to 20000",
                 "give each of its windows 4000 to 20000 ticks"),
                (two((0, 20001)), 0, "4:19", "domain 0 has a window of 20001 ticks, outside 4000 to 20000",
                 "give each of its windows 4000 to 20000 ticks"),
                (two((0, 1)), 0, "4:19", "domain 0 has a window of 1 tick, outside", "give each of its windows"),
                (two((0, 1000000)), 0, "4:19", "domain 0 has a window of 1000000 ticks, outside", "give each of"),
                # whichever of its windows it is, and whatever those of others are
                (two((0, 4000), (1, 4000), (0, 20001)), 0, "6:19", "domain 0 has a window of 20001", "give each of"),
                (two((0, 1), (1, 5000), (1, 3999), (1, 1)), 1, "6:19", "domain 1 has a window of 3999", "give each of"),
                (two((0, 4000)).replace("(window 0", " ( window  000").replace("4000", "0003999"), 0, "4:24",
                 "domain 0 has a window of 3999 ticks", "give each of its windows")]:
            with self.subTest(words):
                status, out, errors = asked(text, str(domain))
                self.assertEqual((status, errors), (1, ""))
                head = f"plan:{where}: " if where else "plan: "
                lines = out.splitlines()
                self.assertTrue(lines[0].startswith(head + words) and lines[0].endswith(" [18]"), lines[0])
                self.assertTrue(lines[-1].startswith(f"    fix: {fix}"), lines[-1])
                if where:
                    line, column = map(int, where.split(":"))
                    self.assertEqual(lines[1:3], [f"    {text.splitlines()[line - 1]}", " " * (3 + column) + "^"])
                    # and beside the other domains
                    self.assertIn(f"\n     {domain}        -     -  line {line}: {words}", asked(text)[1])
                self.assertEqual(len(lines), 4 if where else 2)
                # nothing that could come into a plan
                self.assertEqual(asked(text, str(domain), "--script"), (1, "", out))
                status, out, errors = asked(text, str(domain), "--json")
                self.assertEqual((status, errors), (1, ""))
                values = json.loads(out)["refusal"]
                self.assertEqual((values["number"], values["companion"]), (18, domain))
                self.assertTrue(values["words"].startswith(words))
                with self.assertRaises(pirkvezo.Refused) as caught:
                    pirkvezo.read(text).latest(domain)
                self.assertEqual((caught.exception.number, caught.exception.companion), (18, domain))

    def test_the_limits_are_taken(self):
        for length in (4000, 4001, 19999, 20000):
            latest = pirkvezo.read(two((0, length), (1, 1), (0, 4000), (0, 20000))).latest(0)
            self.assertEqual(latest.ticks, 360)
            self.assertTrue(0 < len(latest.ops) <= 256)
        for length in (3999, 20001):
            self.assertRaises(pirkvezo.Refused, pirkvezo.read(two((0, length))).latest, 0)

    def test_values_that_no_text_gives(self):
        plan = pirkvezo.read(GOOD)
        for at, number in [(0, 375), (1, 0), (1, 1001), (2, 9), (3, 0), (3, 33), (4, 1001), (84, 0)]:
            numbers = plan.numbers[:at] + (number,) + plan.numbers[at + 1:]
            # 12 comes before 18
            for domain in (0, 2):
                with self.subTest(f"{at} {number}"), self.assertRaises(pirkvezo.Refused) as caught:
                    dataclasses.replace(plan, numbers=numbers).latest(domain)
                self.assertEqual((caught.exception.number, caught.exception.companion), (12, 0))

    def test_numbers_changed_by_hand(self):
        """The text is then not theirs, and its lines are not blamed."""
        plan = pirkvezo.read(GOOD)
        changed = dataclasses.replace(plan, numbers=plan.numbers[:52] + (3999,) + plan.numbers[53:])
        with self.assertRaises(pirkvezo.Refused) as caught:
            changed.latest(0)
        self.assertEqual((caught.exception.number, caught.exception.companion, caught.exception.line), (18, 0, None))
        self.assertIn("has no window, or has one that is too short or too long", caught.exception.words)

    def test_bad_values(self):
        plan = pirkvezo.read(GOOD)
        for domain in (-1, 2**32, "0", None, 0.0):
            self.assertRaises(ValueError, plan.latest, domain)


class Latest(unittest.TestCase):
    def test_text(self):
        status, out, errors = said("latest", LATE)
        self.assertEqual((status, errors), (0, ""))
        self.assertEqual(out.splitlines(), [
            f"{LATE}: how late a window can finish, of a pad of 376 ticks", "",
            "domain  at most  left",
            "     0      360    16",
            "     1      327    49"] + NOTES)
        self.assertTrue(out.isascii())
        self.assertEqual(said("latest", LATE, "1")[1].splitlines(), [
            f"{LATE}: how late a window can finish, of a pad of 376 ticks", "",
            "domain  at most  left",
            "     1      327    49"] + NOTES)

    def test_a_refused_domain_does_not_stop_the_others(self):
        text = text_of([267, 200, 134, 134], {0: [1]}, [(0, 4000), (2, 700), (1, 4000)], pad=400)
        rows = ["domain  at most  left  refused",
                "     0      360    40",
                "     1      343    57",
                "     2        -     -  line 7: domain 2 has a window of 700 ticks, outside 4000 to 20000 [18]",
                "     3        -     -  line 5: domain 3 has no window [18]"]
        status, out, errors = asked(text)
        self.assertEqual((status, errors), (0, ""))
        self.assertEqual(out.splitlines()[2:], rows + NOTES)
        self.assertTrue(max(map(len, out.splitlines())) <= 100)
        status, out, errors = asked(text, "--json")
        self.assertEqual((status, errors), (0, ""))
        values = json.loads(out)
        self.assertEqual([entry["ticks"] for entry in values["domains"]], [360, 343, None, None])
        self.assertEqual([entry["refusal"] and (entry["refusal"]["number"], entry["refusal"]["companion"],
                                                entry["refusal"]["line"]) for entry in values["domains"]],
                         [None, None, (18, 2, 7), (18, 3, 5)])
        self.assertEqual(values["domains"][2], dict(domain=2, ticks=None, left=None, script=None,
                                                    refusal=values["domains"][2]["refusal"]))
        # standard output may become a plan
        status, out, errors = asked(text, "--script")
        self.assertEqual((status, out.splitlines()), (0, [line for domain in (0, 1) for line
                                                          in pirkvezo.read(text).latest(domain).lines]))
        self.assertEqual([line for line in errors.splitlines() if line.startswith("plan:")], [
            "plan:7:19: domain 2 has a window of 700 ticks, outside 4000 to 20000 [18]",
            "plan:5:1: domain 3 has no window [18]"])

    def test_all_refused(self):
        status, out, errors = said("latest", WORKED)
        self.assertEqual((status, errors), (0, ""))
        self.assertEqual(out.splitlines()[2:], [
            "domain  at most  left  refused",
            "     0        -     -  line 4: domain 0 has a window of 400 ticks, outside 4000 to 20000 [18]",
            "     1        -     -  line 5: domain 1 has a window of 300 ticks, outside 4000 to 20000 [18]"])
        self.assertEqual(said("latest", WORKED, "--script")[:2], (0, ""))

    def test_json(self):
        status, out, errors = asked(GOOD, "--json")
        self.assertEqual((status, errors), (0, ""))
        plan = pirkvezo.read(GOOD)
        self.assertEqual(json.loads(out), dict(file="plan", refusal=None, pad=376, domains=[
            dict(domain=0, ticks=360, left=16, script=plan.latest(0).lines, refusal=None),
            dict(domain=1, ticks=327, left=49, script=plan.latest(1).lines, refusal=None)]))
        one = json.loads(said("latest", LATE, "1", "--json")[1])
        self.assertEqual([entry["domain"] for entry in one["domains"]], [1])

    def test_help(self):
        status, out, _ = said("latest", "--help")
        self.assertEqual(status, 0)
        for part in ("pirkvezo latest examples/", "--script", "--json", "or - for standard input",
                     "4000 to 20000 ticks", "no script is looked at", "exit status of latest: 1", "exit status: 0"):
            self.assertIn(part, out)

    def test_figures(self):
        for shares, may, ticks in FIGURES:
            with self.subTest(f"{shares} {may}"):
                text = text_of(shares, may, [(domain, 4000) for domain in range(len(shares))])
                plan = pirkvezo.read(text)
                self.assertEqual([latest.ticks for latest in plan.latest_of_each], ticks)
                self.assertEqual([by_the_rule(plan, domain) for domain in range(plan.domains)], ticks)
                rows = [row.split() for row in asked(text)[1].splitlines()[3:3 + len(shares)]]
                self.assertEqual(rows, [[str(domain), str(number), str(376 - number)]
                                        for domain, number in enumerate(ticks)])

    def test_who_has_the_first_window(self):
        """Only the run's first window starts without line 60, whoever has it and whatever windows follow."""
        for windows, ticks in [([(0, 4000), (1, 4000)], [360, 327]), ([(1, 4000), (0, 4000)], [349, 332]),
                               ([(1, 4000), (0, 4000), (1, 20000)], [349, 332]),
                               ([(0, 4000)] * 2 + [(1, 4000)] * 30, [360, 327]),
                               ([(0, 20000), (1, 4000), (0, 4000)], [360, 327])]:
            plan = pirkvezo.read(text_of([934, 66], {0: [1]}, windows))
            self.assertEqual([latest.ticks for latest in plan.latest_of_each], ticks)

    def test_left_is_of_the_plan_s_own_pad(self):
        for pad in (376, 377, 400, 1000000):
            out = asked(text_of([934, 66], {0: [1]}, [(0, 4000)], pad))[1]
            self.assertIn(f", of a pad of {pad} ticks\n", out)
            self.assertRegex(out, rf"\n     0      360 +{pad - 360}\n")

    def test_no_script_is_looked_at(self):
        chance, plan = random.Random(41), pirkvezo.read(contents(LATE))
        bare = pirkvezo.read(re.sub(rb"\(op .*\n", b"", contents(LATE)))
        self.assertEqual(bare.latest_of_each, plan.latest_of_each)
        for _ in range(20):
            scripts = tuple(chance.choice([0, 2**32 - 1, chance.randrange(6 << 20)]) for _ in range(2048))
            self.assertEqual(dataclasses.replace(plan, scripts=scripts).latest_of_each, plan.latest_of_each)

    def test_examples(self):
        self.assertIn(LATE, ACCEPTED)
        for name in ACCEPTED:
            plan = pirkvezo.read(contents(name))
            told = [isinstance(one, pirkvezo.Latest) for one in plan.latest_of_each]
            self.assertEqual(all(told) if name == LATE else any(told), name == LATE)
        # each domain of this one runs the script that it is handed back
        plan = pirkvezo.read(contents(LATE))
        for domain in range(plan.domains):
            self.assertEqual(plan.ops(domain), plan.latest(domain).ops)


class Scripts(unittest.TestCase):
    """The scripts: their lines in a plan, and how late a run with them finishes."""

    def plans(self, seed, number):
        """Plans at random whose windows are long enough."""
        chance = random.Random(seed)
        for _ in range(number):
            yield chance, pirkvezo.read(long_windows(chance, plan_text(chance)))

    def test_lines_in_a_plan(self):
        for _, plan in self.plans(42, 40):
            bare = b"".join(line + b"\n" for line in plan.text.splitlines() if not line.startswith(b"(op "))
            status, out, _ = asked(plan.text, "--script")
            self.assertEqual(status, 0)
            made = pirkvezo.read(bare + out.encode())
            for domain, latest in enumerate(plan.latest_of_each):
                numbers = made.scripts[256 * domain:256 * (domain + 1)]
                if isinstance(latest, pirkvezo.Refused):
                    self.assertEqual((latest.words, any(numbers)), (f"domain {domain} has no window", False))
                    continue
                self.assertEqual(numbers, latest.script)
                self.assertEqual(made.ops(domain), latest.ops)
                self.assertTrue(0 < len(latest.ops) <= 256)
                self.assertEqual([line for line in out.splitlines() if line.startswith(f"(op {domain} ")], latest.lines)
            self.assertIn(": accepted: ", with_file(made.text, "check")[1])

    def test_every_length_has_room_for_its_script(self):
        for length in list(range(4000, 4420)) + [9999, 19799, 19999, 20000]:
            for latest in pirkvezo.read(two((0, length), (1, length))).latest_of_each:
                self.assertTrue(0 < len(latest.ops) <= 256)

    def test_the_first_window_finishes_just_then(self):
        figures = set()
        for chance, plan in self.plans(43, 60):
            for latest in plan.latest_of_each:
                if isinstance(latest, pirkvezo.Refused):
                    continue
                self.assertEqual(latest.ticks, by_the_rule(plan, latest.domain), plan.text)
                # whatever the others run, also what no text gives
                scripts = with_script(chance.choice([[0] * 2048, list(plan.scripts), store_at_random(chance)]),
                                      latest.domain, latest.script)
                found = latenesses(plan, scripts)
                self.assertEqual(found[first_window(plan, latest.domain)], latest.ticks, plan.text)
                self.assertTrue(max(found) <= 360)
                figures.add(latest.ticks)
        self.assertTrue(figures <= EVERY_FIGURE)
        self.assertGreater(len(figures), 15)

    def test_every_figure(self):
        """Domain 1 with every number of colours from every lowest one, with every number of boxes that counts."""
        figures = set()
        for first, lowest, held, boxes in itertools.product((True, False), (1, 2, 3, 4), (1, 2, 3, 4), range(6)):
            shares = [least_share(colours) for colours in [lowest, held] + [1] * 5]
            windows = [(1, 4000)] if first else [(0, 1), (1, 4000)]
            plan = pirkvezo.read(text_of(shares, {domain: [1] for domain in range(2, 2 + boxes)}, windows))
            latest = plan.latest(1)
            self.assertEqual(latest.ticks, by_the_rule(plan, 1), plan.text)
            self.assertEqual(latenesses(plan, with_script([0] * 2048, 1, latest.script))[-1], latest.ticks, plan.text)
            figures.add(latest.ticks)
        self.assertEqual(figures, EVERY_FIGURE)

    def test_the_opening(self):
        """In the run's first window a script opens with no message, or with one that is denied; in others with all."""
        every = [f"(send {other} 0)" for other in range(8)] + [f"(receive {other})" for other in range(8)]
        for windows, may, opening in [([(0, 4000)], {}, every[:1]), ([(0, 4000)], {0: [1]}, []),
                                      ([(1, 1), (0, 4000)], {}, every), ([(1, 1), (0, 4000)], {0: [1]}, every)]:
            ops = list(map(str, pirkvezo.read(text_of([34, 34], may, windows)).latest(0).ops))
            self.assertEqual(ops[:len(opening) + 4], opening + [f"(write {line})" for line in range(4)])
            self.assertEqual(ops[-1], "(send 1 0)" if may and windows[0] == (0, 4000) else "(compute 200)")

    def test_every_first_length(self):
        for length in list(range(4000, 4220)) + [19999, 20000]:
            for may in ({0: [1]}, {}):
                plan = pirkvezo.read(text_of([34, 66], may, [(0, length)]))
                self.assertEqual(latenesses(plan, with_script([0] * 2048, 0, plan.latest(0).script)),
                                 [332 if may else 324])
                # and behind another domain's window, which is idle: 8, 8 and the touch
                plan = pirkvezo.read(text_of([34, 66], may, [(1, 1), (0, length)]))
                self.assertEqual(latenesses(plan, with_script([0] * 2048, 0, plan.latest(0).script)),
                                 [116, 327 if may else 324])

    def test_none_is_later(self):
        for chance, plan in self.plans(44, 40):
            figures = [latest.ticks if isinstance(latest, pirkvezo.Latest) else 0 for latest in plan.latest_of_each]
            stores = [list(plan.scripts), store_at_random(chance)] + [self.near(chance, plan) for _ in range(3)]
            for scripts in stores:
                for window, late in enumerate(latenesses(plan, scripts)):
                    self.assertLessEqual(late, figures[plan.window(window).owner], plan.text)

    def near(self, chance, plan):
        """A store of the scripts that are handed back, each changed in a few places."""
        scripts = [0] * 2048
        for latest in plan.latest_of_each:
            if isinstance(latest, pirkvezo.Latest):
                numbers = list(latest.script)
                for _ in range(chance.randrange(4)):
                    at = chance.randrange(len(latest.ops) + 1)
                    if chance.random() < 0.5:
                        numbers.pop(at)
                    else:
                        numbers.insert(at, chance.choice(numbers[:len(latest.ops)] + [1 << 20 | 3, 5 << 20 | 1]))
                scripts = with_script(scripts, latest.domain, (numbers + [0] * 256)[:256])
        return scripts

    def test_a_log_without_room(self):
        plan = pirkvezo.read(contents(LATE))
        scripts, ops = plan.scripts, len(plan.latest(0).ops)
        self.assertEqual(latenesses(plan, scripts, 16 * ops)[0], 360)
        self.assertLess(latenesses(plan, scripts, 16 * (ops - 1))[0], 360)
        # the second window starts with line 60 among the kernel's
        self.assertEqual(latenesses(plan, scripts, 0), [116, 117])

    def test_the_log_of_run_has_room(self):
        """Eight domains have 256 records each in the log that run takes by itself."""
        chance = random.Random(45)
        shares = shares_at_random(chance, 8)
        plan = pirkvezo.read(text_of(shares, {1: [0]}, [(domain, 20000) for domain in range(8)]))
        self.assertEqual(pirkvezo.World.fresh(plan).records_room, 256)
        scripts = [number for latest in plan.latest_of_each for number in latest.script]
        self.assertEqual(latenesses(plan, scripts, 16384), [latest.ticks for latest in plan.latest_of_each])


class Shown(unittest.TestCase):
    def test_report(self):
        told = ("<p>The library says how many of the pad's 376 ticks a domain can use at most: 360 for domain 0, "
                "327 for domain 1. They count from a window's end until the switch has emptied L1 and touched line 60, "
                "touch counted.</p>")
        self.assertIn(told, page("plan", pirkvezo.read(GOOD)))
        self.assertIn("at most: 327 for domain 1. They", page("plan", pirkvezo.read(two((0, 3999), (1, 4000)))))
        # nothing is said where nothing is told
        for name in ACCEPTED:
            if name != LATE:
                self.assertNotIn("The library says how many", page("plan", pirkvezo.read(contents(name))))


class Wrong(unittest.TestCase):
    """Answers that the proved library does not give: the desk says so, or takes its word."""

    def test_the_verdict_is_the_library_s(self):
        """Whatever it refuses is refused, also where the desk sees no cause; and the other way."""
        with mock.patch.object(library, "latest", return_value=(18, 0, 0, 0)):
            status, out, errors = said("latest", LATE, "0")
            self.assertEqual((status, errors, out.count("\n")), (1, "", 1))
            self.assertIn("has no window, or has one that is too short or too long [18]", out)
        with mock.patch.object(library, "latest", return_value=(0, 0, 5, 0)):
            for domain in ("0", "7"):
                self.assertRegex(said("latest", WORKED, domain)[1], rf"\n     {domain}        5   371\n")

    def test_another_refusal(self):
        for number in (11, 12):
            with mock.patch.object(library, "latest", return_value=(number, 0, 0, 0)):
                for arguments in ([], ["0"], ["--json"], ["--script"]):
                    status, out, errors = said("latest", LATE, *arguments)
                    self.assertEqual((status, out, errors.count("\n")), (2, "", 1))
                    self.assertIn("the library refused a call: ", errors)

    def test_what_cannot_be(self):
        def behind_the_ops(_plan, _domain, script):
            script[0], script[2] = 1 << 20, 1 << 20
            return 0, 0, 360, 0

        def no_op(_plan, _domain, script):
            script[0] = 6 << 20
            return 0, 0, 360, 0

        for answer in (behind_the_ops, no_op, lambda *_: (0, 0, 377, 0), lambda *_: (0, 0, 2**64 - 1, 0)):
            with mock.patch.object(library, "latest", answer):
                self.assertRaises(pirkvezo.Fault, pirkvezo.read(GOOD).latest, 0)
                for arguments in ([], ["0"], ["--json"], ["--script"]):
                    status, out, errors = said("latest", LATE, *arguments)
                    self.assertEqual((status, out, errors.count("\n")), (2, "", 1))
                    self.assertIn("THIS MUST NOT HAPPEN: ", errors)


if __name__ == "__main__":
    unittest.main()
