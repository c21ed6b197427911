"""Shares that give too many colours: bad input first; then the rule from shares to colours, held to the library."""
import dataclasses
import itertools
import json
import os
import random
import re
import tempfile
import unittest
from unittest import mock

import pirkvezo
from pirkvezo import advice, library, shares
from pirkvezo.inputs import refusal_lines
from plans_at_random import shares_at_random
from test_commands import call

EIGHT = "examples/eight_equal.plan"
REFUSAL = [
    "examples/eight_equal.plan:9:18: the shares give 16 colours, which is 1 over 15 [16]",
    "    (domain 7 (share 125) (may))",
    "                     ^",
    "    fix: give domain 7 a share of 99 (2 colours become 1)"]
CHANGE = re.compile(r"domain (\d) (?:a share|one) of (\d+) \((?:(\d+)(?: colours)? become|still) (\d+)(?: colours)?\)")


def text_of(sold, rest="(window 0 (length 400))\n(run 1)\n"):
    """A plan's text with these shares, from line 2 on."""
    return "(pad 376)\n" + "".join(f"(domain {d} (share {share}) (may))\n" for d, share in enumerate(sold)) + rest


def refused(text):
    """The refusal of a text, or None."""
    try:
        pirkvezo.read(text)
    except pirkvezo.Refused as said:
        return said
    return None


def colours(sold):
    return [(15 * share + 500) // 1000 for share in sold]


def follow(sold, fix):
    """The shares after what a fix asks for, and its changes: domain, share, colours before and after."""
    changes = [(int(domain), int(share), int(before or after), int(after))
               for domain, share, before, after in CHANGE.findall(fix)]
    told = {domain: share for domain, share, _, _ in changes}
    return [told.get(domain, share) for domain, share in enumerate(sold)], changes


def too_many_at_random(chance):
    """Shares of at most 1000 that give more than 15 colours, most of them rounded up."""
    while True:
        sold = [shares.least_share(chance.choice([1, 2, 2, 3, chance.randint(1, 13)]))
                + chance.choice([0, 0, 0, 1, 3, chance.randint(0, 66)]) for _ in range(chance.randint(2, 8))]
        if sum(sold) <= 1000 and sum(colours(sold)) > 15:
            return sold


def least_cost(sold):
    """What cuts to 15 colours cost at least, by trying all of them; no domain is left without a colour."""
    held, best = colours(sold), 1000
    for left in itertools.product(*(range(max(1, number - 4), number + 1) for number in held)):
        if sum(left) == 15:
            kept = [min(share, shares.least_share(number + 1) - 1) for share, number in zip(sold, left)]
            best = min(best, sum(sold) - sum(kept))
    return best


class BadInput(unittest.TestCase):
    def test_which_refusal(self):
        long = "(window 0 (length 1000000))\n" * 32 + "(run 1000)\n"
        nobody = "(window 0 (length 400))\n(run 1)\n(op 9 (read 0))\n"
        for text, number, companion, line in [
                (text_of([125] * 8), 16, 16, 9),
                (text_of([500, 500]), 16, 16, 3),
                (text_of([900, 100]), 16, 16, 3),
                (text_of([34] * 7 + [762]), 16, 18, 9),
                (text_of([100] * 7 + [300]), 16, 19, 9),
                # the share that passes 15 need not be the last
                (text_of([300, 300, 300, 34, 34]), 16, 17, 5),
                # what is said first: a number, a form that is missing, a recipient, the shares' total
                (text_of([125] * 8, nobody), 3, 278, 12),
                (text_of([125] * 8, "(run 1)"), 5, 249, 10),
                (text_of([500, 500]).replace("(may)", "(may 7)", 1), 4, 37, 2),
                (text_of([126] * 8), 7, 1008, 9),
                (text_of([501, 500]), 7, 1001, 3),
                # what is said later: a share that gives no colour, too many ticks
                (text_of([33, 300, 300, 300, 34]), 16, 16, 6),
                (text_of([300, 300, 300, 33]), 6, 3, 5),
                (text_of([125] * 8, long), 16, 16, 9),
                (text_of([99] * 8, long), 9, 0, 42)]:
            with self.subTest(text[:300]):
                said = refused(text)
                self.assertEqual((said.number, said.companion, said.line), (number, companion, line))
                if number == 16:
                    self.assertEqual(said.column, 18)
                    self.assertEqual(said.words, f"the shares give {companion} colours, "
                                     f"which is {companion - 15} over 15")

    def test_fixes(self):
        for sold, fix in [
                ([125] * 8, "give domain 7 a share of 99 (2 colours become 1)"),
                ([500, 500], "give domain 1 a share of 499 (8 colours become 7)"),
                ([100, 900], "give domain 1 a share of 899 (14 colours become 13)"),
                # the cheapest, wherever it is
                ([110, 370, 101, 419], "give domain 2 a share of 99 (2 colours become 1)"),
                # a domain of one colour keeps it
                ([34] * 7 + [762], "give domain 7 a share of 566 (11 colours become 8)"),
                ([100] * 7 + [300], "give domain 4 a share of 99 (2 colours become 1), domain 5 one of 99 "
                 "(2 become 1), domain 6 one of 99 (2 become 1), domain 7 one of 299 (5 become 4)"),
                # a domain without a colour gets one too
                ([33, 300, 300, 300, 34], "give domain 0 a share of 34 (0 colours become 1), "
                 "domain 2 one of 299 (5 become 4), domain 3 one of 299 (5 become 4)"),
                ([300, 300, 300, 33], "give it at least 34, the least share that gives one; to make room, give "
                 "domain 2 a share of 299 (5 colours become 4), domain 3 one of 34 (0 become 1)"),
                # nor may the shares total over 1000 then
                ([433, 566, 1], "give it at least 34, the least share that gives one; to make room, give "
                 "domain 1 a share of 533 (still 8 colours), domain 2 one of 34 (0 become 1)"),
                ([300, 33], "give it at least 34, the least share that gives one")]:
            with self.subTest(sold):
                self.assertEqual(refused(text_of(sold)).fix, fix)

    def test_a_fix_is_taken_by_the_library_and_no_cheaper_one_is(self):
        chance, totals = random.Random(22), set()
        # 19 colours come of eight exact halves alone, so not by chance
        most = [[300 if domain == larger else 100 for domain in range(8)] for larger in range(8)]
        for sold in most + [too_many_at_random(chance) for _ in range(150)]:
            said = refused(text_of(sold))
            self.assertEqual((said.number, said.companion), (16, sum(colours(sold))))
            totals.add(said.companion)
            fixed, changes = follow(sold, said.fix)
            plan = pirkvezo.read(text_of(fixed))
            self.assertEqual(sum(map(plan.holding, range(plan.domains))), 15)
            for domain, _, before, after in changes:
                self.assertEqual((before, after), (colours(sold)[domain], plan.holding(domain)))
            self.assertEqual(sum(sold) - sum(fixed), least_cost(sold), (sold, fixed))
        self.assertEqual(totals, {16, 17, 18, 19})

    def test_a_fix_leaves_no_domain_without_a_colour(self):
        chance, numbers, tight = random.Random(23), [], 0
        while len(numbers) < 400:
            sold = too_many_at_random(chance)[:chance.randint(1, 7)] + [chance.randint(1, 33)]
            said = refused(text_of(sold))
            numbers.append(said.number)
            if said.number in (6, 16):
                # 6 asks for 34 in words of its own, and for more only where that would not do
                fixed, changes = follow(sold, said.fix)
                fixed = fixed[:-1] + [34]
                pirkvezo.read(text_of(fixed))
                self.assertEqual(bool(changes), refused(text_of(sold[:-1] + [34])) is not None)
                tight += sum(sold[:-1] + [34]) > 1000
                for domain, _, before, after in changes:
                    self.assertEqual((before, after), (colours(sold)[domain], colours(fixed)[domain]))
        self.assertGreater(min(numbers.count(6), numbers.count(16), tight), 30)

    def test_check(self):
        status, out, errors = call("check", EIGHT)
        self.assertEqual((status, out.splitlines(), errors), (1, REFUSAL, ""))
        status, out, _ = call("check", EIGHT, "examples/worked_example.plan")
        self.assertEqual((status, out.splitlines()[:4]), (1, REFUSAL))
        self.assertIn("examples/worked_example.plan: accepted: 2 domains", out)

    def test_the_other_commands(self):
        self.assertEqual(call("table", EIGHT), (1, "\n".join(REFUSAL) + "\n", ""))
        self.assertEqual(call("run", "--table", EIGHT), (1, "\n".join(REFUSAL) + "\n", ""))
        status, out, errors = call("run", EIGHT)
        self.assertEqual((status, out, errors.splitlines()), (1, "(refused 16 16)\n", REFUSAL))
        for arguments in (["run", "--csv", EIGHT], ["compare", EIGHT, EIGHT],
                          ["compare", "examples/filter.plan", EIGHT]):
            status, out, errors = call(*arguments)
            self.assertEqual((status, out, errors.splitlines()), (1, "", REFUSAL), arguments)

    def test_report(self):
        with tempfile.TemporaryDirectory() as folder:
            name = os.path.join(folder, "eight.html")
            status, out, errors = call("report", EIGHT, "-o", name)
            self.assertEqual((status, errors.splitlines()), (1, REFUSAL))
            self.assertEqual(len(out.splitlines()), 1)
            with open(name, encoding="utf-8") as made:
                made = made.read()
        for part in ("the shares give 16 colours", "(refused 16 16)", "give domain 7 a share of 99"):
            self.assertIn(part, made)

    def test_json(self):
        wanted = dict(number=16, companion=16, line=9, column=18, offset=230,
                      words="the shares give 16 colours, which is 1 over 15",
                      fix="give domain 7 a share of 99 (2 colours become 1)")
        status, out, errors = call("check", "--json", EIGHT)
        self.assertEqual((status, errors), (1, ""))
        self.assertEqual(json.loads(out), [dict(file=EIGHT, accepted=False, refusal=wanted, warnings=[])])
        for arguments in (["table", "--json", EIGHT], ["run", "--json", EIGHT],
                          ["compare", "--json", EIGHT, "examples/filter.plan"]):
            status, out, errors = call(*arguments)
            self.assertEqual((status, json.loads(out), errors), (1, dict(file=EIGHT, refusal=wanted), ""))

    def test_without_a_text_or_a_cause(self):
        self.assertEqual(str(pirkvezo.Refused(16, 17)), "the shares give more than 15 colours [16]")
        self.assertEqual(refusal_lines("a", pirkvezo.Refused(16, 17)),
                         ["a: the shares give more than 15 colours [16]"])
        # a number that belongs to no text, beside one
        self.assertEqual(len(refusal_lines("a", pirkvezo.Refused(12, 0, b"(pad 376)"))), 1)
        # the verdict is the library's, also where the desk sees nothing to cut
        with mock.patch.object(library, "read_plan", return_value=(16, 16, 0, 0)):
            said = refused(text_of([400, 300]))
        self.assertEqual((said.number, said.companion, said.fix), (16, 16, ""))
        self.assertEqual(len(refusal_lines("a", said)), 3)

    def test_a_value_with_too_many_colours(self):
        plan = pirkvezo.read(text_of([125] * 7 + [99]))
        numbers = list(plan.numbers)
        numbers[4 + 7], numbers[84 + 7] = 125, 0b11 << 14
        with self.assertRaises(pirkvezo.Refused) as caught:
            pirkvezo.World.fresh(dataclasses.replace(plan, numbers=tuple(numbers)))
        self.assertEqual((caught.exception.number, caught.exception.companion), (12, 0))


class Rule(unittest.TestCase):
    def test_every_share(self):
        """A single domain with each share there is: what the desk says of it, and the library's mask."""
        for share in range(1, 1001):
            given = shares.colours_of(share)
            said = refused(text_of([share]))
            if share < 34:
                self.assertEqual((given, said.number, said.companion), (0, 6, 0))
            else:
                plan = pirkvezo.read(text_of([share]))
                self.assertEqual((given, (1 << given) - 1), (plan.holding(0), plan.masks[0]), share)
            least = shares.least_share(given)
            self.assertTrue(least <= share and shares.colours_of(least) == given)
            self.assertTrue(least == 0 or shares.colours_of(least - 1) == given - 1)

    def test_random_plans_reach_the_limits(self):
        """The shares that other tests take at random are accepted, and some plans let every colour."""
        chance, held = random.Random(24), set()
        for _ in range(300):
            sold = shares_at_random(chance, chance.randint(1, 8))
            plan = pirkvezo.read(text_of(sold))
            self.assertEqual([plan.holding(domain) for domain in range(plan.domains)], colours(sold))
            held.add(sum(colours(sold)))
        self.assertEqual(held, set(range(1, 16)))

    def test_a_warning_where_whole_colours_are_lost(self):
        for sold, lost in [([299] * 3, "1 of 13"), ([99] * 8, "3 of 11"), ([233] * 4 + [34] * 2, "1 of 15"),
                           # a part of a colour, nothing, or more than the shares pay for
                           ([433, 99], None), ([499, 501], None), ([300] * 3, None), ([34], None)]:
            with self.subTest(sold):
                found = [w.words for w in advice.warnings(pirkvezo.read(text_of(sold))) if w.kind == "rounding"]
                self.assertEqual(len(found), 1 if lost else 0)
                self.assertTrue(not lost or found[0].startswith(
                    f"rounding loses {lost} colours that the shares pay for: they total {sum(sold)}, and the domains "
                    f"hold {sum(colours(sold))} colours"), found)


if __name__ == "__main__":
    unittest.main()
