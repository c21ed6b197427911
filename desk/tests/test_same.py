"""same: bad input first; then spellings of one plan, plans that differ, and the lines that are shown."""
import json
import os
import random
import subprocess
import unittest
from unittest import mock

import pirkvezo
from pirkvezo import library
from pirkvezo.canonical import differences
from plans_at_random import plan_text, respelled
from test_bound import contents, ran
from test_commands import FULL, ROOT, call
from test_refusals import CASES
from test_report import longest
from test_write import ACCEPTED, CANONICAL, EXAMPLES, NOT_ROOT, WORKED, Folder, said

FILTER = os.path.join(ROOT, "examples", "filter.plan")
OVERSOLD = os.path.join(ROOT, "examples", "oversold.plan")
SAME = "The same plan with the same scripts.\n"


class Two(Folder):
    """Tests with two files in a folder of their own."""

    def two(self, a, b, *options):
        """The command on two texts: status, output and errors, in which the files are a and b."""
        names = self.file(a, "a"), self.file(b, "b")
        status, out, errors = said("same", *options, *names)
        out = out.decode()
        for name, short in zip(names, "ab"):
            out, errors = out.replace(name, short), errors.replace(name, short)
        return status, out, errors


class BadInput(Two):
    def test_arguments(self):
        for arguments, part in [
                ([], "A, B"), ([WORKED], "B"), ([WORKED, WORKED, WORKED], "unrecognized"), (["-", "-"], "only once"),
                ([WORKED, WORKED, "--nothing"], "--nothing"), ([WORKED, WORKED, "--check"], "--check"),
                ([WORKED, WORKED, "--json=1"], "--json"), (["nowhere.plan", WORKED], "A: nowhere.plan: no such file"),
                ([WORKED, "nowhere.plan"], "B: nowhere.plan: no such file"), ([WORKED, ROOT], "B: "),
                ([ROOT, WORKED], "is a directory"), (["", WORKED], "A: "), ([WORKED, "a\0b"], "is no file name"),
                (["/dev/zero", WORKED], "more than 1048576 bytes"), ([WORKED, "a\nb\x1b[1m"], "a␊b␛[1m")]:
            with self.subTest(arguments):
                # said before the library is looked for
                with mock.patch.dict(os.environ, PIRKVEZO_SHARED="/nowhere.so"):
                    status, out, errors = said("same", *arguments)
                self.assertEqual((status, out), (2, b""))
                self.assertEqual(errors.count("\n"), 1, errors)
                self.assertIn(part, errors)

    @NOT_ROOT
    def test_a_file_that_cannot_be_read(self):
        name = self.file(contents(WORKED))
        os.chmod(name, 0)
        for names in ([name, WORKED], [WORKED, name]):
            status, out, errors = said("same", *names)
            self.assertEqual((status, out, errors.count("\n")), (2, b"", 1))
            self.assertIn("permission denied", errors)

    def test_the_library_is_missing(self):
        with mock.patch.dict(os.environ, PIRKVEZO_SHARED="/nowhere.so"):
            status, out, errors = said("same", WORKED, WORKED)
        self.assertEqual((status, out, errors.count("\n")), (2, b"", 1))
        self.assertIn("/nowhere.so", errors)

    def test_refused_files_are_named(self):
        worked = contents(WORKED)
        for text, number, line, column, *_ in CASES:
            with self.subTest(text[:60]):
                for pair, told in [((text, worked), "a"), ((worked, text), "b"), ((text, text), "ab")]:
                    status, out, errors = self.two(*pair)
                    self.assertEqual((status, out), (1, ""))
                    self.assertEqual(errors.count(f" [{number}]\n"), len(told), errors)
                    for side in "ab":
                        self.assertEqual(f"{side}:{line}:{column}: " in errors, side in told)
                    status, out, errors = self.two(*pair, "--json")
                    values = json.loads(out)
                    self.assertEqual((status, errors, set(values)), (1, "", {"a", "b", "refusal"}))
                    for side in "ab":
                        why = values["refusal"][side]
                        self.assertEqual(why and why["number"], number if side in told else None)

    def test_both_refused_for_different_causes(self):
        status, out, errors = self.two(contents(OVERSOLD), "(pad\t276)")
        self.assertEqual((status, out), (1, ""))
        self.assertLess(errors.index("a:3:18: the shares total 1100"), errors.index("b:1:5: a tab"))

    def test_what_is_no_plan(self):
        worked = contents(WORKED)
        for text in (b"", b"\0\1\2", bytes(range(256)), b"\x1b[2J", worked.replace(b"\n", b"\r\n"), worked + b"\t",
                     worked.ljust(32769)):
            status, out, errors = self.two(worked, text)
            self.assertEqual((status, out), (1, ""))
            self.assertTrue(errors.startswith("b:"), errors)
            self.assertNotIn("\x1b", errors)
        self.assertEqual(self.two(worked, worked.ljust(32768))[0], 0)

    def test_a_failed_write_is_not_status_0(self):
        reader, writer = os.pipe()
        os.close(reader)
        for arguments in ([WORKED], [FILTER], [FILTER, "--json"]):
            done = ran("same", WORKED, *arguments, stdout=writer, stderr=subprocess.PIPE)
            self.assertEqual((done.returncode, done.stderr), (2, b""))
            done = ran("same", WORKED, *arguments, stderr=subprocess.PIPE, preexec_fn=lambda: os.close(1))
            self.assertEqual((done.returncode, done.stderr), (2, b"pirkvezo: standard output is closed\n"))
            if os.path.exists(FULL):
                with open(FULL, "wb") as full:
                    done = ran("same", WORKED, *arguments, stdout=full, stderr=subprocess.PIPE)
                self.assertEqual((done.returncode, done.stderr.count(b"\n")), (2, 1), done.stderr)
        os.close(writer)


class Same(Two):
    def test_spellings_of_one_plan(self):
        worked = contents(WORKED)
        for other in (worked, CANONICAL, CANONICAL + b"\n", b"\n \n" + worked + b"  ", worked.replace(b" ", b"   "),
                      worked.replace(b"376", b"0000000376"), b"(run 1)\n" + worked.replace(b"(run 1)\n", b""),
                      worked.replace(b"(op 1 (receive 0))\n", b"").replace(b"(run 1)", b"(op 1 (receive 0))\n(run 1)")):
            self.assertEqual(self.two(worked, other), (0, "A: a\nB: b\n" + SAME, ""), other)
            status, out, errors = self.two(worked, other, "--json")
            self.assertEqual((status, errors), (0, ""))
            self.assertEqual(json.loads(out), dict(a="a", b="b", refusal=None, same=True, differences=[]))

    def test_recipients_in_another_order(self):
        filtered = contents(FILTER)
        self.assertIn(b"(may 0 2)", filtered)
        self.assertEqual(self.two(filtered, filtered.replace(b"(may 0 2)", b"(may 02 0)"))[0], 0)

    def test_standard_input(self):
        self.assertEqual(call("same", WORKED, "-", text=CANONICAL), (0, f"A: {WORKED}\nB: standard input\n{SAME}", ""))
        self.assertEqual(call("same", "-", WORKED, text=CANONICAL), (0, f"A: standard input\nB: {WORKED}\n{SAME}", ""))
        self.assertEqual(call("same", "-", WORKED, text=b"(pad 1)")[:2], (1, ""))

    def test_examples(self):
        for a in EXAMPLES:
            for b in EXAMPLES:
                refused = a not in ACCEPTED or b not in ACCEPTED
                self.assertEqual(said("same", a, b)[0], 1 if refused else 0 if a == b else 3, (a, b))

    def test_at_random(self):
        chance = random.Random(33)
        for _ in range(60):
            text = plan_text(chance)
            self.assertEqual(self.two(respelled(chance, text), respelled(chance, text))[0], 0, text)

    def test_help(self):
        status, out, _ = said("same", "--help")
        self.assertEqual(status, 0)
        for part in ("pirkvezo same monday.plan", "--json", "or - for standard input", "3 not the same", "exit status"):
            self.assertIn(part, out.decode())
        self.assertRegex(said("--help")[1].decode(), r"\n +same +say whether two files are the same plan")


class Different(Two):
    def shown(self, a, b, *expected, more=0):
        """The command shows these differences: what each is about, and the line of A and of B."""
        status, out, errors = self.two(a, b)
        self.assertEqual((status, errors), (3, ""))
        number = len(expected) + more
        said_of_it = ["A: a", "B: b", f"Not the same: the canonical texts differ in {number} line{'s' * (number > 1)}."]
        for about, left, right in expected:
            said_of_it += ["", about, f"  A: {left}", f"  B: {right}"]
        self.assertEqual(out.splitlines(), said_of_it + (["", f"And {more} more."] if more else []))

    def test_one_number(self):
        filtered = contents(FILTER)
        for old, new, about, line, left, right in [
                ("(send 1 500)", "(send 1 600)", "op 0 of domain 0", 9, "(op 0(send 1 500))", "(op 0(send 1 600))"),
                ("(compute 50)", "(compute 51)", "op 1 of domain 1", 15, "(op 1(compute 50))", "(op 1(compute 51))"),
                ("(pad 400)", "(pad 401)", "the pad", 1, "(pad 400)", "(pad 401)"),
                ("(run 2)", "(run 3)", "the run", 8, "(run 2)", "(run 3)"),
                ("0 (share 300)", "0 (share 299)", "domain 0", 2, "(domain 0(share 300)(may 1))",
                 "(domain 0(share 299)(may 1))"),
                ("(may 0 2)", "(may 2)", "domain 1", 3, "(domain 1(share 300)(may 0 2))",
                 "(domain 1(share 300)(may 2))"),
                ("(length 900)", "(length 901)", "window 1 of a round", 6, "(window 1(length 900))",
                 "(window 1(length 901))")]:
            with self.subTest(old):
                self.assertIn(old, filtered.decode())
                other = filtered.decode().replace(old, new, 1)
                self.shown(filtered, other, (about, f"line {line}: {left}", f"line {line}: {right}"))
                self.shown(other, filtered, (about, f"line {line}: {right}", f"line {line}: {left}"))

    def test_shares_that_give_as_many_colours(self):
        # the masks are equal, and the plans are not
        self.shown(CANONICAL, CANONICAL.replace(b"400)(may", b"401)(may"), (
            "domain 0", "line 2: (domain 0(share 400)(may 1))", "line 2: (domain 0(share 401)(may 1))"))

    def test_a_line_that_one_lacks(self):
        last = "(op 1(read 100))"
        self.shown(CANONICAL, CANONICAL[:-len(last) - 1], ("op 1 of domain 1", f"line 11: {last}", "has none"))
        # the same line stands elsewhere, and nothing else is different
        self.shown(CANONICAL, CANONICAL.replace(b"(op 1(rec", b"(op 0(read 100))\n(op 1(rec"), (
            "op 3 of domain 0", "has none", "line 10: (op 0(read 100))"))
        self.shown(CANONICAL, CANONICAL.replace(b"(run", b"(window 0(length 400))\n(run"), (
            "window 2 of a round", "has none", "line 6: (window 0(length 400))"))

    def test_the_first_few_are_shown(self):
        empty = longest().decode().split("(op ")[0]
        first = [(f"op {place} of domain 0", f"line {43 + place}: (op 0(read 0))", "has none") for place in range(4)]
        self.shown(longest(), empty, *first, more=2044)
        values = json.loads(self.two(longest(), empty, "--json")[1])
        self.assertEqual(len(values["differences"]), 2048)

    def test_json(self):
        status, out, errors = self.two(CANONICAL, CANONICAL.replace(b"77", b"78") + b"\n(op 1(read 1))", "--json")
        self.assertEqual((status, errors), (3, ""))
        self.assertEqual(json.loads(out), dict(a="a", b="b", refusal=None, same=False, differences=[
            dict(about="op 2 of domain 0", a=dict(number=9, text="(op 0(send 1 77))"),
                 b=dict(number=9, text="(op 0(send 1 78))")),
            dict(about="op 2 of domain 1", a=None, b=dict(number=12, text="(op 1(read 1))"))]))

    def test_at_random(self):
        """What is shown first is in the first line that differs, and texts without differences are equal."""
        chance = random.Random(34)
        for _ in range(60):
            text = plan_text(chance).decode()
            lines = text.splitlines()
            at = chance.randrange(len(lines))
            lines[at] = lines[at].replace(*chance.choice([("1", "2"), ("read", "write"), ("3", "4"), ("2", "1")]), 1)
            try:
                a, b = pirkvezo.read(text), pirkvezo.read("\n".join(lines))
            except pirkvezo.Refused:
                continue
            equal = (a.numbers, a.scripts) == (b.numbers, b.scripts)
            self.assertEqual(self.two(a.text, b.text)[0], 0 if equal else 3)
            found = differences(a.canonical, b.canonical)
            self.assertEqual(bool(found), not equal)
            if found:
                pairs = list(zip(a.canonical.decode().split("\n"), b.canonical.decode().split("\n")))
                first = [one == other for one, other in pairs].index(False)
                self.assertEqual((found[0].a or found[0].b).number, first + 1)


class Wrong(Two):
    """Answers that the proved library does not give: the desk says so."""

    def test_canonical_texts_that_do_not_agree_with_the_plans(self):
        for texts in ([CANONICAL, CANONICAL], [CANONICAL, contents(WORKED).replace(b" (", b"(")]):
            others = CANONICAL, CANONICAL.replace(b"77", b"78") if texts[0] == texts[1] else CANONICAL
            with mock.patch("pirkvezo.plans.Plan.canonical", new_callable=mock.PropertyMock, side_effect=texts * 2):
                for form in ([], ["--json"]):
                    status, out, errors = self.two(*others, *form)
                    self.assertEqual((status, out, errors.count("\n")), (2, "", 1))
                    self.assertIn("THIS MUST NOT HAPPEN: ", errors)

    def test_a_call_that_is_refused(self):
        with mock.patch.object(library, "write_plan", return_value=(17, 40000, 0, 0)):
            status, out, errors = self.two(CANONICAL, CANONICAL)
        self.assertEqual((status, out, errors.count("\n")), (2, "", 1))
        self.assertIn("which has 40000 bytes [17]", errors)


class Entry(Two):
    """./pirkvezo itself."""

    def test_status(self):
        for a, b, status in [(WORKED, WORKED, 0), (WORKED, FILTER, 3), (WORKED, OVERSOLD, 1), (WORKED, "nowhere", 2)]:
            done = subprocess.run([os.path.join(ROOT, "pirkvezo"), "same", a, b], cwd=self.folder, timeout=60,
                                  env=dict(os.environ, PIRKVEZO_SHARED=os.path.abspath(library.path())),
                                  stdout=subprocess.PIPE, stderr=subprocess.PIPE)
            self.assertEqual(done.returncode, status)
            self.assertEqual((done.stdout == b"", done.stderr == b""), (status in (1, 2), status in (0, 3)))


if __name__ == "__main__":
    unittest.main()
