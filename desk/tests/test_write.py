"""write: bad input first; then canonical texts held to ones made by hand, and what --check says.

test_in_place.py has what is only about files that are rewritten.
"""
import contextlib
import ctypes
import dataclasses
import glob
import io
import json
import os
import pathlib
import random
import re
import subprocess
import tempfile
import unittest
from unittest import mock

import pirkvezo
from pirkvezo import library
from pirkvezo.cli import main
from plans_at_random import plan_text, respelled
from test_bound import contents, ran
from test_commands import FULL, ROOT, call
from test_refusals import CASES
from test_report import longest

EXAMPLES = sorted(glob.glob(os.path.join(ROOT, "examples", "*.plan")))
ACCEPTED = [name for name in EXAMPLES if not pathlib.Path(name[:-5] + ".out").read_text().startswith("(refused ")]
WORKED = os.path.join(ROOT, "examples", "worked_example.plan")
CANONICAL = (b"(pad 376)\n(domain 0(share 400)(may 1))\n(domain 1(share 300)(may))\n(window 0(length 400))\n"
             b"(window 1(length 300))\n(run 1)\n(op 0(write 3))\n(op 0(read 3))\n(op 0(send 1 77))\n"
             b"(op 1(receive 0))\n(op 1(read 100))")
FORMS = ([], ["--check"], ["--in-place"])
NOT_ROOT = unittest.skipIf(os.geteuid() == 0, "root may read and write everything")


def said(*arguments, text=b""):
    """The command line in this process: status, the bytes of its output, and its errors."""
    out, errors = io.TextIOWrapper(io.BytesIO(), encoding="utf-8"), io.StringIO()
    errors.reconfigure = lambda **_: None
    with contextlib.redirect_stdout(out), contextlib.redirect_stderr(errors), \
            mock.patch("sys.stdin", io.TextIOWrapper(io.BytesIO(text))), mock.patch("pirkvezo.inputs._taken", []):
        status = main(list(arguments))
    out.flush()
    return status, out.buffer.getvalue(), errors.getvalue()


def by_hand(text):
    """The canonical text of one that is accepted, made without the library."""
    found = {"pad": [], "domain": [], "window": [], "run": [], "op": []}
    for line in text.decode().split("\n"):
        words = [str(int(word)) if word.isdigit() else word for word in re.findall(r"[()]|[a-z0-9]+", line)]
        if words and words[1] == "domain":
            words[9:-2] = sorted(words[9:-2])
        if words:
            found[words[1]].append(words)
    found["op"].sort(key=lambda words: words[2])
    lines = (" ".join(words) for form in found.values() for words in form)
    return re.sub(r" ?([()]) ?", r"\1", "\n".join(lines)).encode()


def kept(name):
    """All that a file must not lose where it is left as it was."""
    status = os.stat(name)
    return contents(name), status.st_ino, status.st_mtime_ns, status.st_ctime_ns, status.st_mode


class Folder(unittest.TestCase):
    """Tests with a folder of their own."""

    def setUp(self):
        made = tempfile.TemporaryDirectory()
        self.addCleanup(made.cleanup)
        self.folder = made.name

    def file(self, text, name="plan"):
        path = os.path.join(self.folder, name)
        pathlib.Path(path).write_bytes(text if isinstance(text, bytes) else text.encode("utf-8"))
        return path

    def left(self, name, *arguments, status=2, part=""):
        """The command fails, says so in one line, and leaves the file and nothing beside it."""
        before, beside = kept(name), sorted(os.listdir(self.folder))
        told = said(*arguments, name)
        self.assertEqual((told[0], told[1], told[2].count("\n")), (status, b"", 1), told)
        self.assertIn(part, told[2])
        self.assertEqual((kept(name), sorted(os.listdir(self.folder))), (before, beside))


class BadInput(Folder):
    def test_arguments(self):
        for arguments, part in [
                ([], "PLAN"), ([WORKED, WORKED], "unrecognized"), ([WORKED, "--nothing"], "--nothing"),
                ([WORKED, "--csv"], "--csv"), ([WORKED, "--check=1"], "--check"), ([WORKED, "--in-place=1"], "--in-pl"),
                (["--check", "--in-place", WORKED], "not allowed with"), ([WORKED, "--in-place", "--check"], "not"),
                (["--json", "--in-place", WORKED], "not allowed with"), (["--check", "--json", WORKED], "not allowed"),
                (["--in-place", "-"], "--in-place rewrites a file, and standard input is none"),
                (["-", "--in-place"], "--in-place rewrites a file, and standard input is none"),
                (["--in-place"], "PLAN"), (["nowhere.plan"], "nowhere.plan: no such file"), ([""], "no such file"),
                (["--in-place", "nowhere.plan"], "nowhere.plan: no such file"), (["a\0b"], "is no file name"),
                ([os.path.join(ROOT, "examples")], "is a directory"), (["--in-place", ROOT], "is a directory"),
                (["--check", ROOT], "is a directory"), (["/dev/zero"], "more than 1048576 bytes"),
                (["a\nb\x1b[1m"], "a␊b␛[1m")]:
            with self.subTest(arguments):
                # said before the library is looked for
                with mock.patch.dict(os.environ, PIRKVEZO_SHARED="/nowhere.so"):
                    status, out, errors = said("write", *arguments)
                self.assertEqual((status, out), (2, b""))
                self.assertEqual(errors.count("\n"), 1, errors)
                self.assertIn(part, errors)
        self.assertFalse(os.path.exists(os.path.join(ROOT, "nowhere.plan")))

    @NOT_ROOT
    def test_a_file_that_cannot_be_read(self):
        name = self.file(contents(WORKED))
        os.chmod(name, 0)
        for form in FORMS:
            status, out, errors = said("write", *form, name)
            self.assertEqual((status, out, errors.count("\n")), (2, b"", 1))
            self.assertIn("permission denied", errors)

    def test_the_library_is_missing(self):
        name = self.file(contents(WORKED))
        for form in FORMS:
            for shared, part in [("/nowhere.so", "is not there"), (WORKED, "is not Pirkvezo's shared library")]:
                with mock.patch.dict(os.environ, PIRKVEZO_SHARED=shared):
                    self.left(name, "write", *form, part=part)

    def test_every_refusal_is_told_as_by_table_but_never_where_a_plan_may_land(self):
        for text, number, line, column, *_ in CASES:
            with self.subTest(text[:60]):
                name = self.file(text)
                before = kept(name)
                for form in FORMS:
                    status, out, errors = said("write", *form, name)
                    self.assertEqual((status, out, errors), (1, b"", said("table", name)[1].decode()))
                    self.assertIn(f"{name}:{line}:{column}: ", errors)
                self.assertEqual((kept(name), os.listdir(self.folder)), (before, ["plan"]))
                status, out, errors = said("write", "--json", name)
                values = json.loads(out)
                self.assertEqual((status, errors, set(values)), (1, "", {"file", "refusal"}))
                self.assertEqual((values["refusal"]["number"], values["refusal"]["line"]), (number, line))

    def test_what_is_no_plan(self):
        worked = contents(WORKED)
        for text in (b"", b"\n", b"\0\1\2", bytes(range(256)), b"\x1b[2J", b"(" * 99999, worked + b"\r", worked + b"\t",
                     worked.replace(b"\n", b"\r\n"), worked.replace(b" ", b"\t"), worked.replace(b"(", b"[")):
            name = self.file(text)
            for form in FORMS:
                status, out, errors = said("write", *form, name)
                self.assertEqual((status, out), (1, b""))
                self.assertNotIn("\x1b", errors)
                self.assertEqual(contents(name), text)

    def test_the_longest_text_and_one_byte_more(self):
        for length, status, number in [(32768, 0, None), (32769, 1, 1)]:
            name = self.file(contents(WORKED).ljust(length))
            told = said("write", name)
            self.assertEqual(told[:2], (status, CANONICAL if status == 0 else b""))
            self.assertEqual("[1]" in told[2], number == 1)
            self.assertEqual(said("write", "--in-place", name)[0], status)
            self.assertEqual(len(contents(name)), 203 if status == 0 else length)

    def test_standard_input(self):
        self.assertEqual(call("write", "-", text=contents(WORKED)), (0, CANONICAL.decode(), ""))
        self.assertEqual(call("write", "--check", "-", text=CANONICAL), (0, "standard input: canonical\n", ""))
        status, out, errors = call("write", "-", text=b"(pad 1)")
        self.assertEqual((status, out), (1, ""))
        self.assertTrue(errors.startswith("standard input:1:6: the pad is 1;"), errors)
        done = ran("write", "-", stdout=subprocess.PIPE, stderr=subprocess.PIPE, preexec_fn=lambda: os.close(0))
        self.assertEqual((done.returncode, done.stdout), (2, b""))
        self.assertIn(b"standard input is closed", done.stderr)

    def test_a_failed_write_is_not_status_0(self):
        reader, writer = os.pipe()
        os.close(reader)
        for form in ([], ["--check"], ["--json"]):
            done = ran("write", *form, WORKED, stdout=writer, stderr=subprocess.PIPE)
            self.assertEqual((done.returncode, done.stderr), (2, b""))
            done = ran("write", *form, WORKED, stderr=subprocess.PIPE, preexec_fn=lambda: os.close(1))
            self.assertEqual((done.returncode, done.stderr), (2, b"pirkvezo: standard output is closed\n"))
            if os.path.exists(FULL):
                with open(FULL, "wb") as full:
                    done = ran("write", *form, WORKED, stdout=full, stderr=subprocess.PIPE)
                self.assertEqual((done.returncode, done.stderr.count(b"\n")), (2, 1), done.stderr)
        os.close(writer)

    def test_values_that_no_text_gives(self):
        plan = pirkvezo.read(contents(WORKED))
        with_numbers = [plan.numbers[:at] + (number,) + plan.numbers[at + 1:] for at, number in
                        [(0, 375), (1, 0), (2, 9), (3, 0), (3, 33), (4, 1001), (12, 1), (12, 4), (22, 1), (84, 0)]]
        with_scripts = [plan.scripts[:at] + (number,) + plan.scripts[at + 1:] for at, number in
                        # no op, an op behind the end, and a script of a domain that is not declared
                        [(0, 2**32 - 1), (4, 1 << 20), (2047, 1 << 20), (512, 1 << 20), (3, 5 << 20)]]
        wrong = [dataclasses.replace(plan, numbers=numbers) for numbers in with_numbers]
        wrong += [dataclasses.replace(plan, scripts=scripts) for scripts in with_scripts]
        # all ops in their places, and more bytes than a text may have
        wrong.append(dataclasses.replace(pirkvezo.read(longest()), scripts=(3 << 20 | 1 << 16 | 65535,) * 2048))
        for made in wrong:
            with self.assertRaises(pirkvezo.Refused) as caught:
                made.canonical
            self.assertEqual((caught.exception.number, caught.exception.companion), (12, 0))
            self.assertIn("no plan, or no plan with scripts, that a text gives", caught.exception.words)

    def test_a_buffer_that_is_too_short(self):
        plan = pirkvezo.read(contents(WORKED))
        numbers, scripts = library.PlanNumbers(*plan.numbers), library.Scripts(*plan.scripts)
        for length, answer in [(0, (17, 203, 0, 0)), (202, (17, 203, 0, 0)), (203, (0, 0, 203, 0))]:
            out = ctypes.create_string_buffer(b"x" * 300, 300)
            self.assertEqual(library.write_plan(numbers, scripts, out, length), answer)
            self.assertEqual(out.raw, (b"" if answer[0] else CANONICAL).ljust(300, b"x"))
        refused = pirkvezo.Refused(17, 203)
        self.assertEqual(str(refused), "the lent buffer is too short for the canonical text, which has 203 bytes [17]")
        self.assertEqual((refused.fix, refused.line), ("lend 203 bytes or more", None))


class Write(Folder):
    def test_exactly_its_bytes(self):
        self.assertEqual(said("write", WORKED), (0, CANONICAL, ""))
        self.assertEqual(len(CANONICAL), 203)
        for encoding in ("utf-16", "ascii", "cp037"):
            done = call("write", WORKED, PYTHONIOENCODING=encoding)
            self.assertEqual(done, (0, CANONICAL.decode(), ""))

    def test_json(self):
        for text, canonical in [(contents(WORKED), False), (CANONICAL, True)]:
            name = self.file(text)
            status, out, errors = said("write", "--json", name)
            self.assertEqual((status, errors), (0, ""))
            self.assertEqual(json.loads(out), dict(
                file=name, refusal=None, canonical=canonical, bytes=203, text=CANONICAL.decode()))

    def test_help(self):
        status, out, _ = said("write", "--help")
        self.assertEqual(status, 0)
        for part in ("pirkvezo write examples/", "--json", "--check", "--in-place", "or - for standard input",
                     "no line feed at its end", "3 it is not", "exit status"):
            self.assertIn(part, out.decode())
        listed = said("--help")[1].decode()
        self.assertRegex(listed, r"\n +write +write a plan's canonical text")
        self.assertIn("write", said()[2])

    def test_examples(self):
        self.assertTrue(ACCEPTED)
        for name in EXAMPLES:
            with self.subTest(name):
                status, out, errors = said("write", name)
                self.assertEqual((status, errors == ""), (0, True) if name in ACCEPTED else (1, False))
                if name in ACCEPTED:
                    self.held(contents(name), out)

    def test_at_random(self):
        chance = random.Random(31)
        for _ in range(60):
            text = plan_text(chance)
            other = respelled(chance, text)
            status, out, errors = said("write", "-", text=other)
            self.assertEqual((status, errors), (0, ""), other)
            self.held(text, out)
            self.held(other, out)

    def test_the_largest_plan(self):
        self.held(longest(), said("write", "-", text=longest())[1])

    def held(self, text, out):
        """What the command wrote is the canonical text: made by hand, read back, written again, never longer."""
        self.assertEqual(out, by_hand(text))
        one, other = pirkvezo.read(text), pirkvezo.read(out)
        self.assertEqual((one.numbers, one.scripts), (other.numbers, other.scripts))
        self.assertEqual(other.canonical, out)
        self.assertLessEqual(len(out), len(text))
        self.assertEqual(said("write", "--check", "-", text=out)[:2], (0, b"standard input: canonical\n"))
        self.assertEqual(said("write", "--check", "-", text=text)[0], 0 if out == text else 3)


class Check(Folder):
    def test_where_it_first_differs(self):
        lines = CANONICAL.decode().split("\n")
        second, eighth, last = lines[1], lines[7], lines[-1]
        for text, at, stands, due in [
                (contents(WORKED), "2:10", "(domain 0 (share 400) (may 1))", second),
                ("\n".join(["", *lines]), "1:1", None, lines[0]),
                ("\n".join([*lines[:5], "  ", *lines[5:]]), "6:1", "  ", "(run 1)"),
                (" " + "\n".join(lines), "1:1", " (pad 376)", "(pad 376)"),
                ("\n".join(["(pad 376) ", *lines[1:]]), "1:10", "(pad 376) ", "(pad 376)"),
                ("\n".join(["(pad 0000000376)", *lines[1:]]), "1:6", "(pad 0000000376)", "(pad 376)"),
                ("\n".join([lines[5], *lines[:5], *lines[6:]]), "1:2", "(run 1)", "(pad 376)"),
                ("\n".join([*lines[:7], lines[9], eighth, lines[8], last]), "8:5", "(op 1(receive 0))", eighth),
                ("\n".join(lines) + "  ", "11:17", last + "  ", last),
                ("\n".join([*lines[:-1], last.replace("(read", "( read")]), "11:7", "(op 1( read 100))", last)]:
            with self.subTest(at):
                name = self.file(text)
                stands = "an empty line" if stands is None else f'"{stands}"'
                line = f'{name}:{at}: not canonical: {stands} stands here, and the canonical text has "{due}"\n'
                self.assertEqual(said("write", "--check", name), (3, line.encode(), ""))
        recipients = b"(pad 376)\n" + b"".join(b"(domain %d(share 99)(may%b))\n" % (domain, may) for domain, may in
                                               enumerate([b" 2 1", b"", b""])) + b"(window 0(length 9))\n(run 1)"
        self.assertIn(b':2:25: not canonical: "(domain 0(share 99)(may 2 1))"',
                      said("write", "--check", self.file(recipients))[1])

    def test_a_line_feed_at_the_end(self):
        for more in (b"\n", b"\n\n", b"\n  \n"):
            name = self.file(CANONICAL + more)
            self.assertEqual(said("write", "--check", name)[:2], (3, (
                f"{name}:11:17: not canonical: a line feed stands here, and the canonical text ends without one\n"
            ).encode()))

    def test_a_long_line_is_cut(self):
        name = self.file(CANONICAL.replace(b"(pad 376)", b"(pad" + b" " * 9000 + b"376)" + b" " * 9000))
        status, out, _ = said("write", "--check", name)
        self.assertEqual((status, out.count(b"\n")), (3, 1))
        self.assertIn(b':1:6: not canonical: "(pad  ', out)
        self.assertLess(len(out), len(name) + 200)

    def test_canonical(self):
        name = self.file(CANONICAL)
        before = kept(name)
        self.assertEqual(said("write", "--check", name), (0, f"{name}: canonical\n".encode(), ""))
        self.assertEqual(kept(name), before)
        name = self.file(contents(WORKED))
        before = kept(name)
        self.assertEqual(said("write", "--check", name)[0], 3)
        self.assertEqual(kept(name), before)


class Wrong(Folder):
    """Answers that the proved library does not give: the desk says so, and no file gets them."""

    def test_a_text_of_another_plan(self):
        texts = [b"", CANONICAL[:-1], CANONICAL.replace(b"77", b"78"), CANONICAL.replace(b"400)(may", b"401)(may"),
                 CANONICAL.replace(b"(op 1(read 100))", b"(op 0(read 100))"), b"\xff" * 203]
        for text in texts:
            def wrong(plan, scripts, out, length):
                ctypes.memmove(out, text, len(text))
                return 0, 0, len(text), 0
            with mock.patch.object(library, "write_plan", wrong):
                for form in (*FORMS, ["--json"]):
                    self.left(self.file(contents(WORKED)), "write", *form, part="pirkvezo: THIS MUST NOT HAPPEN: ")
                self.assertRaises(pirkvezo.Fault, lambda: pirkvezo.read(contents(WORKED)).canonical)

    def test_a_call_that_is_refused(self):
        for answer, part in [((12, 0, 0, 0), "no plan with scripts, that a text gives [12]"),
                             ((17, 40000, 0, 0), "the canonical text, which has 40000 bytes [17]")]:
            with mock.patch.object(library, "write_plan", return_value=answer):
                for form in (*FORMS, ["--json"]):
                    self.left(self.file(contents(WORKED)), "write", *form, part=part)


class Entry(Folder):
    """./pirkvezo itself, with files and pipes."""

    def script(self, line):
        done = subprocess.run(["bash", "-c", line, "bash", os.path.join(ROOT, "pirkvezo")], cwd=self.folder, timeout=60,
                              env=dict(os.environ, PIRKVEZO_SHARED=os.path.abspath(library.path())),
                              stdout=subprocess.PIPE, stderr=subprocess.PIPE)
        return done.returncode, done.stdout, done.stderr

    def test_a_canonical_file(self):
        self.file(contents(WORKED))
        self.assertEqual(self.script('"$1" write plan > made; "$1" write --check made'), (0, b"made: canonical\n", b""))
        self.assertEqual(contents(os.path.join(self.folder, "made")), CANONICAL)
        self.assertEqual(self.script('"$1" write - < plan | cmp - made'), (0, b"", b""))
        self.assertEqual(self.script('"$1" write --check plan')[::2], (3, b""))
        self.assertEqual(self.script('"$1" write --in-place plan && cmp plan made')[::2], (0, b""))

    def test_bad_input(self):
        self.file("(pad 1)")
        for line, status in [("write nowhere", 2), ("write", 2), ("write .", 2), ("write --in-place - < plan", 2),
                             ("write --check --in-place plan", 2), ("write plan", 1), ("write --in-place plan", 1),
                             ("write --check plan", 1)]:
            done = self.script('"$1" ' + line)
            self.assertEqual(done[:2], (status, b""), line)
            self.assertNotIn(b"Traceback", done[2])
        self.assertEqual(contents(os.path.join(self.folder, "plan")), b"(pad 1)")


if __name__ == "__main__":
    unittest.main()
