"""The commands as a user calls them: exit status, one clear line for bad input, no traceback."""
import csv
import io
import json
import os
import subprocess
import sys
import tempfile
import unittest
from unittest import mock

from pirkvezo import build, library

ROOT = str(library.ROOT)
FULL = "/dev/full"


def call(*arguments, text=b"", **options):
    """python3 -m pirkvezo with these arguments: status, output, errors."""
    ran = subprocess.run([sys.executable, "-m", "pirkvezo", *arguments], cwd=ROOT, input=text, timeout=60,
                         stdout=subprocess.PIPE, stderr=subprocess.PIPE,
                         env=dict(os.environ, PYTHONPATH=os.path.join(ROOT, "desk"), **options))
    return ran.returncode, ran.stdout.decode(), ran.stderr.decode()


class BadInput(unittest.TestCase):
    def one_line(self, said, *parts, status=2):
        self.assertEqual(said[0], status, said)
        self.assertEqual(said[1], "")
        self.assertEqual(len(said[2].splitlines()), 1, said)
        self.assertNotIn("Traceback", said[2])
        for part in parts:
            self.assertIn(part, said[2])

    def test_arguments(self):
        self.one_line(call(), "a command is missing", "check", "table", "run")
        self.one_line(call("nothing"), "nothing")
        self.one_line(call("check"), "PLAN")
        self.one_line(call("check", "--nothing", "examples/filter.plan"), "--nothing")
        self.one_line(call("run", "--windows", "-1", "examples/filter.plan"), "0 to 32000")
        self.one_line(call("run", "--windows", "٣", "examples/filter.plan"), "0 to 32000")
        self.one_line(call("run", "--log-length", "9" * 5000, "examples/filter.plan"), "0 to 16777216")
        self.one_line(call("run", "--csv", "--json", "examples/filter.plan"), "--json")
        self.one_line(call("table", "examples/filter.plan", "examples/filter.plan"), "examples/filter.plan")

    def test_files(self):
        for command in ("check", "table", "run"):
            self.one_line(call(command, "nowhere.plan"), "nowhere.plan: no such file")
            self.one_line(call(command, "examples"), "examples: is a directory")
            self.one_line(call(command, ""), "")
            self.one_line(call(command, "/dev/zero"), "1048576")
            self.one_line(call(command, "a\nb\x1b[1m"), "a␊b␛[1m")
        self.one_line(call("check", "-", "-"), "only once")

    def test_a_file_is_looked_at_before_the_library(self):
        self.one_line(call("check", "nowhere.plan", PIRKVEZO_SHARED="/nowhere.so"), "nowhere.plan")
        self.one_line(call("check", "README.md", PIRKVEZO_SHARED="/nowhere.so"), "/nowhere.so")
        self.one_line(call("check", "README.md", PIRKVEZO_SHARED="README.md"), "is not Pirkvezo's shared library")

    def test_binary_texts_are_refused_in_words(self):
        for text in (b"\0\1\2", bytes(range(256)), b"\xff\xfe(\0p\0", b"\x1b[2J", b"(" * 100000):
            for command in ("check", "table", "run"):
                status, out, errors = call(command, "-", text=text)
                self.assertEqual(status, 1)
                self.assertNotIn("Traceback", errors)
                self.assertNotIn("\x1b", out + errors)

    @unittest.skipUnless(os.path.exists(FULL), "no " + FULL)
    def test_a_failed_write_is_not_status_0(self):
        for command in ("check", "table", "run"):
            with open(FULL, "wb") as full:
                ran = subprocess.run([sys.executable, "-m", "pirkvezo", command, "examples/filter.plan"], cwd=ROOT,
                                     stdout=full, stderr=subprocess.PIPE, timeout=60,
                                     env=dict(os.environ, PYTHONPATH=os.path.join(ROOT, "desk")))
            self.assertEqual(ran.returncode, 2)
            self.assertEqual(len(ran.stderr.splitlines()), 1, ran.stderr)

    def test_the_toolchain_is_missing(self):
        with tempfile.TemporaryDirectory() as folder, mock.patch.dict(os.environ), \
                mock.patch.object(build, "FOLDER", library.pathlib.Path(folder)), \
                mock.patch("shutil.which", return_value=None):
            os.environ.pop("PIRKVEZO_SHARED", None)
            self.assertRaisesRegex(build.CannotBuild, "rt .* is not on the PATH", build.ensure)


class Commands(unittest.TestCase):
    def test_check(self):
        status, out, _ = call("check", "examples/oversold.plan")
        self.assertEqual((status, out.splitlines()), (1, [
            "examples/oversold.plan:3:18: the shares total 1100, which is 100 over 1000 [7]",
            "    (domain 1 (share 500) (may))",
            "                     ^",
            "    fix: sell 100 thousandths less"]))
        status, out, _ = call("check", "--json", "examples/oversold.plan", "examples/filter.plan")
        refused, accepted = json.loads(out)
        self.assertEqual(status, 1)
        self.assertEqual((refused["refusal"]["number"], refused["refusal"]["companion"]), (7, 1100))
        self.assertTrue(accepted["accepted"] and accepted["refusal"] is None)
        self.assertEqual({w["kind"] for w in accepted["warnings"]}, {"never allowed"})
        self.assertEqual(call("check", "examples/worked_example.plan")[0], 0)

    def test_run(self):
        with open(os.path.join(ROOT, "examples", "filter.out")) as kept:
            kept = kept.read()
        steps = "18 steps of at most 18\n"
        self.assertEqual(call("run", "examples/filter.plan"), (0, kept, "examples/filter.plan: " + steps))
        with open(os.path.join(ROOT, "examples", "filter.plan"), "rb") as plan:
            self.assertEqual(call("run", "-", text=plan.read()), (0, kept, "standard input: " + steps))
        rows = list(csv.reader(io.StringIO(call("run", "--csv", "examples/filter.plan")[1])))
        self.assertEqual(len(rows) - 1, kept.count("(seen "))
        seen = [f"(seen {row[0]} {row[5]} ({row[6]} {row[7]}))" for row in rows[1:]]
        self.assertEqual(seen, kept.splitlines()[:-1])
        made = json.loads(call("run", "--json", "--windows", "2", "examples/filter.plan")[1])
        self.assertEqual((made["windows"], made["clock"], made["ended"]), (2, 2300, False))
        self.assertEqual([entry["why"] for entry in made["domains"]], ["run stopped", None, "run stopped"])
        self.assertIn("(stopped 1 1000)\n", call("run", "--windows", "1", "examples/filter.plan")[1])
        full = json.loads(call("run", "--json", "--log-length", "48", "examples/filter.plan")[1])
        self.assertEqual({entry["why"] for entry in full["domains"]}, {"log full"})
        status, out, errors = call("run", "examples/oversold.plan")
        self.assertEqual((status, out), (1, "(refused 7 1100)\n"))
        self.assertIn("100 over 1000", errors)
        self.assertIn("never reached (log full): 3 ops of 5", call(
            "run", "--table", "--log-length", "48", "examples/filter.plan")[1])

    def test_table(self):
        status, out, _ = call("table", "examples/worked_example.plan")
        self.assertEqual(status, 0)
        self.assertIn("■■■■■■□□□□□□□□□k", out)
        self.assertIn("□□□□□□■■■■■□□□□k", out)
        self.assertIn("no colour is let twice; 11 let, 4 unsold, 1 the kernel's, 16 in all", out)
        self.assertRegex(out, r"\n +1 +300 +5 .* \+0\.500 +0  none\n")
        status, out, _ = call("table", "examples/worked_example.plan", PYTHONIOENCODING="ascii")
        self.assertIn("######.........k", out)
        self.assertEqual(call("table", "examples/oversold.plan")[0], 1)

    def test_help_has_an_example(self):
        for command in ("check", "table", "run"):
            status, out, _ = call(command, "--help")
            self.assertEqual(status, 0)
            self.assertIn(f"pirkvezo {command} examples/", out)
            self.assertIn("exit status", out)
        self.assertIn("comes from the proved library", call("--help")[1])


class Scripts(unittest.TestCase):
    """./pirkvezo and ./planrun, up to where they would build something."""

    def script(self, name, *arguments, text=b"", cwd=ROOT):
        ran = subprocess.run([name, *arguments], cwd=cwd, input=text, timeout=120, stdout=subprocess.PIPE,
                             stderr=subprocess.PIPE)
        return ran.returncode, ran.stdout.decode(), ran.stderr.decode()

    def test_arguments_of_planrun(self):
        planrun = os.path.join(ROOT, "planrun")
        self.assertEqual(self.script(planrun, "nowhere"), (2, "", "planrun: nowhere: no such file\n"))
        self.assertEqual(self.script(planrun, "examples"), (2, "", "planrun: examples: is a directory, not a plan\n"))
        self.assertEqual(self.script(planrun, "a", "b")[0], 2)
        self.assertEqual(self.script(planrun, "--nothing")[0], 2)
        status, out, errors = self.script(planrun, "--help")
        self.assertEqual((status, errors), (0, ""))
        self.assertIn("exit status", out)

    @unittest.skipUnless(os.path.isfile(os.path.join(ROOT, "target", "planrun.made-of")), "planrun is not built")
    def test_status_of_planrun(self):
        planrun = os.path.join(ROOT, "planrun")
        self.assertEqual(self.script(planrun, "examples/oversold.plan")[:2], (1, "(refused 7 1100)\n"))
        self.assertEqual(self.script(planrun, text=b"")[:2], (1, "(refused 5 0)\n"))
        self.assertEqual(self.script(planrun, "examples/filter.plan")[0], 0)
        if os.path.exists(FULL):
            with open(FULL, "wb") as full:
                self.assertEqual(subprocess.run([planrun, "examples/filter.plan"], cwd=ROOT, stdout=full,
                                                stderr=subprocess.PIPE).returncode, 2)

    def test_the_command_works_through_a_symlink_and_from_any_folder(self):
        with tempfile.TemporaryDirectory() as folder:
            link = os.path.join(folder, "link")
            os.symlink(os.path.join(ROOT, "pirkvezo"), link)
            status, _, errors = self.script(link, "check", "nowhere", cwd=folder)
            self.assertEqual(status, 2)
            self.assertIn("nowhere: no such file", errors)


if __name__ == "__main__":
    unittest.main()
