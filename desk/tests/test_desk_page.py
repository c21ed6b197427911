"""docs/DESK.md: each command that it shows prints what it shows, but for line breaks."""
import os
import pathlib
import re
import subprocess
import sys
import unittest

ROOT = pathlib.Path(__file__).resolve().parents[2]
sys.path.insert(0, str(ROOT / "desk"))

from pirkvezo import library, read
from pirkvezo.history import history
from pirkvezo.report.pictures import share_picture
from pirkvezo.report.timeline import messages, timeline


def shown():
    """The commands of the page, each with the words of its output."""
    found = []
    for line in (ROOT / "docs" / "DESK.md").read_text(encoding="utf-8").splitlines():
        if line.startswith("    $ "):
            found.append((line[6:], []))
        elif found and line and not line.startswith("    "):
            found.append((None, []))
        elif found:
            found[-1][1].extend(line.split())
    return [(command, words) for command, words in found if command]


class Page(unittest.TestCase):
    def test_commands(self):
        commands = shown()
        self.assertGreaterEqual(len(commands), 5)
        environment = dict(os.environ, PIRKVEZO_SHARED=str(library.path()),
                           PYTHONIOENCODING="utf-8", PYTHONDONTWRITEBYTECODE="1")
        for command, words in commands:
            with self.subTest(command):
                self.assertIn("./pirkvezo ", command)
                ran = subprocess.run(["bash", "-c", command], cwd=ROOT, env=environment,
                                     stdout=subprocess.PIPE, stderr=subprocess.STDOUT,
                                     encoding="utf-8")
                self.assertEqual(ran.stdout.split(), words)

    def test_every_command_is_on_the_page(self):
        text = (ROOT / "docs" / "DESK.md").read_text(encoding="utf-8")
        for module in (ROOT / "desk" / "pirkvezo" / "commands").glob("[a-z]*.py"):
            self.assertTrue(re.search(rf"^\| `{module.stem} ", text, re.MULTILINE), module.stem)

    def test_the_picture_is_what_the_report_draws(self):
        kept = (ROOT / "docs" / "desk.svg").read_text(encoding="utf-8").splitlines()
        plan = read((ROOT / "examples" / "filter.plan").read_bytes())
        run = history(plan)
        drawn = share_picture(plan) + timeline(plan, run, messages(plan, run))
        groups = [line for line in drawn.splitlines() if line.startswith("<g data-")]
        self.assertEqual(len(groups), 16 + plan.windows_total)
        self.assertEqual([line for line in kept if line.startswith("<g data-")], groups)


if __name__ == "__main__":
    unittest.main()
