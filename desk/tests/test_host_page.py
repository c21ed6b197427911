"""docs/HOST.md: its whole program compiles without a warning, and prints what the page says and the desk finds."""
import os
import pathlib
import re
import shutil
import subprocess
import tempfile
import unittest

import pirkvezo
from pirkvezo import library
from pirkvezo.worlds import RECORD_KINDS

ROOT = library.ROOT
PAGE = ROOT / "docs" / "HOST.md"
WARNINGS = ["-std=c11", "-O2", "-Wall", "-Wextra", "-Wconversion", "-pedantic", "-Werror"]


def program():
    """The one program of the page that is whole, and the lines that it is said to print."""
    blocks = re.findall(r"^```c\n(.*?)^```\n(.*?)(?=^```|\Z)", PAGE.read_text(encoding="utf-8"), re.S | re.M)
    ((source, behind),) = [block for block in blocks if "int main" in block[0]]
    printed = re.match(r"\nIt prints:\n\n((?:    [^\n]*\n)+)", behind).group(1)
    return source, [line.strip() for line in printed.splitlines()]


def plan_of(source):
    """The plan in the program's string."""
    literals = re.search(r"text\[\] =\n(.*?);\n", source, re.S).group(1)
    return "".join(re.findall(r'"(.*)"', literals)).replace("\\n", "\n")


class Program(unittest.TestCase):
    def test_what_the_page_says_is_what_the_desk_finds(self):
        source, lines = program()
        domain, part = (int(re.search(named, source).group(1)) for named in (r"domain = (\d+)", r"PART (\d+)"))
        world = pirkvezo.KeptWorld.fresh(pirkvezo.read(plan_of(source)), domain, part)
        world.run()
        self.assertEqual(lines, [f"kind {RECORD_KINDS.index(record.kind) + 1}, value {record.value}, "
                                 f"clock {record.clock}" for record in world.log(domain)])
        self.assertTrue(lines)

    @unittest.skipUnless(shutil.which("gcc"), "no gcc")
    def test_it_prints_what_the_page_says(self):
        source, lines = program()
        with tempfile.TemporaryDirectory() as folder:
            host = pathlib.Path(folder, "host.c")
            host.write_text(source, encoding="utf-8")
            made = subprocess.run(["gcc", *WARNINGS, "-I", str(ROOT / "include"), str(host),
                                   os.path.abspath(library.path()), "-o", os.path.join(folder, "host")],
                                  stdout=subprocess.PIPE, stderr=subprocess.STDOUT, encoding="utf-8")
            self.assertEqual((made.returncode, made.stdout), (0, ""))
            done = subprocess.run([os.path.join(folder, "host")], stdout=subprocess.PIPE, encoding="utf-8")
        self.assertEqual((done.returncode, done.stdout.splitlines()), (0, lines))


if __name__ == "__main__":
    unittest.main()
