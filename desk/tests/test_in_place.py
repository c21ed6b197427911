"""write --in-place: what a file keeps when it is rewritten, and that it is left as it was when anything fails."""
import errno
import os
import random
import stat
import subprocess
import unittest
from unittest import mock

import pirkvezo
from plans_at_random import plan_text, respelled
from test_bound import contents, ran
from test_commands import FULL, call
from test_write import CANONICAL, NOT_ROOT, WORKED, Folder, by_hand, kept, said


class InPlace(Folder):
    """Tests that rewrite the worked example."""

    def rewritten(self, name, length=215):
        self.assertEqual(said("write", "--in-place", name),
                         (0, f"{name}: canonical now, 203 bytes in place of {length}\n".encode(), ""))
        self.assertEqual(contents(name), CANONICAL)


class Left(InPlace):
    """Whatever fails, the file is as it was, and nothing stands beside it."""

    def test_a_link_to_nothing(self):
        link = os.path.join(self.folder, "link")
        os.symlink("nowhere", link)
        status, out, errors = said("write", "--in-place", link)
        self.assertEqual((status, out, errors.count("\n")), (2, b"", 1))
        self.assertEqual(os.listdir(self.folder), ["link"])

    @unittest.skipUnless(os.path.exists("/dev/stdin"), "no /dev/stdin")
    def test_what_is_no_regular_file(self):
        status, out, errors = call("write", "--in-place", "/dev/stdin", text=contents(WORKED))
        self.assertEqual((status, out, errors), (
            2, "", "pirkvezo write: /dev/stdin: is no regular file; the file is as it was\n"))

    @NOT_ROOT
    def test_a_file_or_folder_that_cannot_be_written(self):
        name = self.file(contents(WORKED))
        os.chmod(name, 0o444)
        self.left(name, "write", "--in-place", part="plan: cannot be written: permission denied; the file is as it was")
        os.chmod(name, 0o644)
        os.chmod(self.folder, 0o555)
        try:
            self.left(name, "write", "--in-place", part="its folder cannot be written: permission denied; the file is")
        finally:
            os.chmod(self.folder, 0o755)
        self.rewritten(name)

    def test_every_step_that_fails_leaves_the_file(self):
        name = self.file(contents(WORKED))
        full = OSError(errno.ENOSPC, "No space left on device")
        denied = PermissionError(errno.EACCES, "Permission denied")
        for step, why, part in [
                ("tempfile.mkstemp", denied, "its folder cannot be written: permission denied; the file is as it was"),
                ("tempfile.mkstemp", full, "its folder cannot be written: no space left on device"),
                ("os.fchmod", denied, "cannot be replaced: permission denied"),
                ("os.fsync", full, "cannot be replaced: no space left on device; the file is as it was"),
                ("os.replace", denied, "cannot be replaced: permission denied"),
                ("os.replace", OSError(errno.EBUSY, "Device or resource busy"), "device or resource busy"),
                ("os.replace", OSError("no words of the system"), "no words of the system")]:
            with self.subTest(f"{step} {why}"), mock.patch(step, side_effect=why):
                self.left(name, "write", "--in-place", part=part)
        with mock.patch("os.replace", side_effect=KeyboardInterrupt):
            self.left(name, "write", "--in-place", status=130, part="stopped")
        self.rewritten(name)

    def test_a_file_that_changed_since_it_was_read(self):
        read = pirkvezo.read
        for changed in (b"", contents(WORKED) + b"\n", contents(WORKED)[:-1]):
            name = self.file(contents(WORKED))

            def meanwhile(text):
                self.file(changed)
                return read(text)
            with mock.patch("pirkvezo.commands.write.read", meanwhile):
                status, out, errors = said("write", "--in-place", name)
            self.assertEqual((status, out, contents(name)), (2, b"", changed))
            self.assertIn("has changed since it was read; the file is as it was\n", errors)
        name = self.file(contents(WORKED))
        with mock.patch("pirkvezo.commands.write.read", lambda text: (os.unlink(name), read(text))[1]):
            status, out, errors = said("write", "--in-place", name)
        self.assertEqual((status, out, os.listdir(self.folder)), (2, b"", []))
        self.assertIn("no such file", errors)

    @unittest.skipUnless(os.path.exists(FULL), "no " + FULL)
    def test_a_line_that_cannot_be_printed_is_not_status_0(self):
        name = self.file(contents(WORKED))
        with open(FULL, "wb") as full:
            self.assertEqual(ran("write", "--in-place", name, stdout=full, stderr=subprocess.PIPE).returncode, 2)
        self.assertEqual(contents(name), CANONICAL)
        self.assertEqual(os.listdir(self.folder), ["plan"])
        name = self.file(contents(WORKED))
        done = ran("write", "--in-place", name, stderr=subprocess.PIPE, preexec_fn=lambda: os.close(1))
        self.assertEqual((done.returncode, contents(name)), (2, contents(WORKED)))


class Rewritten(InPlace):
    def test_mode_bits_are_kept(self):
        for mode in (0o600, 0o640, 0o664, 0o755, 0o606):
            name = self.file(contents(WORKED))
            os.chmod(name, mode)
            before = os.umask(0o077)
            try:
                self.rewritten(name)
            finally:
                os.umask(before)
            self.assertEqual(stat.S_IMODE(os.stat(name).st_mode), mode)
            self.assertEqual(os.listdir(self.folder), ["plan"])

    @unittest.skipIf(os.geteuid(), "only root can give files away")
    def test_owner_and_group_are_kept(self):
        name = self.file(contents(WORKED))
        os.chown(name, 12345, 23456)
        with mock.patch("os.fchown", side_effect=PermissionError(errno.EPERM, "Operation not permitted")):
            self.left(name, "write", "--in-place", part="cannot be replaced: operation not permitted")
        self.rewritten(name)
        self.assertEqual((os.stat(name).st_uid, os.stat(name).st_gid), (12345, 23456))

    def test_links(self):
        os.mkdir(os.path.join(self.folder, "kept"))
        name = self.file(contents(WORKED), os.path.join("kept", "plan"))
        link, second = os.path.join(self.folder, "link"), os.path.join(self.folder, "second")
        os.symlink(os.path.join("kept", "plan"), link)
        os.symlink(link, second)
        self.rewritten(second)
        self.assertEqual((os.readlink(link), os.readlink(second)), (os.path.join("kept", "plan"), link))
        self.assertTrue(os.path.isfile(name) and not os.path.islink(name))
        self.assertEqual(contents(name), CANONICAL)
        self.assertEqual(os.listdir(os.path.join(self.folder, "kept")), ["plan"])
        self.assertEqual(sorted(os.listdir(self.folder)), ["kept", "link", "second"])

    def test_what_is_canonical_already_is_not_touched(self):
        name = self.file(CANONICAL)
        os.utime(name, ns=(1, 1))
        before = kept(name)
        for mode in (0o644, 0o444):
            os.chmod(name, mode)
            before = kept(name)
            self.assertEqual(said("write", "--in-place", name),
                             (0, f"{name}: canonical already, and left as it is\n".encode(), ""))
            self.assertEqual(kept(name), before)

    def test_whoever_has_the_file_open_keeps_all_of_the_old_text(self):
        name = self.file(contents(WORKED))
        with open(name, "rb") as opened:
            self.rewritten(name)
            self.assertEqual(opened.read(), contents(WORKED))

    def test_names(self):
        here = os.getcwd()
        os.chdir(self.folder)
        try:
            for name in ("x" * 255, "a b", "./plan", "--plan"):
                self.file(contents(WORKED), name)
                self.assertEqual(said("write", "--in-place", "--", name)[0], 0)
                self.assertEqual(contents(name), CANONICAL)
        finally:
            os.chdir(here)

    def test_a_folder_that_cannot_be_put_on_the_disk(self):
        """By then the text is in its place."""
        name, sync = self.file(contents(WORKED)), os.fsync

        def files_alone(handle):
            if stat.S_ISDIR(os.fstat(handle).st_mode):
                raise OSError(errno.EINVAL, "Invalid argument")
            sync(handle)
        with mock.patch("os.fsync", files_alone):
            self.rewritten(name)

    def test_at_random(self):
        chance = random.Random(32)
        for _ in range(20):
            text = plan_text(chance)
            name = self.file(respelled(chance, text))
            self.assertEqual(said("write", "--in-place", name)[0], 0)
            self.assertEqual(contents(name), by_hand(text))
            before = kept(name)
            self.assertEqual(said("write", "--in-place", name)[0], 0)
            self.assertEqual(kept(name), before)


if __name__ == "__main__":
    unittest.main()
