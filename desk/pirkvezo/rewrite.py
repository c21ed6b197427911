"""A file's text replaced in one step. Whatever fails, the file is as it was: nobody ever finds half of a text."""
import contextlib
import os
import stat
import tempfile


class CannotRewrite(Exception):
    """The file is as it was: why, in a few words."""


def rewrite(path: str, old: bytes, new: bytes) -> None:
    """Replaces the text of a file, which was read as `old`, by `new`; or raises CannotRewrite.

    Owner, group and mode bits are kept. A symbolic link is kept too: what it points to is replaced.
    """
    with _saying("cannot be written"):
        was = _still_there(path, old)
    with _saying("cannot be replaced"):
        _replace(os.path.realpath(path), new, was)


@contextlib.contextmanager
def _saying(what):
    try:
        yield
    except OSError as why:
        raise CannotRewrite(f"{what}: {(why.strerror or str(why)).lower()}") from None


def _still_there(path, old):
    """The status of a file that can be written and still holds the old text.

    A new file in its place needs only the folder, so whether the file itself may be written is asked here.
    """
    if not stat.S_ISREG(os.stat(path).st_mode):
        raise CannotRewrite("is no regular file")
    with open(path, "r+b") as there:
        # the library may have been built since it was read, and that takes minutes
        if there.read(len(old) + 1) != old:
            raise CannotRewrite("has changed since it was read")
        return os.fstat(there.fileno())


def _replace(real, new, was):
    folder = os.path.dirname(real)
    with _saying("its folder cannot be written"):
        handle, fresh = tempfile.mkstemp(prefix=".pirkvezo-", dir=folder)
    try:
        with open(handle, "wb") as out:
            out.write(new)
            out.flush()
            _keep(handle, was)
            os.fsync(handle)
        os.replace(fresh, real)
    except BaseException:
        with contextlib.suppress(OSError):
            os.unlink(fresh)
        raise
    _settle(folder)


def _keep(handle, was):
    """Gives a new file the owner, the group and the mode bits of another one."""
    now = os.fstat(handle)
    if (now.st_uid, now.st_gid) != (was.st_uid, was.st_gid):
        os.fchown(handle, was.st_uid, was.st_gid)
    os.fchmod(handle, stat.S_IMODE(was.st_mode))


def _settle(folder):
    """Puts the new name on the disk. Not every file system can, and the text is in its place anyhow."""
    with contextlib.suppress(OSError):
        handle = os.open(folder, os.O_RDONLY)
        try:
            os.fsync(handle)
        finally:
            os.close(handle)
