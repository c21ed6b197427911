"""Makes the shared library on first use, and again when a source file changed: an old library is
never used. The toolchain proves what has changed, so this may take minutes, and says so."""
import contextlib
import fcntl
import hashlib
import os
import shutil
import subprocess
import sys
import threading
import time

from .library import ROOT

FOLDER = ROOT / "target" / "desk"
STATIC = ROOT / "target" / "staticlib" / "libpirkvezo.a"
# the crate whose functions the archive exports
EXPORTS = "pirkvezo_c"


class CannotBuild(Exception):
    """The library cannot be made: why, in one line."""


def crates():
    """The crates that the library is made of: pirkvezo_c and those that it uses."""
    uses = {}
    for line in (ROOT / "crates.txt").read_text().splitlines():
        name, _, used = line.partition("#")[0].partition(":")
        if name.strip():
            # a static library's name is followed by that word
            uses[name.split()[0]] = used.split()
    if EXPORTS not in uses:
        raise CannotBuild(f"crates.txt does not list {EXPORTS}")
    found = [EXPORTS]
    for crate in found:
        # crates of the toolchain have no line
        found += [used for used in uses[crate] if used in uses and used not in found]
    return found


def made_of():
    """One line that changes with any file of the library's crates."""
    whole = hashlib.sha256((ROOT / "crates.txt").read_bytes())
    for crate in sorted(crates()):
        for path in sorted((ROOT / "crates" / crate).rglob("*")):
            inside = path.relative_to(ROOT)
            # out/ is what rt made of the rest
            if path.is_file() and not {"must-fail", "out"} & set(inside.parts):
                whole.update(str(inside).encode() + b"\0")
                whole.update(hashlib.sha256(path.read_bytes()).digest())
    return whole.hexdigest()


def ensure():
    """Builds the shared library if it is not there or is not of the sources as they are now."""
    if os.environ.get("PIRKVEZO_SHARED") or not (ROOT / "crates.txt").is_file():
        return
    shared, stamp = FOLDER / "libpirkvezo.so", FOLDER / "made-of"
    now = made_of()
    if shared.is_file() and stamp.is_file() and stamp.read_text() == now:
        return
    FOLDER.mkdir(parents=True, exist_ok=True)
    # two first calls at once: one builds, the other waits
    with open(FOLDER / "lock", "w") as lock:
        fcntl.flock(lock, fcntl.LOCK_EX)
        if shared.is_file() and stamp.is_file() and stamp.read_text() == now:
            return
        for tool, what in (("rt", "the Rattle toolchain"), ("gcc", "the C compiler")):
            if not shutil.which(tool):
                raise CannotBuild(f"{tool} ({what}) is not on the PATH, and the library has to be built")
        with contextlib.suppress(FileNotFoundError):
            stamp.unlink()
        _prove()
        _link(shared)
        stamp.write_text(now)


def _say(line):
    # on a terminal the line replaces the seconds that were counted there
    print(("\r\033[K" if sys.stderr.isatty() else "") + line, file=sys.stderr, flush=True)


@contextlib.contextmanager
def _seconds():
    """Counts seconds on a terminal, since one crate alone can take a minute."""
    ended, began = threading.Event(), time.monotonic()

    def count():
        while not ended.wait(1):
            print(f"\r  {time.monotonic() - began:.0f} s", end="", file=sys.stderr, flush=True)

    counting = threading.Thread(target=count, daemon=True)
    if sys.stderr.isatty():
        counting.start()
    try:
        yield
    finally:
        ended.set()
        if counting.is_alive():
            counting.join()
            print("\r\033[K", end="", file=sys.stderr, flush=True)


def _prove():
    total, done = len(crates()), 0
    _say(f"pirkvezo: proving and building the library, {total} crates. The first time takes some "
         "ten minutes; later only what changed.")
    with _seconds(), open(FOLDER / "build.log", "w") as kept, subprocess.Popen(
            [str(ROOT / "tools" / "staticlib")], cwd=ROOT, stdin=subprocess.DEVNULL,
            stdout=subprocess.PIPE, stderr=subprocess.STDOUT, text=True, errors="replace") as rt:
        last, crate = "", None
        for line in rt.stdout:
            kept.write(line)
            last = line.strip() or last
            # rt says nothing of a crate that it built before
            if line.startswith("rt: chose --jobs "):
                crate = line.split()[-1]
            elif line.startswith("logic=proved ") and crate:
                done += 1
                _say(f"  {done:2} of {total} at most  {crate}")
                crate = None
    if rt.returncode:
        raise CannotBuild(f"rt could not build the library: {last} (more in target/desk/build.log)")


def _link(shared):
    fresh = shared.with_suffix(".new")
    made = subprocess.run(
        ["gcc", "-shared", "-o", str(fresh), "-Wl,--whole-archive", str(STATIC), "-Wl,--no-whole-archive"],
        stdin=subprocess.DEVNULL, stdout=subprocess.PIPE, stderr=subprocess.STDOUT, text=True, errors="replace")
    if made.returncode:
        raise CannotBuild("gcc could not link the library: " + (made.stdout.strip().splitlines() or ["?"])[-1])
    os.replace(fresh, shared)
