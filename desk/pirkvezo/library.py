"""The C interface (include/pirkvezo.h) through ctypes.

Each call here takes buffers that this module made, so that their lengths are right by construction,
and answers the four numbers of the library's answer.
"""
import ctypes
import functools
import os
import pathlib

PLAN, STATE, ANSWER, SCRIPTS, CACHE, BOXES = 92, 18, 4, 2048, 272, 64
WEIGHTS, FRAME, SCRIPT = 8, 32, 256

ROOT = pathlib.Path(__file__).resolve().parents[2]

PlanNumbers = ctypes.c_uint32 * PLAN
StateNumbers = ctypes.c_uint64 * STATE
Answer = ctypes.c_uint64 * ANSWER
Scripts = ctypes.c_uint32 * SCRIPTS
CacheTable = ctypes.c_uint16 * CACHE
Boxes = ctypes.c_uint32 * BOXES
WeightNumbers = ctypes.c_uint32 * WEIGHTS
FrameNumbers = ctypes.c_uint32 * FRAME
ScriptNumbers = ctypes.c_uint32 * SCRIPT

_SIZE = ctypes.c_size_t
_ENTRY_POINTS = {
    "pirkvezo_read_plan": [ctypes.c_char_p, _SIZE, Scripts, _SIZE, PlanNumbers, _SIZE],
    "pirkvezo_fresh_start": [PlanNumbers, _SIZE, StateNumbers, _SIZE, CacheTable, _SIZE, Boxes, _SIZE],
    "pirkvezo_step": [PlanNumbers, _SIZE, Scripts, _SIZE, StateNumbers, _SIZE, CacheTable, _SIZE,
                      Boxes, _SIZE, ctypes.c_void_p, _SIZE],
    "pirkvezo_run": [PlanNumbers, _SIZE, Scripts, _SIZE, StateNumbers, _SIZE, CacheTable, _SIZE,
                     Boxes, _SIZE, ctypes.c_void_p, _SIZE, ctypes.c_uint64],
    "pirkvezo_log": [PlanNumbers, _SIZE, StateNumbers, _SIZE, ctypes.c_void_p, _SIZE, ctypes.c_uint32],
    "pirkvezo_frame": [ctypes.c_uint32, WeightNumbers, _SIZE, FrameNumbers, _SIZE],
    "pirkvezo_step_bound": [PlanNumbers, _SIZE, Scripts, _SIZE],
    "pirkvezo_write_plan": [PlanNumbers, _SIZE, Scripts, _SIZE, ctypes.c_void_p, _SIZE],
    "pirkvezo_latest": [PlanNumbers, _SIZE, ctypes.c_uint32, ScriptNumbers, _SIZE],
    "pirkvezo_run_kept": [PlanNumbers, _SIZE, Scripts, _SIZE, StateNumbers, _SIZE, CacheTable, _SIZE,
                          Boxes, _SIZE, ctypes.c_void_p, _SIZE, ctypes.c_uint32, ctypes.c_uint64,
                          ctypes.c_uint64],
}


class LibraryMissing(Exception):
    """The shared library is not there, or is not the library."""


class Fault(Exception):
    """What is proved never to happen has happened: the desk or its library is at fault."""


def fault(words):
    """The Fault to raise where these words are true, so that it cannot pass unseen."""
    return Fault(f"THIS MUST NOT HAPPEN: {words}. It is proved not to, so the desk or its library is at "
                 "fault.")


def path():
    """Where the shared library is looked for: $PIRKVEZO_SHARED, or target/desk at the root."""
    named = os.environ.get("PIRKVEZO_SHARED")
    return pathlib.Path(named) if named else ROOT / "target" / "desk" / "libpirkvezo.so"


@functools.lru_cache(maxsize=None)
def _load(where):
    if not os.path.isfile(where):
        raise LibraryMissing(f"{where} is not there: ./pirkvezo builds it on first use")
    try:
        library = ctypes.CDLL(where)
        for name, arguments in _ENTRY_POINTS.items():
            function = getattr(library, name)
            function.argtypes = arguments + [Answer, _SIZE]
            function.restype = ctypes.c_uint32
    except (OSError, AttributeError) as why:
        raise LibraryMissing(f"{where} is not Pirkvezo's shared library ({why})") from None
    return library


def load():
    """The loaded library; LibraryMissing where it is not there."""
    return _load(os.path.abspath(path()))


def read_plan(text, scripts, plan):
    """Reads the bytes of a text into scripts and plan; the answer's four numbers."""
    answer = Answer()
    load().pirkvezo_read_plan(text, len(text), scripts, SCRIPTS, plan, PLAN, answer, ANSWER)
    return tuple(answer)


def fresh_start(plan, state, cache, boxes):
    """Zeroes state, cache table and boxes; the answer's four numbers."""
    answer = Answer()
    load().pirkvezo_fresh_start(plan, PLAN, state, STATE, cache, CACHE, boxes, BOXES, answer, ANSWER)
    return tuple(answer)


def step(plan, scripts, state, cache, boxes, log, log_length):
    """One op or one switch; the answer's four numbers."""
    answer = Answer()
    load().pirkvezo_step(plan, PLAN, scripts, SCRIPTS, state, STATE, cache, CACHE, boxes, BOXES,
                         log, log_length, answer, ANSWER)
    return tuple(answer)


def run(plan, scripts, state, cache, boxes, log, log_length, limit):
    """At most `limit` steps; the answer's four numbers."""
    answer = Answer()
    load().pirkvezo_run(plan, PLAN, scripts, SCRIPTS, state, STATE, cache, CACHE, boxes, BOXES,
                        log, log_length, limit, answer, ANSWER)
    return tuple(answer)


def log_query(plan, state, log, log_length, domain):
    """Where a domain's records stand in the log; the answer's four numbers."""
    answer = Answer()
    load().pirkvezo_log(plan, PLAN, state, STATE, log, log_length, domain, answer, ANSWER)
    return tuple(answer)


def frame(count, weights, numbers):
    """Makes a frame of `count` windows by weights into numbers; the answer's four numbers."""
    answer = Answer()
    load().pirkvezo_frame(count, weights, WEIGHTS, numbers, FRAME, answer, ANSWER)
    return tuple(answer)


def step_bound(plan, scripts):
    """How many steps a run of plan and scripts takes at most; the answer's four numbers."""
    answer = Answer()
    load().pirkvezo_step_bound(plan, PLAN, scripts, SCRIPTS, answer, ANSWER)
    return tuple(answer)


def write_plan(plan, scripts, out, out_length):
    """Writes the canonical text of plan and scripts to the start of out; the answer's four numbers."""
    answer = Answer()
    load().pirkvezo_write_plan(plan, PLAN, scripts, SCRIPTS, out, out_length, answer, ANSWER)
    return tuple(answer)


def latest(plan, domain, script):
    """How late a domain can finish a window, and a script that does so; the answer's four numbers."""
    answer = Answer()
    load().pirkvezo_latest(plan, PLAN, domain, script, SCRIPT, answer, ANSWER)
    return tuple(answer)


def run_kept(plan, scripts, state, cache, boxes, kept, kept_length, domain, part, limit):
    """At most `limit` steps, with the records of one domain alone; the answer's four numbers."""
    answer = Answer()
    load().pirkvezo_run_kept(plan, PLAN, scripts, SCRIPTS, state, STATE, cache, CACHE, boxes, BOXES,
                             kept, kept_length, domain, part, limit, answer, ANSWER)
    return tuple(answer)
