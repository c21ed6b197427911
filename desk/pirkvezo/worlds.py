"""A run of a plan: state, cache table, boxes and log, in buffers that the object owns.

The log is that of all domains, or the part of one.
"""
import ctypes
import dataclasses
from typing import List, Optional, Sequence, Tuple

from . import library
from .plans import Plan
from .refusals import Refused

RECORD_KINDS = ("hit1", "hit2", "miss", "sent", "got", "empty", "denied", "ran", "barred")
RECORD_BYTES = 8
MOST_STEPS = 2**64 - 1
# the bytes that the desk lends for a log at most, and how many records a part of that has
MOST_LOG = 1 << 24
MOST_PART = MOST_LOG // RECORD_BYTES


@dataclasses.dataclass(frozen=True)
class Record:
    """What a domain saw of one op: the kind's word, its value, and the clock when the op was done.

    >>> str(Record("miss", 3, 100))
    '(miss 3)'
    """
    kind: str
    value: int
    clock: int

    def __str__(self):
        return f"({self.kind} {self.value})"


@dataclasses.dataclass(frozen=True)
class Run:
    """How far a call came: the steps done, and whether the run has ended."""
    steps: int
    ended: bool


class World:
    """A run in progress. Make one with World.fresh.

        >>> world = World.fresh(read(open("examples/worked_example.plan", "rb").read()))
        >>> world.step()
        Run(steps=1, ended=False)
        >>> world.log(0)
        [Record(kind='miss', value=3, clock=100)]
        >>> world.run_windows(1)
        Run(steps=3, ended=False)
        >>> world.windows, world.clock, world.positions[:2]
        (1, 776, (3, 0))
        >>> world.boxes[8 * 0 + 1]
        78
        >>> world.run()
        Run(steps=3, ended=True)
        >>> world.steps, world.plan.bound
        (7, 7)
    """

    def __init__(self, plan: Plan, log_length: int = 16384):
        if not isinstance(log_length, int) or log_length < 0:
            raise ValueError("a log's length is 0 or more bytes")
        self.plan, self.log_length = plan, log_length
        self._plan = library.PlanNumbers(*plan.numbers)
        self._scripts = library.Scripts(*plan.scripts)
        self._state = library.StateNumbers()
        self._cache = library.CacheTable()
        self._boxes = library.Boxes()
        # an empty log still has an address
        self._log = (ctypes.c_uint8 * max(log_length, 1))()
        _accepted(library.fresh_start(self._plan, self._state, self._cache, self._boxes))
        self._steps, self._bound = 0, plan.bound

    @classmethod
    def fresh(cls, plan: Plan, log_length: int = 16384) -> "World":
        """A run at its fresh start, with a log of that many bytes for all domains together."""
        return cls(plan, log_length)

    def step(self) -> Run:
        """One step: an op, or a switch."""
        return self._went(library.step(self._plan, self._scripts, self._state, self._cache,
                                       self._boxes, self._log, self.log_length))

    def run(self, limit: Optional[int] = None) -> Run:
        """At most `limit` steps; without a limit, to the end, and so at most the plan's bound."""
        if limit is None:
            return self._run_to_the_end()
        if not isinstance(limit, int) or not 0 <= limit <= MOST_STEPS:
            raise ValueError("a limit is a number of steps from 0 to 2**64 - 1")
        return self._went(self._answer_of_run(limit))

    def _answer_of_run(self, limit):
        return library.run(self._plan, self._scripts, self._state, self._cache, self._boxes, self._log,
                           self.log_length, limit)

    def _run_to_the_end(self) -> Run:
        # steps done before only leave fewer to do, so the bound is enough wherever the run is
        done = self.run(self._bound)
        if not done.ended:
            raise library.fault(f"with a limit of {self._bound} steps, its bound, a run has not ended")
        return done

    def _went(self, answer) -> Run:
        """How far a call came, by its answer. The bound is for the steps of all calls together."""
        steps, ended = _accepted(answer)[2:]
        self._steps += steps
        if self._steps > self._bound:
            raise library.fault(f"a run has taken {self._steps} steps, and its bound is {self._bound}")
        return Run(steps, ended == 1)

    def run_windows(self, n: int) -> Run:
        """Single steps until n windows of the run are completed, or to the end.

        Where it stops depends on the plan alone, so each domain's log may be shown to its owner.
        """
        steps, ended = 0, self.run(0).ended
        while not ended and self.windows < n:
            done = self.step()
            steps, ended = steps + done.steps, done.ended
        return Run(steps, ended)

    @property
    def logged(self) -> Sequence[int]:
        """The domains whose logs are kept."""
        return range(self.plan.domains)

    def log(self, domain: int) -> List[Record]:
        """The domain's records so far."""
        offset, length = self._log_of(_domain(domain))
        part = bytes(memoryview(self._log)[offset:offset + length])
        return [_record(part[at:at + RECORD_BYTES]) for at in range(0, length, RECORD_BYTES)]

    def last_record(self, domain: int) -> Record:
        """The last of the domain's records; IndexError where it has none."""
        offset, length = self._log_of(_domain(domain))
        if length < RECORD_BYTES:
            raise IndexError(f"domain {domain} has no record")
        end = offset + length
        return _record(bytes(memoryview(self._log)[end - RECORD_BYTES:end]))

    def _log_of(self, domain):
        """Where the domain's records so far begin in the log, and how many bytes they have."""
        answer = library.log_query(self._plan, self._state, self._log, self.log_length, domain)
        return _accepted(answer, (domain, self._plan[2]))[2:]

    @property
    def records_room(self) -> int:
        """How many records each domain's part of the log has room for."""
        return self.log_length // (RECORD_BYTES * self.plan.domains)

    @property
    def steps(self) -> int:
        """Steps done since the fresh start, in all calls together."""
        return self._steps

    @property
    def windows(self) -> int:
        """Windows completed."""
        return self._state[0]

    @property
    def clock(self) -> int:
        return self._state[1]

    @property
    def positions(self) -> Tuple[int, ...]:
        """The script positions of the eight domains."""
        return tuple(self._state[2:10])

    @property
    def counts(self) -> Tuple[int, ...]:
        """The record counts of the eight domains."""
        return tuple(self._state[10:18])

    @property
    def boxes(self) -> Tuple[int, ...]:
        """The 64 boxes, from a to b at 8 * a + b: 0 for empty, else the word plus one."""
        return tuple(self._boxes)

    @property
    def cache(self) -> Tuple[int, ...]:
        """The 272 numbers of the cache table, L1 then L2."""
        return tuple(self._cache)


class KeptWorld(World):
    """A run in progress that keeps one domain's log and no other. Make one with KeptWorld.fresh.

    It goes as a World goes whose log has room for `part` records of each domain: also a domain whose log
    is not kept goes idle where its part would be full. `log_length` is that of the one part.

        >>> world = KeptWorld.fresh(read(open("examples/worked_example.plan", "rb").read()), 1, 2)
        >>> world.run()
        Run(steps=6, ended=True)
        >>> [str(record) for record in world.log(1)]
        ['(empty 0)', '(miss 100)']
        >>> world.counts[:2], world.records_room
        ((2, 2), 2)
    """

    def __init__(self, plan: Plan, domain: int, part: int):
        if not isinstance(part, int) or not 0 <= part <= MOST_PART:
            raise ValueError(f"a part has room for 0 to {MOST_PART} records")
        self.domain, self.part = _domain(domain), part
        super().__init__(plan, RECORD_BYTES * part)
        # no step: the library says whether it takes the domain
        self.run(0)
        if domain >= plan.domains:
            raise library.fault(f"a log is kept for domain {domain}, and the plan declares {plan.domains}")

    @classmethod
    def fresh(cls, plan: Plan, domain: int, part: int) -> "KeptWorld":
        """A run at its fresh start, with room for `part` records; Refused (4) for an undeclared domain."""
        return cls(plan, domain, part)

    def step(self) -> Run:
        """One step: an op, or a switch."""
        return self.run(1)

    def _answer_of_run(self, limit):
        answer = library.run_kept(self._plan, self._scripts, self._state, self._cache, self._boxes, self._log,
                                  self.log_length, self.domain, self.part, limit)
        return _accepted(answer, (self.domain, self._plan[2]))

    @property
    def logged(self) -> Sequence[int]:
        return (self.domain,)

    def _log_of(self, domain):
        if domain != self.domain:
            raise ValueError(f"domain {self.domain}'s log is kept, and no other")
        count = self.counts[domain]
        if count > self.part:
            raise library.fault(f"domain {domain} has {count} records, and its part has room for {self.part}")
        return 0, RECORD_BYTES * count

    @property
    def records_room(self) -> int:
        return self.part


def _domain(number):
    """A number that the library may judge as a domain's."""
    if not isinstance(number, int) or not 0 <= number < 2**32:
        raise ValueError("a domain is a number from 0 on")
    return number


def _record(part):
    if not 1 <= part[0] <= len(RECORD_KINDS):
        raise library.fault(f"a record has the kind {part[0]}")
    return Record(RECORD_KINDS[part[0] - 1], int.from_bytes(part[2:4], "little"),
                  int.from_bytes(part[4:8], "little"))


def _accepted(answer, asked=None):
    if answer[0]:
        raise Refused(answer[0], answer[1], asked=asked)
    return answer
