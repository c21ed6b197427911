"""A run window by window: which op began and ended when, and what the boxes held at each start.

The library is stepped one op or switch at a time, and every number is read off its state and log.
"""
import dataclasses
from typing import List, Optional, Tuple

from .plans import Plan
from .worlds import Record, World


@dataclasses.dataclass(frozen=True)
class Event:
    """An op that was done: its record, the clock before and after it, and its script position.

    There is no record where the log of the op's domain is not kept.
    """
    record: Optional[Record]
    begin: int
    end: int
    position: int


@dataclasses.dataclass(frozen=True)
class WindowHistory:
    """A window of the run. No op begins from `end` on; the pad lasts to `padded_end`.

    `steps` are those that the library answered: one for each op, and one for the switch.
    """
    index: int
    owner: int
    start: int
    end: int
    padded_end: int
    ops: List[Event]
    boxes_at_start: Tuple[int, ...]
    steps: int


def history(plan: Plan, log_length: int = 16384, windows: Optional[int] = None) -> List[WindowHistory]:
    """The run's windows, from a fresh start; at most the first `windows` of them.

        >>> first, second = history(read(open("examples/worked_example.plan", "rb").read()))
        >>> first.start, first.end, first.padded_end, len(first.ops), first.steps
        (0, 400, 776, 3, 4)
        >>> second.ops[0]
        Event(record=Record(kind='got', value=77, clock=882), begin=776, end=882, position=0)
    """
    return history_of(World.fresh(plan, log_length), windows)


def history_of(world: World, windows: Optional[int] = None) -> List[WindowHistory]:
    """The windows of a run that is at its fresh start; at most the first `windows` of them.

        >>> from pirkvezo import KeptWorld
        >>> plan = read(open("examples/worked_example.plan", "rb").read())
        >>> first, second = history_of(KeptWorld.fresh(plan, 1, 1024))
        >>> first.ops[0]
        Event(record=None, begin=0, end=100, position=0)
        >>> second.ops == history(plan)[1].ops
        True
    """
    plan, found = world.plan, []
    limit = plan.windows_total if windows is None else min(windows, plan.windows_total)
    boxes = world.boxes
    while world.windows < limit:
        index, start, before = world.windows, world.clock, world.steps
        window, ops = plan.window(index), []
        # windows share one tuple while no box changes: a run has up to 32,000 windows
        now = world.boxes
        boxes = boxes if now == boxes else now
        while True:
            begin, position = world.clock, world.positions[window.owner]
            world.step()
            if world.windows != index:
                break
            record = world.last_record(window.owner) if window.owner in world.logged else None
            ops.append(Event(record, begin, world.clock, position))
        end = start + window.length
        found.append(WindowHistory(index, window.owner, start, end, end + plan.pad, ops, boxes,
                                   world.steps - before))
    return found
