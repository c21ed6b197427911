"""Pirkvezo from Python: read a plan, run it, look at what each domain saw, or store what one saw; say
how many steps a run can take, and how late a domain can finish; write a plan's canonical text; make
windows by weights.

    >>> import pirkvezo
    >>> plan = pirkvezo.read(b"(pad 376)\\n(domain 0 (share 400) (may))\\n"
    ...                      b"(window 0 (length 300))\\n(run 1)\\n(op 0 (read 3))\\n")
    >>> plan.bound
    2
    >>> plan.canonical.splitlines()[-1]
    b'(op 0(read 3))'
    >>> world = pirkvezo.World.fresh(plan)
    >>> world.run()
    Run(steps=2, ended=True)
    >>> [str(record) for record in world.log(0)]
    ['(miss 3)']
    >>> kept = pirkvezo.KeptWorld.fresh(plan, 0, 256)
    >>> kept.run()
    Run(steps=2, ended=True)
    >>> kept.log(0) == world.log(0)
    True
    >>> pirkvezo.frame(5, [3, 2, 2]).owners
    (0, 1, 2, 0, 1)

Every number and text that decides anything comes from the proved library through its C interface. This
package lays it out as Python values and puts words to it; the package itself is not proved.
"""
from .frames import Frame, frame
from .library import Fault, LibraryMissing
from .plans import Latest, Op, Plan, Window, read
from .refusals import Refused
from .worlds import KeptWorld, Record, Run, World

__all__ = ["read", "Plan", "Op", "Window", "Latest", "Refused", "World", "KeptWorld", "Record", "Run", "frame",
           "Frame", "Fault", "LibraryMissing"]
