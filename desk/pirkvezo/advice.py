"""Warnings about accepted plans: what the plan allows and its planner may not have meant.

Masks, recipients and script positions are the library's; a warning never changes a verdict.
"""
import collections
import dataclasses
from typing import List, Optional

from .layout import count, ranges
from .plans import Plan
from .refusals import forms, line_and_column
from .shares import COLOURS, SHARES
from .worlds import World

LINES, KERNEL_COLOUR = 4096, 15


@dataclasses.dataclass(frozen=True)
class Warning:
    """A warning; line and column are those of the text where it belongs to one."""
    kind: str
    words: str
    line: Optional[int] = None
    column: Optional[int] = None


def colour(line):
    """The colour of a line."""
    return line % 64 // 4


def never_allowed(plan: Plan, domain: int, op) -> Optional[str]:
    """Why an op of a domain can never be allowed, or None."""
    if op.kind in ("read", "write"):
        if op.value >= LINES:
            return f"is always barred: lines end at {LINES - 1}"
        if not plan.masks[domain] >> colour(op.value) & 1:
            whose = "the kernel's" if colour(op.value) == KERNEL_COLOUR else "not the domain's"
            return f"is always barred: line {op.value} has colour {colour(op.value)}, which is {whose} " \
                f"(it holds {ranges(plan.colours(domain))})"
    elif op.kind == "send" and op.other not in plan.recipients[domain]:
        return f"is always denied: domain {domain} may not send to {op.other}"
    elif op.kind == "receive":
        if op.other >= plan.domains:
            return f"is always denied: domain {op.other} is not declared"
        if domain not in plan.recipients[op.other]:
            return f"is always denied: domain {op.other} may not send to {domain}"
    return None


def warnings(plan: Plan) -> List[Warning]:
    """The warnings for an accepted plan, in the order of their lines."""
    domain_lines = [line[0].offset for line in forms(plan.text, "domain")]
    op_lines = collections.defaultdict(list)
    for line in forms(plan.text, "op"):
        op_lines[int(line[2].text)].append(line[0].offset)
    found = _rounding(plan)
    world = World.fresh(plan)
    world.run()
    for domain in range(plan.domains):
        ops, owned = plan.ops(domain), any(window.owner == domain for window in plan.windows)
        at = line_and_column(plan.text, domain_lines[domain])
        if not owned:
            left = f", so its {count(len(ops), 'op')} never run" if ops else ""
            found.append(Warning("no window", f"domain {domain} has no window{left}", *at))
        elif world.positions[domain] < len(ops):
            done = world.positions[domain]
            found.append(Warning("unfinished", f"domain {domain}: the run is over when {done} of "
                                 f"{count(len(ops), 'op')} are done",
                                 *line_and_column(plan.text, op_lines[domain][done])))
        seen = collections.Counter()
        for op in ops:
            seen[op] += 1
        for position, op in enumerate(ops):
            why = never_allowed(plan, domain, op) if op in seen else None
            if why:
                times = seen.pop(op)
                more = "" if times == 1 else f" ({times} times in the script)"
                found.append(Warning("never allowed", f"domain {domain}: {op} {why}{more}",
                                     *line_and_column(plan.text, op_lines[domain][position])))
    return sorted(found, key=lambda warning: (warning.line or 0, warning.column or 0))


def _rounding(plan):
    # rounding gives as well as takes: it is worth a warning where whole colours are paid for and
    # nobody holds them
    paid = sum(plan.shares) * COLOURS // SHARES
    held = sum(map(plan.holding, range(plan.domains)))
    if held >= paid:
        return []
    return [Warning("rounding", f"rounding loses {paid - held} of {count(paid, 'colour')} that the shares "
                    f"pay for: they total {sum(plan.shares)}, and the domains hold {count(held, 'colour')} "
                    "(table says who loses what)")]
