"""Two plans side by side: what each domain saw in both runs, and what crossed to it.

The promise of docs/ISOLATION.md speaks of one plan with two sets of scripts: a domain whose own
script is the same, and whose boxes held the same whenever one of its windows began, sees the same.
`compare` runs both plans in the proved library, window by window, and reports for each domain
whether it saw the same, the first difference, and the boxes that differed at its windows' starts.

    >>> from pirkvezo import read
    >>> from pirkvezo.compare import compare
    >>> text = open("examples/filter.plan", "rb").read()
    >>> other = text.replace(b"(send 1 500)", b"(send 1 600)")
    >>> [domain.same for domain in compare(read(text), read(other)).domains]
    [True, False, True]
"""
from dataclasses import dataclass
from itertools import zip_longest
from typing import Optional, Tuple

from .history import history

LOG_LENGTH = 16384


@dataclass(frozen=True)
class Seen:
    """One record, with its window and its index in that window (both count from 0)."""
    window: int
    index: int
    position: int
    record: object

    def what(self):
        """All that the domain notices: where in its windows the record stands, and the record."""
        return (self.window, self.index, self.record)


@dataclass(frozen=True)
class Difference:
    """The first record of a domain that differs; None where that run has no record there."""
    number: int
    a: Optional[Seen]
    b: Optional[Seen]


@dataclass(frozen=True)
class Crossing:
    """A box to a domain that differed when a window of the domain began; None is an empty box."""
    window: int
    start: int
    sender: int
    a: Optional[int]
    b: Optional[int]


@dataclass(frozen=True)
class DomainComparison:
    """One domain of both plans. `script` says whether its own scripts are the same."""
    domain: int
    records: Tuple[int, int]
    script: bool
    first: Optional[Difference]
    crossed: Tuple[Crossing, ...]

    @property
    def same(self):
        return self.first is None


@dataclass(frozen=True)
class Comparison:
    """`beyond`: what differs besides scripts, in words; `scripts`: whose scripts differ."""
    beyond: Tuple[str, ...]
    scripts: Tuple[int, ...]
    domains: Tuple[DomainComparison, ...]
    only: Tuple[Tuple[str, int], ...]

    @property
    def all_same(self):
        return not self.only and all(d.same for d in self.domains)

    def covered(self, domain):
        """Whether the promise speaks of this domain: one plan, and its own script the same."""
        return not self.beyond and domain.script

    def broken(self):
        """Domains that the promise speaks of and that saw a difference before any box differed.

        The promise is proved, so this is empty unless the desk itself is wrong.
        """
        return tuple(d for d in self.domains if self.covered(d) and _unexplained(d))


def _unexplained(domain):
    if domain.same:
        return False
    seen = [s.window for s in (domain.first.a, domain.first.b) if s is not None]
    return not any(c.window <= min(seen) for c in domain.crossed)


def compare(a, b, log_length=LOG_LENGTH, windows=None):
    """The comparison of two plans; `windows` ends both runs after that many windows."""
    histories = history(a, log_length, windows), history(b, log_length, windows)
    shared = range(min(a.domains, b.domains))
    more = [("A", d) for d in range(b.domains, a.domains)]
    more += [("B", d) for d in range(a.domains, b.domains)]
    scripts = tuple(d for d in shared if _script(a, d) != _script(b, d))
    domains = tuple(_domain(d, histories, d not in scripts) for d in shared)
    return Comparison(tuple(_beyond(a, b)), scripts, domains, tuple(more))


def seen_by(domain, windows):
    """The records of a domain in order, each with its window."""
    return [Seen(w.index, k, event.position, event.record)
            for w in windows if w.owner == domain for k, event in enumerate(w.ops)]


def _script(plan, domain):
    return tuple(plan.scripts[256 * domain:256 * domain + 256])


def _domain(domain, histories, script):
    seen = [seen_by(domain, windows) for windows in histories]
    first = None
    for number, (left, right) in enumerate(zip_longest(*seen)):
        if left is None or right is None or left.what() != right.what():
            first = Difference(number, left, right)
            break
    return DomainComparison(domain, (len(seen[0]), len(seen[1])), script, first,
                            tuple(_crossed(domain, histories)))


def _crossed(domain, histories):
    for left, right in zip(*histories):
        if left.owner != domain or right.owner != domain:
            continue
        for sender in range(8):
            one = left.boxes_at_start[8 * sender + domain]
            other = right.boxes_at_start[8 * sender + domain]
            if one != other:
                yield Crossing(left.index, left.start, sender, _word(one), _word(other))


def _word(box):
    return box - 1 if box else None


def _beyond(a, b):
    """What differs in the 92 numbers of the plans, in words."""
    pairs = [("pad", a.pad, b.pad), ("run", a.run, b.run), ("domains", a.domains, b.domains),
             ("windows in a round", len(a.windows), len(b.windows))]
    for d in range(min(a.domains, b.domains)):
        pairs += [(f"share of domain {d}", a.shares[d], b.shares[d]),
                  (f"domain {d} may send to", _list(a.recipients[d]), _list(b.recipients[d]))]
    for k, (left, right) in enumerate(zip(a.windows, b.windows)):
        pairs.append((f"window {k} of a round", _window(left), _window(right)))
    return [f"{what}: {left} in A, {right} in B" for what, left, right in pairs if left != right]


def _window(window):
    return f"{window.length} ticks of domain {window.owner}"


def _list(domains):
    return " and ".join(str(d) for d in domains) or "nobody"
