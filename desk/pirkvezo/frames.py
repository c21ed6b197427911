"""A frame: the windows of a plan by weights, made by the proved library."""
import dataclasses
from fractions import Fraction
from typing import List, Tuple

from . import library
from .layout import ranges
from .plans import Window
from .refusals import Refused

DOMAINS, MOST_NUMBER = library.WEIGHTS, 2**32 - 1


@dataclasses.dataclass(frozen=True)
class Frame:
    """An accepted frame. `frame` makes it; `numbers` are the 32 that the library wrote.

    Quota, whole part and remainder are worked out here from the count and the weights, to be shown
    beside the windows; they decide nothing. What a domain got is counted in the library's numbers.

        >>> made = frame(5, [3, 2, 2])
        >>> made.owners
        (0, 1, 2, 0, 1)
        >>> made.quota(1), made.whole(1), made.remainder(1), made.total, made.got(1)
        (Fraction(10, 7), 1, 3, 7, 2)
        >>> str(made.windows(600)[1])
        '(window 1 (length 600))'
    """
    count: int
    weights: Tuple[int, ...]
    numbers: Tuple[int, ...] = dataclasses.field(repr=False)

    @property
    def owners(self) -> Tuple[int, ...]:
        """The domain of each window, in the order of the windows."""
        return self.numbers[:self.count]

    def windows(self, length) -> List[Window]:
        """The windows as a plan declares them, each of `length` ticks."""
        return [Window(owner, length) for owner in self.owners]

    @property
    def total(self) -> int:
        """All weights together."""
        return sum(self.weights)

    def quota(self, domain) -> Fraction:
        """The windows that the domain's weight comes to."""
        return Fraction(self.count * self.weights[domain], self.total)

    def whole(self, domain) -> int:
        """The whole part of the quota."""
        return self.count * self.weights[domain] // self.total

    def remainder(self, domain) -> int:
        """What the whole part leaves of the quota, counted in parts of which `total` make a window."""
        return self.count * self.weights[domain] % self.total

    def got(self, domain) -> int:
        """How many windows of the frame are the domain's."""
        return self.owners.count(domain)

    def faults(self) -> List[str]:
        """What in the frame is not as the weights ask for, in words.

        The frame is proved, so this is empty unless the desk or its library is at fault.
        """
        domains, found = range(DOMAINS), []
        more = [self.got(domain) - self.whole(domain) for domain in domains]
        odd = [domain for domain in domains if more[domain] not in (0, 1)]
        if odd:
            found.append(f"neither the whole part nor one more: domain {ranges(odd)}")
        if sum(map(self.got, domains)) != self.count:
            found.append(f"{sum(map(self.got, domains))} windows of domains, and not {self.count}")
        # from the largest remainder down, equals by number: those with one more come first
        served = sorted(domains, key=lambda domain: (-self.remainder(domain), domain))
        if [more[domain] for domain in served] != sorted(more, reverse=True):
            found.append("one more for a remainder that is not among the largest")
        # a domain's first window is of turn 0, its second of turn 1
        turns = [(self.owners[:k].count(owner), owner) for k, owner in enumerate(self.owners)]
        if turns != sorted(turns):
            found.append("the windows are not laid in turns")
        if any(self.numbers[self.count:]):
            found.append("a number behind the last window is not 0")
        return found


def frame(count, weights) -> Frame:
    """A frame of `count` windows by the weights of domain 0, 1, 2 .., or raises Refused.

    Weights that are not given are 0.

        >>> frame(1, [0, 0])
        Traceback (most recent call last):
        ...
        pirkvezo.refusals.Refused: all weights are 0 [15]
    """
    weights = tuple(weights)
    if len(weights) > DOMAINS:
        raise ValueError(f"a frame has at most {DOMAINS} weights")
    for number in (count,) + weights:
        if not isinstance(number, int) or not 0 <= number <= MOST_NUMBER:
            raise ValueError("a window count or a weight is a number from 0 to 2**32 - 1")
    weights += (0,) * (DOMAINS - len(weights))
    numbers = library.FrameNumbers()
    refusal, companion = library.frame(count, library.WeightNumbers(*weights), numbers)[:2]
    if refusal:
        raise Refused(refusal, companion, asked=(count, weights))
    return Frame(count, weights, tuple(numbers))
