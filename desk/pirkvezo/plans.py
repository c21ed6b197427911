"""A plan as Python values, read by the proved library."""
import ctypes
import dataclasses
from typing import List, Tuple, Union

from . import library
from .refusals import TEXT_BYTES, Refused

OP_KINDS = ("read", "write", "send", "receive", "compute")
SCRIPT_LENGTH = library.SCRIPT
NO_LATEST = 18


@dataclasses.dataclass(frozen=True)
class Window:
    """A window of time as the plan declares it: the domain that owns it, and its ticks.

    >>> str(Window(1, 300))
    '(window 1 (length 300))'
    """
    owner: int
    length: int

    def __str__(self):
        return f"(window {self.owner} (length {self.length}))"


@dataclasses.dataclass(frozen=True)
class Op:
    """An op of a script: its word, the other domain (send and receive), and its value.

    >>> str(Op("send", 1, 77)), str(Op("read", 0, 3)), str(Op("receive", 1, 0))
    ('(send 1 77)', '(read 3)', '(receive 1)')
    """
    kind: str
    other: int
    value: int

    def __str__(self):
        if self.kind == "send":
            return f"(send {self.other} {self.value})"
        return f"({self.kind} {self.other if self.kind == 'receive' else self.value})"


def decode(number):
    """The op that a number of a script stands for, or None where it ends the script.

    >>> decode(3211341)
    Op(kind='send', other=1, value=77)
    >>> decode(0) is None
    True
    """
    kind, other, value = number >> 20, number >> 16 & 15, number & 65535
    if not 1 <= kind <= 5:
        return None
    word = OP_KINDS[kind - 1]
    if word in ("send", "receive"):
        known = other <= 7 and (word == "send" or value == 0)
    else:
        known = other == 0 and (word != "compute" or 1 <= value <= 200)
    return Op(word, other, value) if known else None


def decode_script(numbers) -> List[Op]:
    """The ops of a script's numbers, up to its end.

    >>> decode_script([1048579, 0, 1048579])
    [Op(kind='read', other=0, value=3)]
    """
    found = []
    for number in numbers:
        op = decode(number)
        if op is None:
            break
        found.append(op)
    return found


@dataclasses.dataclass(frozen=True)
class Latest:
    """The latest finish of a domain's windows: the ticks from a window's end until the switch has emptied L1
    and touched line 60, touch counted.

    `Plan.latest` makes it; the ticks and `script`, 256 stored numbers, are the library's. In no run from a
    fresh start does a window of the domain take more ticks, whatever any script holds. With this script its
    first window takes exactly these, where its part of the log has room for 256 records.

        >>> latest = read(open("examples/late_finish.plan", "rb").read()).latest(0)
        >>> latest
        Latest(domain=0, ticks=360)
        >>> len(latest.ops), latest.lines[0], latest.lines[-1]
        (29, '(op 0 (write 0))', '(op 0 (send 1 0))')
    """
    domain: int
    ticks: int
    script: Tuple[int, ...] = dataclasses.field(repr=False)

    @property
    def ops(self) -> List[Op]:
        """The script's ops."""
        return decode_script(self.script)

    @property
    def lines(self) -> List[str]:
        """The script as op lines of a plan."""
        return [f"(op {self.domain} {op})" for op in self.ops]


@dataclasses.dataclass(frozen=True)
class Plan:
    """An accepted plan. `read` makes it; `numbers` and `scripts` are what the library wrote.

    Windows count from 0 over all repeats. Sums that a plan implies are worked out here from the
    library's numbers; they decide nothing. The bound, the canonical text and the latest finishes are
    the library's own.

        >>> plan = read(open("examples/worked_example.plan", "rb").read())
        >>> plan.pad, plan.run, plan.shares, plan.recipients
        (376, 1, (400, 300), ((1,), ()))
        >>> plan.colours(0), plan.holding(1)
        ([0, 1, 2, 3, 4, 5], 5)
        >>> plan.window_start(1), plan.window_end(1), plan.windows_total, plan.ticks_total
        (776, 1076, 2, 1452)
        >>> [str(op) for op in plan.ops(1)]
        ['(receive 0)', '(read 100)']
        >>> plan.bound
        7
        >>> len(plan.canonical), plan.canonical.splitlines()[1]
        (203, b'(domain 0(share 400)(may 1))')
    """
    text: bytes = dataclasses.field(repr=False)
    numbers: Tuple[int, ...] = dataclasses.field(repr=False)
    scripts: Tuple[int, ...] = dataclasses.field(repr=False)
    pad: int
    run: int
    shares: Tuple[int, ...]
    recipients: Tuple[Tuple[int, ...], ...]
    windows: Tuple[Window, ...]
    masks: Tuple[int, ...]

    @property
    def domains(self) -> int:
        """How many domains the plan declares."""
        return len(self.shares)

    def colours(self, domain) -> List[int]:
        """The colours that the domain's mask holds."""
        return [colour for colour in range(16) if self.masks[domain] >> colour & 1]

    def holding(self, domain) -> int:
        """How many colours the domain holds."""
        return len(self.colours(domain))

    @property
    def windows_total(self) -> int:
        """How many windows the whole run has, repeats included."""
        return self.run * len(self.windows)

    @property
    def ticks_total(self) -> int:
        """The tick at which the run ends."""
        return self.window_start(self.windows_total)

    @property
    def bound(self) -> int:
        """How many steps a run takes at most, from a fresh start and in all calls together.

        As a limit it always suffices, however long the log is.
        """
        plan, scripts = library.PlanNumbers(*self.numbers), library.Scripts(*self.scripts)
        number, companion, steps = library.step_bound(plan, scripts)[:3]
        if number:
            raise Refused(number, companion)
        return steps

    @property
    def canonical(self) -> bytes:
        """The canonical text: no text that gives this plan with these scripts is shorter.

        Plans with equal canonical texts are the same and have the same scripts, and no others do.
        """
        plan, scripts = library.PlanNumbers(*self.numbers), library.Scripts(*self.scripts)
        # no text that is accepted is longer
        out = ctypes.create_string_buffer(TEXT_BYTES)
        number, companion, length = library.write_plan(plan, scripts, out, TEXT_BYTES)[:3]
        if number:
            raise Refused(number, companion)
        text = out.raw[:length]
        if _given_by(text) != (0, tuple(plan), tuple(scripts)):
            # proved not to happen: raised before a text that is wrong can take the place of a plan
            raise library.Fault("THIS MUST NOT HAPPEN: the canonical text does not give the plan and scripts "
                                "that it is of. It is proved to, so the desk or its library is at fault.")
        return text

    def latest(self, domain) -> Latest:
        """How late the domain can finish a window, with a script that does so; or raises Refused.

        It is refused (18) where the domain is not declared, has no window, or has one that is not of
        4000 to 20000 ticks. No script of the plan is looked at.
        """
        if not isinstance(domain, int) or not 0 <= domain < 2**32:
            raise ValueError("a domain is a number from 0 on")
        script = library.ScriptNumbers()
        number, companion, ticks = library.latest(library.PlanNumbers(*self.numbers), domain, script)[:3]
        if number:
            # the text has the cause, unless the numbers were changed by hand
            raise Refused(number, companion, self.text if _given_by(self.text)[1] == self.numbers else None)
        found = Latest(domain, ticks, tuple(script))
        if ticks > self.numbers[0]:
            raise library.fault(f"domain {domain} finishes {ticks} ticks late, and the pad has {self.numbers[0]}")
        if any(script[len(found.ops):]):
            raise library.fault(f"the script for domain {domain} has a number behind its ops")
        return found

    @property
    def latest_of_each(self) -> List[Union[Latest, Refused]]:
        """The latest finish of each declared domain; in its place, why it is refused (18)."""
        found = []
        for domain in range(self.domains):
            try:
                found.append(self.latest(domain))
            except Refused as refused:
                if refused.number != NO_LATEST:
                    raise
                found.append(refused)
        return found

    def window(self, k) -> Window:
        """The window with index k of the run."""
        if not 0 <= k < self.windows_total:
            raise IndexError(f"window {k} of {self.windows_total}")
        return self.windows[k % len(self.windows)]

    def window_start(self, k) -> int:
        """The tick at which window k starts; for k = windows_total, the end of the run."""
        if not 0 <= k <= self.windows_total:
            raise IndexError(f"window {k} of {self.windows_total}")
        repeats, rest = divmod(k, len(self.windows))
        once = sum(window.length + self.pad for window in self.windows)
        return repeats * once + sum(window.length + self.pad for window in self.windows[:rest])

    def window_end(self, k) -> int:
        """The tick from which no op of window k begins; the pad follows."""
        return self.window_start(k) + self.window(k).length

    def ops(self, domain) -> List[Op]:
        """The domain's ops, up to the end of its script."""
        if not 0 <= domain < self.domains:
            raise IndexError(f"domain {domain} of {self.domains}")
        return decode_script(self.scripts[SCRIPT_LENGTH * domain:SCRIPT_LENGTH * (domain + 1)])


def _given_by(text):
    """What the library reads in a text: the refusal's number, the plan and the scripts."""
    scripts, numbers = library.Scripts(), library.PlanNumbers()
    number = library.read_plan(text, scripts, numbers)[0]
    return number, tuple(numbers), tuple(scripts)


def read(text) -> Plan:
    """Reads a plan text (bytes), or raises Refused.

        >>> read(b"(pad 376)")
        Traceback (most recent call last):
        ...
        pirkvezo.refusals.Refused: 1:10: the plan has no domain, window or run [5]
    """
    text = text.encode("utf-8") if isinstance(text, str) else bytes(text)
    scripts, numbers = library.Scripts(), library.PlanNumbers()
    number, companion = library.read_plan(text, scripts, numbers)[:2]
    if number:
        raise Refused(number, companion, text)
    plan = tuple(numbers)
    domains, windows = plan[2], plan[3]
    return Plan(
        text=text, numbers=plan, scripts=tuple(scripts), pad=plan[0], run=plan[1],
        shares=plan[4:4 + domains],
        recipients=tuple(tuple(b for b in range(8) if mask >> b & 1) for mask in plan[12:12 + domains]),
        windows=tuple(Window(plan[20 + k], plan[52 + k]) for k in range(windows)),
        masks=plan[84:84 + domains])
