"""The run as a timeline in SVG: a lane for each domain, and strips that follow one another.

Widths are not to scale: an op of one tick must be seen beside a window of a million. Each op is at
least as wide as its letter, and idle time and pads grow with the logarithm of their ticks.
"""
from dataclasses import dataclass, field
from itertools import groupby
from math import log10
from typing import Dict, List, Tuple

from ..layout import count
from .markup import escape
from .pictures import svg

LETTERS = {"hit1": "1", "hit2": "2", "miss": "m", "sent": "s", "got": "g", "empty": "e",
           "denied": "d", "ran": "r", "barred": "b"}
# a lane is a bar and, below it, room for arrows
WIDTH, LEFT, BAR, LANE, TOP = 1080, 64, 24, 40, 30
MOST_STRETCH = 2.5


@dataclass(frozen=True)
class Message:
    """A word on its way: (window, index in it) of the send, and of the receive that got it."""
    sender: int
    recipient: int
    word: int
    sent: Tuple[int, int]
    got: Tuple[int, int]


def messages(plan, windows):
    """Each `got` of these windows with the last `sent` before it into the same box."""
    scripts = [plan.ops(d) for d in range(plan.domains)]
    last, found = {}, []
    for window in windows:
        for k, event in enumerate(window.ops):
            op = scripts[window.owner][event.position]
            if event.record.kind == "sent":
                last[(window.owner, op.other)] = (window.index, k)
            elif event.record.kind == "got":
                sent = last.pop((op.other, window.owner), None)
                if sent is not None:
                    found.append(Message(op.other, window.owner, event.record.value, sent,
                                         (window.index, k)))
    return found


@dataclass
class _Sheet:
    """Where the next thing goes, what each strip holds, and where the ops stand (strip, x, lane).

    Each strip is a picture of its own, so that paper breaks between strips.
    """
    lanes: int
    stretch: float
    x: float = LEFT
    free: float = 0
    strips: List[List[str]] = field(default_factory=lambda: [[]])
    arrows: List[List[str]] = field(default_factory=lambda: [[]])
    placed: Dict[Tuple[int, int], Tuple[int, float, int]] = field(default_factory=dict)

    @property
    def strip(self):
        return len(self.strips) - 1

    def keep(self, width):
        """Leaves the strip for the next where so much does not fit here but does fit there."""
        if self.x + width > WIDTH + 0.01 and LEFT + width <= WIDTH + 0.01 and self.x > LEFT:
            self._next()

    def _next(self):
        self.strips.append([])
        self.arrows.append([])
        self.x, self.free = LEFT, 0

    def take(self, width):
        """Room for a thing of that width: its x. A full strip is left for the next."""
        # a hair of room keeps a stretched timeline in its one strip
        if self.x + width > WIDTH + 0.01:
            self._next()
        x, self.x = self.x, self.x + width
        return x


def _lane_top(lane):
    return TOP + lane * LANE


def timeline(plan, windows, sent):
    """The timeline of these windows (of pirkvezo.history) and of the messages `sent`."""
    groups, stretch = _groups(windows, len(plan.windows))
    sheet = _Sheet(plan.domains, stretch)
    scripts = [plan.ops(d) for d in range(plan.domains)]
    for group in groups:
        sheet.keep(sum(map(_width, group)) * stretch)
        for window in group:
            _window(sheet, window, scripts[window.owner])
    for message in sent:
        _arrow(sheet, message)
    lanes = _lanes(plan.domains)
    return "".join(
        svg(WIDTH + 4, TOP + plan.domains * LANE + 4,
            (TIP if n == 0 else "") + lanes + "".join(sheet.arrows[n]) + "".join(drawn),
            "Timeline of the run")
        for n, drawn in enumerate(sheet.strips))


TIP = ('<defs><marker id="tip" viewBox="0 0 8 8" refX="7" refY="4" markerWidth="7" '
       'markerHeight="7" orient="auto"><path class="tip" d="M0 0L8 4L0 8Z"/></marker></defs>\n')


def _lanes(domains):
    out = []
    for d in range(domains):
        y = _lane_top(d) + BAR // 2
        out.append(f'<text class="lane" x="0" y="{y + 4}">domain {d}</text>'
                   f'<path class="lane" d="M{LEFT} {y}H{WIDTH}"/>')
    return "".join(out) + "\n"


def _ran_to(window):
    return window.ops[-1].end if window.ops else window.start


def _things(window):
    """What a window shows, as width, kind and event: its ops, idle time, and switch with pad."""
    things = [(9 + 0.12 * (e.end - e.begin), "op", e) for e in window.ops]
    idle = window.end - _ran_to(window)
    if idle > 0:
        things.append((6 + 7 * log10(1 + idle), "idle", None))
    pad = window.padded_end - max(_ran_to(window), window.end)
    return things + [(6 + 4 * log10(1 + pad), "pad", None)]


def _width(window):
    return sum(width for width, _, _ in _things(window))


def _groups(windows, per_round):
    """What a strip does not part, and the stretch: whole rounds where each fits, else windows."""
    rounds = [list(group) for _, group in groupby(windows, lambda w: w.index // per_round)]
    widest = max((sum(map(_width, group)) for group in rounds), default=1)
    room = WIDTH - LEFT
    if widest <= room:
        in_a_strip = min(int(room // widest), max(len(rounds), 1))
        return rounds, min(MOST_STRETCH, room / (in_a_strip * widest))
    return [[window] for window in windows], 1.0


def _window(sheet, window, script):
    """Draws a window; one that a strip cannot hold is drawn in parts."""
    parts = {}
    for natural, kind, event in _things(window):
        width = natural * sheet.stretch
        x = sheet.take(width)
        if not parts:
            label = _label(sheet, x, window)
        parts.setdefault(sheet.strip, []).append((x, width, kind, event))
    k, y = 0, _lane_top(window.owner)
    for n, (strip, things) in enumerate(parts.items()):
        out = [f'<g data-window="{window.index}">' if n == 0 else "<g>", _tip(window)]
        out.append(label if n == 0 else "")
        busy = [(x, width) for x, width, kind, _ in things if kind != "pad"]
        if busy:
            out.append(_bar(window, busy[0][0], sum(busy[-1]), y))
        for x, width, kind, event in things:
            if kind == "pad":
                out.append(f'<rect class="pad" x="{x:.1f}" y="{y}" width="{width:.1f}" '
                           f'height="{BAR}"/>')
            elif kind == "op":
                sheet.placed[(window.index, k)] = (strip, x + width / 2, window.owner)
                out.append(_op(window, k, event, script, x, y, width))
                k += 1
        out.append(_letters([t for t in things if t[2] == "op"], y) + "</g>\n")
        sheet.strips[strip].append("".join(out))


def _bar(window, left, right, y):
    return (f'<rect class="d{window.owner}" x="{left:.1f}" y="{y}" width="{right - left:.1f}" '
            f'height="{BAR}"/>')


def _tip(window):
    """The window's numbers: what the pointer shows over its bar and its pad."""
    return (f"<title>window {window.index}, domain {window.owner}: {window.start} to {window.end}, "
            f"pad to {window.padded_end}, {count(len(window.ops), 'op')}</title>")


def _op(window, k, event, script, x, y, width):
    late = "" if event.end <= window.end else f", {event.end - window.end} past the window's end"
    edge = ""
    if late:
        at = x + width * (window.end - event.begin) / (event.end - event.begin)
        edge = f'<path class="edge" d="M{at:.1f} {y}v{BAR}"/>'
    return (f'<rect class="{event.record.kind}" x="{x + 0.5:.1f}" y="{y + 3}" '
            f'width="{width - 1:.1f}" height="{BAR - 6}"><title>domain {window.owner}, window '
            f'{window.index}, op {k}: {script[event.position]} saw {event.record} at '
            f'{event.record.clock}, {count(event.end - event.begin, "tick")}{late}</title></rect>'
            f'{edge}')


def _letters(ops, y):
    """The letters of a row of ops, as one text."""
    if not ops:
        return ""
    at = " ".join(f"{x + width / 2:.1f}" for x, width, _, _ in ops)
    letters = "".join(LETTERS[event.record.kind] for _, _, _, event in ops)
    return f'<text class="op" x="{at}" y="{y + 16}">{letters}</text>'


def _label(sheet, x, window):
    """The window's index and start, where the label before leaves room."""
    if x < sheet.free:
        return ""
    sheet.free = x + 6 + 6 * max(len(str(window.index)) + 1, len(str(window.start)))
    return (f'<text class="axis" x="{x:.1f}" y="12">w{window.index}</text>'
            f'<text class="axis" x="{x:.1f}" y="24">{window.start}</text>')


def _arrow(sheet, message):
    """One curve where both ends stand in one strip, else a stub at each end that is drawn."""
    here, there = sheet.placed.get(message.sent), sheet.placed.get(message.got)
    down = 1 if message.recipient > message.sender else -1
    tip = (f"<title>word {message.word} from domain {message.sender} (window {message.sent[0]}) to "
           f"domain {message.recipient} (window {message.got[0]})</title>")
    if here and there and here[0] == there[0]:
        (x, y), (x2, y2) = _edge(here, down), _edge(there, -down)
        half = (y2 - y) // 2
        sheet.arrows[here[0]].append(_message(
            f"M{x:.1f} {y}C{x:.1f} {y + half} {x2:.1f} {y2 - half} {x2:.1f} {y2}", tip))
        return
    if here:
        x, y = _edge(here, down)
        sheet.arrows[here[0]].append(
            _message(f"M{x:.1f} {y}l8 {down * 9}", tip)
            + f'<text class="axis" x="{x + 10:.1f}" y="{y + (14 if down > 0 else -6)}">'
              f'w{message.got[0]}</text>\n')
    if there:
        x, y = _edge(there, -down)
        sheet.arrows[there[0]].append(
            _message(f"M{x - 8:.1f} {y - down * 9}L{x:.1f} {y}", tip)
            + f'<text class="axis end" x="{x - 10:.1f}" y="{y - (6 if down > 0 else -14)}">'
              f'w{message.sent[0]}</text>\n')


def _edge(place, side):
    """The middle of a bar's lower (side 1) or upper (side -1) edge at an op.

    Arrows are drawn before the ops, so that one which passes a lane hides no letter there.
    """
    _, x, lane = place
    return x, _lane_top(lane) + BAR // 2 + side * (BAR // 2)


def _message(path, tip):
    return f'<path class="message" d="{path}" marker-end="url(#tip)">{tip}</path>\n'


def legend():
    """What the letters and hues of the ops mean."""
    kinds = (("hit1", "line was in L1"), ("hit2", "line was in L2"), ("miss", "in neither"),
             ("sent", "word put into a box"), ("got", "word taken"), ("empty", "box was empty"),
             ("denied", "not on the sender's list"), ("ran", "compute"),
             ("barred", "not the domain's line"))
    chips = "".join(f'<span class="chip"><span class="key {kind}">{LETTERS[kind]}</span> {kind}: '
                    f'{escape(words)}</span> ' for kind, words in kinds)
    return (f'<p class="legend">{chips}<span class="chip"><span class="key pad">&#160;</span> '
            f'switch (both flushes, the touch) and pad</span> <span class="chip">'
            f'<span class="key arrow">&#8594;</span> '
            f'message</span></p>\n')
