"""The page: XHTML that a browser reads as HTML and that every XML reader reads too."""
from collections import Counter

from ..history import history
from ..layout import count, ranges, signed
from ..plans import Latest
from ..refusals import excerpt, shown
from ..shares import COLOURS, SHARES, rounded
from .markup import escape, table
from .pictures import KERNEL, owners, round_picture, share_picture
from .style import STYLE
from .timeline import legend, messages, timeline

LOG_LENGTH = 16384
FOLD_FROM = 64


def page(name, plan, log_length=LOG_LENGTH, windows=None, warnings=()):
    """The page of an accepted plan. `windows` is a range of windows to draw; None draws all, and
    says in one line where the run's last rounds pass idle."""
    run = history(plan, log_length)
    drawn, folded = _drawn(plan, run, windows)
    parts = [_summary(name, plan, run, log_length), _warnings(warnings), _shares(plan),
             _time(plan, run), _timeline(plan, run, drawn, folded),
             _domains(plan, run, log_length), _windows(drawn, folded),
             _records(plan, drawn), _text(plan.text)]
    return _whole(name, parts)


def refused_page(name, refused, text):
    """The page of a refused plan: the cause, the line with a caret, what would fix it."""
    line, column = refused.line, refused.column
    head = f"<h1>{escape(name)}</h1>\n<p class=\"bad\">Refused: {escape(refused.words)} " \
           f"[{refused.number}]</p>\n"
    where = f"{name}:{line}:{column}" if line else name
    body = [head, f"<p>At <code>{escape(where)}</code>. Nothing is run.</p>\n"]
    if line:
        seen, caret = excerpt(text, refused.offset)
        body.append(f'<pre class="fault">{_bytes(seen)}\n<span class="at">{caret}</span></pre>\n')
    if refused.fix:
        body.append(f"<h2>What would fix it</h2>\n<p>{escape(refused.fix)}</p>\n")
    body.append(f'<p class="note">The library answered <code>(refused {refused.number} '
                f'{refused.companion})</code>; docs/PLANS.md lists the numbers.</p>\n')
    body.append(_text(text[:40000], line))
    return _whole(name, body)


# what stands for a byte that cannot be seen: few fonts have the pictures that a terminal shows
LETTERS = {"\u2409": ("t", "tab"), "\u240d": ("r", "carriage return"), "\u2400": ("0", "NUL")}


def _bytes(line):
    """A shown line as markup, with a marked letter for each byte that cannot be seen."""
    out = []
    for character in line:
        if "\u2400" <= character <= "\u2421" or character == "\ufffd":
            letter, name = LETTERS.get(character, ("?", "a byte that no plan has"))
            out.append(f'<b class="byte" title="{name}">{letter}</b>')
        else:
            out.append(escape(character))
    return "".join(out)


def _whole(name, parts):
    return ('<!DOCTYPE html>\n<html xmlns="http://www.w3.org/1999/xhtml" lang="en"><head>'
            '<meta charset="utf-8"/><meta name="viewport" content="width=device-width, '
            f'initial-scale=1"/>\n<title>{escape(name)}: plan report</title>\n'
            f'<style>{STYLE}</style></head>\n<body>\n{"".join(parts)}'
            '<p class="note">Verdict, colours, clocks, records and bound come from the proved '
            'library; this page lays them out and draws them, and is not itself proved.</p>\n'
            '</body></html>\n')


def _drawn(plan, run, chosen):
    """The windows to draw, and the idle windows at the end that one line stands for."""
    if chosen is not None:
        return [w for w in run if w.index in chosen], []
    busy = max((w.index for w in run if w.ops), default=-1)
    per = len(plan.windows)
    rest = run[(busy // per + 1) * per:]
    if len(rest) <= FOLD_FROM:
        return run, []
    # the first idle round stands for the others
    kept = len(run) - len(rest) + per
    return run[:kept], run[kept:]


def _swatch(style):
    return (f'<svg xmlns="http://www.w3.org/2000/svg" class="swatch" viewBox="0 0 9 9">'
            f'<rect class="{style}" width="9" height="9"/></svg>')


def _domain(d):
    return f"{_swatch(f'd{d}')}domain {d}"


def _summary(name, plan, run, log_length):
    ops, steps = sum(len(w.ops) for w in run), sum(w.steps for w in run)
    return (f'<h1>{escape(name)}</h1>\n<p class="good">Accepted.</p>\n'
            f'<p>{count(plan.domains, "domain")}; {count(len(plan.windows), "window")} a round, '
            f'{count(plan.run, "round")}, {count(plan.windows_total, "window")} in all; pad '
            f'{plan.pad}; the run ends at tick {plan.ticks_total}. {count(ops, "op")} done; '
            f'{count(steps, "step")} of at most {plan.bound}; log of {log_length} bytes.</p>\n')


def _warnings(warnings):
    if not warnings:
        return ""
    items = "".join(f"<li>{escape(w)}</li>\n" for w in warnings)
    return f"<h2>Worth a look</h2>\n<ul>\n{items}</ul>\n"


def _shares(plan):
    rows = []
    for d in range(plan.domains):
        colours = plan.colours(d)
        sets = [s for c in colours for s in range(4 * c, 4 * c + 4)]
        rows.append([_domain(d), plan.shares[d], ranges(colours), len(colours), ranges(sets),
                     256 * len(colours), signed(rounded(plan.shares[d], len(colours))),
                     ", ".join(str(r) for r in plan.recipients[d]) or "nobody"])
    held = owners(plan)
    free = [c for c in range(KERNEL) if not held[c]]
    twice = [c for c in range(KERNEL + 1) if len(held[c]) + (c == KERNEL) > 1]
    sold = sum(plan.shares)
    notes = [f"Shares total {sold} of {SHARES}.",
             f"Colours nobody holds: {ranges(free)}." if free else "Every colour is let.",
             f"Let twice: {ranges(twice)}." if twice else
             "Counted: no colour is let twice, and none of the kernel's is let."]
    heads = ("Domain", "Share", "Colours", "Held", "Sets = line mod 64", "Lines", "Rounded",
             "May send to")
    return ("<h2>Shares of the cache</h2>\n" + share_picture(plan) + table(heads, rows)
            + f'<p>{" ".join(notes)}</p>\n<p class="note">Lines: how many '
            f'of 0 to 4095 the domain may touch. Rounded: colours held minus share &#215; {COLOURS} / '
            f'{SHARES}, what rounding gave (+) or took (-).</p>\n')


def _time(plan, run):
    rows, sold_all = [], 0
    for d in range(plan.domains):
        mine = [w for w in plan.windows if w.owner == d]
        sold = plan.run * sum(w.length for w in mine)
        pads = plan.run * len(mine) * plan.pad
        sold_all += sold
        rows.append([_domain(d), plan.run * len(mine), sold, pads, f"{_percent(sold, plan)} %"])
    pads_all = plan.ticks_total - sold_all
    rows.append(["in all", plan.windows_total, sold_all, pads_all, f"{_percent(sold_all, plan)} %"])
    return ("<h2>Windows of time</h2>\n<p>One round, to scale:</p>\n" + round_picture(plan)
            + table(("Domain", "Windows", "Ticks sold", "Ticks for pads", "Sold of the run"), rows)
            + _latest(plan))


def _latest(plan):
    """How much of the pad each domain can use; nothing where the library tells it of none."""
    told = [f"{one.ticks} for domain {one.domain}" for one in plan.latest_of_each if isinstance(one, Latest)]
    if not told:
        return ""
    return (f"<p>The library says how many of the pad's {plan.pad} ticks a domain can use at most: "
            f"{', '.join(told)}. They count from a window's end until the switch has emptied L1 and touched "
            "line 60, touch counted.</p>\n")


def _percent(part, plan):
    return f"{100 * part / plan.ticks_total:.1f}"


def _timeline(plan, run, drawn, folded):
    note = ("Widths are not to scale: short ops are widened, idle time and pads are shortened. "
            "Above each window stand its index and its start. Hold the pointer over anything for "
            "its numbers; the tables below have them all. A red line marks a window's end that an "
            "op ran past. An arrow that leaves its strip names the window of its other end.")
    fold = f"<p>{_fold_words(folded)}</p>\n" if folded else ""
    return (f"<h2>Timeline</h2>\n{legend()}{timeline(plan, drawn, messages(plan, run))}{fold}"
            f'<p class="note">{note}</p>\n')


def _fold_words(folded):
    return (f"Windows {folded[0].index} to {folded[-1].index} pass idle like the round before "
            f"them, from {folded[0].start} to {folded[-1].padded_end}.")


def _domains(plan, run, log_length):
    room = log_length // (8 * plan.domains)
    rows = []
    for d in range(plan.domains):
        mine = [w for w in run if w.owner == d]
        kinds = Counter(e.record.kind for w in mine for e in w.ops)
        idle = sum(max(0, w.end - (w.ops[-1].end if w.ops else w.start)) for w in mine)
        done, script = sum(kinds.values()), len(plan.ops(d))
        left = script - done
        why = "" if not left else (" (log full)" if done >= room else
                                   " (no window)" if not mine else " (run over)")
        rows.append([_domain(d), f"{done} of {script}", kinds["hit1"], kinds["hit2"], kinds["miss"],
                     kinds["barred"], kinds["sent"], kinds["got"], kinds["empty"], kinds["denied"],
                     kinds["ran"], idle, f"{left}{why}"])
    heads = ("Domain", "Ops done", "hit1", "hit2", "miss", "barred", "sent", "got", "empty",
             "denied", "ran", "Idle ticks", "Never reached")
    return "<h2>What each domain did</h2>\n" + table(heads, rows)


def _windows(drawn, folded):
    rows = []
    for w in drawn:
        idle = max(0, w.end - (w.ops[-1].end if w.ops else w.start))
        rows.append((f' data-window="{w.index}"', [w.index, w.owner, w.start, w.end, w.padded_end,
                                                    len(w.ops), idle]))
    heads = ("Window", "Domain", "Starts", "Ends", "Pad to", "Ops", "Idle ticks")
    fold = ""
    if folded:
        fold = (f'<p data-from="{folded[0].index}" data-to="{folded[-1].index}">'
                f"{_fold_words(folded)}</p>\n")
    return (f"<h2>Windows</h2>\n<details{_open(len(drawn))}><summary>{count(len(drawn), 'window')}"
            f"</summary>\n{table(heads, rows)}</details>\n{fold}")


def _open(rows):
    """Short tables stand open; long ones open on a click, without a script."""
    return ' open="open"' if rows <= 400 else ""


def _records(plan, drawn):
    out = ["<h2>Records</h2>\n"]
    for d in range(plan.domains):
        script, rows = plan.ops(d), []
        for w in drawn:
            if w.owner != d:
                continue
            for k, e in enumerate(w.ops):
                rows.append((f' data-record="{d}"', [
                    w.index, k, f"<code>{script[e.position]}</code>", f"<code>{e.record}</code>",
                    e.record.clock, e.end - e.begin]))
        heads = ("Window", "Op", "Asked", "Saw", "Clock", "Ticks")
        body = table(heads, rows, "records") if rows else "<p>None.</p>\n"
        out.append(f"<h3>{_domain(d)}</h3>\n<details{_open(len(rows))}><summary>"
                   f"{count(len(rows), 'record')}</summary>\n{body}</details>\n")
    return "".join(out)


def _text(text, mark=None):
    lines = text.split(b"\n")
    if lines and not lines[-1]:
        lines.pop()
    wide = len(str(len(lines)))
    out = []
    for n, line in enumerate(lines, 1):
        style = "at" if n == mark else "n"
        out.append(f'<span class="{style}">{n:>{wide}}</span>  {_bytes(shown(line))}')
    open_ = _open(len(lines)) if mark is None else ' open="open"'
    return (f"<h2>The plan</h2>\n<details{open_}><summary>{count(len(lines), 'line')}, "
            f'{count(len(text), "byte")}</summary>\n<pre>' + "\n".join(out) + "</pre></details>\n")
