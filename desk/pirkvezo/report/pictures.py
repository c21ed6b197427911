"""The pictures of a plan in SVG: who holds which colour, and one round of windows to scale."""
from ..layout import count
from .markup import escape

COLOURS = 16
KERNEL = 15


# what unsold colours and pads are filled with; the page's first picture brings it for all
HATCH = ('<defs><pattern id="hatch" width="6" height="6" patternUnits="userSpaceOnUse" '
         'patternTransform="rotate(45)"><path class="hatch" d="M0 0V6"/></pattern></defs>\n')


def svg(width, height, body, label):
    """A picture that takes the page's width and no more than its own; a narrow page scrolls it."""
    return ('<div class="scroll"><svg xmlns="http://www.w3.org/2000/svg" class="picture" '
            f'role="img" aria-label="{escape(label)}" viewBox="0 0 {width} {height}" '
            f'style="max-width:{width}px">\n{body}</svg></div>\n')


def owners(plan):
    """Who holds each of the sixteen colours by the library's masks: lists of domains."""
    return [[d for d in range(plan.domains) if c in plan.colours(d)] for c in range(COLOURS)]


def share_picture(plan):
    """Sixteen squares, one for each colour."""
    size, step, body = 54, 60, []
    for colour, holders in enumerate(owners(plan)):
        x = 2 + colour * step
        if colour == KERNEL:
            style, word, tip = "kernel", "kernel", "the kernel's"
        elif holders:
            style, word = f"d{holders[0]}", " ".join(f"d{d}" for d in holders)
            tip = " and ".join(f"domain {d}" for d in holders)
        else:
            style, word, tip = "unsold", "", "nobody's: no share gives it"
        first = 4 * colour
        body.append(
            f'<g data-colour="{colour}"><title>colour {colour}: {tip}; sets {first} to {first + 3}'
            f'</title><rect class="{style}" x="{x}" y="2" width="{size}" height="{size}" rx="4"/>'
            f'<text class="big" x="{x + size // 2}" y="26">{colour}</text>'
            f'<text class="small" x="{x + size // 2}" y="44">{word}</text></g>\n')
    return svg(2 + COLOURS * step, size + 6, HATCH + "".join(body),
               "The sixteen colours of the cache and who holds each")


def round_picture(plan):
    """The declared windows and their pads, with widths that are proportional to ticks."""
    width, pads, windows = 960, [], []
    ticks = sum(w.length + plan.pad for w in plan.windows)
    scale, at = width / ticks, 0
    for k, window in enumerate(plan.windows):
        x, w, p = at * scale, window.length * scale, plan.pad * scale
        pads.append(
            f'<rect class="pad" x="{x + w:.2f}" y="2" width="{max(p, 0.5):.2f}" height="34">'
            f'<title>pad after window {k}: {plan.pad} ticks</title></rect>\n')
        # a window of one tick is still to be seen
        windows.append(
            f'<rect class="d{window.owner}" x="{x:.2f}" y="2" width="{max(w, 1.5):.2f}" '
            f'height="34"><title>window {k} of a round: domain {window.owner}, '
            f'{count(window.length, "tick")} from {at}</title></rect>')
        if w > 22:
            windows.append(f'<text class="small" x="{x + w / 2:.2f}" y="23">d{window.owner}</text>')
        at += window.length + plan.pad
    body = pads + windows
    body.append(f'<text class="axis" x="0" y="50">0</text>'
                f'<text class="axis end" x="{width}" y="50">{ticks} ticks</text>\n')
    return svg(width, 54, "".join(body), "One round of windows and pads, to scale")
