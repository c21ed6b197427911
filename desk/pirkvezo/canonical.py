"""The canonical text beside other texts: where a text leaves it, and in which lines two of them differ.

The texts are the library's (`Plan.canonical`), and whether two of them are equal is all that decides.
What is here only says where they are not.
"""
import collections
import dataclasses
import os
from typing import Dict, List, Optional, Tuple

from .refusals import excerpt, line_and_column, line_of, tokens

# the order of a canonical text
FORMS = ("pad", "domain", "window", "run", "op")
WIDTH = 48


@dataclasses.dataclass(frozen=True)
class Departure:
    """Where a text is first another than its canonical text, and what each has there, in words."""
    line: int
    column: int
    words: str


@dataclasses.dataclass(frozen=True)
class Line:
    """A line of a canonical text; lines count from 1."""
    number: int
    text: str


@dataclasses.dataclass(frozen=True)
class Difference:
    """What differs between two canonical texts, in words, and its line in each; None where one has none."""
    about: str
    a: Optional[Line]
    b: Optional[Line]


def departure(text: bytes, canonical: bytes) -> Optional[Departure]:
    """Where a text leaves its canonical text; None where it is that text.

    >>> departure(b"(pad 0376)", b"(pad 376)")
    Departure(line=1, column=6, words='"(pad 0376)" stands here, and the canonical text has "(pad 376)"')
    >>> departure(b"(pad 376)", b"(pad 376)") is None
    True
    """
    if text == canonical:
        return None
    offset = len(os.path.commonprefix([text, canonical]))
    return Departure(*line_and_column(text, offset), _departs(text, canonical, offset))


def _departs(text, canonical, offset):
    if line_of(text, offset)[1] == line_of(canonical, offset)[1]:
        # the lines are equal up to their ends, and the canonical text, which is never longer, has ended
        return "a line feed stands here, and the canonical text ends without one"
    return f"{_said(text, offset)} stands here, and the canonical text has {_said(canonical, offset)}"


def _said(text, offset):
    line = excerpt(text, offset, WIDTH)[0]
    return f'"{line}"' if line else "an empty line"


def differences(a: bytes, b: bytes) -> List[Difference]:
    """The lines of two canonical texts that differ, in the order of the texts.

    Windows are told apart by their order, and ops by their place in their domain's script.

    >>> found = differences(b"(pad 376)\\n(run 1)", b"(pad 376)\\n(run 2)\\n(op 0(read 3))")
    >>> [difference.about for difference in found]
    ['the run', 'op 0 of domain 0']
    >>> found[0].a, found[1].a
    (Line(number=2, text='(run 1)'), None)
    """
    left, right = _lines(a), _lines(b)
    return [Difference(_about(*key), left.get(key), right.get(key))
            for key in sorted(left.keys() | right.keys()) if _text(left, key) != _text(right, key)]


def _lines(text: bytes) -> Dict[Tuple[int, int, int], Line]:
    """The lines of a canonical text by form, domain (of domain and op lines) and place."""
    found, so_far = {}, collections.Counter()
    for number, line in enumerate(text.split(b"\n"), 1):
        word, first = map(str, tokens(line)[1:3])
        series = (FORMS.index(word), int(first) if word in ("domain", "op") else 0)
        found[series + (so_far[series],)] = Line(number, line.decode("ascii"))
        so_far[series] += 1
    return found


def _text(lines, key):
    return lines[key].text if key in lines else None


def _about(form, domain, place):
    """What a line is about.

    >>> _about(2, 0, 3), _about(4, 1, 0)
    ('window 3 of a round', 'op 0 of domain 1')
    """
    return {"pad": "the pad", "run": "the run", "domain": f"domain {domain}",
            "window": f"window {place} of a round", "op": f"op {place} of domain {domain}"}[FORMS[form]]
