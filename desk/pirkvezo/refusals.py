"""Words for a refusal: where in the text it is, what is wrong there, and what would fix it.

The library says the number and its companion. What is here looks at the plan's text beside them, or at
what was asked for (a frame, a domain's log), and only puts them into words; it never judges by itself.
"""
import dataclasses
import difflib
import re
from typing import List, Optional, Tuple

from .layout import count
from .shares import COLOURS, SHARES, colours_of, least_share, mended

TEXT_BYTES, TICKS, WINDOWS, OPS, LEAST_SHARE = 32768, 4294967295, 32, 256, least_share(1)
# of a log that was asked for, where the plan declares no such domain
NO_DOMAIN = 4
# what the least pad has room for: the dearest op, begun in a window's last tick; both flushes; the touch of the
# return path, which the switch did not make at first
OVERRUN, FLUSHES, TOUCH = 212, 64, 100
LEAST_PAD, LEAST_PAD_BEFORE = OVERRUN + FLUSHES + TOUCH, OVERRUN + FLUSHES

CALLS = {
    4: "the plan does not declare that domain",
    11: "the length of a lent array is wrong",
    12: "these numbers are no plan, or no plan with scripts, that a text gives",
    13: "the cache table or a box is damaged",
    14: "the state is impossible",
    15: "the window count or a weight is outside its limits, or all weights are 0",
    16: f"the shares give more than {COLOURS} colours",
    17: "the lent buffer is too short for the canonical text",
    18: "the domain is not declared, has no window, or has one that is too short or too long",
}

BYTES = {
    0x09: ("a tab", "use spaces"),
    0x0D: ("a carriage return", "save the file with Unix line ends (LF alone)"),
    0x00: ("a NUL byte", "save the file as plain ASCII text (it may be UTF-16)"),
    0x2C: ("a comma", "write numbers without commas"),
    0x2E: ("a full stop", "write whole numbers"),
    0x2D: ("a minus sign", "numbers are 0 or more, without a sign"),
    0x2B: ("a plus sign", "write numbers without a sign"),
    0x5F: ("an underscore", "write numbers as digits alone"),
    0x3B: ("a semicolon", "a plan has no comments"),
    0x23: ("a number sign", "a plan has no comments"),
    0x0B: ("a vertical tab", "use spaces"),
    0x0C: ("a form feed", "use spaces"),
    0x1B: ("an escape byte", "delete it"),
    0x7F: ("a delete byte", "delete it"),
}


@dataclasses.dataclass(frozen=True)
class Token:
    offset: int
    text: bytes

    def __str__(self):
        return self.text.decode("ascii", "replace")


@dataclasses.dataclass(frozen=True)
class Number:
    """A number of a form: what it is called, and its limits."""
    name: str
    low: int
    high: int


DOMAIN = Number("domain", 0, 7)
LINE, WORD = Number("line", 0, 65535), Number("word", 0, 65535)
LENGTH = Number("length", 1, 1000000)
PAD = Number("pad", LEAST_PAD, 1000000)
COUNT, WEIGHT = Number("window count", 1, 32), Number("weight", 0, 1000)
# of every window of a domain whose latest finish is asked for
LATEST_LENGTH = Number("length", 4000, 20000)
OP_NUMBERS = {
    "read": [LINE], "write": [LINE], "send": [Number("recipient", 0, 7), WORD],
    "receive": [Number("sender", 0, 7)], "compute": [Number("number of ticks", 1, 200)],
}
FORMS = {
    "pad": [PAD, ")"],
    "run": [Number("run", 1, 1000), ")"],
    "domain": [DOMAIN, "(", ("share",), Number("share", 1, 1000), ")", "(", ("may",), ")", ")"],
    "window": [DOMAIN, "(", ("length",), LENGTH, ")", ")"],
    "op": [DOMAIN, "(", tuple(OP_NUMBERS)],
}
SHAPES = {
    "pad": f"(pad {LEAST_PAD})", "run": "(run 1)", "domain": "(domain 0 (share 400) (may 1))",
    "window": "(window 0 (length 400))", "op": "(op 0 (read 3))",
}
OP_SHAPES = {
    "read": "(op 0 (read 3))", "write": "(op 0 (write 3))", "send": "(op 0 (send 1 77))",
    "receive": "(op 0 (receive 1))", "compute": "(op 0 (compute 50))",
}
RECIPIENT = Number("recipient", 0, 7)
RECIPIENTS_AT = 9


@dataclasses.dataclass(frozen=True)
class Explanation:
    """Line and column count from 1, the column in characters; both None where no line is at fault."""
    offset: Optional[int]
    line: Optional[int]
    column: Optional[int]
    words: str
    fix: str


class Refused(Exception):
    """A call that the library refused: its number and companion, with words for the plan's text, or for
    what was asked for: a frame's window count and weights (15), or the domain whose log it was and how
    many domains the plan declares (4).

        >>> refused = Refused(7, 1100, b"(domain 0 (share 600) (may))\\n(domain 1 (share 500) (may))")
        >>> refused.line, refused.column, refused.words
        (2, 18, 'the shares total 1100, which is 100 over 1000')
        >>> refused.fix
        'sell 100 thousandths less'
        >>> str(Refused(15, 0, asked=(33, (3, 2, 2))))
        'the window count is 33; it is at most 32 [15]'
        >>> str(Refused(4, 0, asked=(7, 2)))
        'the plan does not declare domain 7 [4]'
    """

    def __init__(self, number: int, companion: int, text: Optional[bytes] = None,
                 asked: Optional[tuple] = None):
        self.number, self.companion, self.text = number, companion, text
        said = explain(number, companion, text, asked)
        self.offset, self.line, self.column = said.offset, said.line, said.column
        self.words, self.fix = said.words, said.fix
        super().__init__(number, companion, text, asked)

    def __str__(self):
        where = "" if self.line is None else f"{self.line}:{self.column}: "
        return f"{where}{self.words} [{self.number}]"


def tokens(text: bytes, start: int = 0) -> List[Token]:
    """The tokens of a text: brackets, and longest runs without bracket, space or line feed."""
    return [Token(start + found.start(), found.group())
            for found in re.finditer(rb"[()]|[^() \n]+", text)]


def line_and_column(text: bytes, offset: int) -> Tuple[int, int]:
    """Line and column of an offset, as an editor counts them.

    >>> line_and_column(b"(pad 376)\\n(run 1)", 15)
    (2, 6)
    """
    start = text.rfind(b"\n", 0, offset) + 1
    return text.count(b"\n", 0, offset) + 1, len(text[start:offset].decode("utf-8", "replace")) + 1


def line_of(text: bytes, offset: int) -> Tuple[int, bytes]:
    """The offset at which the line of an offset begins, and the line without its line feed."""
    start = text.rfind(b"\n", 0, offset) + 1
    end = text.find(b"\n", offset)
    return start, text[start:len(text) if end < 0 else end]


def shown(line: bytes) -> str:
    """A line as a terminal may show it: one printable character for each character."""
    def visible(character):
        code = ord(character)
        if code < 32 or code == 127:
            return chr(0x2421 if code == 127 else 0x2400 + code)
        return character if character.isprintable() else "\ufffd"
    return "".join(map(visible, line.decode("utf-8", "replace")))


def excerpt(text: bytes, offset: int, width: int = 96) -> Tuple[str, str]:
    """The line of an offset and, below it, a caret; a long line is cut around the caret."""
    start, line = line_of(text, offset)
    seen, at = shown(line), len(text[start:offset].decode("utf-8", "replace"))
    if len(seen) > width:
        cut = max(0, min(at - width // 2, len(seen) - width))
        kept = seen[cut:cut + width]
        before, after = "..." if cut else "", "..." if cut + width < len(seen) else ""
        seen, at = before + kept + after, at - cut + len(before)
    return seen, " " * at + "^"


def explain(number: int, companion: int, text: Optional[bytes],
            asked: Optional[tuple] = None) -> Explanation:
    """Words for a refusal; without a text, for what was asked for or for a call that was lent tables."""
    if asked is not None and number in _BY_REQUEST:
        return Explanation(None, None, None, *_BY_REQUEST[number](*asked))
    if text is None or number not in _BY_TEXT:
        return Explanation(None, None, None, *_lent(number, companion))
    offset, words, fix = _BY_TEXT[number](companion, text)
    line, column = (None, None) if offset is None else line_and_column(text, offset)
    return Explanation(offset, line, column, words, fix)


def _lent(number, companion):
    """Cause and fix for a call that was lent tables."""
    words = CALLS.get(number, "refused")
    if number == 17:
        return f"{words}, which has {companion} bytes", f"lend {companion} bytes or more"
    return words, ""


def _before(text, offset):
    """The tokens of the offset's line that stand before it."""
    start = line_of(text, offset)[0]
    return [str(token) for token in tokens(text[start:offset], start)]


def _due(before):
    """What was due after these tokens of a line: a bracket, a tuple of words, a Number, or None."""
    expected = ["(", tuple(FORMS)]
    if len(before) > 1:
        expected = expected + FORMS.get(before[1], [])
        if before[1] == "op" and len(before) > 4:
            expected = expected + OP_NUMBERS.get(before[4], []) + [")", ")"]
        if before[1] == "domain" and len(before) >= RECIPIENTS_AT:
            listed = 0
            while RECIPIENTS_AT + listed < len(before) and before[RECIPIENTS_AT + listed] != ")":
                listed += 1
            expected[RECIPIENTS_AT:RECIPIENTS_AT] = [RECIPIENT] * listed
            if len(before) == RECIPIENTS_AT + listed:
                return "recipients"
    return expected[len(before)] if len(before) < len(expected) else None


def _named(due):
    if due == "recipients":
        return "a recipient or a closing bracket"
    if due == "(":
        return "an opening bracket"
    if due == ")":
        return "a closing bracket"
    if isinstance(due, Number):
        return f"a number ({due.name}, {due.low} to {due.high})"
    if len(due) == 1:
        return f"the word {due[0]}"
    return "one of the words " + ", ".join(due[:-1]) + " or " + due[-1]


def _quoted(token):
    named = {"(": "an opening bracket", ")": "a closing bracket"}.get(str(token))
    said = str(token)
    return named or (f'"{said}"' if len(said) <= 24 else f'"{said[:20]}.."')


def _odd_byte(token):
    """The first byte of a token that no word and no number has: its offset, name and fix."""
    for at, byte in enumerate(token.text):
        if chr(byte) in "abcdefghijklmnopqrstuvwxyz0123456789":
            continue
        offset = token.offset + at
        if token.text[at:at + 3] == b"\xef\xbb\xbf":
            return offset, "a byte order mark (BOM)", "save the file as UTF-8 without BOM"
        if token.text[at:at + 2] in (b"\xff\xfe", b"\xfe\xff"):
            return offset, "the mark of a UTF-16 file", "save the file as plain ASCII text"
        if byte in BYTES:
            return (offset,) + BYTES[byte]
        if 0x41 <= byte <= 0x5A:
            return offset, f"the capital letter {chr(byte)}", "write words in small letters"
        if byte < 32:
            return offset, f"the control byte {byte}", "delete it"
        if byte < 127:
            return offset, f"the character {chr(byte)}", "a plan has words, numbers and brackets alone"
        # a character of several bytes is named whole
        whole = token.text[at:].decode("utf-8", "replace")[0]
        if whole == "\u00a0":
            return offset, "a no-break space", "use plain spaces"
        if whole == "\ufffd":
            return offset, f"the byte {byte}, which is no text,", "save the file as plain ASCII text"
        return offset, f"the character U+{ord(whole):04X}", "a plan is plain ASCII text"
    return None


def _shape(offset, text):
    before = _before(text, offset)
    due = _due(before)
    form = before[1] if len(before) > 1 else None
    shape = SHAPES.get(form)
    if form == "op" and len(before) > 4:
        shape = OP_SHAPES.get(before[4], shape)
    example = f"the form is {shape}" if shape else "a line holds one form"
    rest = tokens(line_of(text, offset)[1][offset - line_of(text, offset)[0]:], offset)
    if not rest or rest[0].offset != offset:
        return offset, f"the line stops short: {_named(due)} was due", example
    token = rest[0]
    odd = _odd_byte(token) if token.text not in (b"(", b")") else None
    if odd:
        return odd[0], f"{odd[1]} cannot stand in a plan", odd[2]
    if due is None:
        return offset, f"the form is complete, and {_quoted(token)} follows it", "a line holds one form"
    if isinstance(due, tuple):
        near = difflib.get_close_matches(str(token), due, 1)
        if near:
            example = f"did you mean {near[0]}?"
        elif len(due) > 1:
            example = "a line is one of " + ", ".join(SHAPES.values()) if form is None else example
    return offset, f"{_named(due)} was due, and not {_quoted(token)}", example


def _range(offset, text):
    token, due = _token(text, offset), _due(_before(text, offset))
    due = RECIPIENT if due == "recipients" else due
    if not isinstance(due, Number):
        return offset, f"the number {token} is outside its limits", "see the limits of its form"
    limits = f"{due.low} to {due.high}"
    if len(token.text) > 10:
        return offset, f"the {due.name} has {len(token.text)} digits; 10 are allowed", \
            f"write a number from {limits}"
    if due.name == "domain" or due is RECIPIENT:
        return offset, f"{due.name} {int(token.text)}: domains are numbered {limits}", \
            "a plan has at most eight domains"
    number = int(token.text)
    if due is PAD and number < due.low:
        return (offset,) + _short_pad(number)
    if due.low <= number <= due.high:
        # the desk sees no cause
        return offset, f"the {due.name} is {number}, which is outside its limits", "see the limits of its form"
    bound = f"least {due.low}" if number < due.low else f"most {due.high}"
    return offset, f"the {due.name} is {number}; it is at {bound}", f"write a number from {limits}"


def _short_pad(pad):
    """Cause and fix for a pad below the least, with what that is made of."""
    before = "; such a pad was enough before the touch" if pad >= LEAST_PAD_BEFORE else ""
    return f"the pad is {pad}; it is at least {LEAST_PAD}: {OVERRUN} (the dearest op, begun in the last tick) + " \
        f"{FLUSHES} (both flushes) + {TOUCH} (the touch of the return path){before}", \
        f"write a number from {PAD.low} to {PAD.high}; plans that were written for {LEAST_PAD_BEFORE} need at " \
        f"least {LEAST_PAD}"


def _token(text, offset):
    return tokens(text[offset:offset + TEXT_BYTES], offset)[0]


def forms(text, word, end=None):
    """The lines of a form before an offset, each as its tokens."""
    found, start = [], 0
    for line in text[:len(text) if end is None else end].split(b"\n"):
        read = tokens(line, start)
        if len(read) > 1 and str(read[1]) == word:
            found.append(read)
        start += len(line) + 1
    return found


def _undeclared(offset, text):
    before, named = _before(text, offset), int(_token(text, offset).text)
    declared = len(forms(text, "domain", line_of(text, offset)[0]))
    above = "no domain is declared above" if not declared else \
        "declared above: domain 0" if declared == 1 else f"declared above: domains 0 to {declared - 1}"
    if len(before) > 2:
        last = len(forms(text, "domain")) - 1
        return offset, f"the recipient {named} is declared nowhere", \
            f"declare domain {named}, or leave it out (the last domain is {last})"
    if before[1] == "domain":
        return offset, f"domain {named} is out of order: domain {declared} is due here", \
            f"write {declared}, and number domains 0, 1, 2 .. in order"
    return offset, f"the {before[1]} is of domain {named}, which is not declared above", \
        f"declare it above this line ({above})"


def _missing(offset, text):
    before_end = _before(text, offset)
    # a second pad or run is named at its bracket; a form that is missing, at the text's end
    if offset < len(text) and text[offset:offset + 1] == b"(" and not before_end:
        word = str(tokens(line_of(text, offset)[1])[1])
        first = forms(text, word)[0][0].offset
        return offset, f"a second {word}; the first is in line {line_and_column(text, first)[0]}", \
            f"keep one {word} line"
    lacking = [word for word in ("pad", "domain", "window", "run") if not forms(text, word)]
    said = lacking[0] if len(lacking) == 1 else ", ".join(lacking[:-1]) + " or " + lacking[-1]
    return offset, f"the plan has no {said}", "add " + " and ".join(SHAPES[word] for word in lacking)


def _shares(text):
    """The shares of the domain lines: their tokens, and their numbers."""
    found = [line[5] for line in forms(text, "domain")]
    return found, [int(token.text) for token in found]


def _passing(text, worth, limit):
    """The offset of the share at which the sum of what the shares are worth passes a limit."""
    so_far = 0
    for token, share in zip(*_shares(text)):
        so_far += worth(share)
        if so_far > limit:
            break
    return token.offset


def _no_colour(domain, text):
    found, shares = _shares(text)
    fix = f"give it at least {LEAST_SHARE}, the least share that gives one"
    # where all is let or sold, what this domain needs has to come from others
    if any(new < old for old, new in zip(shares, mended(shares))):
        fix += f"; to make room, {_other_shares(shares)}"
    return found[domain].offset, f"domain {domain}: the share {shares[domain]} gives no colour", fix


def _oversold(total, text):
    return _passing(text, int, SHARES), \
        f"the shares total {total}, which is {total - SHARES} over {SHARES}", \
        f"sell {total - SHARES} thousandths less"


def _too_many_colours(total, text):
    return _passing(text, colours_of, COLOURS), \
        f"the shares give {total} colours, which is {total - COLOURS} over {COLOURS}", \
        _other_shares(_shares(text)[1])


def _other_shares(shares):
    """The shares that would have to change, and what they would give, in words."""
    said = []
    for domain, (old, new) in enumerate(zip(shares, mended(shares))):
        if old != new:
            share, colours = ("one", "") if said else ("a share", " colours")
            before, after = colours_of(old), colours_of(new)
            gives = f"{before}{colours} become {after}" if before != after else f"still {after}{colours}"
            said.append(f"domain {domain} {share} of {new} ({gives})")
    return "give " + ", ".join(said) if said else ""


def _listed_twice(offset, text):
    named, domain = int(_token(text, offset).text), int(_before(text, offset)[2])
    if named == domain:
        return offset, f"domain {domain} lists itself as a recipient", f"leave {named} out"
    return offset, f"domain {domain} lists the recipient {named} twice", f"leave one {named} out"


def _too_long(_, text):
    return min(TEXT_BYTES, len(text)), \
        f"the text has {len(text)} bytes; a plan has at most {TEXT_BYTES}", \
        f"shorten it by {len(text) - TEXT_BYTES} bytes: fewer ops or spaces"


def _too_many_ticks(_, text):
    pad, run = int(forms(text, "pad")[0][2].text), forms(text, "run")[0][2]
    once = sum(int(line[5].text) + pad for line in forms(text, "window"))
    return run.offset, \
        f"the run takes {once} ticks {int(run.text)} times, over {TICKS} in all", \
        f"shorter windows, a shorter pad, or at most (run {TICKS // once})"


def _too_many(offset, text):
    line = tokens(line_of(text, offset)[1])
    if str(line[1]) == "window":
        return offset, f"a plan has at most {WINDOWS} windows, and this is one more", \
            "take windows out, or repeat fewer with run"
    return offset, f"domain {int(line[2].text)} has at most {OPS} ops, and this is one more", \
        "take ops out of its script"


def _no_frame(count, weights):
    """Cause and fix for a frame that was refused: the first number outside its limits is named."""
    if not COUNT.low <= count <= COUNT.high:
        bound = f"least {COUNT.low}" if count < COUNT.low else f"most {COUNT.high}"
        return f"the {COUNT.name} is {count}; it is at {bound}", \
            f"ask for {COUNT.low} to {COUNT.high} windows; run repeats them"
    for domain, weight in enumerate(weights):
        if weight > WEIGHT.high:
            return f"the {WEIGHT.name} of domain {domain} is {weight}; it is at most {WEIGHT.high}", \
                f"write weights from {WEIGHT.low} to {WEIGHT.high}; only their proportion counts"
    if not any(weights):
        return "all weights are 0", f"give at least one domain a weight from 1 to {WEIGHT.high}"
    return CALLS[15], ""


def _no_domain(domain, declared):
    """Cause and fix for a domain that was asked for where fewer are declared."""
    if domain < declared:
        return CALLS[NO_DOMAIN], ""
    others = "domain 0" if declared == 1 else f"one of the domains 0 to {declared - 1}"
    return f"the plan does not declare domain {domain}", f"ask for {others}"


def _no_latest(domain, text):
    """Offset, cause and fix where a domain's latest finish is not told; no offset where no line is at fault."""
    declared, limits = forms(text, "domain"), f"{LATEST_LENGTH.low} to {LATEST_LENGTH.high}"
    if domain >= len(declared):
        return (None,) + _no_domain(domain, len(declared))
    lengths = [line[5] for line in forms(text, "window") if int(line[2].text) == domain]
    if not lengths:
        return declared[domain][0].offset, f"domain {domain} has no window", f"give it one of {limits} ticks"
    for length in lengths:
        if not LATEST_LENGTH.low <= int(length.text) <= LATEST_LENGTH.high:
            ticks = count(int(length.text), "tick")
            return length.offset, f"domain {domain} has a window of {ticks}, outside {limits}", \
                f"give each of its windows {limits} ticks"
    return None, CALLS[18], ""


# those whose cause is in what was asked for
_BY_REQUEST = {NO_DOMAIN: _no_domain, 15: _no_frame}

# those of a reading, and 18, whose cause stands in the text too
_BY_TEXT = {
    1: _too_long, 2: _shape, 3: _range, 4: _undeclared, 5: _missing, 6: _no_colour, 7: _oversold,
    8: _listed_twice, 9: _too_many_ticks, 10: _too_many, 16: _too_many_colours, 18: _no_latest,
}
