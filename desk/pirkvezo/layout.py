"""Text laid out for people: columns, ranges, squares."""
import sys


def columns(heads, rows, left=()):
    """Lines of a table; columns are set right, but for those whose head is in `left`.

    >>> print("\\n".join(columns(["n", "word"], [[1, "a"], [10, "bcd"]], left=["word"])))
     n  word
     1  a
    10  bcd
    """
    cells = [list(map(str, heads))] + [list(map(str, row)) for row in rows]
    widths = [max(len(row[at]) for row in cells) for at in range(len(heads))]
    return ["  ".join(cell.ljust(width) if heads[at] in left else cell.rjust(width)
                      for at, (cell, width) in enumerate(zip(row, widths))).rstrip()
            for row in cells]


def ranges(numbers):
    """Numbers as ranges, for people.

    >>> ranges([0, 1, 2, 5]), ranges([7]), ranges([])
    ('0 to 2, 5', '7', 'none')
    """
    found = []
    for number in sorted(numbers):
        if found and found[-1][1] == number - 1:
            found[-1][1] = number
        else:
            found.append([number, number])
    return ", ".join(str(a) if a == b else f"{a} to {b}" for a, b in found) or "none"


def squares(held, kernel=15):
    """Sixteen squares: full for the colours held, empty for others, k for the kernel's."""
    full, empty = "■", "□"
    try:
        (full + empty).encode(sys.stdout.encoding or "ascii")
    except (UnicodeError, LookupError):
        full, empty = "#", "."
    return "".join(full if c in held else "k" if c == kernel else empty for c in range(16))


def count(number, noun):
    """A number and its noun.

    >>> count(1, "window"), count(2, "window")
    ('1 window', '2 windows')
    """
    return f"{number} {noun}" if number == 1 else f"{number} {noun}s"


def signed(thousandths):
    """A number of thousandths with its sign.

    >>> signed(500), signed(-125), signed(0)
    ('+0.500', '-0.125', '0.000')
    """
    return f"{thousandths / 1000:{'+' if thousandths else ''}.3f}"
