"""From shares to colours, for words and tables: the one place where the desk has this rule.

The masks that a plan runs with are the library's; nothing here decides.
"""

COLOURS, SHARES = 15, 1000


def colours_of(share):
    """How many colours a share gives: the nearest number to share * 15 / 1000, an exact half going up.

    >>> colours_of(33), colours_of(34), colours_of(100), colours_of(300), colours_of(1000)
    (0, 1, 2, 5, 15)
    """
    return (COLOURS * share + SHARES // 2) // SHARES


def least_share(colours):
    """The least share that gives so many colours.

    >>> least_share(0), least_share(1), least_share(2), least_share(15)
    (0, 34, 100, 967)
    """
    return max(0, -((SHARES // 2 - SHARES * colours) // COLOURS))


def rounded(share, holding):
    """What rounding gave to the holding, or took where it is negative, in thousandths of a colour.

    >>> rounded(300, 5), rounded(75, 1), rounded(400, 6)
    (500, -125, 0)
    """
    return SHARES * holding - COLOURS * share


def cut(share):
    """By how much a share has to be smaller to give one colour less.

    >>> cut(125), cut(100)
    (26, 1)
    """
    return share - least_share(colours_of(share)) + 1


def mended(shares):
    """The shares after the cheapest cuts that bring them down to 15 colours.

    Each cut takes one colour, where that costs the fewest thousandths; among equals it is the last
    domain's. Every domain keeps a colour, and one that has none gets the least share that gives one:
    it needs a colour too, and would bring the shares over 15 again.

    >>> mended([125] * 8)
    [125, 125, 125, 125, 125, 125, 125, 99]
    >>> mended([300, 300, 300, 20])
    [300, 300, 299, 34]
    >>> mended([433, 566, 1])
    [433, 533, 34]
    """
    made = [max(share, least_share(1)) for share in shares]
    # it ends: eight domains of one colour each have only eight
    while sum(map(colours_of, made)) > COLOURS:
        several = [domain for domain, share in enumerate(made) if colours_of(share) > 1]
        cheapest = min(reversed(several), key=lambda domain: cut(made[domain]))
        made[cheapest] -= cut(made[cheapest])
    return _within_all(made)


def _within_all(shares):
    """The shares without thousandths that give nothing, so far as they total over 1000.

    That is always enough: the least shares that give 15 colours total less.
    """
    over, made = sum(shares) - SHARES, list(shares)
    for domain in reversed(range(len(made))):
        taken = max(0, min(over, made[domain] - least_share(colours_of(made[domain]))))
        made[domain] -= taken
        over -= taken
    return made
