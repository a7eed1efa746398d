"""The stream of chance, backwards: seeds by which a draw falls as it should."""

from itertools import chain

def seed_before(x, draws):
    """A seed from which the stream reaches x after this many draws."""
    inverse = pow(1093, -1, 1 << 20)
    for _ in range(draws):
        x = (x - 221_587) * inverse % (1 << 20)
    return x

def border_seed(rng, below, border):
    """A seed by which one of the next draws falls just below a border or on it."""
    drawn = max(min(border - rng.randrange(2), below - 1), 0)
    x = min(seed_at(drawn, below) + rng.randrange((1 << 20) // below - 1), (1 << 20) - 1)
    return seed_before(x, rng.choice([0, 0, 0, 1, 1, 2, 3, 4, 5, 6]))

# ---- Seeds for draws that fall as they should

def seed_at(number, below, before=0):
    """The least number of the stream that draws a number below another, after some draws."""
    return seed_before(-((-number << 20) // below), before)

def seeds_about(border, below, before=0):
    """Two seeds by which a draw falls just below a border, and on it."""
    on = -((-border << 20) // below)
    return seed_before(on - 1, before), seed_before(on, before)

def seed_where(*wanted, after=0):
    """A seed by which each of the next draws is one of those wanted: below what it is drawn, the
    least number, and the greatest. If there is one after a number of the stream, it is that."""
    def fits(x):
        for below, least, most in wanted:
            if not least <= below * x >> 20 <= most:
                return False
            x = (1093 * x + 221_587) % (1 << 20)
        return True

    below, least, _ = wanted[0]
    first, end = seed_at(least, below), 1 << 20
    return next(filter(fits, chain(range(max(first, after), end), range(first, end))))
