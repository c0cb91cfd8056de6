"""Settings of the allowances: which of them a piece holds."""

from math import prod

from expressions import value

MOST_ALLOWANCES = 4


def four(ranges):
    """The ranges with 0..0 for each allowance that the sheet lacks."""
    return tuple(ranges) + ((0, 0),) * (MOST_ALLOWANCES - len(ranges))


def count_all(ranges):
    """The product of the widths."""
    return prod(high - low + 1 for low, high in ranges)


def inside(setting, ranges):
    """Each of the four numbers lies in its range."""
    return all(low <= x <= high for x, (low, high) in zip(setting, four(ranges)))


def holds(piece, setting):
    """A setting in the ranges meets all inequalities of the piece."""
    return all(value(e, setting) >= 0 for e in piece.inequalities)


def holder(pieces, setting):
    """The number of the piece that holds a setting, or None."""
    return next((number for number, piece in enumerate(pieces) if holds(piece, setting)), None)


def most(e, ranges):
    """The greatest value of an expression in the ranges."""
    return e[0] + sum(k * (high if k > 0 else low) for k, (low, high) in zip(e[1:], ranges))


def rows(inequalities, ranges):
    """All settings that meet the inequalities: for each q, r and s the lowest and the highest p, as (q, r, s, low, high).
    The inequalities are straight, so that there are no gaps between."""
    across, (low_q, high_q), *_ = box = four(ranges)
    for s, planes in cuts(inequalities, box):
        for r, lines in cuts(planes, box[:3]):
            for q in range(low_q, high_q + 1):
                low, high = narrowed(lines, q, across)
                if low <= high:
                    yield q, r, s, low, high


def cuts(inequalities, ranges):
    """The inequalities with each value of the last allowance put in, where each of them can be met."""
    low, high = ranges[-1]
    for x in range(low, high + 1):
        left = [(constant + last * x, *others) for constant, *others, last in inequalities]
        if all(most(e, ranges) >= 0 for e in left):
            yield x, left


def narrowed(lines, q, span):
    """The values of p in the span with c + kp p + kq q >= 0 for each (c, kp, kq)."""
    low, high = span
    for c, kp, kq in lines:
        rest = c + kq * q
        if kp > 0:
            low = max(low, -(rest // kp))
        elif kp < 0:
            high = min(high, rest // -kp)
        elif rest < 0:
            return 1, 0
        if low > high:
            break
    return low, high


def widest_first(inequalities, ranges):
    """The inequalities and ranges with the widest range first, so that there are few rows of settings."""
    box = four(ranges)
    order = sorted(range(MOST_ALLOWANCES), key=lambda k: box[k][0] - box[k][1])
    return [(e[0], *(e[1 + k] for k in order)) for e in inequalities], [box[k] for k in order]


def count(inequalities, ranges):
    """How many settings meet the inequalities."""
    return sum(high - low + 1 for *_, low, high in rows(*widest_first(inequalities, ranges)))


def some(inequalities, ranges):
    """Whether a setting meets the inequalities."""
    return next(rows(*widest_first(inequalities, ranges)), None) is not None


def room(pieces, setting, ranges):
    """For each allowance, with the others as they are, the values with a run that lie around the setting's own, as
    (lowest, highest); where the setting has no run, the nearest ones below and above that have one, each or None."""
    return [span(lambda x, k=k: holder(pieces, (*setting[:k], x, *setting[k + 1:])) is not None, setting[k], *ends)
            for k, ends in enumerate(ranges)]


def span(right, at, low, high):
    """The values around one, as far as they are right; or, where it is not right itself, the nearest ones that are."""
    here = right(at)
    below = next((x for x in range(at - 1, low - 1, -1) if right(x) != here), None)
    above = next((x for x in range(at + 1, high + 1) if right(x) != here), None)
    if not here:
        return below, above
    return low if below is None else below + 1, high if above is None else above - 1
