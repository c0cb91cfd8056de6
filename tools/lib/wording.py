"""Pieces in words, with a sheet's names."""

from expressions import in_words, joined, negated, value


def inequalities_words(inequalities, allowances):
    """Such as p ≥ 3 or p ≤ q + 5, in the order given. Two that bound the same are said together: 3 ≤ p ≤ 5, or p = 3."""
    sides = {}
    for constant, *coefficients in inequalities:
        if turned(coefficients):
            sides.setdefault(negated(coefficients), [None, None])[1] = constant
        else:
            sides.setdefault(tuple(coefficients), [None, None])[0] = -constant
    return [side_words(left, low, high, allowances) for left, (low, high) in sides.items()]


def turned(coefficients):
    """Whether to change all signs, so that few terms have a plus, but one at least; or, if it is the same, the first."""
    plus, minus = sum(k > 0 for k in coefficients), sum(k < 0 for k in coefficients)
    if plus and minus and plus != minus:
        return plus > minus
    return next(k for k in coefficients if k) < 0


def side_words(left, low, high, allowances):
    """A sum of allowances from low to high, each of them or None. What has a minus goes to the other sides."""
    terms = [(k, name) for k, name in zip(left, allowances) if k]
    words = joined([(k, name) for k, name in terms if k > 0])
    others = [(-k, name) for k, name in terms if k < 0]
    ends = [end if end is None else joined(others + ([(end, "")] if end else [])) for end in (low, high)]
    if None in ends:
        return f"{words} ≤ {ends[1]}" if low is None else f"{words} ≥ {ends[0]}"
    return f"{words} = {ends[0]}" if low == high else f"{ends[0]} ≤ {words} ≤ {ends[1]}"


def bounds_words(piece, watches, words):
    """The bounds of a piece, first of each watch and then of each difference of two, such as 3 ≤ w ≤ p + 2. `words` says
    an expression. What has no bound is left out."""
    side = range(1, len(watches) + 1)
    pairs = [(i, 0) for i in side] + [(i, j) for i in side for j in side if i < j]
    said = (between_words(difference(i, j, watches), piece.bounds[j][i], piece.bounds[i][j], words) for i, j in pairs)
    return [text for text in said if text]


def between_words(what, below, above, words):
    """Something between two bounds; that from below is of its opposite, and either may be None."""
    if above is None:
        return below and f"{what} {'>' if below.strict else '≥'} {words(negated(below.numbers))}"
    high = words(above.numbers)
    if below is None:
        return f"{what} {relation(above)} {high}"
    low = words(negated(below.numbers))
    if low == high and not (below.strict or above.strict):
        return f"{what} = {low}"
    return f"{low} {relation(below)} {what} {relation(above)} {high}"


def relation(bound):
    return "<" if bound.strict else "≤"


def difference(i, j, watches):
    return f"{watches[i - 1]} - {watches[j - 1]}" if j else watches[i - 1]


def with_names(allowances):
    """How an expression is said with names."""
    return lambda numbers: in_words(numbers, allowances)


def with_setting(setting):
    """How an expression is said with a setting put in."""
    return lambda numbers: f"{value(numbers, setting)}"


def plural(count, one, more=None):
    return f"{count:,} {one if count == 1 else more or one + 's'}"


def listed(words):
    """Such as a, b and c."""
    words = list(words)
    return " and ".join(filter(None, [", ".join(words[:-1]), *words[-1:]]))


def setting_words(setting, names):
    """Such as p = 3, q = 4."""
    return ", ".join(f"{name} = {number}" for name, number in zip(names.allowance, setting)) or "the only setting"
