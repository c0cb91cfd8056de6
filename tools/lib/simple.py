"""Inequalities made simple: fewer and smaller ones that hold for exactly the same settings of the ranges."""

from math import gcd

import settings
from expressions import negated


def simplified(inequalities, ranges):
    """Each divided by what its coefficients share; of those that say the same only the tightest; and none that follows
    from the others and the ranges. What names many allowances goes first, so that the short ones stay."""
    left = tightest(divided(fixed(e, ranges)) for e in inequalities)
    for e in sorted(left, key=weight, reverse=True):
        others = [other for other in left if other != e]
        if follows(e, others, ranges):
            left = others
    return left


def fixed(e, ranges):
    """With each allowance that has a single value put in."""
    constant, *coefficients = e
    for k, (low, high) in enumerate(ranges):
        if low == high:
            constant, coefficients[k] = constant + coefficients[k] * low, 0
    return constant, *coefficients


def divided(e):
    """Divided by what the coefficients share. Allowances are whole, so that the constant may be rounded down:
    2p - 321 ≥ 0 says that p - 161 ≥ 0."""
    shared = gcd(*e[1:]) or 1
    return tuple(number // shared for number in e)


def tightest(inequalities):
    """One for each list of coefficients, in the order of the first."""
    least = {}
    for constant, *coefficients in inequalities:
        key = tuple(coefficients)
        least[key] = min(constant, least.get(key, constant))
    return [(constant, *key) for key, constant in least.items()]


def weight(e):
    return sum(k != 0 for k in e[1:]), sum(abs(k) for k in e[1:])


def follows(e, others, ranges):
    """No setting of the ranges meets the others and not this one."""
    opposite = (-e[0] - 1, *negated(e[1:]))
    return not settings.some([*others, opposite], ranges)
