"""When each move of the route can be made, for one setting: the earliest and the latest minute since the start.

The instants of a run are unknowns: the start, each move, and the end. A stay goes from one to the next, and a watch's
value at an instant is the time since its last reset, which may be that instant itself. So each limit bounds the difference
of two instants: a stage's standing limits hold at both ends of its stay, the resets of the arrival done, and a move's at
the stay's end, its own resets not done. Shortest paths between all of them give the tightest bounds, over runs of the
whole route. A bound is (minutes, -1) if strict, else (minutes, 0); None is no bound.
"""

from typing import NamedTuple

from beginnings import move_limits, stage_limits
from expressions import value

ZERO = (0, 0)


class Span(NamedTuple):
    """From at least so many minutes to at most so many, each (minutes, mark); the mark is -1 where it is only come near
    to, and `most` is None where there is no end."""

    least: tuple
    most: tuple


class Step(NamedTuple):
    """A move of the route, or its end: when it is, in minutes since the start, and how long the stay before it is."""

    when: Span
    stay: Span


def schedule(sheet, setting):
    """All moves of the route and its end, or None where there is no run."""
    bounds = tightest_bounds(sheet, setting)
    return bounds and [Step(span(bounds, 0, k), span(bounds, k - 1, k)) for k in range(1, len(bounds))]


def span(bounds, first, second):
    """From one instant to a later one."""
    least, mark = bounds[second][first]
    return Span((-least, mark), bounds[first][second])


def end_matrix(sheet, setting):
    """Entry (i, j) bounds watch i - watch j at the end of the route, as Sweep's does; None where there is no run."""
    bounds = tightest_bounds(sheet, setting)
    resets = last_resets(sheet)[-1]
    end = len(bounds) - 1 if bounds else 0
    since = (end, *resets)  # watch i is the end less this instant; watch 0 is always zero
    return bounds and [[bounds[since[i]][since[j]] for j in range(len(since))] for i in range(len(since))]


def tightest_bounds(sheet, setting):
    """Entry (i, j) bounds instant j - instant i; None where they contradict each other."""
    count = len(sheet.route) + 2  # the start, the moves, the end
    bounds = [[ZERO if i == j else None for j in range(count)] for i in range(count)]

    def bound(i, j, weight):
        bounds[i][j] = tighter(bounds[i][j], weight)

    def hold(limits, instant, resets):
        for limit in limits:
            weight = value(limit.numbers, setting), -limit.strict
            reset = resets[max(limit.a, limit.b) - 1]
            bound(*((reset, instant) if limit.b == 0 else (instant, reset)), weight)

    for visit, resets in enumerate(last_resets(sheet)):
        arrival, end = visit, visit + 1
        bound(end, arrival, ZERO)  # time does not run back
        hold(stage_limits(sheet, visit), arrival, resets)
        hold((*stage_limits(sheet, visit), *move_limits(sheet, visit)), end, resets)
    return closed(bounds)


def last_resets(sheet):
    """For each stay, the instant at which each watch was last 0; the move that arrives counts."""
    resets = [(0,) * sheet.watches]
    for step, number in enumerate(sheet.route, 1):
        again = sheet.moves[number].resets
        resets.append(tuple(step if w in again else last for w, last in enumerate(resets[-1], 1)))
    return resets


def tighter(one, other):
    return other if one is None else one if other is None else min(one, other)


def closed(bounds):
    """Shortest paths between all; None where one leads back to its start below zero."""
    side = range(len(bounds))
    for k in side:
        for i in side:
            first = bounds[i][k]
            if first is None:
                continue
            for j in side:
                if bounds[k][j] is not None:
                    path = first[0] + bounds[k][j][0], min(first[1], bounds[k][j][1])
                    if bounds[i][j] is None or path < bounds[i][j]:
                        bounds[i][j] = path
        if any(bounds[i][i] < ZERO for i in side):
            return None
    return bounds
