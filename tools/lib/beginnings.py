"""The beginnings of a route, each up to a limit and with it, for finding the limit at which something happens.

The standing limits of a stage come on arrival, or at the start, and again at the end of the stay; then those of the move.
"""

from typing import NamedTuple

import listing
import settings
from sheet_file import MOST_BYTES, MOST_LIMITS, MOST_MOVES, MOST_STAGES, Limit, Move, write

START, ARRIVAL, STAY, MOVE = "start", "arrival", "stay", "move"  # when a limit comes


class Beginning(NamedTuple):
    """A route up to a limit and with it."""

    visit: int  # moves made
    when: str  # at the start, on arrival, at the end of the stay, or of the move that leaves
    limit: int  # its place among the limits of the stage or the move


def beginnings(sheet, visit):
    """One for each limit of a visit, in order."""
    standing, leaving = stage_limits(sheet, visit), move_limits(sheet, visit)
    return [Beginning(visit, when, place)
            for when, limits in ((ARRIVAL if visit else START, standing), (STAY, standing), (MOVE, leaving))
            for place in range(len(limits))]


def stage_of(sheet, visit):
    """The stage where the route is after so many moves."""
    return sheet.moves[sheet.route[visit - 1]].end if visit else 0


def stage_limits(sheet, visit):
    return sheet.stages[stage_of(sheet, visit)]


def move_limits(sheet, visit):
    """The limits of the move that leaves, if one does."""
    return sheet.moves[sheet.route[visit]].limits if visit < len(sheet.route) else ()


def zero_watches(sheet, visit):
    """The watches that are 0 on arrival: those that the move resets, and at the start all."""
    return sheet.moves[sheet.route[visit - 1]].resets if visit else tuple(range(1, sheet.watches + 1))


def limit_of(sheet, beginning):
    limits = move_limits if beginning.when == MOVE else stage_limits
    return limits(sheet, beginning.visit)[beginning.limit]


# As sheets


def same_runs(sheet, beginning):
    """The sheet that has a run at the same settings: a move with its limits so far leads to a stage that has none, and the
    last stage has its limits so far, which a wait of 0 meets again after the arrival. At the end of a stay it is right for
    the last limit alone, since all of them come before, on arrival."""
    stays, moves = way(sheet, beginning.visit)
    if beginning.when == MOVE:
        stays.append(())
        moves.append(Move(0, 0, (), move_limits(sheet, beginning.visit)[:beginning.limit + 1]))
    else:
        stays[-1] = stays[-1][:beginning.limit + 1]
    return unrolled(sheet, stays, moves)


def same_steps(sheet, beginning):
    """The sheet at which Windows makes the steps of a beginning, each with the same splits, and no others that split.

    No wait comes between the move and the limits on arrival, so that the move has them, or, after a reset, a next one:
    between the two, a stage where the watch that is 0 stays 0 changes nothing. For the end of the stay the last stage has
    the limits so far; on arrival they change nothing, since all have just been put in."""
    stays, moves = way(sheet, beginning.visit)
    so_far = stays[-1][:beginning.limit + 1]
    if beginning.when == MOVE or beginning.when == STAY and so_far == stays[-1]:
        return same_runs(sheet, beginning)
    arrival, last = (stays[-1], so_far) if beginning.when == STAY else (so_far, ())
    zero = zero_watches(sheet, beginning.visit)
    if zero:
        stays[-1:] = [(Limit(zero[0], 0, False, (0, 0, 0, 0, 0)),), last]
        moves.append(Move(0, 0, (), arrival))
    else:
        stays[-1] = last
        moves[-1] = moves[-1]._replace(limits=moves[-1].limits + arrival)
    return unrolled(sheet, stays, moves)


def way(sheet, visit):
    """The standing limits of each stay up to a visit, and the moves between."""
    return [stage_limits(sheet, k) for k in range(visit + 1)], [sheet.moves[number] for number in sheet.route[:visit]]


def unrolled(sheet, stays, moves):
    """A sheet with a move for each step; nothing if it would have too much of something. Stays with the same limits are one
    stage."""
    stages = list(dict.fromkeys(stays))
    steps = tuple(move._replace(start=stages.index(before), end=stages.index(after))
                  for move, before, after in zip(moves, stays, stays[1:]))
    if len(stages) > MOST_STAGES or len(steps) > MOST_MOVES or any(len(move.limits) > MOST_LIMITS for move in steps):
        return None
    cut = sheet._replace(stages=tuple(stages), moves=steps, route=tuple(range(len(steps))))
    return cut if len(write(cut)) <= MOST_BYTES else None


# What is found by them


def first_refused(windows, sheet, refusal):
    """The beginning at which Windows refuses the sheet, or None where it cannot be told."""
    return first(lambda cut: isinstance(windows.of_sheet(cut), listing.Refusal),
                 [(part, same_steps(sheet, part)) for part in beginnings(sheet, refusal.place)])


def first_without_run(windows, sheet):
    """The first beginning that no setting has a run of, for a sheet without any; or None where it cannot be told. No setting
    is lost at the end of a stay, since a wait of 0 meets the standing limits again. So where Windows refuses, at the end of
    the last stay, there are runs."""
    def lost(cut):
        found = windows.of_sheet(cut)
        return not isinstance(found, listing.Refusal) and not found.kept

    return first(lost, [(part, same_runs(sheet, part)) for visit in range(len(sheet.route) + 1)
                        for part in beginnings(sheet, visit) if part.when != STAY])


def first(happens, parts):
    """The first of some beginnings, each with its sheet, at which something happens. It happens at one of them and at all
    after it, so that it can be searched by halves. None where it cannot be told, for lack of a sheet."""
    written = [k for k, (_, cut) in enumerate(parts) if cut]
    low, high = 0, len(written)
    while low < high:
        middle = (low + high) // 2
        if happens(parts[written[middle]][1]):
            high = middle
        else:
            low = middle + 1
    ends = [-1, *written, len(parts) - 1]
    left = parts[ends[low] + 1:ends[low + 1] + 1]  # after the last at which it does not happen
    return left[0][0] if len(left) == 1 else None


def accepted_ranges(windows, sheet):
    """For each allowance with more than one value, the widest range from its lowest value with which Windows does not
    refuse the sheet, as (allowance, range), if there is one."""
    found = []
    for k, (low, high) in enumerate(sheet.ranges):
        good, bad = low - 1, high  # the whole range is refused
        while bad - good > 1:
            middle = (good + bad) // 2
            ranges = (*sheet.ranges[:k], (low, middle), *sheet.ranges[k + 1:])
            if isinstance(windows.of_sheet(sheet._replace(ranges=ranges)), listing.Refusal):
                bad = middle
            else:
                good = middle
        if good >= low:
            found.append((k, (low, good)))
    return sorted(found, key=lambda one: -settings.count_all([one[1]]))
