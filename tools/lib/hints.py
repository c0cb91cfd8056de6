"""Parts of a sheet that do nothing, or that nothing meets: most likely a slip of the pen."""

from beginnings import move_limits, stage_limits, stage_of, zero_watches
from settings import most
from sheet_text import limit_words


def hints(sheet, names):
    """An allowance that no limit of the route uses, a move that is not on the route, a stage that it does not reach, a
    watch that no limit of the route compares, and a standing limit that fails on arrival whatever the setting is."""
    visits = range(len(sheet.route) + 1)
    limits = [limit for visit in visits for limit in (*stage_limits(sheet, visit), *move_limits(sheet, visit))]
    used = {k for limit in limits for k, number in enumerate(limit.numbers[1:]) if number}
    watched = {max(limit.a, limit.b) - 1 for limit in limits}
    reached = {stage_of(sheet, visit) for visit in visits}
    idle = [f"{kind} '{name}' {why}" for kind, why, marked in (
        ("allowance", "is in no limit of the route", used), ("watch", "is in no limit of the route", watched),
        ("move", "is not on the route", set(sheet.route)), ("stage", "is not reached by the route", reached))
            for number, name in enumerate(getattr(names, kind)) if number not in marked]
    return idle + list(dict.fromkeys(failing(sheet, names, visit, limit) for visit in visits
                                     for limit in stage_limits(sheet, visit) if fails(sheet, visit, limit)))


def fails(sheet, visit, limit):
    """The watch is 0 on arrival, and the bound at every setting below 0; or, if the limit is strict, not above it."""
    return max(limit.a, limit.b) in zero_watches(sheet, visit) and most(limit.numbers, sheet.ranges) < limit.strict


def failing(sheet, names, visit, limit):
    watch = names.watch[max(limit.a, limit.b) - 1]
    when = f"when move '{names.move[sheet.route[visit - 1]]}' arrives" if visit else "at the start"
    return f"standing limit {limit_words(limit, names)} of stage '{names.stage[stage_of(sheet, visit)]}' fails {when}: {watch} is 0"
