"""What the command says of an answer, as lines of text."""

import refusals
import settings
import wording
from beginnings import ARRIVAL, MOVE, START, STAY, limit_of, stage_of, zero_watches
from sheet_text import limit_words
from windows import grouped
from wording import listed, plural, setting_words

AT_END = "at the end of the route, in minutes"


def counts_line(found):
    return f"{plural(len(found.pieces), 'piece')}: {plural(found.kept, 'setting')} with a run, {found.cut:,} without"


# Pieces


def pieces_lines(windows, found, names):
    """All pieces in words, those with the same bounds together."""
    lines = [counts_line(found)]
    for group in grouped(windows):
        lines += ["", *group_lines(group, names)]
        lines += [f"  {AT_END}", *bounds_lines(group[0].piece, names, wording.with_names(names.allowance))]
    return lines


def group_lines(group, names):
    """Which pieces a group has, where each holds, and a setting to start from."""
    if len(group) == 1:
        return [window_words(group[0]), *settings_lines(group[0], names, "  ")]
    total = sum(window.settings for window in group)
    lines = [f"pieces {listed(str(window.number) for window in group)}, {plural(total, 'setting')}, the same bounds"]
    for window in group:
        lines += [f"  {window_words(window)}", *settings_lines(window, names, "    ")]
    return lines


def window_words(window):
    return f"piece {window.number}, {plural(window.settings, 'setting')}"


def settings_lines(window, names, indent):
    """Where a piece holds, and its first setting, which has nothing to choose without allowances."""
    start = [f"{indent}start from {setting_words(window.piece.first, names)}"] if names.allowance else []
    return where_lines(window, names, indent) + start


def where_lines(window, names, indent):
    if not window.where:
        return [f"{indent}holds everywhere in the ranges"]
    words = wording.inequalities_words(window.where, names.allowance)
    return [f"{indent}holds where", *(f"{indent}  {word}" for word in words)]


def bounds_lines(piece, names, words):
    return [f"    {line}" for line in wording.bounds_words(piece, names.watch, words)]


# One setting


def setting_lines(found, setting, sheet, names):
    """Which piece holds a setting, its bounds with the setting put in, and how far each allowance can move."""
    lines = [f"at {setting_words(setting, names)}"]
    number = settings.holder(found.pieces, setting)
    if number is None:
        lines.append("no piece: no run")
    else:
        lines += held_lines(f"piece {number}", found.pieces[number], setting, names)
    return lines + room_lines(settings.room(found.pieces, setting, sheet.ranges), setting, names, number is not None)


def held_lines(what, piece, setting, names):
    return [f"{what}: {AT_END}", *bounds_lines(piece, names, wording.with_setting(setting))]


def room_lines(room, setting, names, held):
    """How far each allowance can move with the others as they are, or how far it must."""
    if not setting:
        return []
    if held:
        return ["how far each can move, the others as they are, and a run is left",
                *(f"    {name} from {low} to {high}: {at - low} down, {high - at} up"
                  for name, at, (low, high) in zip(names.allowance, setting, room))]
    ways = [f"    {name} = {at}" for name, ends in zip(names.allowance, room) for at in ends if at is not None]
    return ["one change that gives a run, the others as they are", *(ways or ["    there is none"])]


def sweep_lines(setting, names, run, found, refusal, piece):
    """What Sweep says of a setting, and Windows beside it. Where Windows refuses the whole sheet, the piece is that of the
    sheet with its ranges narrowed to the setting."""
    lines = [f"at {setting_words(setting, names)}",
             "Sweep: a run follows the route" if run else "Sweep: no run follows the route"]
    if refusal:
        lines.append(f"Windows: refuses the whole sheet ({refusal_words(refusal)});")
        lines.append("with the ranges narrowed to this setting it agrees: " + ("its piece holds it" if run else "no piece"))
        number = 0
    else:
        number = settings.holder(found.pieces, setting)
        lines.append(f"Windows: piece {number} holds it; the two agree" if run else "Windows: no piece holds it; the two agree")
    return lines + (held_lines(f"the matrix of piece {number} with the setting put in", piece, setting, names) if run else [])


# Refusals, and where settings are lost


def refusal_words(refusal):
    return f"refused {refusal.number} place {refusal.place}"


def refusal_line(refusal):
    return f"{refusal_words(refusal)}: {refusals.meaning(*refusal)}"


def visit_line(place, sheet, names):
    """The stage of a visit, and the move that leaves it."""
    text = f"met in stage '{names.stage[stage_of(sheet, place)]}'"
    if place < len(sheet.route):
        text += f" or at move '{names.move[sheet.route[place]]}', which leaves it"
    return text


def limit_line(beginning, sheet, names):
    """A limit of the route, whose it is, and when it is met."""
    limit = limit_words(limit_of(sheet, beginning), names)
    stage = names.stage[stage_of(sheet, beginning.visit)]
    after = f"after {plural(beginning.visit, 'move')}"
    if beginning.when == MOVE:
        return f"the limit {limit} of move '{names.move[sheet.route[beginning.visit]]}', which leaves stage '{stage}' {after}"
    when = {START: "at the start", ARRIVAL: f"on arrival {after}", STAY: f"at the end of the stay {after}"}
    return f"the standing limit {limit} of stage '{stage}', {when[beginning.when]}"


def lost_lines(what, beginning, sheet, names):
    """At which limit something is lost, and what helps."""
    if beginning is None:
        return [f"{what} at one of the limits of the route; which one could not be found"]
    return [f"{what} at {limit_line(beginning, sheet, names)}", *early_lines(beginning, sheet, names)]


def early_lines(beginning, sheet, names):
    """Where a watch is too low on arrival: that no wait in the stage makes up for it, and what would."""
    visit, limit, ways = beginning.visit, limit_of(sheet, beginning), []
    if beginning.when not in (START, ARRIVAL) or limit.b == 0:
        return []
    stage = names.stage[stage_of(sheet, visit)]
    if beginning.when == START:
        why = "at the start too, where every watch is 0"
    elif limit.b in zero_watches(sheet, visit):
        why = f"on arrival too, where {names.watch[limit.b - 1]} is 0: move '{names.move[sheet.route[visit - 1]]}' resets it"
    else:
        why = f"on arrival too, before any wait in stage '{stage}'"
        ways.append(f"    a longer stay in stage '{names.stage[stage_of(sheet, visit - 1)]}' would let it arrive later")
    if visit < len(sheet.route):
        leaving = names.move[sheet.route[visit]]
        ways.append(f"    a limit of move '{leaving}', which leaves stage '{stage}', would hold after the wait only")
    return [f"standing limits hold {why}", *ways]


def help_lines(ranges, sheet, names):
    """What to do about a refusal by 7 or 8, with the ranges that are taken."""
    lines = ["what helps"]
    for k, (low, high) in ranges:
        name, (_, highest) = names.allowance[k], sheet.ranges[k]
        how = f"fix {name} at {low}" if low == high else f"narrow {name} to {low}..{high}"
        lines.append(f"    {how} (Windows takes that), and try {high + 1}..{highest} as another sheet")
    if not ranges:
        lines.append("    narrow or fix two allowances: of a single one not even the lowest value alone is taken")
    count = settings.count_all(sheet.ranges)
    return lines + [f"    or --by-sweep: one Sweep for each of the {plural(count, 'setting')}, without pieces",
                    "    or a single setting, which is not refused: sweep --at, or --schedule"]


# When


def schedule_lines(steps, setting, sheet, names):
    """A table of the moves: the earliest and the latest minute, and how long the stay before each is."""
    rows = [("move", "earliest", "latest", "after a stay of", "in stage")]
    rows += [(what, *span_words(step.when), between(step.stay), stage) for (what, stage), step in zip(moves(sheet, names), steps)]
    widths = [max(len(row[k]) for row in rows) for k in range(5)]
    table = [f"    {row[0]:{widths[0]}}  {row[1]:>{widths[1]}}  {row[2]:>{widths[2]}}  {row[3]:>{widths[3]}}  {row[4]}" for row in rows]
    return [f"at {setting_words(setting, names)}: minutes since the start, over all runs of the whole route", *table]


def moves(sheet, names):
    """The moves of the route, each with the stage that it leaves, and the end."""
    made = [(names.move[number], names.stage[sheet.moves[number].start]) for number in sheet.route]
    return [*made, ("(the end)", names.stage[stage_of(sheet, len(sheet.route))])]


def span_words(span):
    """From and to; a minute that is only come near to has a mark."""
    least = f"{'>' if span.least[1] else ''}{span.least[0]}"
    return least, "none" if span.most is None else f"{'<' if span.most[1] else ''}{span.most[0]}"


def between(span):
    """Such as 25 to 30, 25 alone, or 25 or more."""
    least, most = span_words(span)
    return f"{least} or more" if span.most is None else " to ".join(dict.fromkeys((least, most)))
