"""What is asked of a sheet, and the answer."""

import itertools
import re
from typing import NamedTuple

import beginnings
import bars
import jsonform
import listing
import picture
import png
import programs
import report
import schedule
import settings
import shapes
import svg
from expressions import value
from faults import ANSWER, FAILED, NO_RUN, REFUSED, Fault, plain
from hints import hints
from outputs import print_error
from progress import Progress
from windows import Windows, narrowed, windows_of
from wording import plural, setting_words


class Answer(NamedTuple):
    """The status, what is said in lines and in JSON, and a picture if there is one."""

    status: int
    lines: list
    data: dict
    drawing: shapes.Picture = None

    def printed(self, as_json):
        text = jsonform.line({**self.data, "status": self.status}) if as_json else "".join(f"{line}\n" for line in self.lines)
        return text.encode("utf-8")

    def picture(self, kind):
        return png.data(self.drawing) if kind == "png" else svg.text(self.drawing).encode("utf-8")


def warn(given):
    """Says on standard error what in a sheet does nothing."""
    for hint in hints(given.sheet, given.names):
        print_error(f"{given.name}: warning: {hint}\n")


def setting_of(given, sheet, names, option="--at"):
    """The setting that is written as p=3,q=4, in the sheet's order."""
    values = {}
    for part in filter(None, given.split(",")):
        name, _, number = (word.strip(" ") for word in part.partition("="))
        if name not in names.allowance or name in values:
            raise Fault(f"{option}: '{plain(part)}'; expected each of {', '.join(names.allowance) or 'no allowances'} once")
        if not re.fullmatch("[+-]?[0-9]{1,9}", number):
            raise Fault(f"{option}: '{plain(part)}'; expected {name}= and a whole number")
        values[name] = int(number)
    for name, (low, high) in zip(names.allowance, sheet.ranges):
        if name not in values:
            raise Fault(f"{option}: no value for {name}; expected {name}={low} to {name}={high}")
        if not low <= values[name] <= high:
            raise Fault(f"{option}: {name}={values[name]} lies outside the range; expected {low} to {high}")
    return tuple(values[name] for name in names.allowance)


# Windows


def windows(given, options, runner=None):
    """What `windows` is asked of one sheet."""
    runner = runner or Windows()
    head, asked = jsonform.sheet_data(given), []
    if given.sheet is not None:
        head["warnings"] = hints(given.sheet, given.names)
        if not options.json:
            warn(given)
        if options.schedule is not None:
            return scheduled(given, setting_of(options.schedule, given.sheet, given.names, "--schedule"), runner, head)
        if options.by_sweep:
            return by_sweep(given, head)
        asked = [setting_of(words, given.sheet, given.names) for words in options.at or ()]
    found = runner.listed(given.file, given.sheet)
    if isinstance(found, listing.Refusal):
        return refused(given, found, runner, head, options.json)
    if asked:
        return at_settings(given, asked, found, runner, head)
    return pieces(given, found, runner, head, options)


def pieces(given, found, runner, head, options):
    """All pieces, and their picture."""
    sheet, names = given.sheet, given.names
    all_windows = windows_of(found, sheet.ranges)
    lines = report.pieces_lines(all_windows, found, names)
    data = {**head, **jsonform.listing_data(found, all_windows, names)}
    if not found.kept:
        more, data["lost"] = lost("no setting has a run: the last is lost", sheet, names, runner)
        lines += more
    drawing = None
    if options.svg is not None or options.png is not None:
        regions = picture.piece_regions(all_windows, sheet.ranges, names)
        heading = picture.heading_words(given.title, found, sheet.ranges)
        drawing = picture.draw(regions, found.cut, sheet.ranges, names, heading)
    return Answer(ANSWER if found.kept else NO_RUN, lines, data, drawing)


def lost(what, sheet, names, runner):
    """Where the last setting of a sheet without a run is lost, as lines and as data."""
    part = beginnings.first_without_run(runner, sheet)
    return report.lost_lines(what, part, sheet, names), part and jsonform.limit_data(part, sheet, names)


def lost_setting(setting, sheet, names, runner):
    """The same of a single setting."""
    return lost("it is lost", narrowed(sheet, setting), names, runner)


def at_settings(given, asked, found, runner, head):
    """Some settings, one after the other. If one has no run, the status says so."""
    windows_of(found, given.sheet.ranges)
    parts = [at_setting(given, setting, found, runner) for setting in asked]
    lines = [line for part in parts for line in ("", *part.lines)][1:]
    data = {**head, "kept": found.kept, "cut": found.cut, "at": [part.data for part in parts]}
    return Answer(max(part.status for part in parts), lines, data)


def at_setting(given, setting, found, runner):
    """One setting; the data is its part of the whole."""
    sheet, names = given.sheet, given.names
    lines = report.setting_lines(found, setting, sheet, names)
    data = jsonform.at_data(found, setting, sheet, names)
    if data["piece"] is not None:
        return Answer(ANSWER, lines, data)
    more, data["lost"] = lost_setting(setting, sheet, names, runner)
    return Answer(NO_RUN, [*lines[:2], *more, *lines[2:]], data)


def refused(given, refusal, runner, head, short):
    """A refusal in words; by 7 or 8 with the limit at which it is met and what to do."""
    sheet, names = given.sheet, given.names
    lines, data = [f"{given.name}: {report.refusal_line(refusal)}"], jsonform.refusal_data(refusal)
    if refusal.number in (7, 8) and refusal.place <= len(sheet.route):
        part = beginnings.first_refused(runner, sheet, refusal)
        lines.append(f"met at {report.limit_line(part, sheet, names)}" if part else report.visit_line(refusal.place, sheet, names))
        data["met"] = part and jsonform.limit_data(part, sheet, names)
        if not short:
            lines += report.help_lines(beginnings.accepted_ranges(runner, sheet), sheet, names)
    return Answer(REFUSED, lines, {**head, "refused": data})


# When


def scheduled(given, setting, runner, head):
    """When each move can be made. Windows must agree that there is a run, and on the bounds at its end."""
    sheet, names = given.sheet, given.names
    steps = schedule.schedule(sheet, setting)
    agree(schedule.end_matrix(sheet, setting), put_in(runner.at(sheet, setting), setting), "the schedule and Windows", setting, names)
    head["setting"] = jsonform.setting_data(setting, names)
    if steps is None:
        more, head["lost"] = lost_setting(setting, sheet, names, runner)
        return Answer(NO_RUN, [f"at {setting_words(setting, names)}", "no run", *more], head)
    head["schedule"] = jsonform.schedule_data(steps, sheet, names)
    drawing = bars.draw(steps, report.moves(sheet, names), f"{given.title} at {setting_words(setting, names)}")
    return Answer(ANSWER, report.schedule_lines(steps, setting, sheet, names), head, drawing)


def put_in(found, setting):
    """The matrix of the piece that holds a setting, each bound as (minutes, mark) or None; or None if there is no piece."""
    number = settings.holder(found.pieces, setting)
    return None if number is None else [[bound and (value(bound.numbers, setting), -bound.strict) for bound in row]
                                        for row in found.pieces[number].bounds]


def agree(one, other, who, setting, names):
    if one != other:
        raise Fault(f"{who} do not agree at {setting_words(setting, names)}; this is a fault of the programs", FAILED)


# Sweep


def sweep(given, at):
    """Sweep's answer for one setting, and Windows' beside it."""
    head, runner = jsonform.sheet_data(given), Windows()
    if given.sheet is None:
        return refused(given, runner.listed(given.file), runner, head, True)
    sheet, names = given.sheet, given.names
    setting = setting_of(at, sheet, names)
    run = swept(programs.sweep_function(), given, setting)
    found = runner.listed(given.file, sheet)
    refusal = found if isinstance(found, listing.Refusal) else None
    if refusal:
        found = runner.at(sheet, setting)
    number = settings.holder(found.pieces, setting)
    agree(run, number is not None, "Sweep and Windows", setting, names)
    piece = None if number is None else found.pieces[number]
    lines = report.sweep_lines(setting, names, run, found, refusal, piece)
    data = {**head, "setting": jsonform.setting_data(setting, names), "run": run, "agree": True,
            "piece": None if refusal else number, "bounds": piece and jsonform.matrix_data(piece, setting)}
    if not run:
        more, data["lost"] = lost_setting(setting, sheet, names, runner)
        lines += more
    return Answer(ANSWER if run else NO_RUN, lines, data)


def swept(function, given, setting):
    """Whether Sweep finds a run; it has nothing to refuse."""
    answer = function(given.file, setting)
    if answer not in (0, 1):
        raise Fault(f"Sweep refuses {given.name} with {answer} at {setting_words(setting, given.names)}; expected 0 or 1", FAILED)
    return answer == 0


def by_sweep(given, head):
    """One Sweep for each setting: how many have a run, and a picture of them."""
    sheet, names = given.sheet, given.names
    function, total = programs.sweep_function(), settings.count_all(sheet.ranges)
    progress = Progress("Sweep", total)
    across, *others = (range(low, high + 1) for low, high in settings.four(sheet.ranges))
    rows, done = [], 0
    for s, r, q in itertools.product(*reversed(others)):
        right = [p for p in across if swept(function, given, (p, q, r, s)[:len(sheet.ranges)])]
        rows += [(q, r, s, low, high) for low, high in stretches(right)]
        done += len(across)
        progress.step(done, " settings")
    progress.close()
    kept = sum(high - low + 1 for *_, low, high in rows)
    counts = f"{plural(kept, 'setting')} with a run, {total - kept:,} without"
    regions = [picture.Region("", f"a run, {plural(kept, 'setting')}", rows)] if kept else []
    heading = picture.shortened(given.title, picture.LONGEST_TITLE) + f", by Sweep: {counts}"
    drawing = picture.draw(regions, total - kept, sheet.ranges, names, heading)
    return Answer(ANSWER if kept else NO_RUN, [f"by one Sweep for each setting: {counts}"],
                  {**head, "kept": kept, "cut": total - kept}, drawing)


def stretches(numbers):
    """Rising numbers as stretches without a gap, each as (low, high)."""
    found = []
    for number in numbers:
        if found and found[-1][1] == number - 1:
            found[-1] = found[-1][0], number
        else:
            found.append((number, number))
    return found
