"""Answers as JSON (docs/COMMAND.md has the schema)."""

import json

import refusals
import report
import settings
from beginnings import MOVE, limit_of, stage_of
from expressions import value
from sheet_text import limit_words
from windows import grouped
from wording import inequalities_words


def line(data):
    """One line, in letters of ASCII, so that it can be read wherever it goes."""
    return json.dumps(data, separators=(",", ":")) + "\n"


def sheet_data(given):
    """The head of every answer."""
    if given.sheet is None:
        return {"sheet": given.name}
    allowances = [{"name": name, "lowest": low, "highest": high}
                  for name, (low, high) in zip(given.names.allowance, given.sheet.ranges)]
    return {"sheet": given.name, "allowances": allowances, "watches": list(given.names.watch)}


def listing_data(found, windows, names):
    return {"kept": found.kept, "cut": found.cut,
            "pieces": [{"settings": window.settings, "first": setting_data(window.piece.first, names),
                        "where": inequalities_words(window.where, names.allowance), "simplified": window.where,
                        "inequalities": window.piece.inequalities,
                        "bounds": [[bound and {"strict": bound.strict, "numbers": bound.numbers} for bound in row]
                                   for row in window.piece.bounds]} for window in windows],
            "groups": [[window.number for window in group] for group in grouped(windows)]}


def setting_data(setting, names):
    return dict(zip(names.allowance, setting))


def matrix_data(piece, setting):
    """The matrix of a piece with the setting put in."""
    return [[bound and {"strict": bound.strict, "minutes": value(bound.numbers, setting)} for bound in row]
            for row in piece.bounds]


def at_data(found, setting, sheet, names):
    number = settings.holder(found.pieces, setting)
    room = dict(zip(names.allowance, settings.room(found.pieces, setting, sheet.ranges)))
    data = {"setting": setting_data(setting, names), "piece": number}
    if number is None:
        return {**data, "nearest": room}
    return {**data, "bounds": matrix_data(found.pieces[number], setting), "room": room}


def refusal_data(refusal):
    return {"number": refusal.number, "place": refusal.place, "meaning": refusals.meaning(*refusal)}


def limit_data(beginning, sheet, names):
    """A limit of the route."""
    return {"visit": beginning.visit, "when": beginning.when, "stage": names.stage[stage_of(sheet, beginning.visit)],
            "move": names.move[sheet.route[beginning.visit]] if beginning.when == MOVE else None,
            "limit": limit_words(limit_of(sheet, beginning), names)}


def schedule_data(steps, sheet, names):
    return [{"move": name if number < len(sheet.route) else None, "leaves": stage,
             "earliest": minutes_data(step.when.least), "latest": minutes_data(step.when.most),
             "shortest": minutes_data(step.stay.least), "longest": minutes_data(step.stay.most)}
            for number, ((name, stage), step) in enumerate(zip(report.moves(sheet, names), steps))]


def minutes_data(minutes):
    return minutes and {"strict": bool(minutes[1]), "minutes": minutes[0]}
