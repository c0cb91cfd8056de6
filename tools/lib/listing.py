"""The listing that the program prints of a sheet (paper 01, "Sheets to try"): its reader."""

import re
from typing import NamedTuple

from faults import plain

COUNT, NUMBER = "([0-9]{1,9})", "(-?[0-9]{1,9})"  # no number of a listing is longer
REFUSED = re.compile(f"refused {COUNT} place {COUNT}")
COUNTS = re.compile(f"pieces {COUNT} kept {COUNT} cut {COUNT}")
FOUR = " ".join([NUMBER] * 4)
FIRST = re.compile(f"first {FOUR}")
INEQUALITY = re.compile(f"ineq {NUMBER} {FOUR}")
BOUND = re.compile(f"bound ([0-9]) ([0-9]) (?:(none)|(le|lt) {NUMBER} {FOUR})")


class ListingError(Exception):
    """What is wrong in a listing, with the line."""


class Refusal(NamedTuple):
    number: int
    place: int


class Bound(NamedTuple):
    strict: bool
    numbers: tuple  # the constant and the four coefficients


class Piece(NamedTuple):
    first: tuple  # its first setting: four numbers, 0 for an allowance that the sheet lacks
    inequalities: tuple  # expressions that are at least 0
    bounds: tuple  # entry (i, j) bounds watch i - watch j; None is the bound none


class Listing(NamedTuple):
    pieces: tuple
    kept: int
    cut: int


def refusal(text):
    """The refusal that a text says, if it does."""
    found = REFUSED.fullmatch(text.strip())
    return found and Refusal(*map(int, found.groups()))


def parse(text, watches):
    """The listing that a text says of a sheet with that many watches."""
    lines = Lines(text)
    count, kept, cut = map(int, lines.need(COUNTS, "'pieces N kept N cut N' or 'refused R place P'"))
    pieces = tuple(piece(lines, number, watches) for number in range(count))
    lines.done()
    return Listing(pieces, kept, cut)


class Lines:
    """The lines of a text, taken one after the other."""

    def __init__(self, text):
        self.lines = text.split("\n")
        self.at = 0
        if self.lines[-1] == "":
            self.lines.pop()

    def has(self, pattern):
        """What the pattern finds in the next line, taken if it does."""
        here = self.lines[self.at].rstrip("\r") if self.at < len(self.lines) else ""
        found = pattern.fullmatch(here)
        self.at += found is not None
        return found and found.groups()

    def need(self, pattern, expected):
        found = self.has(pattern)
        if found is None:
            raise self.error(expected)
        return found

    def error(self, expected):
        what = f"found '{plain(self.lines[self.at][:60])}'" if self.at < len(self.lines) else "the listing ends"
        return ListingError(f"line {self.at + 1}: {what}; expected {expected}")

    def done(self):
        if self.at < len(self.lines):
            raise self.error("the end of the listing")


def piece(lines, number, watches):
    """One piece: its number, its first setting, its inequalities, and its bounds in row order."""
    lines.need(re.compile(f"piece {number}"), f"'piece {number}'")
    first = tuple(map(int, lines.need(FIRST, "'first' and its four numbers")))
    inequalities = []
    found = lines.has(INEQUALITY)
    while found:
        inequalities.append(tuple(map(int, found)))
        found = lines.has(INEQUALITY)
    side = range(watches + 1)
    return Piece(first, tuple(inequalities), tuple(tuple(bound(lines, i, j, watches) for j in side) for i in side))


def bound(lines, i, j, watches):
    """Entry (i, j), or None for none."""
    expected = f"'bound {i} {j}' and its bound, since the sheet has {watches} watch{'' if watches == 1 else 'es'}"
    at = lines.at
    row, column, none, relation, *numbers = lines.need(BOUND, expected)
    if (int(row), int(column)) != (i, j):
        lines.at = at
        raise lines.error(expected)
    return None if none else Bound(relation == "lt", tuple(map(int, numbers)))
