"""Windows, run on a sheet each time it is asked: its pieces, or its refusal."""

from typing import NamedTuple

import listing
import settings
import sheet_file
from faults import FAILED, Fault
from programs import windows_command, windows_output
from simple import simplified


class Window(NamedTuple):
    """A piece with what a reader wants of it."""

    number: int
    piece: listing.Piece
    settings: int  # how many it holds
    where: list  # its inequalities made simple


class Windows:
    """The program that lists the pieces of a sheet. It is built, if need be, when it is first asked."""

    def __init__(self, command=None):
        self.command = command

    def listed(self, file, sheet=None):
        """The listing of a sheet file, or its refusal."""
        self.command = self.command or windows_command()
        text = windows_output(self.command, file)
        refusal = listing.refusal(text)
        if refusal:
            return refusal
        try:
            return listing.parse(text, (sheet or sheet_file.read(file)).watches)
        except (listing.ListingError, sheet_file.Refused) as why:
            raise Fault(f"the listing of Windows cannot be read: {why}", FAILED) from why

    def of_sheet(self, sheet):
        return self.listed(sheet_file.write(sheet), sheet)

    def at(self, sheet, setting):
        """The listing with each range narrowed to the setting: one piece, or none. No test splits it, so that it is not
        refused."""
        found = self.of_sheet(narrowed(sheet, setting))
        if isinstance(found, listing.Refusal):
            raise Fault(f"Windows refuses a single setting with {found.number} place {found.place}; expected a listing", FAILED)
        return found


def narrowed(sheet, setting):
    """The sheet whose only setting is that."""
    return sheet._replace(ranges=tuple((x, x) for x in setting))


def windows_of(found, ranges):
    """The pieces of a listing, counted. The counts must be those that the listing says, and each piece must hold its first
    setting."""
    windows = [Window(number, piece, settings.count(piece.inequalities, ranges), simplified(piece.inequalities, ranges))
               for number, piece in enumerate(found.pieces)]
    everything, held = settings.count_all(ranges), sum(window.settings for window in windows)
    if (found.kept + found.cut, held) != (everything, found.kept):
        raise Fault(f"the listing of Windows says {found.kept} settings with a run and {found.cut} without, and its pieces "
                    f"hold {held}; expected {everything} in all", FAILED)
    for number, piece in enumerate(found.pieces):
        if not (settings.inside(piece.first, ranges) and settings.holds(piece, piece.first)):
            raise Fault(f"the listing of Windows says that {piece.first} is the first setting of piece {number}; expected one that "
                        "the piece holds", FAILED)
    return windows


def grouped(windows):
    """The windows in groups that have the same bounds, in the order of their first."""
    groups = {}
    for window in windows:
        groups.setdefault(window.piece.bounds, []).append(window)
    return list(groups.values())
