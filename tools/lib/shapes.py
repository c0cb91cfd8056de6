"""What pictures are made of. svg.py and png.py draw the same list of these, so that the two cannot part.

Places and sizes are in units; y grows downwards. A fill is a colour such as #56b4e9, CUT or NONE.
"""

from typing import NamedTuple

INK = "#222222"  # of lines and text
PAPER = "#ffffff"
CUT = "cut"  # hatched, for settings without a run
NONE = "none"
HATCH = (6, 1.5, "#999999")  # from stripe to stripe, a stripe's width and its colour, on paper, at 45 degrees
GRID = (0.6, 0.5)  # the width of the lines between cells, and how much of the paper's colour they have


class Box(NamedTuple):
    """A rectangle; its edge, if it has one, is one unit wide."""

    x: int
    y: int
    width: int
    height: int
    fill: str
    edge: bool = False
    role: str = ""


class Cells(NamedTuple):
    """All cells of a piece in one panel, as rows (x, y, width, height)."""

    piece: int
    fill: str
    rows: tuple


class Grid(NamedTuple):
    """Lines between the cells of a panel: where it lies, the places across and those down."""

    left: int
    top: int
    right: int
    bottom: int
    across: range
    down: range


class Tick(NamedTuple):
    """A short line from an axis, one unit wide: how far it goes down, or across."""

    x: float
    y: float
    across: int
    down: int


class Words(NamedTuple):
    """A text whose baseline starts, has its middle or ends (anchor) at x, y. The heading is bold and bigger, names
    are italic, and a turned text runs upwards."""

    x: float
    y: float
    text: str
    anchor: str = "start"
    fill: str = INK
    heading: bool = False
    italic: bool = False
    turned: bool = False


class Picture(NamedTuple):
    width: int
    height: int
    title: str
    shapes: list
