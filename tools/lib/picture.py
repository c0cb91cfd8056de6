"""Pieces as a picture: one colour a piece, its first setting framed, settings without a run hatched. svg.py and png.py draw
its shapes.

One allowance gives a strip, two give a chart, three a chart for each value of the third, four a row of such charts for each
value of the fourth, none a line of text. Each setting is a cell. The panel is hatched first and the regions are laid over it,
each with a rectangle for every row of its cells. A region is a piece, or all settings with a run.
"""

import textwrap
from typing import NamedTuple

import settings
from shapes import CUT, HATCH, NONE, PAPER, Box, Cells, Grid, Picture, Tick, Words
from wording import inequalities_words, plural

# Okabe and Ito's colours, which people with any colour vision can tell apart, and an indigo
PALETTE = ("#56B4E9", "#E69F00", "#009E73", "#F0E442", "#0072B2", "#D55E00", "#CC79A7", "#332288")
# what each next eight pieces are mixed with: a grey, and how much of it
SHADES = ((0, 0.0), (255, 0.5), (0, 0.4), (255, 0.75))
LETTER = 7  # the width of a letter, a little generous
LINE = 17  # from one line of text to the next
MARGIN = 16
WIDEST = 1080  # of all panels side by side
LEAST_WIDTH = 560
NUMBERS = 22  # the height of the numbers below a panel
NAME = 18  # the height of an allowance's name at its axis
GAP = 14  # between panels
HEAD = 20  # the height of a panel's own title
FRAME = 2  # the white round the cell of a first setting, inside a dark edge
LONGEST_TITLE, LONGEST_HEADING = 40, 110
NO_BREAK = "\u00a0"


class Scale(NamedTuple):
    """One axis: the allowance's name and range, and the size of a cell."""

    name: str
    low: int
    high: int
    cell: int

    def length(self):
        return (self.high - self.low + 1) * self.cell

    def ticks(self, room):
        """The values that get a number, if each needs that much room."""
        step = next(s for s in (1, 2, 5, 10, 20, 50, 100) if s * self.cell >= room)
        return range(self.low + -self.low % step, self.high + 1, step)


class Region(NamedTuple):
    """What gets one colour: its label in the charts, its words in the legend, its settings as rows (value of the second
    allowance, of the third and of the fourth, low and high of the first), and the first of them if it is to be framed."""

    label: str
    words: str
    rows: list
    first: tuple = None


class Panel(NamedTuple):
    """One chart: where it stands, the room for its name across, its axes, the cells of each region as rows (value up, low,
    high across), and such a row of one cell for the first setting of each region that has it there."""

    x: int
    y: int
    room: int
    across: Scale
    up: Scale
    rows: list
    firsts: dict


def piece_regions(windows, ranges, names):
    """A region for each piece."""
    return [Region(str(window.number), key_text(window, names), list(settings.rows(window.where, ranges)), window.piece.first)
            for window in windows]


def draw(regions, cut, ranges, names, heading):
    """The whole picture: the regions, so many settings without a run, and what it is called."""
    heading = shortened(heading, LONGEST_HEADING)
    if not ranges:
        width, height = 2 * MARGIN + 9 * len(heading), 2 * MARGIN + LINE
        return Picture(width, height, heading, [Words(MARGIN, MARGIN + 12, heading, heading=True)])
    parts, width, bottom = charts(regions, ranges, names)
    width = max(width, LEAST_WIDTH, 2 * MARGIN + 9 * len(heading))
    key, height = legend(keys(regions, cut, names), bottom + GAP, width)
    top = Words(MARGIN, MARGIN + 10, heading, heading=True)
    return Picture(width, height, heading, [top, *parts, *key])


def heading_words(title, found, ranges):
    """What the picture of a listing is called."""
    title = shortened(title, LONGEST_TITLE)
    if not ranges:
        return f"{title}: the only setting has {'a run (piece 0)' if found.kept else 'no run'}"
    return (f"{title}: {plural(len(found.pieces), 'piece')}, {plural(found.kept, 'setting')} with a run, "
            f"{found.cut:,} without")


def shortened(text, length):
    return text if len(text) <= length else text[:length - 1] + "…"


# Charts


def charts(regions, ranges, names):
    """All panels, the width they take, and where they end. With four allowances the panels of a row have one value of the
    fourth, which stands right of them, and their titles stand above the first row alone."""
    across, up = scales(ranges, names)
    titles, rows = panel_titles(ranges, names), row_titles(ranges, names)
    head, row_head = HEAD if len(ranges) > 2 else 0, HEAD if len(ranges) == 3 else 0
    left = MARGIN + (NAME + LETTER * number_width(up) + 8 if len(ranges) > 1 else 0)
    top = MARGIN + LINE + GAP + head
    room = max(across.length(), *(LETTER * len(title) for title in titles.values()))
    gap = max(GAP, LETTER * number_width(across) + 6)  # the numbers of neighbours do not touch
    step_x, step_y = room + gap, up.length() + row_head + (GAP if head else 0)
    columns = len(titles) // len(rows) if rows else columns_for(len(titles), step_x)
    right = left + columns * step_x - gap
    by_slice = [slices_of(region) for region in regions]
    labels = [region.label for region in regions]
    parts = []
    for k, (values, title) in enumerate(titles.items()):
        x, y = left + k % columns * step_x, top + k // columns * step_y
        panel = Panel(x, y, room, across, up, [slices.get(values, []) for slices in by_slice], firsts_of(regions, values))
        parts += chart(panel, labels, k % columns == 0 and len(ranges) > 1, k + columns >= len(titles))
        parts += [Words(x, y - 6, title)] if title else []
    parts += [Words(right + GAP, top + k * step_y + up.length() / 2 + 4, title) for k, title in enumerate(rows)]
    bottom = top - row_head + -(-len(titles) // columns) * step_y + NUMBERS + NAME
    return parts, right + (GAP + LETTER * max(map(len, rows)) if rows else 0) + MARGIN, bottom


def panel_titles(ranges, names):
    """A title for each panel, by the values of the third and the fourth allowance; that of the third, in the first row or
    everywhere. Without a third there is a single panel and no title."""
    _, _, third, fourth = (range(low, high + 1) for low, high in settings.four(ranges))
    return {(r, s): f"{names.allowance[2]} = {r}" if len(ranges) > 2 and s == fourth[0] else "" for s in fourth for r in third}


def row_titles(ranges, names):
    """A title for each value of the fourth allowance, if there is one."""
    return [f"{names.allowance[3]} = {s}" for low, high in ranges[3:] for s in range(low, high + 1)]


def scales(ranges, names):
    """The two axes; a strip's second one has a single value and no name. Many panels are smaller."""
    (low, high), (low_up, high_up), (low_panel, high_panel), _ = settings.four(ranges)
    few = len(ranges) == 3 and high_panel - low_panel < 16
    room, least, most = (480, 7, 40) if len(ranges) < 3 else (200 if few else 130, 2, 16)
    cell = max(least, min(most, room // (high - low + 1)))
    cell_up = max(least, min(most, room // (high_up - low_up + 1)))
    name_up = names.allowance[1] if len(ranges) > 1 else ""
    return Scale(names.allowance[0], low, high, cell), Scale(name_up, low_up, high_up, cell_up)


def number_width(scale):
    return max(len(str(scale.low)), len(str(scale.high)))


def columns_for(count, pitch):
    """Panels side by side, so that the rows are about equally long."""
    most = max(1, min(count, WIDEST // pitch))
    rows = -(-count // most)
    return -(-count // rows)


def slices_of(region):
    """By the values of the third and the fourth allowance, the rows of a region (value up, low, high across)."""
    slices = {}
    for q, r, s, low, high in region.rows:
        slices.setdefault((r, s), []).append((q, low, high))
    return slices


def firsts_of(regions, values):
    """By the number of a region, its first setting as a row, where the third and the fourth allowance have those values there."""
    firsts = {number: region.first for number, region in enumerate(regions) if region.first}
    return {number: (q, p, p) for number, (p, q, *others) in firsts.items() if tuple(others) == values}


def chart(panel, labels, numbers_up, numbers_across):
    """One panel: the hatched box, the regions, lines between cells, the first settings, the regions' labels, and the axes."""
    box = panel.x, panel.y, panel.across.length(), panel.up.length()
    parts = [Box(*box, CUT, role="cut")]
    parts += [cells(panel, number, rows) for number, rows in enumerate(panel.rows) if rows]
    parts += [*cell_lines(panel), Box(*box, NONE, edge=True), *first_cells(panel)]
    for number, (text, rows) in enumerate(zip(labels, panel.rows)):
        parts += label(panel, number, text, rows) if text else []
    if numbers_across:
        parts += axis_across(panel)
    if numbers_up:
        parts += axis_up(panel)
    return parts


def cells(panel, number, rows):
    """The cells of one region."""
    return Cells(number, colour(number), tuple(row_place(panel, row) for row in rows))


def row_place(panel, row):
    """Where a row of cells starts, its upper left corner, and how wide and tall it is."""
    value, low, high = row
    return (panel.x + (low - panel.across.low) * panel.across.cell,
            panel.y + (panel.up.high - value) * panel.up.cell, (high - low + 1) * panel.across.cell, panel.up.cell)


def first_cells(panel):
    """The cells of first settings in their frames; no frame lies on another one's cell."""
    cells_there = [Box(*row_place(panel, row), colour(number), role="first") for number, row in panel.firsts.items()]
    return [*(frame(cell, "frame") for cell in cells_there), *cells_there]


def frame(cell, role):
    """What lies round a cell, and can be seen on every colour."""
    return Box(cell.x - FRAME, cell.y - FRAME, cell.width + 2 * FRAME, cell.height + 2 * FRAME, PAPER, edge=True, role=role)


def cell_lines(panel):
    """Thin white lines between cells that are big enough for them."""
    if min(panel.across.cell, panel.up.cell) < 7:
        return []
    right, bottom = panel.x + panel.across.length(), panel.y + panel.up.length()
    across = range(panel.x + panel.across.cell, right, panel.across.cell)
    down = range(panel.y + panel.up.cell, bottom, panel.up.cell)
    return [Grid(panel.x, panel.y, right, bottom, across, down)] if across or down else []


def label(panel, number, text, rows):
    """The region's label, as near to its middle as there is room for it, or nothing."""
    wide = -(-(LETTER * len(text) + 4) // panel.across.cell)
    tall = -(-14 // panel.up.cell)
    places = [place for k in range(len(rows) - tall + 1) for place in [label_place(rows[k:k + tall], wide)] if place]
    if not places:
        return []
    x, y = middle(rows)
    value_across, value_up = min(((min(max(x, low), high), up) for low, high, up in places),
                                 key=lambda place: (place[0] - x) ** 2 + (place[1] - y) ** 2)
    at_x = panel.x + (value_across - panel.across.low + 0.5) * panel.across.cell
    at_y = panel.y + (panel.up.high - value_up + 0.5) * panel.up.cell + 4
    return [Words(at_x, at_y, text, "middle", ink(number))]


def label_place(rows, wide):
    """Where the middle of a label so wide may stand in these rows: the least and the most across, and up."""
    low, high = max(row[1] for row in rows), min(row[2] for row in rows)
    one_by_one = rows[-1][0] - rows[0][0] == len(rows) - 1
    if not one_by_one or high - low + 1 < wide:
        return None
    return low + (wide - 1) / 2, high - (wide - 1) / 2, (rows[0][0] + rows[-1][0]) / 2


def middle(rows):
    """The mean of all cells: across and up."""
    total = sum(high - low + 1 for _, low, high in rows)
    across = sum((low + high) / 2 * (high - low + 1) for _, low, high in rows)
    up = sum(value * (high - low + 1) for value, low, high in rows)
    return across / total, up / total


def axis_across(panel):
    """Numbers and name below a panel."""
    bottom = panel.y + panel.up.length()
    parts = []
    for value in panel.across.ticks(LETTER * number_width(panel.across) + 6):
        x = panel.x + (value - panel.across.low + 0.5) * panel.across.cell
        parts += [Tick(x, bottom, 0, 4), Words(x, bottom + 16, str(value), "middle")]
    name = fitted(panel.across.name, panel.room)
    x = panel.x + panel.across.length() / 2
    return parts + [Words(x, bottom + NUMBERS + 12, name, "middle", italic=True)]


def axis_up(panel):
    """Numbers and name left of a panel."""
    parts = []
    for value in panel.up.ticks(16):
        y = panel.y + (panel.up.high - value + 0.5) * panel.up.cell
        parts += [Tick(panel.x, y, -4, 0), Words(panel.x - 6, y + 4, str(value), "end")]
    x, y = MARGIN + 10, panel.y + panel.up.length() / 2
    name = fitted(panel.up.name, max(panel.up.length(), 60))
    return parts + [Words(x, y, name, "middle", italic=True, turned=True)]


def fitted(name, room):
    """A name that is cut where it would be longer than its room. The unit is added if it fits."""
    if len(name) * LETTER > room:
        return name[:max(1, room // LETTER - 1)] + "…"
    whole = f"{name} (minutes)"
    return whole if len(whole) * LETTER <= room else name


# Legend and colours


def keys(regions, cut, names):
    """What each colour means, and the frame, as (fill or None, words)."""
    entries = [(colour(number), region.words) for number, region in enumerate(regions)]
    if cut:
        entries.append((CUT, f"no run, {plural(cut, 'setting')}"))
    if any(region.first for region in regions):
        entries.append((None, f"where to start: of each piece the setting with the least {', then '.join(names.allowance)}"))
    return entries


def legend(entries, top, width):
    """A line or more for each entry, and where that ends."""
    parts = []
    y = top
    for fill, text in entries:
        parts += swatch(fill, y)
        for line in textwrap.wrap(text, (width - 2 * MARGIN - 22) // LETTER, break_on_hyphens=False):
            parts.append(Words(MARGIN + 22, y + 11, line.replace(NO_BREAK, " ")))
            y += LINE
        y += 4
    return parts, y + MARGIN


def swatch(fill, y):
    """A box of a colour, or the frame round a grey cell."""
    if fill:
        return [Box(MARGIN, y, 13, 13, fill, edge=True, role="key")]
    cell = Box(MARGIN + 4, y + 4, 5, 5, HATCH[2])
    return [frame(cell, "key"), cell]


def key_text(window, names):
    """A piece with its inequalities, which are not parted at the end of a line."""
    conditions = [words.replace(" ", NO_BREAK) for words in inequalities_words(window.where, names.allowance)]
    return f"piece {window.number}, {plural(window.settings, 'setting')}: {', '.join(conditions) or 'all settings'}"


def colour(number):
    """The colour of a region: the palette, and then the palette mixed with white or black."""
    grey, part = SHADES[number // len(PALETTE) % len(SHADES)]
    mixed = (round(c * (1 - part) + grey * part) for c in channels(PALETTE[number % len(PALETTE)]))
    return "#" + "".join(f"{c:02x}" for c in mixed)


def channels(code):
    return [int(code[k:k + 2], 16) for k in (1, 3, 5)]


def ink(number):
    """Black or white, whichever is easier to read on the region's colour."""
    red, green, blue = channels(colour(number))
    return "#000000" if 299 * red + 587 * green + 114 * blue > 110_000 else "#ffffff"
