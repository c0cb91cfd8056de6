"""A schedule as a picture: a bar for each move, from its earliest to its latest minute."""

from picture import GAP, LETTER, LINE, LONGEST_HEADING, MARGIN, PALETTE, shortened
from report import between
from shapes import NONE, Box, Picture, Tick, Words

WIDE = 640  # of the axis
BAR = 12  # the height of a bar
STEP = 24  # from one bar to the next
LEAST = 3  # the width of a bar of a single minute
MINUTES = (1, 2, 5, 10, 15, 30, 60, 120, 240, 480, 960, 1440, 2880, 7200, 14400, 28800, 72000)  # between two numbers
LABEL = 24  # letters of a name


def draw(steps, moves, heading):
    """The whole picture."""
    heading = shortened(heading, LONGEST_HEADING)
    names = [shortened(name, LABEL) for name, _ in moves]
    last = max(1, *(end[0] for step in steps for end in step.when if end))
    left, top = MARGIN + LETTER * max(map(len, names)) + 10, MARGIN + LINE + GAP
    bottom = top + STEP * len(steps)
    parts = [Words(MARGIN, MARGIN + 10, heading, heading=True)]
    for number, (step, name) in enumerate(zip(steps, names)):
        parts += bar(step.when, name, left, top + number * STEP + (STEP - BAR) // 2, last)
    parts.append(Box(left, top, WIDE, bottom - top, NONE, edge=True))
    for minute in range(0, last + 1, minutes_for(last)):
        x = left + minute * WIDE / last
        parts += [Tick(x, bottom, 0, 4), Words(x, bottom + 16, str(minute), "middle")]
    parts.append(Words(left + WIDE / 2, bottom + 34, "minutes since the start", "middle", italic=True))
    longest = max(len(between(step.when)) for step in steps)
    width = max(left + WIDE + LETTER * longest + MARGIN, 2 * MARGIN + 9 * len(heading))
    return Picture(width, bottom + 34 + MARGIN, heading, parts)


def bar(when, name, left, y, last):
    """A move's name, its bar, and the minutes beside it, where there is room. A bar without a latest minute goes to
    the right edge and has another colour."""
    start = left + round(when.least[0] * WIDE / last)
    end = left + (round(when.most[0] * WIDE / last) if when.most else WIDE)
    start = min(start, left + WIDE - LEAST)
    end = max(end, start + LEAST)
    text = between(when)
    room = LETTER * len(text) + 8
    if end + room <= left + WIDE:
        words = Words(end + 8, y + 10, text)
    elif start - room >= left:
        words = Words(start - 8, y + 10, text, "end")
    else:
        words = Words(left + WIDE + 8, y + 10, text)
    fill = PALETTE[0 if when.most else 1].lower()
    return [Words(left - 10, y + 10, name, "end"), Box(start, y, end - start, BAR, fill, edge=True, role="bar"), words]


def minutes_for(last):
    """Minutes between two numbers of the axis, so that each has its room."""
    room = LETTER * len(str(last)) + 12
    return next((minutes for minutes in MINUTES if minutes * WIDE / last >= room), last)
