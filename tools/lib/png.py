"""A picture's shapes as PNG: two pixels a unit, each with one of at most 256 colours."""

import struct
import zlib
from math import sqrt

import font
from shapes import CUT, GRID, HATCH, INK, NONE, PAPER, Box, Cells, Grid, Tick, Words

SCALE = 2  # pixels a unit
DOT, HEADING_DOT = 2, 3  # pixels a dot of a letter: letters are 6 units apart, in the heading 9
SIGNATURE = b"\x89PNG\r\n\x1a\n"


def data(picture):
    """The whole file."""
    canvas = Canvas(pixels(picture.width), pixels(picture.height))
    for shape in picture.shapes:
        DRAWING[type(shape)](canvas, shape)
    return canvas.file()


def pixels(units):
    return round(units * SCALE)


class Canvas:
    """Rows of pixels. Each pixel is the number of its colour."""

    def __init__(self, width, height):
        self.width = width
        self.height = height
        self.colours = []
        self.mixes = {}  # by colour, the lighter one
        self.rows = [bytearray([self.number(PAPER)]) * width for _ in range(height)]

    def number(self, colour):
        """The number of a colour, a new one if need be."""
        if colour not in self.colours:
            self.colours.append(colour)
        return self.colours.index(colour)

    def part(self, left, top, right, bottom):
        """A rectangle without what lies outside: the columns from and to, and the rows with their numbers."""
        left, right = max(left, 0), min(right, self.width)
        top, bottom = max(top, 0), min(bottom, self.height)
        return left, max(left, right), list(enumerate(self.rows[top:bottom], top))

    def fill(self, left, top, right, bottom, colour):
        """A rectangle of a colour, from a corner up to, and without, the other."""
        left, right, rows = self.part(left, top, right, bottom)
        for _, row in rows:
            row[left:right] = bytes([self.number(colour)]) * (right - left)

    def hatch(self, left, top, right, bottom):
        """A hatched rectangle. All hatching on a canvas is in line."""
        pitch, stripe, colour = HATCH
        pitch, stripe = round(pitch * SCALE * sqrt(2)), round(stripe * SCALE * sqrt(2))
        left, right, rows = self.part(left, top, right, bottom)
        turn = bytes([self.number(colour)]) * stripe + bytes([self.number(PAPER)]) * (pitch - stripe)
        line = turn * ((right - left) // pitch + 2)
        for y, row in rows:
            start = (left + y) % pitch
            row[left:right] = line[start:start + right - left]

    def lighter(self, part):
        """For each colour the number of its mix with that part of the paper's, as a table. A mix stays as it is, so that there
        are at most twice as many colours."""
        made = set(self.mixes.values())
        self.mixes.update((colour, mixed(colour, PAPER, part)) for colour in self.colours if colour not in made)
        numbers = bytes(self.number(self.mixes.get(colour, colour)) for colour in list(self.colours))
        return numbers + bytes(256 - len(numbers))

    def change(self, left, top, right, bottom, table):
        """Changes the colours in a rectangle to those of a table."""
        left, right, rows = self.part(left, top, right, bottom)
        for _, row in rows:
            row[left:right] = row[left:right].translate(table)

    def file(self):
        """The canvas as a PNG file."""
        head = struct.pack(">IIBBBBB", self.width, self.height, 8, 3, 0, 0, 0)
        colours = bytes(channel for colour in self.colours for channel in channels(colour))
        lines = b"".join(b"\0" + row for row in self.rows)
        return (SIGNATURE + chunk(b"IHDR", head) + chunk(b"PLTE", colours) + chunk(b"IDAT", zlib.compress(lines, 9))
                + chunk(b"IEND", b""))


def chunk(kind, body):
    return struct.pack(">I", len(body)) + kind + body + struct.pack(">I", zlib.crc32(kind + body))


def channels(colour):
    return bytes.fromhex(colour.removeprefix("#"))


def mixed(colour, other, part):
    """A colour with a part of another."""
    both = zip(channels(colour), channels(other))
    return "#" + "".join(f"{round(a * (1 - part) + b * part):02x}" for a, b in both)


def box(canvas, shape):
    left, top = pixels(shape.x), pixels(shape.y)
    right, bottom = pixels(shape.x + shape.width), pixels(shape.y + shape.height)
    if shape.fill == CUT:
        canvas.hatch(left, top, right, bottom)
    elif shape.fill != NONE:
        canvas.fill(left, top, right, bottom, shape.fill)
    if shape.edge:
        half = SCALE // 2
        for x in (left, right):
            canvas.fill(x - half, top - half, x + half, bottom + half, INK)
        for y in (top, bottom):
            canvas.fill(left - half, y - half, right + half, y + half, INK)


def cells(canvas, shape):
    for x, y, width, height in shape.rows:
        canvas.fill(pixels(x), pixels(y), pixels(x + width), pixels(y + height), shape.fill)


def grid(canvas, shape):
    """Each line is a unit wide and as much lighter as the narrower one should be. Where two cross, one is drawn."""
    width, part = GRID
    table = canvas.lighter(width * part)
    half = SCALE // 2
    left, top, right, bottom = map(pixels, shape[:4])
    for y in map(pixels, shape.down):
        canvas.change(left, y - half, right, y + half, table)
    ends = [top - half, *map(pixels, shape.down), bottom + half]
    for x in map(pixels, shape.across):
        for start, end in zip(ends, ends[1:]):
            canvas.change(x - half, start + half, x + half, end - half, table)


def tick(canvas, shape):
    half = SCALE // 2
    x, y = pixels(shape.x), pixels(shape.y)
    if shape.down:
        canvas.fill(x - half, y, x + half, y + pixels(shape.down), INK)
    else:
        canvas.fill(x + pixels(shape.across), y - half, x, y + half, INK)


def words(canvas, shape):
    """Letters as runs of dots. An italic letter leans by a pixel for every two dots of height. On a piece, where the
    ink is the piece's, strokes are a pixel wider."""
    dot = HEADING_DOT if shape.heading else DOT
    more = 0 if shape.fill == INK else 1
    length = (font.PITCH * len(shape.text) - 1) * dot
    start = {"start": 0, "middle": -(length // 2), "end": -length}[shape.anchor]
    for place, letter in enumerate(shape.text):
        for row, first, last in font.runs(letter):
            lean = (font.BASE - row) // 2 if shape.italic else 0
            along = start + lean + (place * font.PITCH + first) * dot
            run(canvas, shape, along, (row - font.BASE) * dot, (last - first + 1) * dot + more, dot)


def run(canvas, shape, along, down, length, dot):
    """A run of dots, so far along the text from its anchor and so far below the baseline."""
    x, y = pixels(shape.x), pixels(shape.y)
    if shape.turned:
        canvas.fill(x + down, y - along - length, x + down + dot, y - along, shape.fill)
    else:
        canvas.fill(x + along, y + down, x + along + length, y + down + dot, shape.fill)


DRAWING = {Box: box, Cells: cells, Grid: grid, Tick: tick, Words: words}
