"""Pictures in pixels: files as PNG has them, each cell with its piece's colour, letters that can be read, errors."""

import itertools
import struct
import unittest
import zlib
from functools import lru_cache

import font
import picture
import png
import settings
import svg
from shapes import CUT, HATCH, INK, PAPER, Box, Cells, Picture, Words
from stored import NAMES, SHEETS, Folder, drawn as picture_of, found, moyanthu, said, sheet


@lru_cache(maxsize=None)
def drawn(name):
    return picture_of(name)


def chunks(data):
    """The chunks of a file, each as its kind and its body; all of the file is read and every check sum is right."""
    assert data[:8] == b"\x89PNG\r\n\x1a\n"
    at, read = 8, []
    while at < len(data):
        (length,) = struct.unpack(">I", data[at:at + 4])
        kind, body = data[at + 4:at + 8], data[at + 8:at + 8 + length]
        (sum_there,) = struct.unpack(">I", data[at + 8 + length:at + 12 + length])
        assert len(body) == length and zlib.crc32(kind + body) == sum_there, kind
        read.append((kind, body))
        at += 12 + length
    return read


class Pixels:
    """A PNG file, decoded."""

    def __init__(self, data):
        (head, fields), (colours, codes), (pixels, packed), end = chunks(data)
        assert (head, colours, pixels, end) == (b"IHDR", b"PLTE", b"IDAT", (b"IEND", b""))
        self.width, self.height, *form = struct.unpack(">IIBBBBB", fields)
        assert form == [8, 3, 0, 0, 0] and len(codes) % 3 == 0
        self.colours = ["#" + codes[k:k + 3].hex() for k in range(0, len(codes), 3)]
        lines, step = zlib.decompress(packed), self.width + 1
        assert len(lines) == step * self.height
        self.rows = [lines[k + 1:k + step] for k in range(0, len(lines), step)]
        assert set(lines[::step]) == {0} and max(map(max, self.rows)) < len(self.colours)

    def at(self, x, y):
        """The colour of a pixel."""
        return self.colours[self.rows[int(y)][int(x)]]

    def inside(self, left, top, right, bottom):
        """The colours in a rectangle."""
        return {self.colours[number] for row in self.rows[top:bottom] for number in row[left:right]}


@lru_cache(maxsize=None)
def pixels(name):
    return Pixels(png.data(drawn(name)))


def read(image, shape):
    """The letters of an upright text that starts at its anchor, read from the pixels."""
    known = {tuple(rows) + (".....",) * (9 - len(rows)): letter for letter, rows in reversed(font.LETTERS.items())}
    dot = 3 if shape.heading else 2
    text = ""
    for k in range(len(shape.text)):
        left, top = 2 * shape.x + 6 * k * dot, 2 * shape.y - 7 * dot
        rows = ["".join("#" if image.at(left + (column + 0.5) * dot, top + (row + 0.5) * dot) == shape.fill else "."
                        for column in range(5)) for row in range(9)]
        text += known.get(tuple(rows) if any("#" in row for row in rows) else (".....",) * 9, "?")
    return text


class Files(unittest.TestCase):
    def test_all_pictures(self):
        for name in NAMES:
            image, whole = pixels(name), drawn(name)
            self.assertEqual((image.width, image.height), (2 * whole.width, 2 * whole.height), name)
            self.assertEqual(len(set(image.colours)), len(image.colours), name)
            self.assertEqual(image.at(0, 0), PAPER)

    def test_sheet_a_has_the_size_of_its_svg(self):
        self.assertIn('width="560" height="220"', svg.text(drawn("a")))
        self.assertEqual((pixels("a").width, pixels("a").height), (1120, 440))


class CellsOfSheets(unittest.TestCase):
    def panels(self, name):
        return [shape for shape in drawn(name).shapes if isinstance(shape, Box) and shape.role == "cut"]

    def check(self, name, step=1):
        """The middle of every step-th cell has its piece's colour, or the colour of the number on it, or is hatched, or is part of
        the frame of another cell."""
        whole, names = sheet(name)
        ranges, image = settings.four(whole.ranges), pixels(name)
        across, up = picture.scales(whole.ranges, names)
        columns = ranges[2][1] - ranges[2][0] + 1
        kept = cut = 0
        for p, q, r, s in list(itertools.product(*(range(low, high + 1) for low, high in ranges)))[::step]:
            panel = self.panels(name)[(s - ranges[3][0]) * columns + r - ranges[2][0]]
            x = 2 * panel.x + (2 * (p - ranges[0][0]) + 1) * across.cell
            y = 2 * panel.y + (2 * (ranges[1][1] - q) + 1) * up.cell
            pieces = [number for number, piece in enumerate(found(name).pieces) if settings.holds(piece, (p, q, r, s))]
            wanted = {PAPER, HATCH[2]}
            if pieces:
                wanted = {picture.colour(pieces[0])}
                if self.labelled(name, x, y):
                    wanted.add(picture.ink(pieces[0]))
            if self.beside_a_first(name, x, y):
                wanted |= {PAPER, INK}
            self.assertIn(image.at(x, y), wanted, (name, p, q, r, s))
            kept, cut = kept + bool(pieces), cut + (not pieces)
        return kept, cut

    def labelled(self, name, x, y):
        """A piece's number lies there."""
        return any(isinstance(shape, Words) and shape.fill != INK and abs(2 * shape.x - x) <= 6 * 2 * len(shape.text)
                   and 0 <= 2 * shape.y - y <= 16 for shape in drawn(name).shapes)

    def beside_a_first(self, name, x, y):
        """A frame lies there, and no cell of a first setting."""
        return self.within(name, "frame", x, y, 1) and not self.within(name, "first", x, y, 0)

    def within(self, name, role, x, y, edge):
        """A box of that role, and so many pixels more, lies there."""
        boxes = (shape for shape in drawn(name).shapes if isinstance(shape, Box) and shape.role == role)
        return any(2 * box.x - edge <= x < 2 * (box.x + box.width) + edge
                   and 2 * box.y - edge <= y < 2 * (box.y + box.height) + edge for box in boxes)

    def test_small_sheets(self):
        for name in ("a", "p-then-q", "q-then-p", "a-strict", "below-zero"):
            self.assertEqual(self.check(name), (found(name).kept, found(name).cut), name)

    def test_the_large_sheets(self):
        for name, step in (("week", 53), ("tent", 19)):
            kept, cut = self.check(name, step)
            self.assertTrue(kept > 700 and cut > 150)

    def test_whole_cells_of_sheet_a(self):
        """Settings 0 to 2 are hatched in two colours, 3 to 10 have the piece's; the number 0 stands between 6 and 7, and the frame
        of 3 lies on 2 and 4."""
        (panel,) = self.panels("a")
        for p in range(11):
            left, top = 2 * panel.x + 80 * p, 2 * panel.y
            colours = pixels("a").inside(left + 2, top + 2, left + 78, top + 78)
            wanted = {PAPER, "#999999"} if p < 3 else {"#56b4e9", "#000000"} if p in (6, 7) else {"#56b4e9"}
            self.assertEqual(colours, wanted | ({PAPER, INK} if p in (2, 4) else set()), p)

    def test_hatching(self):
        """A quarter of the pixels are in stripes, which run up to the right."""
        image = Pixels(png.data(Picture(100, 100, "", [Box(0, 0, 100, 100, CUT)])))
        dark = sum(row.count(image.colours.index(HATCH[2])) for row in image.rows)
        self.assertAlmostEqual(dark / 200 / 200, 0.25, delta=0.02)
        self.assertTrue(all(image.at(x, 50) == image.at(x + 9, 41) for x in range(150)))

    def test_32_pieces_in_many_charts(self):
        """The lines between cells add one colour for each, however many charts there are."""
        regions = [picture.Region(str(k), "", [(k % 10, r, 0, k // 10, k // 10) for r in range(16)]) for k in range(32)]
        image = Pixels(png.data(picture.draw(regions, 1, ((0, 9), (0, 9), (0, 15)), sheet("week")[1], "x")))
        self.assertLessEqual({picture.colour(k) for k in range(32)}, set(image.colours))
        self.assertLess(len(image.colours), 80)

    def test_32_pieces_have_32_colours(self):
        shapes = [Cells(k, picture.colour(k), ((10 * k, 0, 10, 10),)) for k in range(32)]
        image = Pixels(png.data(Picture(320, 10, "", shapes)))
        colours = [image.inside(20 * k, 0, 20 * k + 20, 20) for k in range(32)]
        self.assertEqual(colours, [{picture.colour(k)} for k in range(32)])
        self.assertEqual(len(set().union(*colours)), 32)


class Letters(unittest.TestCase):
    def test_texts_can_be_read(self):
        """Every upright text at the left, the legend's too, is read back; O is not told from 0."""
        for name in NAMES:
            texts = [shape for shape in drawn(name).shapes
                     if isinstance(shape, Words) and shape.anchor == "start" and not shape.italic]
            self.assertEqual([read(pixels(name), shape) for shape in texts], [shape.text for shape in texts])
            if name == "a":
                self.assertIn("piece 0, 8 settings: p ≥ 3", [shape.text for shape in texts])

    def test_names_and_numbers_at_the_axes(self):
        """Ink left of and below the panel of a chart, where the names and the numbers are, also in a turned text."""
        texts = [shape for shape in drawn("p-then-q").shapes if isinstance(shape, Words) and shape.anchor != "start"]
        self.assertEqual([shape.text for shape in texts if shape.italic], ["p (minutes)", "q (minutes)"])
        for shape in texts:
            half = 6 * len(shape.text)
            x, y = round(2 * shape.x), round(2 * shape.y)
            place = (x - 14, y - half, x, y + half) if shape.turned else (x - half, y - 14, x + half, y)
            self.assertIn(shape.fill, pixels("p-then-q").inside(*place), shape.text)

    def test_a_turned_text_runs_upwards(self):
        """It is the upright one, turned round its anchor."""
        for anchor, italic in itertools.product(("start", "middle", "end"), (False, True)):
            words = Words(40, 40, "q (m", anchor, italic=italic)
            upright = Pixels(png.data(Picture(80, 80, "", [words])))
            turned = Pixels(png.data(Picture(80, 80, "", [words._replace(turned=True)])))
            for along, down in itertools.product(range(-80, 80), range(-20, 10)):
                self.assertEqual(turned.at(80 + down, 79 - along), upright.at(80 + along, 80 + down))

    def test_the_font(self):
        self.assertLessEqual({chr(code) for code in range(32, 127)} | set("≤≥…"), set(font.LETTERS))
        for letter, rows in font.LETTERS.items():
            self.assertTrue(all(len(row) == 5 and set(row) <= set("#.") for row in rows) and len(rows) <= 9, letter)
        alike = [pair for pair in itertools.combinations(font.LETTERS, 2) if font.runs(pair[0]) == font.runs(pair[1])]
        self.assertEqual(alike, [("0", "O")])
        self.assertEqual(font.runs("-"), ((3, 1, 3),))

    def test_letters_beyond_ascii(self):
        """Latin, Greek and Cyrillic letters are drawn, each in its own way; others are a box."""
        latin = [chr(code) for code in range(0xc0, 0x180) if chr(code).isalpha() and chr(code) not in "ĦħĲĳĸĿŀŉŊŋŦŧſ"]
        greek, cyrillic = [chr(code) for code in range(0x391, 0x3ca) if code != 0x3a2], [chr(code) for code in range(0x410, 0x450)]
        box = font.runs("中")
        for letters in (latin, greek, cyrillic, [*"ЁёІіЇїЄє"]):
            drawn = [font.runs(letter) for letter in letters]
            self.assertNotIn(box, drawn, letters)
            self.assertEqual(len(set(drawn)), len(drawn) - (letters is latin), letters)  # Ð and Đ are the same
        self.assertEqual(font.runs("Đ"), font.runs("Ð"))
        self.assertEqual(font.runs("é")[2:], font.runs("e"))
        self.assertEqual(font.runs("É")[2:], font.runs("E"))
        self.assertEqual([row for row, _, _ in font.runs("ç") if row > 6], [7, 8])

    def test_what_lies_outside_is_left_out(self):
        shapes = [Words(-3, 2, "left"), Words(99, 9, "right"), Words(5, 2, "up", turned=True),
                  Box(90, -5, 30, 30, CUT, True)]
        image = Pixels(png.data(Picture(100, 10, "", shapes)))
        self.assertEqual((image.width, image.height), (200, 20))


class Commands(Folder):
    def show(self, *words, sheet="a.txt"):
        done = moyanthu("windows", SHEETS / sheet, *words)
        return done.returncode, done.stdout, said(done)

    def test_png_alone_and_with_svg(self):
        alone, one, other = (self.folder / name for name in ("alone.png", "a.svg", "a.png"))
        self.assertEqual(self.show("--png", alone), (0, b"", ""))
        self.assertEqual(self.show("--svg", one, "--png", other), (0, b"", ""))
        self.assertEqual(alone.read_bytes(), png.data(drawn("a")))
        self.assertEqual(other.read_bytes(), alone.read_bytes())
        self.assertEqual(one.read_text(encoding="utf-8"), svg.text(drawn("a")))
        self.assertEqual(len(list(self.folder.iterdir())), 3)

    def test_standard_output(self):
        self.assertEqual(self.show("--png", "-"), (0, png.data(drawn("a")), ""))
        path = self.folder / "a.png"
        self.assertEqual(self.show("--svg", "-", "--png", path), (0, svg.text(drawn("a")).encode("utf-8"), ""))
        self.assertEqual(path.read_bytes(), png.data(drawn("a")))

    def test_a_file_that_is_there_is_replaced_and_keeps_its_rights(self):
        path, link = self.folder / "a.png", self.folder / "link.png"
        path.write_bytes(b"old" * 100_000)
        path.chmod(0o640)
        link.symlink_to(path)
        self.assertEqual(self.show("--png", link)[0], 0)
        self.assertEqual((path.read_bytes(), path.stat().st_mode & 0o777), (png.data(drawn("a")), 0o640))
        self.assertTrue(link.is_symlink())

    def test_what_cannot_be_written(self):
        """The message names the place, and nothing is written or changed."""
        good = self.folder / "a.svg"
        for bad in (self.folder / "none" / "a.png", self.folder, "/dev/full"):
            for old in (None, "old"):
                if old:
                    good.write_text(old, encoding="utf-8")
                status, out, why = self.show("--svg", good, "--png", bad)
                self.assertEqual((status, out), (4, b""))
                self.assertIn(f"{bad}: ", why)
                self.assertNotIn("Traceback", why)
                there = [path.read_text(encoding="utf-8") for path in self.folder.iterdir()]
                self.assertEqual(there, [old] if old else [])
            good.unlink()

    def test_one_place_for_both(self):
        path = self.folder / "a"
        for place in (path, "-"):
            status, out, why = self.show("--svg", place, "--png", place)
            self.assertEqual((status, out), (3, b""))
            self.assertIn("--svg and --png have the same place; expected another for one of them", why)
        self.assertFalse(path.exists())

    def test_a_setting_is_not_drawn(self):
        for form in ("--svg", "--png"):
            status, _, why = self.show("--at", "p=3", form, self.folder / "a")
            self.assertEqual(status, 3)
            self.assertIn("--at gives no picture", why)

    def test_a_refusal_is_not_drawn(self):
        short = self.folder / "short.sheet"
        short.write_bytes((SHEETS / "a.sheet").read_bytes()[:21])
        status, out, _ = self.show("--png", self.folder / "a.png", sheet=short)
        self.assertEqual((status, out.decode("utf-8")[:len(str(short)) + 18]), (2, f"{short}: refused 2 place 0"[:len(str(short)) + 18]))
        self.assertEqual(list(self.folder.iterdir()), [short])
