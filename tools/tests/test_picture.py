"""Pictures: well-formed, one colour a piece, and as many coloured cells as settings."""

import itertools
import re
import unittest
import xml.etree.ElementTree as ElementTree

import picture
import settings
import svg
from shapes import INK, PAPER, Words
from stored import DOCS, NAMES, PICTURES, drawn, found, sheet

SVG = "{http://www.w3.org/2000/svg}"
ROW = re.compile(r"M(\d+) (\d+)h(\d+)v(\d+)h-(\d+)z")


def root(name):
    """The picture of a stored sheet, as a tree."""
    return ElementTree.fromstring(svg.text(drawn(name)))


def brute_counts(name):
    """How many settings each piece holds, by trying each."""
    pieces = [piece.inequalities for piece in found(name).pieces]
    counts = [0] * len(pieces)
    for setting in itertools.product(*(range(low, high + 1) for low, high in sheet(name)[0].ranges)):
        for number, inequalities in enumerate(pieces):
            for constant, *coefficients in inequalities:
                if constant + sum(k * x for k, x in zip(coefficients, setting)) < 0:
                    break
            else:
                counts[number] += 1
    return counts


def coloured(tree, across, up):
    """The corners of all coloured cells, by piece; the path of a piece is rows of cells and nothing else."""
    cells = {}
    for path in tree.iter(f"{SVG}path"):
        if path.get("class") != "piece":
            continue
        rows = [tuple(map(int, row)) for row in ROW.findall(path.get("d"))]
        assert "".join(f"M{x} {y}h{w}v{h}h-{b}z" for x, y, w, h, b in rows) == path.get("d")
        for x, y, width, height, back in rows:
            assert (height, width % across, back) == (up, 0, width)
            cells.setdefault(int(path.get("data-piece")), []).extend((k, y) for k in range(x, x + width, across))
    return cells


class Pictures(unittest.TestCase):
    def test_coloured_cells(self):
        for name in NAMES:
            whole, names = sheet(name)
            tree = root(name)
            if not whole.ranges:
                continue
            across, up = picture.scales(whole.ranges, names)
            cells = coloured(tree, across.cell, up.cell)
            counts = brute_counts(name)
            self.assertEqual([len(cells.get(number, [])) for number in range(len(counts))], counts, name)
            everything = [cell for piece in cells.values() for cell in piece]
            self.assertEqual(len(set(everything)), found(name).kept, f"{name}: a cell with two colours")
            self.hatched(tree, name, across, up, everything)

    def hatched(self, tree, name, across, up, cells):
        """The hatched boxes have a cell for each setting, and every coloured cell lies in one of them."""
        boxes = [self.place(box) for box in tree.iter(f"{SVG}rect") if box.get("class") == "cut"]
        area = sum(width // across.cell * (height // up.cell) for _, _, width, height in boxes)
        self.assertEqual(area, settings.count_all(sheet(name)[0].ranges), name)
        inside = {(x, y) for left, top, width, height in boxes
                  for x in range(left, left + width, across.cell) for y in range(top, top + height, up.cell)}
        self.assertEqual(len(inside), area, f"{name}: panels overlap")
        self.assertLessEqual(set(cells), inside)

    def test_places_of_cells(self):
        """Sheet A: settings 0 to 2 are hatched and 3 to 10 coloured, left to right."""
        across, up = picture.scales(*self.ranges_and_names("a"))
        (box,) = [rect for rect in root("a").iter(f"{SVG}rect") if rect.get("class") == "cut"]
        cells = coloured(root("a"), across.cell, up.cell)[0]
        left = int(box.get("x"))
        self.assertEqual(sorted((x - left) // across.cell for x, _ in cells), list(range(3, 11)))
        # p at most q lies above the diagonal, and up is up
        across, up = picture.scales(*self.ranges_and_names("p-then-q"))
        (box,) = [rect for rect in root("p-then-q").iter(f"{SVG}rect") if rect.get("class") == "cut"]
        left, bottom = int(box.get("x")), int(box.get("y")) + int(box.get("height"))
        for x, y in coloured(root("p-then-q"), across.cell, up.cell)[1]:
            self.assertLessEqual((x - left) // across.cell, (bottom - y) // up.cell - 1)

    def ranges_and_names(self, name):
        whole, names = sheet(name)
        return whole.ranges, names

    def test_colours_and_legend(self):
        self.assertEqual(len({picture.colour(number) for number in range(32)}), 32)
        for name in NAMES:
            if not sheet(name)[0].ranges:
                continue
            tree = root(name)
            fills = {path.get("data-piece"): path.get("fill") for path in tree.iter(f"{SVG}path") if path.get("class")}
            self.assertEqual(len(set(fills.values())), len(fills))
            keys = [rect for rect in tree.iter(f"{SVG}rect") if rect.get("class") == "key"]
            self.assertEqual(len(keys), len(found(name).pieces) + (found(name).cut > 0) + (found(name).kept > 0), name)
            self.assertLessEqual(set(fills.values()), {key.get("fill") for key in keys})

    def test_first_settings_are_framed(self):
        """Of each piece one cell, that of its first setting, with a frame that is wider than the cell on each side."""
        for name in NAMES:
            whole, names = sheet(name)
            rects = list(root(name).iter(f"{SVG}rect"))
            frames, cells, panels = ([rect for rect in rects if rect.get("class") == kind] for kind in ("frame", "first", "cut"))
            if not whole.ranges:
                self.assertEqual((frames, cells), ([], []))
                continue
            across, up = picture.scales(whole.ranges, names)
            ranges = settings.four(whole.ranges)
            wanted = set()
            for number, (p, q, r, s) in enumerate(piece.first for piece in found(name).pieces):
                columns = ranges[2][1] - ranges[2][0] + 1
                x, y = self.place(panels[(s - ranges[3][0]) * columns + r - ranges[2][0]])[:2]
                cell = x + (p - ranges[0][0]) * across.cell, y + (ranges[1][1] - q) * up.cell, across.cell, up.cell
                wanted.add((picture.colour(number), cell))
            self.assertEqual({(cell.get("fill"), self.place(cell)) for cell in cells}, wanted, name)
            self.assertEqual(len(frames), len(cells))
            for frame, (x, y, width, height) in zip(frames, map(self.place, cells)):
                self.assertEqual(self.place(frame), (x - 2, y - 2, width + 4, height + 4))
                self.assertEqual((frame.get("fill"), frame.get("stroke")), (PAPER, INK))

    def place(self, rect):
        return tuple(int(rect.get(key)) for key in ("x", "y", "width", "height"))

    def test_regions_without_a_first_setting(self):
        """All settings with a run, as Sweep finds them, have no frame and no words on it."""
        shapes = picture.draw([picture.Region("", "a run", [(0, 0, 0, 3, 10)])], 3, ((0, 10),), sheet("a")[1], "x").shapes
        self.assertFalse([shape for shape in shapes if getattr(shape, "role", "") == "frame" or "start" in getattr(shape, "text", "")])

    def test_words_of_the_pictures(self):
        words = [text.text for text in root("week").iter(f"{SVG}text")]
        for wanted in ("pot = 28", "pot = 39", "green (minutes)", "hard (minutes)", "no run, 10,272 settings", "90", "220",
                       "where to start: of each piece the setting with the least green, then hard, then pot"):
            self.assertIn(wanted, words)
        self.assertIn("p (minutes)", [text.text for text in root("a").iter(f"{SVG}text")])
        self.assertIn("where to start: of each piece the setting with the least green, then hard, then pot, then tent",
                      [text.text for text in root("tent").iter(f"{SVG}text")])
        for name, wanted in (("no-limits", "no-limits: the only setting has a run (piece 0)"),
                             ("never", "never: the only setting has no run")):
            self.assertEqual([text.text for text in root(name).iter(f"{SVG}text")], [wanted])

    def test_rows_and_columns_of_charts(self):
        """With four allowances a row of charts has one value of the fourth, and a column one of the third."""
        whole, names = sheet("tent")
        texts = [(text.text, float(text.get("x")), float(text.get("y"))) for text in root("tent").iter(f"{SVG}text")]
        pots, tents = ([place for place in texts if place[0].startswith(f"{name} = ")] for name in ("pot", "tent"))
        self.assertEqual([text for text, *_ in pots], [f"pot = {k}" for k in range(26, 32)])
        self.assertEqual([text for text, *_ in tents], [f"tent = {k}" for k in range(60, 72)])
        self.assertEqual((len({y for *_, y in pots}), len({x for _, x, _ in tents})), (1, 1))
        panels = [self.place(rect) for rect in root("tent").iter(f"{SVG}rect") if rect.get("class") == "cut"]
        self.assertEqual(sorted({x for x, *_ in panels}), [x for _, x, _ in pots])
        middles = sorted({y + height / 2 + 4 for _, y, _, height in panels})
        self.assertEqual(middles, [y for *_, y in tents])
        self.assertEqual(len(panels), 72)
        across, up = picture.scales(whole.ranges, names)
        for number, piece in enumerate(found("tent").pieces):
            wanted = {(pots[r - 26][1] + (p - 128) * across.cell, tents[s - 60][2] - 4 + (172 - q) * up.cell)
                      for p, q, r, s in itertools.product(range(128, 144), range(165, 181), range(26, 32), range(60, 72))
                      if settings.holds(piece, (p, q, r, s))}
            self.assertEqual(set(coloured(root("tent"), across.cell, up.cell)[number]), wanted)

    def test_nothing_lies_outside(self):
        for name in NAMES:
            tree = root(name)
            width, height = int(tree.get("width")), int(tree.get("height"))
            for text in tree.iter(f"{SVG}text"):
                self.assertTrue(0 <= float(text.get("x")) < width and 0 < float(text.get("y")) < height, name)

    def test_stored_pictures_are_well_formed(self):
        for name in PICTURES:
            self.assertEqual(ElementTree.parse(DOCS / f"{name}.svg").getroot().tag, f"{SVG}svg")

    def test_names_that_are_marks_in_xml(self):
        tree = ElementTree.fromstring(svg.text(drawn("a")._replace(title="<a&b> \x1b[31m \ufffe")))
        self.assertEqual(tree.find(f"{SVG}title").text, "<a&b> \\x1b[31m \\ufffe")

    def test_numbers_of_neighbours_do_not_touch(self):
        """Of charts side by side, also where each is narrow and its numbers are long."""
        for ranges in (((90, 153), (0, 9), (0, 11)), ((-999, -998), (0, 1), (0, 15)), ((100, 131), (0, 63), (0, 63)),
                       ((-999, -998), (0, 1), (0, 63), (0, 3)), ((100, 131), (0, 5), (0, 3), (0, 9))):
            names = sheet("tent")[1]
            shapes = picture.draw([], 1, ranges, names, "x").shapes
            rows = {}
            for shape in shapes:
                if isinstance(shape, Words) and re.fullmatch("-?[0-9]+", shape.text) and shape.anchor == "middle":
                    rows.setdefault(shape.y, []).append((shape.x, len(shape.text)))
            for row in rows.values():
                row.sort()
                for (x, one), (other_x, other) in zip(row, row[1:]):
                    self.assertGreaterEqual(other_x - x, 3.5 * (one + other) + 3, ranges)
