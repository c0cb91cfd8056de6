"""What is said of a sheet: stored outputs, single settings against the listing's own numbers, and refusals."""

import itertools
import random
import unittest
import xml.etree.ElementTree as ElementTree

import listing
import picture
import refusals
import report
import settings
import sheet_file
import svg
from faults import Fault
from records import records
from sheet_text import default_names
from stored import NAMES, WINDOWS_RECORDS, found, fresh_listing, lister, listing_text, outputs, runner, sheet, windows
from windows import windows_of


class Stored(unittest.TestCase):
    def test_listings_are_those_of_the_program(self):
        if not lister():
            self.skipTest("no program that prints listings")
        for name in NAMES:
            self.assertEqual(fresh_listing(name), listing_text(name), name)

    def test_expected_files(self):
        for path, text in outputs().items():
            self.assertEqual(path.read_text(encoding="utf-8"), text, path.name)

    def test_the_week_has_3_to_12_pieces(self):
        self.assertIn(len(found("week").pieces), range(3, 13))


def brute(name, setting):
    """Which piece of a listing holds a setting, and its bounds with the setting put in by entry, worked out from
    the listing's lines alone."""
    number, held, bounds = None, False, {}
    for line in listing_text(name).splitlines()[1:]:
        kind, *rest = line.split()
        if kind == "piece":
            if held:
                break
            number, held, bounds = int(rest[0]), True, {}
        if kind in ("piece", "first"):
            continue
        numbers = [int(word) for word in rest[-5:]] if rest[-1] != "none" else None
        total = numbers and numbers[0] + sum(k * x for k, x in zip(numbers[1:], setting))
        if kind == "ineq":
            held = held and total >= 0
        else:
            bounds[int(rest[0]), int(rest[1])] = None if numbers is None else (rest[2], total)
    return (number, bounds) if held else None


def said_bounds(lines, watches):
    """The bounds by entry that lines such as 3 ≤ v - w < 5 say."""
    bounds = {}
    for line in lines:
        words = line.split()
        if words[1] in "≤<" and not words[0] in watches:
            low, relation, *words = words
            entry(bounds, words, watches, ">" if relation == "<" else "≥", low)
        what = words[:3] if words[1] == "-" else words[:1]
        if len(words) > len(what):
            relation, value = words[len(what):]
            for sign in "≥≤" if relation == "=" else relation:
                entry(bounds, what, watches, sign, value)
    return bounds


def entry(bounds, what, watches, relation, value):
    """Notes one bound on a watch or on a difference of two."""
    first, second = watches.index(what[0]) + 1, watches.index(what[2]) + 1 if what[1:2] == ["-"] else 0
    strict = "lt" if relation in "<>" else "le"
    if relation in "≥>":
        bounds[second, first] = strict, -int(value)
    else:
        bounds[first, second] = strict, int(value)


class FirstSettings(unittest.TestCase):
    def starts(self, name):
        """What is said of where to start, with the spaces before it."""
        lines = report.pieces_lines(windows(name), found(name), sheet(name)[1])
        return [line for line in lines if "start" in line]

    def test_the_first_of_those_that_are_tried_in_order(self):
        for name in NAMES:
            whole = list(itertools.product(*(range(low, high + 1) for low, high in settings.four(sheet(name)[0].ranges))))
            for piece in found(name).pieces:
                self.assertEqual(piece.first, next(setting for setting in whole if settings.holds(piece, setting)), name)

    def test_words(self):
        """Of each piece, those with the same bounds too; without allowances there is nothing to choose."""
        self.assertEqual(self.starts("a"), ["  start from p = 3"])
        self.assertEqual(self.starts("p-then-q"), ["  start from p = 1, q = 0", "  start from p = 0, q = 0"])
        self.assertEqual(self.starts("from-minus-p"), ["  start from p = -5", "  start from p = 0"])
        self.assertEqual(self.starts("no-limits") + self.starts("never"), [])
        week = self.starts("week")
        self.assertEqual(len(week), len(found("week").pieces))
        self.assertIn("    start from green = 144, hard = 183, pot = 39", week)
        self.assertIn("  start from green = 90, hard = 160, pot = 28", week)
        self.assertIn("  start from green = 134, hard = 165, pot = 31, tent = 60", self.starts("tent"))


class OneSetting(unittest.TestCase):
    def agrees(self, name, setting):
        """What is said of a setting is what the listing's lines give, none and a watch against itself left out."""
        whole, names = sheet(name)
        expected = brute(name, setting)
        head, first, *lines = report.setting_lines(found(name), setting, whole, names)
        self.assertTrue(head.startswith("at "))
        if expected is None:
            self.assertEqual(first, "no piece: no run")
            return False
        number, bounds = expected
        self.assertEqual(first, f"piece {number}: at the end of the route, in minutes")
        lines = list(itertools.takewhile(lambda line: line.startswith("    "), lines))
        wanted = {(i, j): b for (i, j), b in bounds.items() if b is not None and i != j}
        self.assertEqual(said_bounds(lines, names.watch), wanted, (name, setting, lines))
        return True

    def test_every_setting_of_the_small_sheets(self):
        for name in NAMES:
            ranges = sheet(name)[0].ranges
            if settings.count_all(ranges) <= 100:
                whole = itertools.product(*(range(low, high + 1) for low, high in ranges))
                self.assertEqual(sum(self.agrees(name, setting) for setting in whole), found(name).kept, name)

    def test_settings_of_the_large_sheets(self):
        draw = random.Random(1)
        for name in ("week", "tent"):
            ranges = sheet(name)[0].ranges
            for _ in range(200):
                self.agrees(name, tuple(draw.randint(low, high) for low, high in ranges))
            for setting in itertools.product(*ranges):
                self.agrees(name, setting)

    def test_no_setting_of_a_large_sheet_lies_in_two_pieces(self):
        for name in ("week", "tent"):
            cells = [(piece, *others, p) for piece in range(len(found(name).pieces))
                     for *others, low, high in settings.rows(found(name).pieces[piece].inequalities, sheet(name)[0].ranges)
                     for p in range(low, high + 1)]
            self.assertEqual(len({cell[1:] for cell in cells}), len(cells))
            self.assertEqual(len(cells), found(name).kept)

    def test_room_is_what_trying_each_value_gives(self):
        draw = random.Random(2)
        for name in ("a", "p-then-q", "week", "tent", "from-minus-p", "minus-two-p"):
            pieces, ranges = found(name).pieces, sheet(name)[0].ranges
            for _ in range(30):
                setting = tuple(draw.randint(low, high) for low, high in ranges)
                self.assertEqual(settings.room(pieces, setting, ranges), [
                    self.tried(pieces, setting, k, *ranges[k]) for k in range(len(ranges))], (name, setting))

    def tried(self, pieces, setting, k, low, high):
        """The same by looking at all values of one allowance."""
        right = {x: any(settings.holds(piece, (*setting[:k], x, *setting[k + 1:])) for piece in pieces)
                 for x in range(low, high + 1)}
        at = setting[k]
        if right[at]:
            return (min(x for x in right if all(right[y] for y in range(x, at + 1))),
                    max(x for x in right if x >= at and all(right[y] for y in range(at, x + 1))))
        return (max((x for x in right if x < at and right[x]), default=None),
                min((x for x in right if x > at and right[x]), default=None))


class Refusals(unittest.TestCase):
    def test_words_for_every_number(self):
        words = {1: "under 32 places", 2: "under 22 or over 4,096 bytes", 3: "the contents of the file is wrong (byte 4 ",
                 4: "the end of a body, is wrong (byte 4 ", 5: "a move not where the last one arrived (byte 4 ",
                 6: "outside a range", 7: "a 33rd piece (after 4 moves", 8: "a 25th inequality (after 4 moves",
                 16: "the product of the widths of the ranges passes 262,144"}
        self.assertEqual(set(words), set(refusals.GROUNDS))
        for number, text in {**words, 9: "not in the table of docs/FORMAT.md"}.items():
            printed = report.refusal_line(listing.refusal(f"refused {number} place 4\n"))
            self.assertTrue(printed.startswith(f"refused {number} place 4: "), printed)
            self.assertIn(text, printed)

    def test_visits_at_the_ends_of_a_route(self):
        whole, names = sheet("a")
        self.assertEqual(report.visit_line(0, whole, names), "met in stage 'wet' or at move 'cure', which leaves it")
        self.assertEqual(report.visit_line(1, whole, names), "met in stage 'faired'")

    def test_a_limit_that_is_not_found(self):
        self.assertEqual(report.lost_lines("it is lost", None, *sheet("a")),
                         ["it is lost at one of the limits of the route; which one could not be found"])


class WrongListings(unittest.TestCase):
    """The program prints none of these; if another one does, it is said where."""

    def refused(self, text, words, watches=1):
        with self.assertRaises(listing.ListingError) as caught:
            listing.parse(text, watches)
        self.assertIn(words, str(caught.exception))

    def test_lines(self):
        good = listing_text("a")
        self.refused("", "line 1: the listing ends; expected 'pieces N kept N cut N'")
        self.refused(good.replace("piece 0", "piece 1"), "line 2: found 'piece 1'; expected 'piece 0'")
        self.refused(good.replace("ineq -3", "ineq -x"), "line 4: found 'ineq -x 1 0 0 0'; expected 'bound 0 0'")
        self.refused(good.replace("bound 0 1", "bound 1 1"), "line 6: found 'bound 1 1 le -3 0 0 0 0'; expected 'bound 0 1'")
        self.refused(good + "piece 1\n", "line 9: found 'piece 1'; expected the end")
        self.refused(good.replace("le -3 0 0 0 0", "le -3 0 0 0"), "line 6: found 'bound 0 1 le -3 0 0 0'; expected 'bound 0 1'")
        self.refused(good[:good.index("bound 0 1")], "expected 'bound 0 1' and its bound, since the sheet has 1 watch")
        self.refused(good.replace("kept 8", "kept ٨"), "line 1: found 'pieces 1 kept ٨ cut 3'")

    def test_the_line_of_the_first_setting(self):
        """It comes after each piece's line and has four numbers."""
        expected = "; expected 'first' and its four numbers"
        good = listing_text("p-then-q")
        self.refused(good.replace("first 1 0 0 0\n", ""), f"line 3: found 'ineq -1 1 -1 0 0'{expected}")
        self.refused(good.replace("first 0 0 0 0\n", ""), f"line 10: found 'ineq 0 -1 1 0 0'{expected}")
        self.refused(good[:good.index("first")], f"line 3: the listing ends{expected}")
        for wrong in ("first 1 0 0", "first 1 0 0 0 0", "first 1 0 0 x", "first  1 0 0 0", "first 1 0 0 0 ", "first"):
            self.refused(good.replace("first 1 0 0 0", wrong), f"line 3: found '{wrong}'{expected}")

    def test_a_first_setting_that_the_piece_does_not_hold(self):
        """Against an inequality, outside the range, or not 0 for an allowance that the sheet lacks."""
        for wrong in ("2 0 0 0", "11 0 0 0", "3 1 0 0", "3 0 -1 0", "3 0 0 1"):
            pieces = listing.parse(listing_text("a").replace("first 3 0 0 0", f"first {wrong}"), 1)
            with self.assertRaises(Fault) as caught:
                windows_of(pieces, sheet("a")[0].ranges)
            self.assertIn(f"({wrong.replace(' ', ', ')}) is the first setting of piece 0; expected", str(caught.exception))

    def test_a_number_of_5000_digits(self):
        text = f"refused {'7' * 5000} place 0\n"
        self.assertIsNone(listing.refusal(text))
        self.refused(text, "line 1: found 'refused 7777")
        self.refused(f"pieces 1 kept {'7' * 5000} cut 0\n", "line 1: found 'pieces 1 kept 7777")

    def test_counts_that_are_not_the_sheets(self):
        for name, other in (("minus-two-p", "two-p"), ("a", "a-widest")):
            with self.assertRaises(Fault) as caught:
                windows_of(found(other), sheet(name)[0].ranges)
            self.assertIn("expected", str(caught.exception))


class StoredRecords(unittest.TestCase):
    def test_every_tenth_record_of_windows(self):
        """Whatever the listing program prints of a stored file is said in words and drawn."""
        if not lister():
            self.skipTest("no program that prints listings")
        shown, windows = 0, runner()
        for file in list(records(WINDOWS_RECORDS, 1))[::10]:
            pieces = windows.listed(file)
            if isinstance(pieces, listing.Refusal):
                self.assertIn(": ", report.refusal_line(pieces))
                continue
            whole = sheet_file.read(file)
            names, held = default_names(whole), windows_of(pieces, whole.ranges)
            lines = report.pieces_lines(held, pieces, names)
            self.assertEqual(sum(line.startswith(("piece ", "  piece ")) for line in lines), len(pieces.pieces))
            for window in held:
                self.assertEqual(window.piece.first, min((p, q, r, s) for q, r, s, p, _ in settings.rows(window.where, whole.ranges)))
            drawn = picture.draw(picture.piece_regions(held, whole.ranges, names), pieces.cut, whole.ranges, names, "record")
            ElementTree.fromstring(svg.text(drawn))
            shown += 1
        self.assertGreater(shown, 200)
