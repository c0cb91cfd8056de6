"""Simple inequalities: the same settings, tested by counting; none that follows from the others; and their words."""

import itertools
import random
import re
import unittest

import listing
import settings
import sheet_file
from expressions import value
from records import records
from simple import divided, simplified
from stored import NAMES, WINDOWS_RECORDS, found, lister, runner, sheet
from wording import inequalities_words


def held(inequalities, ranges):
    """The settings that meet inequalities, by trying each."""
    return [setting for setting in itertools.product(*(range(low, high + 1) for low, high in ranges))
            if all(value(e, setting) >= 0 for e in inequalities)]


class Simple(unittest.TestCase):
    def check(self, inequalities, ranges, by_trying):
        """The same settings, and each of the simple ones is needed."""
        simple = simplified(inequalities, ranges)
        counted = settings.count(inequalities, ranges)
        self.assertEqual(settings.count(simple, ranges), counted)
        self.assertEqual(settings.count([*simple, *inequalities], ranges), counted)
        if by_trying:
            self.assertEqual(held(simple, ranges), held(inequalities, ranges), (inequalities, ranges))
        for e in simple:
            others = [other for other in simple if other != e]
            self.assertGreater(settings.count(others, ranges), counted, (simple, ranges))
        self.assertLessEqual(len(simple), len(inequalities))
        return simple

    def test_stored_sheets(self):
        for name in NAMES:
            for piece in found(name).pieces:
                self.check(piece.inequalities, sheet(name)[0].ranges, name not in ("week", "tent"))

    def test_random_inequalities(self):
        draw = random.Random(1)
        for count in (1, 2, 3, 4) * 50:
            ranges = tuple((low, low + draw.randint(0, 6)) for low in (draw.randint(-9, 9) for _ in range(count)))
            used = [1] * count + [0] * (4 - count)
            inequalities = [(draw.randint(-25, 25), *(draw.randint(-4, 4) * k for k in used)) for _ in range(draw.randint(0, 7))]
            self.check(inequalities, ranges, True)

    def test_pieces_of_stored_records(self):
        if not lister():
            self.skipTest("no program that prints listings")
        windows, tried = runner(), 0
        for file in list(records(WINDOWS_RECORDS, 1))[::40]:
            pieces = windows.listed(file)
            if isinstance(pieces, listing.Refusal):
                continue
            ranges = sheet_file.read(file).ranges
            for piece in pieces.pieces:
                tried += 1
                self.check(piece.inequalities, ranges, settings.count_all(ranges) < 400)
        self.assertGreater(tried, 50)

    def test_division_rounds_to_whole_settings(self):
        self.assertEqual(divided((-321, 0, 2, 0, 0)), (-161, 0, 1, 0, 0))
        self.assertEqual(divided((-321, 0, 0, 4, -2)), (-161, 0, 0, 2, -1))
        self.assertEqual(divided((-5, -2, 0, 0, 0)), (-3, -1, 0, 0, 0))
        self.assertEqual(divided((7, 4, -6, 0, 0)), (3, 2, -3, 0, 0))
        self.assertEqual(divided((7, 0, 0, 0, 0)), (7, 0, 0, 0, 0))

    def test_words(self):
        names = ("green", "hard", "pot", "tent")
        for inequalities, words in (([(-321, 0, 2, 0, 0)], ["hard ≥ 161"]),
                                    ([(-161, 0, 1, 0, 0), (182, 0, -1, 0, 0)], ["161 ≤ hard ≤ 182"]),
                                    ([(340, -1, -1, 0, 0), (-340, 1, 1, 0, 0)], ["green + hard = 340"]),
                                    ([(-26, -1, 1, 0, 0), (30, 1, -1, 0, 0)], ["hard - 30 ≤ green ≤ hard - 26"]),
                                    ([(0, 1, -1, 1, 0)], ["hard ≤ green + pot"]), ([(-1, -1, 1, -1, 0)], ["hard ≥ green + pot + 1"]),
                                    ([(-1, 1, -1, 0, 0)], ["green ≥ hard + 1"]), ([(0, -1, 1, 0, 0)], ["green ≤ hard"]),
                                    ([(0, 0, 0, 1, 0)], ["pot ≥ 0"]), ([(7, -2, 3, 0, 0)], ["2green ≤ 3hard + 7"]),
                                    ([(5, -1, -2, 0, 0)], ["green + 2hard ≤ 5"]),
                                    ([(-11, 1, 0, 0, -2)], ["green ≥ 2tent + 11"]), ([(0, 0, 0, 0, 3)], ["tent ≥ 0"])):
            simple = [divided(e) for e in inequalities]
            self.assertEqual(inequalities_words(simple, names), words)

    def test_words_say_what_the_inequality_says(self):
        """Read back as a comparison and tried at each setting."""
        draw = random.Random(4)
        for _ in range(300):
            e = tuple(draw.randint(-9, 9) for _ in range(5))
            if not any(e[1:]):
                continue
            (words,) = inequalities_words([e], ("p", "q", "r", "s"))
            said = re.sub("([0-9])([pqrs])", r"\1*\2", words).replace("≤", "<=").replace("≥", ">=")
            for setting in itertools.product((-7, 0, 1, 5), repeat=4):
                self.assertEqual(eval(said, dict(zip("pqrs", setting))), value(e, setting) >= 0, (e, words))

    def test_an_allowance_with_one_value_is_put_in(self):
        self.assertEqual(simplified([(-8, 1, 1, 0, 0)], ((5, 5), (0, 9))), [(-3, 0, 1, 0, 0)])

    def test_many_settings_are_soon_counted(self):
        """262,144 of them, with the widest range last or first."""
        for ranges in (((0, 0), (0, 63), (0, 63), (0, 63)), ((0, 63), (0, 63), (0, 63), (0, 0)), ((0, 7), (0, 15), (0, 31), (0, 63))):
            highest = sum(high for _, high in ranges)
            self.assertEqual(settings.count_all(ranges), 262_144)
            self.assertEqual(settings.count([(1 - highest, 1, 1, 1, 1)], ranges), 1 + sum(high > 0 for _, high in ranges))
            self.assertEqual(settings.count([(-highest - 1, 1, 1, 1, 1)], ranges), 0)
            self.assertEqual(len(simplified([(-highest, 1, 1, 1, 1), (9, 1, -1, 1, 0)], ranges)), 1)
