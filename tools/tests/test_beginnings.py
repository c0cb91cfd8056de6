"""The beginnings of routes: each is the route up to a limit, and what is found by them."""

import random
import unittest
from itertools import chain
from math import inf

import listing
import sheet_file
from beginnings import (ARRIVAL, MOVE, START, STAY, Beginning, accepted_ranges, beginnings, first, first_refused, first_without_run,
                        limit_of, same_runs, same_steps)
from expressions import value
from records import records
from refused import LINES, ONE, REFUSED, TURNED, TWO, along, dealt
from schedule import ZERO
from sheet_text import parse
from stored import NAMES, WINDOWS_RECORDS, lister, runner, sheet
from windows import narrowed

WAIT = "wait"
MOVES = "".join(f"move m{k}: s{k} -> s{k + 1}\n" for k in range(15))


def every_beginning(whole):
    return list(chain.from_iterable(beginnings(whole, visit) for visit in range(len(whole.route) + 1)))


class Beginnings(unittest.TestCase):
    def test_each_limit_in_the_order_of_cutting(self):
        """On arrival, at the end of the stay, and of the move."""
        whole, _ = parse("watch w\nstage a: w <= 9, w >= 0\nstage b: w <= 8\nmove m: a -> b when w >= 1\nroute m\n")
        self.assertEqual(every_beginning(whole), [(0, START, 0), (0, START, 1), (0, STAY, 0), (0, STAY, 1), (0, MOVE, 0),
                                                  (1, ARRIVAL, 0), (1, STAY, 0)])
        self.assertEqual([limit_of(whole, part).numbers[0] for part in every_beginning(whole)], [9, 0, 9, 0, -1, 8, 8])

    def test_each_is_a_good_sheet_that_ends_with_its_limit(self):
        for name in NAMES:
            whole = sheet(name)[0]
            for part in every_beginning(whole):
                for cut in {same_steps(whole, part)} | ({same_runs(whole, part)} if part.when != STAY else set()):
                    self.assertEqual(sheet_file.read(sheet_file.write(cut)), cut)
                    self.assertEqual(cut.route, tuple(range(len(cut.moves))))
                    limits = cut.stages[cut.moves[-1].end if cut.moves else 0] or cut.moves[-1].limits
                    self.assertEqual(limits[-1], limit_of(whole, part))

    def test_the_sheets_of_each_kind(self):
        """A move without a reset takes the limits on arrival; after a reset they are at a move of their own."""
        whole, _ = parse("watch v\nwatch w\nstage a\nstage b: v <= 8, w <= 9\nmove m: a -> b when v >= 1\n"
                         "move n: b -> b when v >= 2 resets w\nroute m, n\n")
        (v, w), one, two = whole.stages[1], whole.moves[0].limits, whole.moves[1].limits
        zero = sheet_file.Limit(2, 0, False, (0, 0, 0, 0, 0))
        for part, stages, limits in (((0, MOVE, 0), [()], [one]), ((1, ARRIVAL, 0), [()], [one + (v,)]),
                                     ((1, ARRIVAL, 1), [()], [one + (v, w)]), ((1, STAY, 0), [(), (v,)], [one + (v, w)]),
                                     ((1, STAY, 1), [(), (v, w)], [one]), ((2, ARRIVAL, 0), [(), (v, w), (zero,)], [one, two, (v,)]),
                                     ((2, STAY, 0), [(), (v, w), (zero,), (v,)], [one, two, (v, w)])):
            cut = same_steps(whole, Beginning(*part))
            self.assertEqual((list(cut.stages), [move.limits for move in cut.moves]), (stages, limits), part)

    def test_no_room(self):
        """A 17th stage, a 33rd move, a seventh limit of a move, a file that is too long."""
        sixteen = "".join(f"stage s{k}: w <= {k + 1}, w >= 0\n" for k in range(16))
        whole, _ = parse(f"watch w\n{sixteen}{MOVES}move back: s15 -> s0\nroute {', '.join(f'm{k}' for k in range(15))}, back\n")
        self.assertEqual([part for part in every_beginning(whole) if not same_steps(whole, part)],
                         [(16, ARRIVAL, 0), (16, ARRIVAL, 1), (16, STAY, 0)])
        self.assertEqual([part for part in every_beginning(whole) if part.when != STAY and not same_runs(whole, part)],
                         [(16, ARRIVAL, 0)])
        whole, _ = parse(f"watch w\nstage a: w <= 5, w >= 0\nmove m: a -> a resets w\nroute {', '.join(['m'] * 32)}\n")
        self.assertEqual([part for part in every_beginning(whole) if not same_steps(whole, part)],
                         [(32, ARRIVAL, 0), (32, ARRIVAL, 1), (32, STAY, 0)])
        five = ", ".join(f"w <= {k}" for k in range(20, 25))
        whole, _ = parse(f"watch w\nstage a\nstage b: w <= 5, w >= 0\nmove m: a -> b when {five}\nroute m\n")
        self.assertEqual([part for part in every_beginning(whole) if not same_steps(whole, part)], [(1, ARRIVAL, 1), (1, STAY, 0)])
        six = [", ".join(f"w <= {k + n}" for n in range(6)) for k in range(15)]
        stages = "".join(f"stage s{k}: {limits}\n" for k, limits in enumerate(six))
        around = "".join(f"move m{k}: s{k} -> s{(k + 1) % 15} when {limits}\n" for k, limits in enumerate(six))
        whole, _ = parse(f"version 2\nwatch w\n{stages}{around}route {', '.join(f'm{k % 15}' for k in range(32))}\n")
        parts = [part for part in every_beginning(whole) if part.when == MOVE]
        written = [part for part in parts if same_steps(whole, part)]
        self.assertEqual(written, parts[:len(written)])
        self.assertLess(len(written), len(parts))
        length = len(sheet_file.write(same_steps(whole, written[-1])))
        self.assertIn(length, range(4096 - 18, 4097))  # one more limit has 14 bytes, and 5 with a move more
        self.assertTrue(all(same_steps(whole._replace(version=1), part) for part in parts))

    def test_the_first_where_some_cannot_be_written(self):
        """It is told if it is the only one after the last at which nothing happens."""
        for written, happens, found in (("abcd", "cd", "c"), ("abcd", "abcd", "a"), ("abcd", "", None), ("abd", "d", None),
                                        ("abd", "bd", "b"), ("abc", "", "d"), ("ab", "", None), ("bcd", "bcd", None), ("", "", None)):
            parts = [(name, name if name in written else None) for name in "abcd"]
            self.assertEqual(first(lambda cut, those=happens: cut in those, parts), found, (written, happens))


def lost_at(whole, setting):
    """The limit at which one setting is lost, by the steps of Sweep, each bound as (minutes, mark); or None."""
    side = range(whole.watches + 1)
    matrix = [[ZERO for _ in side] for _ in side]
    for visit in range(len(whole.route) + 1):
        for part in steps(whole, visit):
            if part == WAIT:
                matrix = [[(inf, 0) if i and not j else matrix[i][j] for j in side] for i in side]
                continue
            limit = limit_of(whole, part)
            bound = value(limit.numbers, setting), -limit.strict
            if total(bound, matrix[limit.b][limit.a]) < ZERO:
                return part
            matrix = [[min(matrix[k][j], total(matrix[k][limit.a], bound, matrix[limit.b][j])) for j in side] for k in side]
        zero = whole.moves[whole.route[visit]].resets if visit < len(whole.route) else ()
        matrix = [[matrix[0 if i in zero else i][0 if j in zero else j] for j in side] for i in side]
    return None


def steps(whole, visit):
    """All limits of a visit, and its wait."""
    parts = beginnings(whole, visit)
    arrival = [part for part in parts if part.when in (START, ARRIVAL)]
    return [*arrival, WAIT, *parts[len(arrival):]]


def total(*bounds):
    return sum(minutes for minutes, _ in bounds), min(mark for _, mark in bounds)


def tightened(whole, draw):
    """The sheet with one limit tightened, of a stage or of a move, if the one that is drawn has any."""
    kind = draw.choice(("stages", "stages", "moves"))
    parts = list(getattr(whole, kind))
    k = draw.randrange(len(parts)) if parts else None
    limits = parts and (parts[k].limits if kind == "moves" else parts[k])
    if not limits:
        return whole
    constant, *others = limits[0].numbers
    limits = (limits[0]._replace(numbers=(max(-1000, constant - draw.randint(1, 60)), *others)), *limits[1:])
    parts[k] = parts[k]._replace(limits=limits) if kind == "moves" else limits
    return whole._replace(**{kind: tuple(parts)})


class Found(unittest.TestCase):
    def setUp(self):
        if not lister():
            self.skipTest("no program that prints listings")
        self.windows = runner()

    def test_the_limit_of_a_refusal(self):
        """It is the one that the sheet is built for."""
        for name, (text, number, visit, when, place) in REFUSED.items():
            whole, _ = parse(text)
            refusal = self.windows.of_sheet(whole)
            self.assertEqual(refusal, (number, visit), name)
            self.assertEqual(first_refused(self.windows, whole, refusal), (visit, when, place), name)

    def test_up_to_the_limit_before_there_is_no_refusal(self):
        for name, (text, number, visit, when, place) in REFUSED.items():
            whole, _ = parse(text)
            parts = every_beginning(whole)
            at = parts.index((visit, when, place))
            before, cut = (self.windows.of_sheet(same_steps(whole, part)) for part in parts[at - 1:at + 1])
            self.assertIsInstance(before, listing.Listing, name)
            self.assertEqual(cut.number, number, name)

    def test_a_refusal_that_cannot_be_told(self):
        """No move has room for its own limits and those on arrival, up to the refusal."""
        places = dealt(LINES, 0, 6, 6, 6, 6, 6, 3)
        whole, _ = parse(along(ONE, places))
        refusal = self.windows.of_sheet(whole)
        self.assertEqual(refusal, (7, 3))
        self.assertIsNone(first_refused(self.windows, whole, refusal))

    def test_ranges_that_are_taken(self):
        for name, (text, *_) in REFUSED.items():
            whole, _ = parse(text)
            found = accepted_ranges(self.windows, whole)
            self.assertTrue(found, name)
            for k, (low, high) in found:
                for end, kind in ((high, listing.Listing), (high + 1, listing.Refusal)):
                    ranges = (*whole.ranges[:k], (low, end), *whole.ranges[k + 1:])
                    self.assertIsInstance(self.windows.of_sheet(whole._replace(ranges=ranges)), kind, name)

    def test_where_a_setting_is_lost(self):
        """By the steps of Sweep in plain numbers, at stored sheets of which a limit is tightened; never at the end of a stay."""
        draw, seen = random.Random(5), {None: 0, START: 0, ARRIVAL: 0, MOVE: 0}
        for file in list(records(WINDOWS_RECORDS, 1))[::7]:
            try:
                whole = tightened(sheet_file.read(file), draw)
            except sheet_file.Refused:
                continue
            setting = tuple(draw.randint(low, high) for low, high in whole.ranges)
            part = lost_at(whole, setting)
            self.assertEqual(first_without_run(self.windows, narrowed(whole, setting)), part)
            seen[part and part.when] += 1
        self.assertGreater(min(seen.values()), 10, seen)

    def test_where_the_last_setting_is_lost(self):
        """p = 1 is lost at the start, 2 on arrival, and 3 only at the last move."""
        whole, _ = parse("allowance p 1..3\nwatch v\nwatch w\nstage a: v <= p - 2\nstage b: w <= 2p - 5, v >= 0\nstage c: v >= 9\n"
                         "move m: a -> b resets w\nmove n: b -> c when v <= 8\nroute m, n\n")
        lost = [(0, START, 0), (1, ARRIVAL, 0), (2, ARRIVAL, 0)]
        for p, part in enumerate(lost, 1):
            self.assertEqual(first_without_run(self.windows, narrowed(whole, (p,))), part)
            self.assertEqual(first_without_run(self.windows, whole._replace(ranges=((1, p),))), part)

    def test_lost_after_limits_that_would_be_refused(self):
        """On arrival the last limit leaves nothing; with those before it alone, the end of the stay would list a 33rd piece."""
        whole, _ = parse(along(TWO, [*dealt(LINES, 0, 6, 6, 6, 0, 0), [*TURNED, "w >= 1"]], "w"))
        self.assertIsInstance(self.windows.of_sheet(same_runs(whole, Beginning(3, ARRIVAL, 2))), listing.Refusal)
        self.assertEqual(self.windows.of_sheet(whole).kept, 0)
        self.assertEqual(first_without_run(self.windows, whole), (3, ARRIVAL, 3))
