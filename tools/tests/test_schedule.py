"""Schedules: against what Windows says of the end, against Sweep with one more watch, and their words and pictures."""

import random
import unittest

import bars
import listing
import report
import sheet_file
import svg
from ask import put_in
from beginnings import stage_of
from records import records
from schedule import end_matrix, last_resets, schedule
from sheet_file import MOST_BYTES, MOST_LIMITS, MOST_MOVES, MOST_STAGES, MOST_WATCHES, Limit, Move
from sheet_text import parse
from stored import NAMES, WINDOWS_RECORDS, lister, runner, sheet, sweep_function, sweeper


def drawn_settings(sheet, draw, count):
    return [tuple(draw.randint(low, high) for low, high in sheet.ranges) for _ in range(count)]


def readable(step):
    """Every so many of the stored sheets."""
    for file in list(records(WINDOWS_RECORDS, 1))[::step]:
        try:
            yield sheet_file.read(file)
        except sheet_file.Refused:
            pass


class AgainstWindows(unittest.TestCase):
    """The shortest paths between the instants give the matrix of the piece that holds the setting, in every entry."""

    def check(self, whole, found, setting):
        matrix = end_matrix(whole, setting)
        self.assertEqual(matrix, put_in(found, setting), setting)
        return matrix is not None

    def test_the_end_of_the_route(self):
        if not lister():
            self.skipTest("no program that prints listings")
        windows, draw, runs, voids = runner(), random.Random(1), 0, 0
        for whole in [*(sheet(name)[0] for name in NAMES), *readable(12)]:
            found = windows.of_sheet(whole)
            if not isinstance(found, listing.Refusal):
                for setting in drawn_settings(whole, draw, 3):
                    run = self.check(whole, found, setting)
                    runs, voids = runs + run, voids + (not run)
        self.assertGreater(runs, 150)
        self.assertGreater(voids, 50)


def with_limit(whole, step, limit):
    """The sheet with one watch more, never reset, that is limited at a step of the route; nothing if there is no room. The
    step is a move with one limit more, or, for the end, one more move, to a stage without limits."""
    moves, stages = [whole.moves[number] for number in whole.route], whole.stages
    if step == len(moves):
        moves.append(Move(stage_of(whole, step), len(stages), (), ()))
        stages += ((),)
    moves[step] = moves[step]._replace(limits=moves[step].limits + (limit,))
    full = len(moves) > MOST_MOVES or len(stages) > MOST_STAGES or len(moves[step].limits) > MOST_LIMITS
    if full or whole.watches == MOST_WATCHES:
        return None
    more = whole._replace(watches=whole.watches + 1, stages=stages, moves=tuple(moves), route=tuple(range(len(moves))))
    return more if len(sheet_file.write(more)) <= MOST_BYTES else None


class AgainstSweep(unittest.TestCase):
    """A move can be made at its earliest minute and not before, at its latest and not later, by Sweep."""

    def test_earliest_and_latest(self):
        if not sweeper():
            self.skipTest("no library with Sweep")
        draw, tried = random.Random(3), 0
        for whole in [*(sheet(name)[0] for name in NAMES), *readable(9)]:
            for setting in drawn_settings(whole, draw, 2):
                steps = schedule(whole, setting)
                self.assertEqual(steps is not None, self.sweeps(whole, setting), setting)
                for k, step in enumerate(steps or ()):
                    tried += self.tight(whole, setting, k, step)
        self.assertGreater(tried, 200)

    def sweeps(self, whole, setting):
        return sweep_function()(sheet_file.write(whole), setting) == 0

    def tight(self, whole, setting, k, step):
        """The bounds of a step hold and are reached; gives whether they could be tried."""
        watch = whole.watches + 1
        least, mark = step.when.least
        zeros = 0, 0, 0, 0
        tries = [(Limit(watch, 0, True, (least, *zeros)), False), (Limit(watch, 0, False, (least, *zeros)), mark == 0),
                 (Limit(watch, 0, True, (least + 1, *zeros)), True)]
        if step.when.most is None:
            tries.append((Limit(0, watch, False, (-1000, *zeros)), True))
        else:
            most, mark = step.when.most
            tries += [(Limit(0, watch, True, (-most, *zeros)), False), (Limit(0, watch, False, (-most, *zeros)), mark == 0),
                      (Limit(0, watch, True, (1 - most, *zeros)), True)]
        if any(abs(number) > 1000 for limit, _ in tries for number in limit.numbers):
            return False
        for limit, run in tries:
            other = with_limit(whole, k, limit)
            if other is None:
                return False
            self.assertEqual(self.sweeps(other, setting), run, (whole, setting, k, step, limit))
        return True


class OnArrival(unittest.TestCase):
    """Standing limits hold at both ends of a stay, once the move's resets are done."""

    def spans(self, *lines):
        """The earliest and the latest minute of each step, without allowances."""
        steps = schedule(parse("\n".join(("watch v", "watch w", *lines, "")))[0], ())
        return steps and [tuple(end and end[0] for end in step.when) for step in steps]

    def test_a_lower_limit_is_met_before_the_move(self):
        green = "stage mixed", "stage green: v >= 2", "move go: mixed -> green", "route go"
        self.assertEqual(self.spans(*green), [(2, None), (2, None)])
        self.assertIsNone(self.spans("stage mixed: v <= 1", *green[1:]))
        self.assertEqual(self.spans("stage mixed: v <= 1", "stage green: v < 4", *green[2:]), [(0, 1), (0, 4)])

    def test_the_resets_of_the_move_come_first(self):
        reset = "move go: mixed -> green resets v", "route go"
        self.assertIsNone(self.spans("stage mixed", "stage green: v >= 2", *reset))
        self.assertIsNone(self.spans("stage mixed", "stage green: v < 0", *reset))
        self.assertEqual(self.spans("stage mixed", "stage green: w >= 2, v <= 0", *reset), [(2, None), (2, None)])

    def test_the_start(self):
        self.assertIsNone(self.spans("stage green: v >= 2", "route"))
        self.assertIsNone(self.spans("stage green: v > 0", "route"))
        self.assertEqual(self.spans("stage green: v >= 0, w <= 3", "route"), [(0, 3)])


class Words(unittest.TestCase):
    def test_the_week(self):
        whole, names = sheet("week")
        steps = schedule(whole, (100, 180, 30))
        lines = report.schedule_lines(steps, (100, 180, 30), whole, names)
        self.assertEqual(lines[0], "at green = 100, hard = 180, pot = 30: minutes since the start, over all runs of the whole route")
        self.assertEqual(lines[1].split(), "move earliest latest after a stay of in stage".split())
        self.assertEqual(lines[5].split(), "coat-again 180 240 25 to 30 mixed-again".split())
        self.assertEqual(lines[4].split(), "mix-again 155 215 100 to <155 wet".split())
        self.assertEqual(len(lines), 2 + len(whole.route) + 1)

    def test_no_end_and_no_run(self):
        whole, names = sheet("a")
        lines = report.schedule_lines(schedule(whole, (5,)), (5,), whole, names)
        self.assertEqual([line.split() for line in lines[2:]],
                         ["cure 3 5 3 to 5 wet".split(), "(the end) 3 none 0 or more faired".split()])
        self.assertIsNone(schedule(whole, (2,)))
        self.assertIsNone(schedule(sheet("never")[0], ()))

    def test_resets(self):
        whole = sheet("week")[0]
        self.assertEqual(last_resets(whole)[0], (0, 0, 0, 0))
        self.assertEqual(last_resets(whole)[4], (3, 4, 0, 0))
        self.assertEqual(last_resets(whole)[-1], (3, 4, 5, 12))

    def test_bars_lie_in_the_picture(self):
        for name, setting in (("week", (100, 180, 30)), ("a", (5,)), ("no-limits", ()), ("a-longest", (5,))):
            whole, names = sheet(name)
            picture = bars.draw(schedule(whole, setting), report.moves(whole, names), name)
            boxes = [shape for shape in picture.shapes if isinstance(shape, bars.Box)]
            frame = boxes[-1]
            self.assertEqual(len(boxes), len(whole.route) + 2)
            for box in boxes:
                self.assertTrue(frame.x <= box.x and box.x + box.width <= frame.x + frame.width + bars.LEAST, name)
            for words in (shape for shape in picture.shapes if isinstance(shape, bars.Words) and shape.anchor == "start"):
                self.assertLessEqual(words.x + 6 * len(words.text), picture.width, name)
            self.assertIn("</svg>", svg.text(picture))
