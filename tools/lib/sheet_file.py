"""The sheet file (paper 01, "The sheet file"; paper 02, request (i)): its reader, with refusals 2 to 5 and 16, and its writer.

Stages, moves and allowances are numbered from 0, watches from 1, since watch 0 is always zero.
"""

from typing import NamedTuple

from settings import MOST_ALLOWANCES, count_all

MOST_BYTES = 4096
CONTENTS = 22  # bytes of the contents; body 1 starts here
MOST_SETTINGS = 262_144
MOST_WATCHES = 4
MOST_STAGES = 16
MOST_MOVES = 32
MOST_ROUTE = 32
MOST_LIMITS = 6  # of one stage or one move
MOST_NUMBER = 1000  # the size of a constant, a coefficient and a range's end
WIDEST = 63  # by which a range's highest may pass its lowest


class Refused(Exception):
    """Why a file gives no sheet: the refusal's number and its place in the file."""

    def __init__(self, number, place):
        super().__init__(f"refused {number} place {place}")
        self.number = number
        self.place = place


class Limit(NamedTuple):
    """Watch a - watch b at most (or, if strict, below) constant + sum of coefficient x allowance."""

    a: int
    b: int
    strict: bool
    numbers: tuple  # the constant and the four coefficients


class Move(NamedTuple):
    start: int
    end: int
    resets: tuple  # the watches that become 0, in rising order
    limits: tuple


class Sheet(NamedTuple):
    version: int
    ranges: tuple  # lowest and highest of each allowance
    watches: int
    stages: tuple  # the standing limits of each stage
    moves: tuple
    route: tuple  # numbers of moves


def most_allowances(version):
    """How many allowances a sheet of a version can have, and how many coefficients its limits have."""
    return MOST_ALLOWANCES if version == 2 else 3


def read(file):
    """The sheet that the bytes hold; raises the first of refusals 2, 3, 4, 16 and 5."""
    starts = body_starts(file)
    version = file[0]
    bodies = [Fields(file, starts[k], starts[k + 1]) for k in range(4)]
    ranges = read_ranges(bodies[0], version)
    sizes = sizes_of(version, len(ranges))
    watches, stages = read_stages(bodies[1], sizes)
    moves = read_moves(bodies[2], sizes, watches, len(stages))
    route = read_route(bodies[3], len(moves))
    expect(count_all(ranges) <= MOST_SETTINGS, 16, 0)
    judge_links(moves, route, starts[3] + 1)
    return Sheet(version, ranges, watches, stages, moves, route)


def expect(right, number, place):
    if not right:
        raise Refused(number, place)


def body_starts(file):
    """Where the four bodies start, and where the last one ends; refusals 2 and 3."""
    expect(CONTENTS <= len(file) <= MOST_BYTES, 2, 0)
    expect(file[0] in (1, 2), 3, 0)
    expect(file[1] == 4, 3, 1)
    starts = [CONTENTS]
    for k in range(4):
        at = 2 + 5 * k
        expect(file[at] == k + 1, 3, at)
        expect(int.from_bytes(file[at + 1:at + 3], "little") == starts[k], 3, at + 1)
        end = starts[k] + int.from_bytes(file[at + 3:at + 5], "little")
        expect(end == len(file) if k == 3 else end <= len(file), 3, at + 3)
        starts.append(end)
    return starts


class Fields:
    """The fields of one body, taken one after the other. Every refusal here is 4."""

    def __init__(self, file, start, end):
        self.file = file
        self.at = start
        self.end = end

    def take(self, count):
        """Where the next field of that many bytes starts; refused at the body's end if it stops early."""
        place = self.at
        expect(place + count <= self.end, 4, self.end)
        self.at += count
        return place

    def byte(self, lowest, highest):
        """The next one-byte field, from lowest to highest."""
        place = self.take(1)
        value = self.file[place]
        expect(lowest <= value <= highest, 4, place)
        return value

    def number(self, lowest, highest):
        """The next two-byte field with a sign, from lowest to highest."""
        place = self.take(2)
        value = int.from_bytes(self.file[place:place + 2], "little", signed=True)
        expect(lowest <= value <= highest, 4, place)
        return value

    def done(self):
        """Refused at the first byte left over."""
        expect(self.at == self.end, 4, self.at)


def sizes_of(version, allowances):
    """How large each number of a limit may be: its constant and its coefficients, which are 0 for an allowance that lacks."""
    return [MOST_NUMBER] * (1 + allowances) + [0] * (most_allowances(version) - allowances)


def read_ranges(fields, version):
    """Body 1. That lowest is at most highest, and the difference at most 63, is judged at highest."""
    ranges = []
    for _ in range(fields.byte(0, most_allowances(version))):
        lowest = fields.number(-MOST_NUMBER, MOST_NUMBER)
        highest = fields.number(lowest, min(MOST_NUMBER, lowest + WIDEST))
        ranges.append((lowest, highest))
    fields.done()
    return tuple(ranges)


def read_stages(fields, sizes):
    """Body 2: the count of watches, and the standing limits of each stage."""
    watches = fields.byte(1, MOST_WATCHES)
    count = fields.byte(1, MOST_STAGES)
    stages = tuple(read_limits(fields, sizes, watches) for _ in range(count))
    fields.done()
    return watches, stages


def read_moves(fields, sizes, watches, stages):
    """Body 3."""
    moves = []
    for _ in range(fields.byte(0, MOST_MOVES)):
        start = fields.byte(0, stages - 1)
        end = fields.byte(0, stages - 1)
        bits = fields.byte(0, 2 ** watches - 1)
        resets = tuple(w for w in range(1, watches + 1) if bits >> (w - 1) & 1)
        moves.append(Move(start, end, resets, read_limits(fields, sizes, watches)))
    fields.done()
    return tuple(moves)


def read_route(fields, moves):
    """Body 4."""
    count = fields.byte(0, MOST_ROUTE)
    route = tuple(fields.byte(0, moves - 1) for _ in range(count))
    fields.done()
    return route


def read_limits(fields, sizes, watches):
    count = fields.byte(0, MOST_LIMITS)
    return tuple(read_limit(fields, sizes, watches) for _ in range(count))


def read_limit(fields, sizes, watches):
    """A limit. That exactly one of a and b is 0 is judged at b. In version 1 the fourth coefficient is not there, and 0."""
    a = fields.byte(0, watches)
    b = fields.byte(1, watches) if a == 0 else fields.byte(0, 0)
    strict = fields.byte(0, 1) == 1
    fields.byte(0, 0)
    numbers = [fields.number(-size, size) for size in sizes]
    return Limit(a, b, strict, (*numbers, *[0] * (1 + MOST_ALLOWANCES - len(numbers))))


def judge_links(moves, route, start):
    """Refusal 5 at the first route byte whose move does not start where the last arrived."""
    stage = 0
    for k, number in enumerate(route):
        expect(moves[number].start == stage, 5, start + k)
        stage = moves[number].end


def write(sheet):
    """The file of a sheet. A version that is not 2 is laid out as 1."""
    bodies = [ranges_body(sheet), stages_body(sheet), moves_body(sheet), route_body(sheet)]
    file = bytearray([sheet.version, 4])
    offset = CONTENTS
    for kind, body in enumerate(bodies, 1):
        file += bytes([kind]) + offset.to_bytes(2, "little") + len(body).to_bytes(2, "little")
        offset += len(body)
    return bytes(file) + b"".join(bodies)


def ranges_body(sheet):
    ends = (two_bytes(end) for ends in sheet.ranges for end in ends)
    return bytes([len(sheet.ranges)]) + b"".join(ends)


def stages_body(sheet):
    stages = (limits_bytes(limits, sheet.version) for limits in sheet.stages)
    return bytes([sheet.watches, len(sheet.stages)]) + b"".join(stages)


def moves_body(sheet):
    return bytes([len(sheet.moves)]) + b"".join(move_bytes(move, sheet.version) for move in sheet.moves)


def route_body(sheet):
    return bytes([len(sheet.route), *sheet.route])


def move_bytes(move, version):
    bits = sum(1 << (watch - 1) for watch in move.resets)
    return bytes([move.start, move.end, bits]) + limits_bytes(move.limits, version)


def limits_bytes(limits, version):
    return bytes([len(limits)]) + b"".join(limit_bytes(limit, version) for limit in limits)


def limit_bytes(limit, version):
    fields = bytes([limit.a, limit.b, int(limit.strict), 0])
    return fields + b"".join(two_bytes(number) for number in limit.numbers[:1 + most_allowances(version)])


def two_bytes(number):
    return number.to_bytes(2, "little", signed=True)
