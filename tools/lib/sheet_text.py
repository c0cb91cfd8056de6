"""The text form of a sheet (docs/TEXT.md): its reader, which says where it is wrong, and its writer."""

from typing import NamedTuple

import sheet_file
from expressions import in_words, negated
from settings import MOST_ALLOWANCES, count_all
from sheet_file import (Limit, Move, Sheet, MOST_BYTES, MOST_LIMITS, MOST_MOVES, MOST_NUMBER, MOST_ROUTE, MOST_SETTINGS,
                        MOST_STAGES, MOST_WATCHES, WIDEST, most_allowances)
from tokens import KEYWORDS, LINE_WORDS, sentences

KINDS = {"allowance": MOST_ALLOWANCES, "watch": MOST_WATCHES, "stage": MOST_STAGES, "move": MOST_MOVES}
PLURALS = {"allowance": "allowances", "watch": "watches", "stage": "stages", "move": "moves"}
# a relation as (the watch is bounded from above, strict)
RELATIONS = {"<=": (True, False), "≤": (True, False), "<": (True, True),
             ">=": (False, False), "≥": (False, False), ">": (False, True)}


LONGER = "; for a longer time use a second watch that is reset on the way, as since-bell in sheets/week.txt"


class Names(NamedTuple):
    """What a text calls the parts of a sheet, each in the sheet's order."""

    allowance: tuple
    watch: tuple
    stage: tuple
    move: tuple


def default_names(sheet):
    """The names of a sheet that comes without any."""
    return Names(tuple("pqrs"[:len(sheet.ranges)]),
                 tuple(f"w{k + 1}" for k in range(sheet.watches)),
                 tuple(f"s{k}" for k in range(len(sheet.stages))),
                 tuple(f"m{k}" for k in range(len(sheet.moves))))


# From text to sheet


def parse(text):
    """The sheet that a text says, and its names."""
    lines, end = sentences(text)
    version = version_of(lines)
    names = declared(lines, end, version)
    parts = {keyword: [] for keyword in LINE_WORDS}
    for tokens in lines:
        keyword = tokens[0].text
        parts[keyword].append(Sentence(tokens, names).part(keyword))
        product = count_all(parts["allowance"])
        if product > MOST_SETTINGS:
            raise tokens[0].error(f"the product of the widths of the ranges comes to {product:,}; expected at most {MOST_SETTINGS:,}")
    moves = tuple(parts["move"])
    route = linked(parts["route"][0], moves, names)
    sheet = Sheet(version, tuple(parts["allowance"]), len(names.watch), tuple(parts["stage"]), moves, route)
    judge_file(sheet, end)
    return sheet, names


def version_of(lines):
    """The version that a line says, or 1 without one."""
    found = [tokens for tokens in lines if tokens[0].text == "version"]
    if not found:
        return 1
    if len(found) > 1:
        raise found[1][0].error("a second version; expected one line 'version' at most")
    number = found[0][1]
    if number.text not in ("1", "2"):
        raise number.found("1 or 2 after 'version'")
    return int(number.text)


def declared(lines, end, version):
    """The names that the lines declare; they may be used before that."""
    found = {kind: [] for kind in KINDS}
    routes = 0
    for tokens in lines:
        keyword, name = tokens[:2]
        if keyword.text in KINDS:
            declare(found, keyword, name, version)
        elif keyword.text == "route" and routes == 0:
            routes += 1
        elif keyword.text == "route":
            raise keyword.error("a second route; expected one line 'route'")
        elif keyword.text != "version":
            raise keyword.found("a line that starts with " + ", ".join(LINE_WORDS))
    for kind in ("watch", "stage"):
        if not found[kind]:
            raise end.error(f"the text ends without a {kind}; expected at least one line '{kind}'")
    if not routes:
        raise end.error("the text ends without a route; expected a line 'route' with the names of moves, or alone")
    return Names(*(tuple(found[kind]) for kind in KINDS))


def declare(found, keyword, name, version):
    """Adds a name to those of its kind. Watches and allowances meet in limits, so that theirs differ."""
    kind = keyword.text
    if name.kind != "name" or name.text in KEYWORDS:
        raise name.found(f"a name for this {kind}")
    for other in ("allowance", "watch") if kind in ("allowance", "watch") else (kind,):
        if name.text in found[other]:
            raise name.error(f"the name '{name.text}' is taken by another {other}; expected a new name")
    most = most_allowances(version) if kind == "allowance" else KINDS[kind]
    if len(found[kind]) == most:
        more = ", or the line 'version 2' for a fourth" if most < KINDS[kind] else ""
        raise keyword.error(f"one {kind} too many; expected at most {most} {PLURALS[kind]}{more}")
    found[kind].append(name.text)


def linked(tokens, moves, names):
    """The route as numbers of moves. The first starts in stage 0, each other where the last arrived."""
    at = 0
    route = []
    for token in tokens:
        move = moves[names.move.index(token.text)]
        if move.start != at:
            raise token.error(f"move '{token.text}' starts in stage '{names.stage[move.start]}'; expected a move "
                              f"from stage '{names.stage[at]}', where the route {'has arrived' if route else 'starts'}")
        route.append(names.move.index(token.text))
        at = move.end
    return tuple(route)


def judge_file(sheet, end):
    """The whole file: at most 4,096 bytes, and read back as the same sheet."""
    file = sheet_file.write(sheet)
    if len(file) > MOST_BYTES:
        raise end.error(f"the sheet has {len(file)} bytes; expected at most {MOST_BYTES}")
    assert sheet_file.read(file) == sheet


class Sentence:
    """One line, taken token by token."""

    def __init__(self, tokens, names):
        self.tokens = tokens
        self.at = 0
        self.names = names

    # Tokens

    def next(self):
        return self.tokens[self.at]

    def take(self):
        token = self.next()
        self.at += token.kind != "end"
        return token

    def has(self, text):
        """Takes that word or mark if it comes next."""
        here = self.next().kind != "end" and self.next().text == text
        self.at += here
        return here

    def need(self, text, expected):
        if not self.has(text):
            raise self.next().found(expected)

    def touches(self):
        """The next token is a name that stands right behind the last one, as in 2p."""
        last, here = self.tokens[self.at - 1], self.next()
        return here.kind == "name" and (here.line, here.column) == (last.line, last.column + len(last.text))

    def done(self, expected):
        if self.next().kind != "end":
            raise self.next().found(expected)

    # Lines

    def part(self, keyword):
        """What the line says, by its first word."""
        self.take()
        if keyword == "route":
            return self.route()
        self.take()
        if keyword == "version":
            return self.done("the end of the line after the version")
        return {"allowance": self.allowance, "watch": self.watch, "stage": self.stage, "move": self.move}[keyword]()

    def allowance(self):
        lowest, _ = self.end_of_range("the lowest value, as in 0..10")
        self.need("..", "'..' between the lowest and the highest value")
        highest, token = self.end_of_range("the highest value")
        self.done("the end of the line after the range")
        if highest < lowest:
            raise token.error(f"the highest value {highest} is below the lowest; expected at least {lowest}")
        if highest - lowest > WIDEST:
            raise token.error(f"the range {lowest}..{highest} is too wide; expected a highest value of at most "
                              f"{min(lowest + WIDEST, MOST_NUMBER)}")
        return lowest, highest

    def end_of_range(self, expected):
        """A number with or without a minus, and where it stands."""
        first = self.next()
        sign = -1 if self.has("-") else 1
        return sign * self.number(expected), first

    def watch(self):
        self.done("the end of the line after the watch's name")

    def stage(self):
        if self.next().kind == "end":
            return ()
        self.need(":", "':' and limits, or the end of the line")
        limits = self.limits("stage")
        self.done("',' and another limit, or the end of the line")
        return limits

    def move(self):
        self.need(":", "':' after the move's name")
        start = self.named("stage")
        self.need("->", "'->' between the stages")
        end = self.named("stage")
        rest = "'when', 'resets' or the end of the line"
        limits = ()
        if self.has("when"):
            limits = self.limits("move")
            rest = "',' and another limit, 'resets' or the end of the line"
        resets = ()
        if self.has("resets"):
            resets = self.resets()
            rest = "',' and another watch, or the end of the line"
        self.done(rest)
        return Move(start, end, resets, limits)

    def resets(self):
        """Watches with commas between, each once; in rising order."""
        watches = []
        while not watches or self.has(","):
            token = self.next()
            watch = self.named("watch") + 1
            if watch in watches:
                raise token.error(f"watch '{token.text}' is reset twice; expected each watch once")
            watches.append(watch)
        return tuple(sorted(watches))

    def route(self):
        """The tokens of the moves."""
        if self.next().kind == "end":
            return []
        moves = []
        while not moves or self.has(","):
            token = self.next()
            self.named("move")
            moves.append(token)
            if len(moves) > MOST_ROUTE:
                raise token.error(f"one route move too many; expected at most {MOST_ROUTE}")
        self.done("',' and another move, or the end of the line")
        return moves

    # Names, limits and expressions

    def named(self, kind):
        """The number, from 0, of the part of that kind that is named next."""
        token = self.take()
        known = getattr(self.names, kind)
        if token.kind != "name" or token.text in KEYWORDS:
            raise token.found(f"the name of a {kind}")
        if token.text not in known:
            raise token.error(f"no {kind} is called '{token.text}'; expected {self.one_of(kind)}")
        return known.index(token.text)

    def one_of(self, kind):
        known = getattr(self.names, kind)
        return "one of " + ", ".join(known) if known else f"a line '{kind}' that declares it"

    def limits(self, owner):
        """Limits with commas between."""
        limits = []
        while not limits or self.has(","):
            if len(limits) == MOST_LIMITS:
                raise self.next().error(f"one limit too many; expected at most {MOST_LIMITS} for a {owner}")
            limits.append(self.limit())
        return tuple(limits)

    def limit(self):
        """A watch against an expression: from above w - 0 <= e, from below 0 - w <= -e."""
        if self.next().text in self.names.allowance:
            raise self.next().found("a limit, which starts with a watch: " + self.one_of("watch"))
        watch = self.named("watch") + 1
        relation = self.take()
        if relation.text not in RELATIONS:
            raise relation.found("<=, <, >= or > after the watch")
        above, strict = RELATIONS[relation.text]
        numbers = self.expression()
        return Limit(watch, 0, strict, numbers) if above else Limit(0, watch, strict, negated(numbers))

    def expression(self):
        """A sum of numbers and multiples of allowances, as the constant and four coefficients."""
        totals = [0] * (1 + MOST_ALLOWANCES)
        first = self.next()
        sign = self.sign() or 1
        while sign:
            which, size = self.term()
            totals[which] += sign * size
            sign = self.sign()
        for total in totals:
            if abs(total) > MOST_NUMBER:
                raise first.error(f"a number of this sum comes to {total}; expected -{MOST_NUMBER} to {MOST_NUMBER}{LONGER}")
        return tuple(totals)

    def sign(self):
        """1 for a plus, -1 for a minus, and otherwise 0, with nothing taken."""
        return 1 if self.has("+") else -1 if self.has("-") else 0

    def term(self):
        """A number, an allowance, or a number of them: its place among the five numbers, and its size."""
        size = 1
        if self.next().kind == "number":
            size = self.number("a number", LONGER)
            if not self.has("*") and not self.touches():
                return 0, size
        token = self.next()
        if token.kind != "name" or token.text in KEYWORDS:
            raise token.found("a number or an allowance")
        if token.text in self.names.watch:
            raise token.error(f"'{token.text}' is a watch; expected a number or an allowance, since a limit has one watch")
        if token.text not in self.names.allowance:
            hint = ", with spaces round a minus" if "-" in token.text else ""
            raise token.error(f"no allowance is called '{token.text}'; expected {self.one_of('allowance')}{hint}")
        return 1 + self.named("allowance"), size

    def number(self, expected, hint=""):
        """A number without a sign."""
        token = self.take()
        if token.kind != "number":
            raise token.found(expected)
        digits = token.text.lstrip("0") or "0"
        if len(digits) > len(str(MOST_NUMBER)) or int(digits) > MOST_NUMBER:
            raise token.error(f"the number {token.short()} is too big; expected at most {MOST_NUMBER} in size{hint}")
        return int(digits)


# From sheet to text


def write(sheet, names=None):
    """The text of a sheet, with those names or the default ones."""
    names = names or default_names(sheet)
    version = [f"version {sheet.version}"] if sheet.version != 1 else []
    allowances = [f"allowance {name} {low}..{high}" for name, (low, high) in zip(names.allowance, sheet.ranges)]
    watches = [f"watch {name}" for name in names.watch]
    stages = [stage_words(name, limits, names) for name, limits in zip(names.stage, sheet.stages)]
    moves = [move_words(name, move, names) for name, move in zip(names.move, sheet.moves)]
    route = [f"route {', '.join(names.move[k] for k in sheet.route)}".rstrip()]
    blocks = [block for block in (version, allowances, watches, stages, moves, route) if block]
    return "\n\n".join("\n".join(block) for block in blocks) + "\n"


def stage_words(name, limits, names):
    return f"stage {name}" + (f": {limits_words(limits, names)}" if limits else "")


def move_words(name, move, names):
    text = f"move {name}: {names.stage[move.start]} -> {names.stage[move.end]}"
    if move.limits:
        text += f" when {limits_words(move.limits, names)}"
    if move.resets:
        text += f" resets {', '.join(names.watch[w - 1] for w in move.resets)}"
    return text


def limits_words(limits, names):
    return ", ".join(limit_words(limit, names) for limit in limits)


def limit_words(limit, names):
    above = limit.b == 0
    relation = ("<" if above else ">") + ("" if limit.strict else "=")
    numbers = limit.numbers if above else negated(limit.numbers)
    return f"{names.watch[max(limit.a, limit.b) - 1]} {relation} {in_words(numbers, names.allowance)}"
