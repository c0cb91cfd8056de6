"""The words of a text form: lines as lists of tokens, and faults with their line and column."""

import re
from typing import NamedTuple

from faults import plain

LONGEST_NAME = 60  # letters
LINE_WORDS = ("version", "allowance", "watch", "stage", "move", "route")  # a line starts with one of them
KEYWORDS = (*LINE_WORDS, "when", "resets")
TOKEN = re.compile(r"(?P<space>[ \t]+)|(?P<comment>\#.*)|(?P<number>[0-9]+)"
                   r"|(?P<name>[^\W\d]\w*(?:-+\w+)*)"
                   r"|(?P<mark><=|>=|->|\.\.|[≤≥<>:,+*-])")


class TextError(Exception):
    """What is wrong in a text and what was expected, with the line and the column, both from 1."""

    def __init__(self, line, column, message):
        super().__init__(f"{line}:{column}: {message}")
        self.line = line
        self.column = column
        self.message = message


class Token(NamedTuple):
    kind: str  # name, number, mark, or end
    text: str
    line: int
    column: int

    def error(self, message):
        return TextError(self.line, self.column, message)

    def short(self):
        """The text, cut where it is long."""
        return self.text if len(self.text) <= LONGEST_NAME else self.text[:LONGEST_NAME] + "…"

    def found(self, expected):
        what = "the line ends" if self.kind == "end" else f"found '{self.short()}'"
        return self.error(f"{what}; expected {expected}")


def decode(data):
    """The text of bytes, which must be UTF-8; a mark of the byte order is passed over and has no column."""
    try:
        return data.decode("utf-8").removeprefix("\ufeff")
    except UnicodeDecodeError as why:
        before = data[:why.start].decode("utf-8").removeprefix("\ufeff")
        line, column = before.count("\n") + 1, len(before) - before.rfind("\n")
        raise TextError(line, column, f"byte {data[why.start]} is not UTF-8; expected text in UTF-8") from why


def sentences(text):
    """The lines that say something, as lists of tokens, and the text's end. A line that ends in a comma
    goes on in the next."""
    lines = []
    going_on = False
    rows = text.split("\n")
    for number, row in enumerate(rows, 1):
        tokens = tokens_of(row.removesuffix("\r"), number)
        if len(tokens) == 1:
            continue
        if going_on and tokens[0].text in LINE_WORDS:
            raise tokens[0].found("the list to go on after the ',' of the line before")
        if going_on:
            lines[-1][-1:] = tokens
        else:
            lines.append(tokens)
        going_on = tokens[-2].text == ","
    return lines, Token("end", "", len(rows), len(rows[-1]) + 1)


def tokens_of(row, number):
    """The tokens of one line, and its end as the last."""
    tokens = []
    at = 0
    last = 0  # where the last token ended
    while at < len(row):
        found = TOKEN.match(row, at)
        if not found:
            equal = "; a limit that is met by one value only is two: write <= and >=" if row[at] == "=" else ""
            raise TextError(number, at + 1, f"'{plain(row[at])}' has no meaning here; expected a word, a number or one of "
                                            f"<= < >= > ≤ ≥ -> .. : , + - * #{equal}")
        kind = found.lastgroup
        if kind not in ("space", "comment"):
            token = Token(kind, found.group(), number, at + 1)
            if kind == "name":
                judge_letters(token)
            tokens.append(token)
            last = found.end()
        at = found.end()
    return tokens + [Token("end", "", number, last + 1)]


def judge_letters(token):
    if len(token.text) > LONGEST_NAME:
        raise token.error(f"the name '{token.short()}' has {len(token.text):,} letters; expected at most {LONGEST_NAME}")
    if not token.text.isascii() and not all(c.isalpha() or c in "0123456789_-" for c in token.text):
        raise token.found("a name of letters, the digits 0 to 9, - and _")
