"""What the command reads: files or standard input, and sheets in either form."""

import sys
from typing import NamedTuple

import sheet_file
import sheet_text
from faults import FAILED, Fault, failed, plain
from tokens import TextError, decode

MOST_TEXT = 1 << 20  # bytes of a text; a sheet file has fewer


class Given(NamedTuple):
    """A sheet as it was given."""

    name: str  # for messages
    title: str  # for pictures
    file: bytes  # as a sheet file
    sheet: sheet_file.Sheet  # nothing where the file cannot be read
    names: sheet_text.Names


def read_bytes(path):
    """The bytes of a file, - being standard input; no more than a text can have."""
    if path == "-" and sys.stdin is None:
        raise Fault("standard input is closed", FAILED)
    try:
        if path == "-":
            data = sys.stdin.buffer.read(MOST_TEXT + 1)
        else:
            with open(path, "rb") as file:
                data = file.read(MOST_TEXT + 1)
    except OSError as why:
        raise failed(shown(path), why) from why
    except ValueError as why:  # a name with a zero byte
        raise Fault(f"{shown(path)}: {why}") from why
    if len(data) > MOST_TEXT and not is_file_form(data, path):
        raise Fault(f"{shown(path)}: over {MOST_TEXT:,} bytes; expected a text of at most {MOST_TEXT:,} bytes "
                    f"or a sheet file of at most {sheet_file.MOST_BYTES:,}")
    return data


def shown(path):
    return "standard input" if path == "-" else plain(path)


def title(path):
    """A short name for a picture: the file's, without folders and ending."""
    return "sheet" if path == "-" else plain(path).rstrip("/").rpartition("/")[2].rsplit(".", 1)[0] or "sheet"


def is_file_form(data, path):
    """Sheet files start with byte 1 or 2, which no text does."""
    return data[:1] in (b"\x01", b"\x02") or path.endswith(".sheet")


def given(path):
    """The sheet that a path names, as a text or as a sheet file."""
    data = read_bytes(path)
    if not is_file_form(data, path):
        sheet, names = text_sheet(data, shown(path))
        return Given(shown(path), title(path), sheet_file.write(sheet), sheet, names)
    data = data[:sheet_file.MOST_BYTES + 1]  # what is longer is refused all the same
    try:
        sheet = sheet_file.read(data)
    except sheet_file.Refused:
        return Given(shown(path), title(path), data, None, None)
    return Given(shown(path), title(path), data, sheet, sheet_text.default_names(sheet))


def text_sheet(data, name):
    """The sheet and the names of a text; a fault shows its line with a mark under the column."""
    try:
        return sheet_text.parse(decode(data))
    except TextError as why:
        raise Fault(f"{name}:{why}" + marked_line(data, why)) from why


def marked_line(data, why):
    """The line of a fault and, below it, a mark at the column. What is not to be printed is shown as one letter, so
    that the mark stands right."""
    lines = data.decode("utf-8", "replace").removeprefix("\ufeff").split("\n")
    line = lines[why.line - 1].rstrip("\r")
    if not line.strip():
        return ""
    start = max(0, why.column - 61)  # of a long line only what is near
    part = "".join(c if c == "\t" or c.isprintable() else "\ufffd" for c in line[start:start + 120])
    before = "".join("\t" if c == "\t" else " " for c in part[:why.column - 1 - start])
    return f"\n    {part}\n    {before}^"
