"""What the tests share: the stored sheets, listings and expected outputs, how those are written, and the programs."""

import os
import shlex
import subprocess
import sys
import tempfile
import unittest
from functools import lru_cache
from pathlib import Path

import bars
import listing
import picture
import programs
import report
import sheet_file
import sheet_text
import svg
from schedule import schedule
from windows import Windows, windows_of
from wording import setting_words

ROOT = Path(__file__).resolve().parents[2]
SHEETS = ROOT / "sheets"
EXPECTED = ROOT / "tools" / "expected"
DOCS = ROOT / "docs"
WINDOWS_RECORDS = ROOT / "crates" / "vectors_windows" / "data" / "windows.bin"
NAMES = sorted(path.stem for path in SHEETS.glob("*.txt"))
WORDS = ("a", "week", "tent")
PICTURES = ("a", "week")
WEEK_SETTING = (100, 180, 30)
REFERENCE = ROOT / "target" / "reference" / "release" / "listing"


# The programs


def lister():
    """The command that prints listings, or nothing."""
    if os.environ.get("LISTING"):
        return shlex.split(os.environ["LISTING"])
    return next(([str(path)] for path in (REFERENCE, programs.LISTING) if path.exists()), None)


def sweeper():
    """The shared library that has Sweep, or nothing. Where LISTING alone is given there is none."""
    if os.environ.get("SWEEP") or os.environ.get("LISTING"):
        return os.environ.get("SWEEP")
    return str(programs.LIBRARY) if programs.LIBRARY.exists() else None


def runner():
    """Windows, by that command."""
    return Windows([str(ROOT / word) if (ROOT / word).exists() else word for word in lister()])


@lru_cache(maxsize=None)
def sweep_function():
    """Sweep, by that library."""
    return programs.loaded_sweep(ROOT / sweeper())


def environment(**more):
    """That of the command in tests: with those programs, so that nothing is built."""
    named = {"LISTING": shlex.join(runner().command)} if lister() else {}
    named.update({"SWEEP": str(ROOT / sweeper())} if sweeper() else {})
    return {**os.environ, **named, **more}


def moyanthu(*words, given=b"", **options):
    """Runs the command with that standard input."""
    command = [sys.executable, str(ROOT / "tools" / "moyanthu"), *(os.fsencode(str(word)) for word in words)]
    return subprocess.run(command, input=given, capture_output=True, check=False, timeout=120,
                          **{"env": environment(), **options})


def said(done):
    """What was said on standard error, without the notes on the programs."""
    lines = done.stderr.decode("utf-8").splitlines()
    return "\n".join(line for line in lines if "(from LISTING)" not in line and "(from SWEEP)" not in line)


class Folder(unittest.TestCase):
    """Tests with a folder of their own and the listing program."""

    def setUp(self):
        if not lister():
            self.skipTest("no program that prints listings")
        folder = tempfile.TemporaryDirectory()
        self.addCleanup(folder.cleanup)
        self.folder = Path(folder.name)


# The sheets


@lru_cache(maxsize=None)
def sheet(name):
    """A stored sheet, from its text, and its names."""
    return sheet_text.parse((SHEETS / f"{name}.txt").read_text(encoding="utf-8"))


@lru_cache(maxsize=None)
def listing_text(name):
    return (EXPECTED / f"{name}.listing").read_text(encoding="utf-8")


@lru_cache(maxsize=None)
def found(name):
    """The stored listing of a stored sheet."""
    return listing.parse(listing_text(name), sheet(name)[0].watches)


@lru_cache(maxsize=None)
def windows(name):
    return windows_of(found(name), sheet(name)[0].ranges)


def fresh_listing(name):
    return programs.windows_output(runner().command, sheet_file.write(sheet(name)[0]))


def drawn(name):
    """The picture of a stored sheet."""
    ranges, names = sheet(name)[0].ranges, sheet(name)[1]
    regions = picture.piece_regions(windows(name), ranges, names)
    return picture.draw(regions, found(name).cut, ranges, names, picture.heading_words(name, found(name), ranges))


def pieces_text(name):
    return "".join(f"{line}\n" for line in report.pieces_lines(windows(name), found(name), sheet(name)[1]))


# What is expected


def outputs():
    """The expected outputs by file name, worked out anew from the stored listings."""
    made = {EXPECTED / f"{name}.windows": pieces_text(name) for name in WORDS}
    made.update({DOCS / f"{name}.svg": svg.text(drawn(name)) for name in PICTURES})
    whole, names = sheet("week")
    heading = f"week at {setting_words(WEEK_SETTING, names)}"
    made[DOCS / "week-schedule.svg"] = svg.text(bars.draw(schedule(whole, WEEK_SETTING), report.moves(whole, names), heading))
    return made


def store():
    """Writes all expected files; gives an exit status."""
    if not lister():
        print(f"no program that prints listings: build {REFERENCE.relative_to(ROOT)}", file=sys.stderr)
        return 1
    for name in NAMES:
        (EXPECTED / f"{name}.listing").write_text(fresh_listing(name), encoding="utf-8")
    for path, text in outputs().items():
        path.write_text(text, encoding="utf-8")
    return 0
