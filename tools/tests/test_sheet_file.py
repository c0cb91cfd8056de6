"""The sheet file against the stored vectors of the reader."""

import unittest

import sheet_file
from records import records
from stored import ROOT


def outcome(file):
    """The start of the stored line of a file: its counts, or its refusal."""
    try:
        sheet = sheet_file.read(file)
    except sheet_file.Refused as why:
        return f"{why} "
    counts = len(sheet.ranges), sheet.watches, len(sheet.stages), len(sheet.moves), len(sheet.route)
    return "read " + "".join(f"{count} " for count in counts)


class SheetFile(unittest.TestCase):
    def test_another_version_is_laid_out_as_1(self):
        """The fourth coefficient is no part of a sheet of version 1, and is not written."""
        a = (ROOT / "sheets" / "a.sheet").read_bytes()
        whole = sheet_file.read(a)
        limit = whole.stages[0][0]
        more = whole._replace(stages=((limit._replace(numbers=(*limit.numbers[:4], 7)),), *whole.stages[1:]))
        self.assertEqual(sheet_file.write(more), a)
        self.assertEqual(sheet_file.write(more._replace(version=3)), b"\x03" + a[1:])
        again = sheet_file.write(more._replace(version=2, ranges=whole.ranges * 4))
        self.assertEqual(sheet_file.read(again).stages[0][0].numbers, (0, 1, 0, 0, 7))

    def test_stored_files_are_read_or_refused_as_stored(self):
        folder = ROOT / "crates" / "vectors_sheet"
        files = list(records(folder / "data" / "sheets.bin"))
        lines = (folder / "stdout").read_text(encoding="utf-8").splitlines()
        self.assertEqual(len(files), len(lines))
        for number, (file, line) in enumerate(zip(files, lines), 1):
            self.assertTrue(line.startswith(outcome(file)), f"line {number}: {line} is not {outcome(file)}")
