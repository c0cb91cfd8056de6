"""The C program of examples/, with the library that the tests have."""

import subprocess
import tempfile
import unittest
from pathlib import Path

from stored import ROOT, SHEETS, sweeper


class Example(unittest.TestCase):
    def test_answers_and_numbers_that_lack(self):
        if not sweeper():
            self.skipTest("no library with Sweep")
        with tempfile.TemporaryDirectory() as folder:
            program = Path(folder) / "sweep"
            build = ["cc", "-std=c99", "-Wall", "-Wextra", "-Werror", "-O1", f"-I{ROOT / 'include'}", ROOT / "examples" / "sweep.c",
                     (ROOT / sweeper()).resolve(), "-o", program]
            subprocess.run(build, check=True)
            for words, status, out in ((("a", 3), 0, "0 a run follows the route\n"), (("a", 2), 0, "1 no run follows the route\n"),
                                       (("a", 11), 1, "6 refused: a number outside its range\n"),
                                       (("never",), 0, "1 no run follows the route\n"), (("a",), 2, ""), (("a", 3, 0), 2, ""),
                                       (("week", 100, 180), 2, ""), (("week", 100, 180, 30), 0, "0 a run follows the route\n"),
                                       (("tent", 130, 170, 28), 2, ""),
                                       (("tent", 130, 170, 28, 59), 1, "6 refused: a number outside its range\n"),
                                       (("tent", 130, 170, 28, 60), 0, "0 a run follows the route\n"),
                                       (("tent", 130, 170, 28, 70), 0, "1 no run follows the route\n")):
                name, *numbers = words
                done = subprocess.run([program, SHEETS / f"{name}.sheet", *map(str, numbers)], capture_output=True, check=False,
                                      text=True)
                self.assertEqual((done.returncode, done.stdout), (status, out), (words, done.stderr))
                if status == 2:
                    allowances = {"a": 1, "week": 3, "tent": 4}[name]
                    self.assertIn(f"numbers given: {len(numbers)}; expected one for each allowance: {allowances}", done.stderr)
