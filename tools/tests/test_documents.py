"""The documents: the commands of the README work in their order, and the keys of the JSON are all described."""

import json
import re
import shutil
import subprocess
import tempfile
import unittest
from pathlib import Path

from stored import DOCS, ROOT, SHEETS, environment, lister, moyanthu, sweeper

BUILDS = ("examples/build", "target/bin/listing", ".ci/run")  # what needs the kit


class Readme(unittest.TestCase):
    def test_commands_in_their_order(self):
        if not lister() or not sweeper():
            self.skipTest("no program that prints listings, or no library with Sweep")
        text = (ROOT / "README.md").read_text(encoding="utf-8")
        commands = [line.strip() for line in re.findall("^    ((?:tools|cp|examples|target|[.]ci)[ /].*)$", text, re.MULTILINE)]
        self.assertTrue(commands[0].startswith("tools/moyanthu windows "))
        self.assertGreater(text.index("target/bin/listing"), text.index(commands[0]))
        with tempfile.TemporaryDirectory() as folder:
            clone = Path(folder)
            (clone / "target").mkdir()
            for part in ("tools", "sheets"):
                shutil.copytree(ROOT / part, clone / part)
            tried = [line for line in commands if not line.startswith(BUILDS)]
            for line in tried:
                done = subprocess.run(["bash", "-c", line], cwd=clone, env=environment(), capture_output=True, check=False, text=True)
                status = 1 if "*.sheet" in line else 0  # some of these sheets have no run
                self.assertEqual(done.returncode, status, (line, done.stderr))
                if "--schedule" in line:
                    self.assertRegex(done.stdout, r"coat-again +180 +240 +25 to 30 ")
            made = {path.name for path in (clone / "target").iterdir()}
            self.assertLessEqual({"week.png", "mine.txt", "mine.sheet", "listings.jsonl"}, made)
        self.assertGreater(len(tried), 7)


class Manual(unittest.TestCase):
    def test_a_standing_limit_on_arrival(self):
        """The sheet of docs/TEXT.md has the runs that are said there."""
        if not lister():
            self.skipTest("no program that prints listings")
        text = (DOCS / "TEXT.md").read_text(encoding="utf-8").partition("## When limits hold")[2].split("```\n")[1]
        found = moyanthu("windows", "--json", given=text.encode("utf-8"))
        self.assertEqual([piece["where"] for piece in json.loads(found.stdout)["pieces"]], [["p ≥ 2"]])
        steps = moyanthu("windows", "--json", "--schedule", "p=5", given=text.encode("utf-8"))
        self.assertEqual(json.loads(steps.stdout)["schedule"][0]["earliest"], {"strict": False, "minutes": 2})
        moved = text.replace("green: since-mixing >= 2", "green\nstage dry").replace("route coat", "route coat, go")
        moved += "move go: green -> dry when since-mixing >= 2\n"
        self.assertEqual(json.loads(moyanthu("windows", "--json", given=moved.encode("utf-8")).stdout)["kept"], 6)


class Schema(unittest.TestCase):
    def keys(self, data):
        """All keys of an answer but those that are the sheet's own names."""
        if isinstance(data, list):
            return set().union(*map(self.keys, data))
        if not isinstance(data, dict):
            return set()
        named = ("setting", "first", "room", "nearest")
        return set(data).union(*(self.keys(value) for key, value in data.items() if key not in named))

    def test_every_key_is_described(self):
        if not lister():
            self.skipTest("no program that prints listings")
        text = (DOCS / "COMMAND.md").read_text(encoding="utf-8")
        questions = [("week.txt",), ("never.txt",), ("a.txt", "--at", "p=3"), ("a.txt", "--at", "p=2"), ("a.txt", "--schedule", "p=3")]
        seen = set()
        for name, *words in questions:
            seen |= self.keys(json.loads(moyanthu("windows", SHEETS / name, *words, "--json").stdout))
        seen |= self.keys(json.loads(moyanthu("windows", "--json", given=b"\x01").stdout))
        self.assertGreater(len(seen), 25)
        for key in seen:
            self.assertRegex(text, f'["`]{key}["`]', key)
