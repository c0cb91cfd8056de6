"""How the programs are built: by a stand-in for rt, in a copy of the repository's head that has three crates."""

import contextlib
import os
import shutil
import signal
import subprocess
import sys
import tempfile
import time
import unittest
import unittest.mock
from pathlib import Path

import programs
from progress import Progress, duration
from stored import ROOT

RT = """#!/bin/sh
echo "$@" >> "$TRIED"
[ -n "$SLOW" ] && sleep "$SLOW"
echo 'rt: chose --jobs 2 for expr'
[ -n "$FAIL" ] && { echo 'fn expr::sum: not proved'; echo 'logic=not-proved'; exit 1; }
echo 'fn expr::sum: proved'
echo 'crate expr: modules loaded=1 checked=2'
echo 'logic=proved functions=1 native=nat'
echo 'crate listing: modules loaded=1 checked=2'
echo 'logic=proved functions=1 native=nat'
mkdir -p out
printf '#!/bin/sh\\ncat > /dev/null\\necho pieces 0 kept 0 cut 11\\n' > out/listing
chmod +x out/listing
"""


class Build(unittest.TestCase):
    def setUp(self):
        folder = tempfile.TemporaryDirectory()
        self.addCleanup(folder.cleanup)
        self.root = Path(folder.name) / "clone"
        (self.root / "tools").mkdir(parents=True)
        shutil.copytree(ROOT / "tools" / "lib", self.root / "tools" / "lib")
        for tool in ("moyanthu", "prove"):
            shutil.copy(ROOT / "tools" / tool, self.root / "tools")
        for crate in ("integer", "expr", "listing", "other"):
            (self.root / "crates" / crate / "src").mkdir(parents=True)
            (self.root / "crates" / crate / "src" / "lib.rt").write_text(f"// {crate}\n", encoding="utf-8")
        (self.root / "crates.txt").write_text("# the crates\ninteger:\nexpr: integer\nother:\nlisting: expr io\n", encoding="utf-8")
        self.path, self.tried = self.root.parent / "bin", self.root.parent / "tried"
        self.path.mkdir()
        self.tried.write_text("", encoding="utf-8")
        (self.path / "rt").write_text(RT, encoding="utf-8")
        (self.path / "rt").chmod(0o755)

    def started(self, tool, *words, **more):
        """The tool of the copy, at work."""
        variables = {key: word for key, word in os.environ.items() if key not in ("LISTING", "SWEEP")}
        variables.update(PATH=f"{self.path}:/usr/bin:/bin", TRIED=str(self.tried), **more)
        return subprocess.Popen([sys.executable, self.root / "tools" / tool, *words], stdin=subprocess.DEVNULL, env=variables,
                                stdout=subprocess.PIPE, stderr=subprocess.PIPE, text=True, start_new_session=True)

    def run_tool(self, tool, *words, **more):
        process = self.started(tool, *words, **more)
        out, error = process.communicate(timeout=60)
        return subprocess.CompletedProcess(process.args, process.returncode, out, error)

    def tries(self):
        """How often rt was started."""
        return len(self.tried.read_text(encoding="utf-8").splitlines())

    def windows(self, **more):
        done = self.run_tool("moyanthu", "windows", ROOT / "sheets" / "a.txt", **more)
        return done, self.tries()

    def test_once_and_again_when_a_crate_has_changed(self):
        done, count = self.windows()
        self.assertEqual((done.returncode, count), (1, 1), done.stderr)
        self.assertIn("0 pieces", done.stdout)
        self.assertIn("rt run listing: proves 3 crates, some minutes the first time", done.stderr)
        self.assertIn("rt run listing: 1 of 3 (expr), ", done.stderr)
        self.assertIn("rt run listing: 2 of 3 (listing), ", done.stderr)
        done, count = self.windows()
        self.assertEqual((done.returncode, count, done.stderr), (1, 1, ""))
        other = self.root / "crates" / "other" / "src" / "lib.rt"
        other.write_text("// nothing that Windows needs\n", encoding="utf-8")
        self.assertEqual(self.windows()[1], 1)
        (self.root / "crates" / "expr" / "src" / "lib.rt").write_text("// changed\n", encoding="utf-8")
        self.assertEqual(self.windows()[1], 2)
        (self.root / "target" / "bin" / "listing").write_text("#!/bin/sh\necho refused 2 place 0\n", encoding="utf-8")
        done, count = self.windows()
        self.assertEqual((done.returncode, count), (1, 3))

    def test_nothing_is_built_for_a_question_that_is_wrong(self):
        for words in (("windows", ROOT / "none"), ("windows", ROOT / "sheets" / "a.txt", "--at", "p=99"), ("windows", ROOT / "README.md"),
                      ("sweep", ROOT / "sheets" / "a.txt", "--at", "p=99"), ("check", ROOT / "sheets" / "a.txt"), ("--help",)):
            self.run_tool("moyanthu", *words)
        self.assertEqual(self.tries(), 0)

    def test_what_fails(self):
        done, _ = self.windows(FAIL="1")
        self.assertEqual((done.returncode, done.stdout), (4, ""))
        self.assertIn("rt run listing: status 1", done.stderr)
        self.assertIn("fn expr::sum: not proved", done.stderr)
        (self.path / "rt").unlink()
        done, _ = self.windows()
        self.assertEqual(done.returncode, 4)
        self.assertIn("rt is not on the path: it is the command of the Rattle kit", done.stderr)

    def test_two_at_a_time_build_once(self):
        both = [self.started("moyanthu", "windows", ROOT / "sheets" / "a.txt", SLOW="1") for _ in range(2)]
        for process in both:
            out, error = process.communicate(timeout=60)
            self.assertEqual(process.returncode, 1, error)
            self.assertIn("0 pieces", out)
        self.assertEqual(self.tries(), 1)

    def test_ctrl_c(self):
        process = self.started("moyanthu", "windows", ROOT / "sheets" / "a.txt", SLOW="60")
        end = time.monotonic() + 50
        while not self.tries() and time.monotonic() < end:
            time.sleep(0.05)
        os.kill(process.pid, signal.SIGINT)
        out, error = process.communicate(timeout=50)
        self.assertEqual((process.returncode, out), (130, ""), error)
        self.assertTrue(error.endswith("\nstopped\n"), error)
        with contextlib.suppress(ProcessLookupError):
            os.killpg(process.pid, signal.SIGKILL)  # what the stand-in has left

    def test_prove_alone(self):
        done = self.run_tool("prove", "run", "listing")
        self.assertEqual(done.returncode, 0, done.stderr)
        self.assertIn("2 of 3 (listing)", done.stderr)
        self.assertEqual(self.run_tool("prove", "listing").returncode, 3)

    def test_after_rt_ci(self):
        """The program that rt ci has left is taken as it is."""
        left = self.root / "crates" / "listing" / "out" / "listing"
        left.parent.mkdir()
        left.write_text("#!/bin/sh\ncat > /dev/null\necho pieces 0 kept 0 cut 11\n", encoding="utf-8")
        left.chmod(0o755)
        done = self.run_tool("prove", "run", "listing", "--from-ci")
        self.assertEqual((done.returncode, self.tries()), (0, 0), done.stderr)
        done, count = self.windows()
        self.assertEqual((done.returncode, count), (1, 0), done.stderr)
        self.assertIn("0 pieces", done.stdout)


class Lines(unittest.TestCase):
    def test_on_a_terminal_and_elsewhere(self):
        for terminal, said in ((True, ["\r\x1b[K[#####...............] Sweep: 1,000 of 4,000 settings, 0 s", "\r\x1b[K"]),
                               (False, ["Sweep: 1,000 of 4,000 settings, 0 s\n"])):
            with unittest.mock.patch("progress.print_error") as printed:
                progress = Progress("Sweep", 4000)
                progress.terminal = terminal
                progress.say(1000, " settings")
                progress.step(1001, " settings")  # too soon to be said
                progress.close()
            self.assertEqual([call.args[0] for call in printed.call_args_list], said)
        self.assertEqual([duration(seconds) for seconds in (0.9, 59, 60, 125)], ["0 s", "59 s", "1 min 0 s", "2 min 5 s"])


class Scripts(unittest.TestCase):
    def test_no_script_proves_without_a_word(self):
        for name in ("examples/build", "bench/run", "harness/run"):
            lines = [line for line in (ROOT / name).read_text(encoding="utf-8").splitlines() if not line.startswith("#")]
            self.assertTrue(any("tools/prove " in line for line in lines), name)
            self.assertFalse(any("rt run" in line or "rt lib" in line for line in lines), name)


class Needed(unittest.TestCase):
    def test_crates(self):
        self.assertLessEqual({"listing", "windows", "expr", "integer"}, programs.needed("listing"))
        self.assertNotIn("sweep", programs.needed("listing"))
        self.assertIn("sweep", programs.needed("sweep_c"))
        self.assertNotIn("io", programs.needed("listing"))
