"""The command: its answers and statuses, and what goes wrong with its input and output."""

import ast
import json
import os
import pty
import re
import signal
import subprocess
import sys
import time
import xml.etree.ElementTree as ElementTree

from refused import REFUSED
from stored import EXPECTED, ROOT, SHEETS, Folder, environment, moyanthu, said, sweeper

COMMAND = [sys.executable, str(ROOT / "tools" / "moyanthu")]
REFUSED_7 = REFUSED["at a move"][0]
SETTING = "green=100,hard=180,pot=30"
LOST = """allowance p 0..5
watch w
stage wet: w <= p
stage dry
move cure: wet -> dry when w >= 9
move never: dry -> wet
route cure
"""


GREEN = """watch w
stage mixed: w <= 1
stage green: w >= 2
stage dry
move coat: mixed -> green
move go: green -> dry
route coat, go
"""


class Commands(Folder):
    """Tests of the whole command."""

    def file(self, name, data):
        path = self.folder / name
        path.write_bytes(data if isinstance(data, bytes) else data.encode("utf-8"))
        return path

    def fails(self, status, words, *command, **options):
        """It ends so, says that in a few lines, and prints nothing."""
        done = moyanthu(*command, **options)
        why = said(done)
        self.assertEqual((done.returncode, done.stdout), (status, b""), why)
        self.assertIn(words, why)
        self.assertNotIn("Traceback", why)
        self.assertFalse(set(done.stderr) & set(range(0x20)) - {0x09, 0x0a})
        return why


class Answers(Commands):
    def test_pieces(self):
        for name in ("a", "week", "tent"):
            done = moyanthu("windows", SHEETS / f"{name}.txt")
            self.assertEqual((done.returncode, done.stdout), (0, (EXPECTED / f"{name}.windows").read_bytes()))
        text = (SHEETS / "a.txt").read_bytes()
        self.assertEqual(moyanthu("windows", given=text).stdout, (EXPECTED / "a.windows").read_bytes())
        self.assertEqual(moyanthu("windows", "-", given=(SHEETS / "a.sheet").read_bytes()).stdout.decode("utf-8"),
                         (EXPECTED / "a.windows").read_text(encoding="utf-8").replace("since-mixing", "w1"))

    def test_an_edited_text_has_its_own_listing(self):
        """There is no stored listing that could be shown for it."""
        text = (SHEETS / "a.txt").read_text(encoding="utf-8").replace(">= 3", ">= 7")
        self.assertIn("p ≥ 7", moyanthu("windows", given=text.encode("utf-8")).stdout.decode("utf-8"))
        self.assertEqual(moyanthu("windows", SHEETS / "a.txt", "--listing", EXPECTED / "a.listing").returncode, 3)

    def test_a_setting(self):
        def at(setting):
            done = moyanthu("windows", SHEETS / "a.txt", "--at", setting)
            return done.returncode, done.stdout.decode("utf-8") + said(done)

        self.assertEqual(at("p=3"), (0, "at p = 3\npiece 0: at the end of the route, in minutes\n    since-mixing ≥ 3\n"
                                        "how far each can move, the others as they are, and a run is left\n"
                                        "    p from 3 to 10: 0 down, 7 up\n"))
        self.assertEqual(at("p=2"), (1, "at p = 2\nno piece: no run\nit is lost at the limit since-mixing >= 3 of move 'cure', "
                                        "which leaves stage 'wet' after 0 moves\n"
                                        "one change that gives a run, the others as they are\n    p = 3\n"))
        for setting, words in (("p=11", "p=11 lies outside the range; expected 0 to 10"), ("", "no value for p"),
                               ("q=1", "'q=1'; expected each of p once"), ("p=1,p=2", "'p=2'; expected each of p once"),
                               ("p=x", "'p=x'; expected p= and a whole number"), ("p=1_0", "'p=1_0'; expected p= and a whole"),
                               ("p=٣", "'p=٣'; expected p= and a whole number"), ("p=", "'p='; expected p= and a whole"),
                               ("p=" + "9" * 5000, "expected p= and a whole number"), ("\x1b=1", "'\\x1b=1'; expected")):
            status, text = at(setting)
            self.assertEqual(status, 3)
            self.assertIn(words, text)

    def test_some_settings(self):
        """One after the other, with the highest status."""
        alone = [moyanthu("windows", SHEETS / "a.txt", "--at", setting) for setting in ("p=3", "p=2")]
        both = moyanthu("windows", SHEETS / "a.txt", "--at", "p=3", "--at", "p=2")
        self.assertEqual((both.returncode, both.stdout), (1, b"\n".join(done.stdout for done in alone)))
        data = json.loads(moyanthu("windows", SHEETS / "a.txt", "--at", "p=3", "--at", "p=2", "--json").stdout)
        self.assertEqual([part["piece"] for part in data["at"]], [0, None])
        self.assertEqual(data["at"][1]["nearest"], {"p": [None, 3]})

    def test_the_only_setting(self):
        done = moyanthu("windows", SHEETS / "never.txt", "--at", "")
        self.assertEqual(done.returncode, 1)
        self.assertTrue(done.stdout.decode("utf-8").startswith("at the only setting\nno piece: no run\nit is lost at the limit"))

    def test_no_run_at_all(self):
        done = moyanthu("windows", given=LOST.encode("utf-8"))
        self.assertEqual((done.returncode, done.stdout.decode("utf-8").splitlines()), (1, [
            "0 pieces: 0 settings with a run, 6 without",
            "no setting has a run: the last is lost at the limit w >= 9 of move 'cure', which leaves stage 'wet' after 0 moves"]))

    def test_a_refusal_with_its_limit_and_what_helps(self):
        done = moyanthu("windows", self.file("many.txt", REFUSED_7))
        lines = done.stdout.decode("utf-8").splitlines()
        self.assertEqual(done.returncode, 2)
        self.assertTrue(lines[0].endswith("refused 7 place 3: one limit would list a 33rd piece (after 3 moves of the route)"))
        self.assertEqual(lines[1:], ["met at the limit v >= -32p - 256 of move 'm3', which leaves stage 's3' after 3 moves",
                                     "what helps", "    narrow p to -20..15 (Windows takes that), and try 16..20 as another sheet",
                                     "    or --by-sweep: one Sweep for each of the 41 settings, without pieces",
                                     "    or a single setting, which is not refused: sweep --at, or --schedule"])

    def test_a_refusal_at_a_standing_limit(self):
        for name, words in (("on arrival", "v >= -32p - 256 of stage 's4', on arrival after 4 moves"),
                            ("at the end of a stay", "w <= 2q + 951 of stage 's3', at the end of the stay after 3 moves")):
            done = moyanthu("windows", given=REFUSED[name][0].encode("utf-8"))
            self.assertEqual((done.returncode, done.stdout.decode("utf-8").splitlines()[1]), (2, f"met at the standing limit {words}"))
            met = json.loads(moyanthu("windows", "--json", given=REFUSED[name][0].encode("utf-8")).stdout)["refused"]["met"]
            self.assertEqual((met["visit"], met["when"], met["move"]), (*REFUSED[name][2:4], None))

    def test_lost_on_arrival(self):
        """No wait in the stage makes up for it, and what would is said."""
        after = "    a limit of move 'go', which leaves stage 'green', would hold after the wait only"
        for text, when, lines in (
                (GREEN, "arrival", ["on arrival after 1 move", "standing limits hold on arrival too, before any wait in stage 'green'",
                                    "    a longer stay in stage 'mixed' would let it arrive later", after]),
                (GREEN.replace("-> green", "-> green resets w"), "arrival", [
                    "on arrival after 1 move", "standing limits hold on arrival too, where w is 0: move 'coat' resets it", after]),
                (GREEN.replace("stage mixed: w <= 1\n", "").replace("move coat: mixed -> green\n", "").replace("coat, ", ""), "start", [
                    "at the start", "standing limits hold at the start too, where every watch is 0", after]),
                (GREEN.replace("w >= 2", "w <= -2"), "arrival", ["on arrival after 1 move"])):
            done = moyanthu("windows", given=text.encode("utf-8"))
            told = done.stdout.decode("utf-8").splitlines()[1:]
            limit = "w <= -2" if "w <= -2" in text else "w >= 2"
            self.assertEqual((done.returncode, told), (1, [
                f"no setting has a run: the last is lost at the standing limit {limit} of stage 'green', {lines[0]}", *lines[1:]]))
            lost = json.loads(moyanthu("windows", "--json", given=text.encode("utf-8")).stdout)["lost"]
            self.assertEqual(lost, {"visit": int(when == "arrival"), "when": when, "stage": "green", "move": None, "limit": limit})
            for more in (("--at", ""), ("--schedule", "")):
                self.assertEqual(moyanthu("windows", *more, given=text.encode("utf-8")).stdout.decode("utf-8").splitlines()[2:], [
                    f"it is lost at the standing limit {limit} of stage 'green', {lines[0]}", *lines[1:]])
        done = moyanthu("windows", given=GREEN.replace(", go", "").encode("utf-8"))
        self.assertTrue(done.stdout.decode("utf-8").endswith("would let it arrive later\n"))
        self.assertEqual(moyanthu("windows", given=GREEN.replace("w <= 1", "w <= 2").encode("utf-8")).returncode, 0)

    def test_a_schedule_and_its_picture(self):
        path = self.folder / "s.svg"
        done = moyanthu("windows", SHEETS / "week.txt", "--schedule", SETTING)
        self.assertEqual(done.returncode, 0)
        self.assertIn("coat-again", done.stdout.decode("utf-8"))
        done = moyanthu("windows", SHEETS / "week.txt", "--schedule", SETTING, "--svg", path)
        self.assertEqual((done.returncode, done.stdout), (0, b""))
        texts = [element.text for element in ElementTree.parse(path).getroot().iter("{http://www.w3.org/2000/svg}text")]
        self.assertIn("180 to 240", texts)
        done = moyanthu("windows", SHEETS / "a.txt", "--schedule", "p=2")
        self.assertEqual(done.returncode, 1)
        self.assertIn("it is lost at", done.stdout.decode("utf-8"))

    def test_json(self):
        data = json.loads(moyanthu("windows", SHEETS / "a.txt", "--json").stdout)
        self.assertEqual(data, {
            "sheet": str(SHEETS / "a.txt"), "allowances": [{"name": "p", "lowest": 0, "highest": 10}], "watches": ["since-mixing"],
            "warnings": [], "kept": 8, "cut": 3, "groups": [[0]], "status": 0, "pieces": [{
                "settings": 8, "first": {"p": 3}, "where": ["p ≥ 3"], "simplified": [[-3, 1, 0, 0, 0]],
                "inequalities": [[-3, 1, 0, 0, 0]],
                "bounds": [[{"strict": False, "numbers": [0, 0, 0, 0, 0]}, {"strict": False, "numbers": [-3, 0, 0, 0, 0]}],
                           [None, {"strict": False, "numbers": [0, 0, 0, 0, 0]}]]}]})
        firsts = {name: [piece["first"] for piece in json.loads(moyanthu("windows", SHEETS / f"{name}.txt", "--json").stdout)["pieces"]]
                  for name in ("week", "tent", "no-limits", "never")}
        self.assertEqual(firsts["week"][1], {"green": 151, "hard": 189, "pot": 38})
        self.assertEqual(firsts["tent"][0], {"green": 134, "hard": 165, "pot": 31, "tent": 60})
        self.assertEqual((firsts["no-limits"], firsts["never"]), ([{}], []))
        data = json.loads(moyanthu("windows", SHEETS / "week.txt", "--json", "--at", SETTING).stdout)
        self.assertEqual((data["at"][0]["piece"], data["at"][0]["room"]["green"]), (9, [90, 153]))
        data = json.loads(moyanthu("windows", SHEETS / "a.txt", "--json", "--schedule", "p=5").stdout)
        self.assertEqual(data["schedule"][0]["latest"], {"strict": False, "minutes": 5})
        self.assertEqual(data["schedule"][1], {"move": None, "leaves": "faired", "earliest": {"strict": False, "minutes": 3},
                                               "latest": None, "shortest": {"strict": False, "minutes": 0}, "longest": None})

    def test_warnings(self):
        text = LOST.replace("allowance p", "allowance q 1..2\nallowance p").replace("stage dry", "stage dry\nstage far")
        for command in ("check", "windows"):
            self.assertEqual(said(moyanthu(command, given=text.encode("utf-8"))).splitlines(), [
                "standard input: warning: allowance 'q' is in no limit of the route",
                "standard input: warning: move 'never' is not on the route",
                "standard input: warning: stage 'far' is not reached by the route"])
        self.assertEqual(said(moyanthu("check", SHEETS / "week.txt")), "")

    def test_a_standing_limit_that_fails_at_every_setting(self):
        """Where its watch is 0: at the start, or since the move resets it; said once, though the route comes there twice."""
        def warnings(limit, more=""):
            text = f"allowance p 0..5\nwatch w\nstage a{more}\nstage b: {limit}\nmove m: a -> b resets w\nmove n: b -> a\nroute m, n, m\n"
            return [line.partition(": warning: ")[2] for line in said(moyanthu("check", given=text.encode("utf-8"))).splitlines()]

        for limit in ("w >= p + 1", "w > p", "w < p - 5", "w <= p - 6"):
            self.assertEqual(warnings(limit), [f"standing limit {limit} of stage 'b' fails when move 'm' arrives: w is 0"])
        for limit in ("w >= p", "w > p - 1", "w < p - 4", "w <= p - 5"):
            self.assertEqual(warnings(limit), [])
        self.assertEqual(warnings("w <= p", ": w >= 2"), ["standing limit w >= 2 of stage 'a' fails at the start: w is 0"])

    def test_help_and_version(self):
        self.assertRegex(moyanthu("--version").stdout, rb"^moyanthu [0-9.]+\n$")
        for words in ((), ("windows",), ("sweep",), ("check",), ("build",), ("text",)):
            done = moyanthu(*words, "--help")
            self.assertEqual(done.returncode, 0)
            for wanted in (b"examples\n", b"exit status: 0 an answer; 1 no run", b"tools/moyanthu windows sheets/week.txt --at"):
                self.assertIn(wanted, done.stdout)


class Use(Commands):
    def test_bad_use(self):
        self.fails(3, "required")
        self.fails(3, "invalid choice", "window", SHEETS / "a.txt")
        self.fails(3, "unrecognized arguments: --jsn", "windows", SHEETS / "a.txt", "--jsn")
        self.fails(3, "'0'; expected a number from 1 to 999", "windows", SHEETS / "a.txt", "--jobs", "0")
        self.fails(3, "not allowed with argument", "windows", SHEETS / "a.txt", "--at", "p=3", "--schedule", "p=3")
        self.fails(3, "several sheets are listed with --json", "windows", SHEETS / "a.txt", SHEETS / "a.sheet")
        self.fails(3, "standard input is one of several sheets", "windows", SHEETS / "a.txt", "-", "--json")
        self.fails(3, "a text already; expected a sheet file", "text", SHEETS / "a.txt")
        self.fails(3, "both go to standard output", "windows", SHEETS / "a.txt", "--json", "--svg", "-")
        if sweeper():
            self.fails(3, "no value for p", "sweep", SHEETS / "a.txt")

    def test_python_3_9_can_read_it(self):
        paths = [*(ROOT / "tools").rglob("*.py"), *(ROOT / "tools" / name for name in ("moyanthu", "prove", "test"))]
        for path in paths:
            ast.parse(path.read_text(encoding="utf-8"), feature_version=(3, 9))

    def test_a_terminal_is_not_waited_for(self):
        ours, theirs = pty.openpty()
        try:
            done = subprocess.run([*COMMAND, "windows"], stdin=theirs, capture_output=True, check=False, timeout=60,
                                  env=environment())
        finally:
            os.close(ours)
            os.close(theirs)
        self.assertEqual(done.returncode, 3)
        self.assertIn(b"standard input is a terminal", done.stderr)


class InputAndOutput(Commands):
    def shell(self, script, *words):
        """The command by a shell script, as "$@"."""
        return subprocess.run(["bash", "-c", script, "bash", *COMMAND, *map(str, words)], stdin=subprocess.DEVNULL,
                              capture_output=True, check=False, timeout=60, env=environment())

    def ended(self, done, status, words):
        self.assertEqual(done.returncode, status, done.stderr)
        self.assertIn(words, done.stderr.decode("utf-8"))
        self.assertNotIn(b"Traceback", done.stderr)
        self.assertNotIn(b"Exception", done.stderr)

    def test_files_that_cannot_be_read(self):
        self.fails(4, f"{self.folder}/none: No such file", "windows", self.folder / "none")
        self.fails(4, f"{self.folder}: Is a directory", "check", self.folder)
        self.fails(3, "/dev/zero: over 1,048,576 bytes; expected a text of at most", "windows", "/dev/zero")
        self.fails(3, "/dev/zero: over 1,048,576 bytes", "build", "/dev/zero")
        long = self.file("long.sheet", (SHEETS / "a.sheet").read_bytes() + bytes(3 << 20))
        self.assertEqual(moyanthu("windows", long).returncode, 2)

    def test_a_name_that_is_not_utf_8(self):
        path = os.fsencode(self.folder) + b"/caf\xe9.txt"
        with open(path, "wb") as file:
            file.write((SHEETS / "a.txt").read_bytes())
        done = moyanthu("check", os.fsdecode(path))
        self.assertEqual(done.returncode, 0)
        self.assertIn(b"caf\\xe9.txt: a good sheet", done.stdout)
        picture = self.folder / "x.svg"
        self.assertEqual(moyanthu("windows", os.fsdecode(path), "--svg", picture).returncode, 0)
        self.assertIn("caf\\xe9: 1 piece", picture.read_text(encoding="utf-8"))
        self.assertEqual(json.loads(moyanthu("windows", os.fsdecode(path), "--json").stdout)["sheet"][-8:], "\\xe9.txt")
        self.fails(4, "no\\xff.txt: No such file", "windows", os.fsdecode(b"no\xff.txt"))

    def test_an_escape_in_a_name(self):
        path = self.file("\x1b[31mred.txt", (SHEETS / "a.txt").read_bytes())
        done = moyanthu("windows", path, "--svg", "-")
        self.assertEqual(done.returncode, 0)
        self.assertIn("\\x1b[31mred: 1 piece", ElementTree.fromstring(done.stdout)[0].text)
        self.assertNotIn(b"\x1b", moyanthu("check", path).stdout)

    def test_a_long_name_in_a_picture(self):
        text = (SHEETS / "a.txt").read_text(encoding="utf-8").replace("allowance p", "allowance " + "p" * 20_000)
        self.fails(3, "has 20,000 letters; expected at most 60", "windows", "--png", self.folder / "a.png", given=text.encode())
        text = (SHEETS / "a.txt").read_text(encoding="utf-8").replace(" p", " " + "p" * 60)
        path = self.file("n" * 200 + ".txt", text)
        self.assertEqual(moyanthu("windows", path, "--png", self.folder / "a.png").returncode, 0)
        width = int.from_bytes((self.folder / "a.png").read_bytes()[16:20], "big")
        self.assertLess(width, 2400)

    def test_closed_streams(self):
        self.ended(self.shell('"$@" <&-', "windows"), 4, "standard input is closed")
        self.ended(self.shell('"$@" <&-', "check", SHEETS / "a.txt"), 0, "")
        for words in (("windows", SHEETS / "a.txt"), ("check", SHEETS / "a.txt"), ("build", SHEETS / "a.txt"), ("--help",)):
            self.ended(self.shell('"$@" >&-', *words), 4, "standard output is closed")
        path = self.folder / "a.sheet"
        self.ended(self.shell('"$@" <&- >&- 2>&-', "build", SHEETS / "a.txt", "-o", path), 0, "")
        self.assertEqual(path.read_bytes(), (SHEETS / "a.sheet").read_bytes())
        self.assertEqual(self.shell('"$@" 2>&-', "windows", SHEETS / "none").returncode, 4)

    def test_a_full_device(self):
        for words in (("windows", SHEETS / "a.txt"), ("windows", SHEETS / "a.txt", SHEETS / "a.sheet", "--json"),
                      ("check", SHEETS / "a.txt"), ("text", SHEETS / "a.sheet"), ("windows", "--help"), ("--version",),
                      ("windows", SHEETS / "a.txt", "--svg", "-")):
            self.ended(self.shell('"$@" > /dev/full', *words), 4, "standard output: No space left on device")
        self.ended(self.shell('"$@"', "build", SHEETS / "a.txt", "-o", "/dev/full"), 4, "/dev/full: No space left")

    def test_a_broken_pipe(self):
        for words in (("windows", SHEETS / "week.txt"), ("windows", *[SHEETS / "week.txt"] * 3, "--json", "--jobs", "2"),
                      ("windows", SHEETS / "week.txt", "--png", "-"), ("--help",)):
            done = self.shell('"$@" | true; exit ${PIPESTATUS[0]}', *words)
            self.assertIn(done.returncode, (0, 4))  # 0 where all was written before the reader ended
            self.assertNotIn(b"Traceback", done.stderr)
        done = self.shell('{ sleep 0.5; "$@"; } | true; exit ${PIPESTATUS[0]}', "windows", SHEETS / "week.txt")
        self.ended(done, 4, "standard output: Broken pipe")

    def test_ctrl_c(self):
        """Also with workers, which leave no word of their own."""
        started = self.folder / "started"
        slow = self.file("slow", f"#!/bin/sh\n: > {started}\nsleep 60\n")
        slow.chmod(0o755)
        for words in (("windows", SHEETS / "a.txt"), ("windows", *[SHEETS / "a.txt"] * 4, "--json", "--jobs", "2")):
            process = subprocess.Popen([*COMMAND, *map(str, words)], stdin=subprocess.DEVNULL, stdout=subprocess.PIPE,
                                       stderr=subprocess.PIPE, env=environment(LISTING=str(slow)), start_new_session=True)
            end = time.monotonic() + 50
            while not started.exists() and time.monotonic() < end:
                time.sleep(0.05)
            started.unlink()
            os.killpg(process.pid, signal.SIGINT)
            out, why = process.communicate(timeout=60)
            self.assertEqual((process.returncode, out), (130, b""), why)
            self.assertTrue(why.endswith(b"\nstopped\n"), why)
            self.assertNotIn(b"Traceback", why)

    def test_output_is_whole_or_not_there(self):
        """Also that of build: what was there stays, and nothing is left beside it."""
        old = self.file("a.sheet", b"old")
        done = self.shell('ulimit -f 0; trap "" XFSZ; "$@"', "build", SHEETS / "a.txt", "-o", old)
        self.ended(done, 4, f"{old}: File too large")
        self.assertEqual((old.read_bytes(), list(self.folder.iterdir())), (b"old", [old]))
        self.fails(4, "none/a.sheet: No such file", "build", SHEETS / "a.txt", "-o", self.folder / "none" / "a.sheet")
        self.assertEqual(moyanthu("build", SHEETS / "a.txt", "-o", old).returncode, 0)
        self.assertEqual(old.read_bytes(), (SHEETS / "a.sheet").read_bytes())

    def test_a_program_that_fails(self):
        for script, words in (("exit 3", "status 3; it printed nothing"), ("echo listing: read: bad >&2", "listing: read: bad"),
                              ("echo pieces 1 kept 1 cut 0", "line 2: the listing ends"), ("printf '\\033[31m'", "\\x1b[31m"),
                              (f"echo refused {'7' * 5000} place 0", "line 1: found 'refused 7777"),
                              ("echo pieces 0 kept 0 cut 5", "expected 11 in all"),
                              (f"sed 's/first 3/first 2/' {EXPECTED / 'a.listing'}", "(2, 0, 0, 0) is the first setting of piece 0")):
            program = self.file("program", f"#!/bin/sh\ncat > /dev/null\n{script}\n")
            program.chmod(0o755)
            self.fails(4, words, "windows", SHEETS / "a.txt", env=environment(LISTING=str(program)))
        program.write_text("#!/bin/sh\ncat > /dev/null\necho refused 7 place 0\n", encoding="utf-8")
        self.fails(4, "refuses a single setting with 7 place 0", "windows", SHEETS / "a.txt", "--schedule", "p=3",
                   env=environment(LISTING=str(program)))
        self.fails(4, "none: No such file", "windows", SHEETS / "a.txt", env=environment(LISTING=str(self.folder / "none")))
        self.fails(4, "none.so", "sweep", SHEETS / "a.txt", "--at", "p=3", env=environment(SWEEP=str(self.folder / "none.so")))


class Many(Commands):
    def test_a_line_for_each_in_order(self):
        bad, short = self.file("bad.txt", "watch w\n"), self.file("short.sheet", b"\x01")
        paths = [SHEETS / "week.txt", self.folder / "none", bad, short, self.file("many.txt", REFUSED_7), SHEETS / "never.txt",
                 SHEETS / "a.sheet"]
        outputs = []
        for jobs in ("1", "3"):
            done = moyanthu("windows", *paths, "--json", "--jobs", jobs)
            lines = [json.loads(line) for line in done.stdout.splitlines()]
            self.assertEqual([line["sheet"] for line in lines], [str(path) for path in paths])
            self.assertEqual([line["status"] for line in lines], [0, 4, 3, 2, 2, 1, 0])
            self.assertEqual(done.returncode, 4)
            self.assertIn("windows: 7 of 7 sheets, ", said(done))
            outputs.append(done.stdout)
        self.assertEqual(*outputs)
        self.assertIn(":2:1: the text ends without a stage", lines[2]["error"])
        self.assertEqual(lines[3]["refused"], {"number": 2, "place": 0, "meaning": "the file has under 22 or over 4,096 bytes"})
        self.assertEqual(lines[4]["refused"]["met"], {"visit": 3, "when": "move", "stage": "s3", "move": "m3",
                                                      "limit": "v >= -32p - 256"})
        self.assertEqual(lines[5]["lost"]["limit"], "since-coat > 0")


class Sweeps(Commands):
    def setUp(self):
        super().setUp()
        if not sweeper():
            self.skipTest("no library with Sweep")

    def test_both_agree(self):
        done = moyanthu("sweep", SHEETS / "a.txt", "--at", "p=3")
        self.assertEqual((done.returncode, done.stdout.decode("utf-8").splitlines()), (0, [
            "at p = 3", "Sweep: a run follows the route", "Windows: piece 0 holds it; the two agree",
            "the matrix of piece 0 with the setting put in: at the end of the route, in minutes", "    since-mixing ≥ 3"]))
        done = moyanthu("sweep", SHEETS / "a.txt", "--at", "p=2", "--json")
        data = json.loads(done.stdout)
        self.assertEqual((done.returncode, data["run"], data["agree"], data["piece"], data["bounds"]), (1, False, True, None, None))
        self.assertEqual(data["lost"]["limit"], "since-mixing >= 3")
        self.fails(3, "p=11 lies outside", "sweep", SHEETS / "a.txt", "--at", "p=11")

    def test_a_sheet_that_windows_refuses(self):
        done = moyanthu("sweep", self.file("many.txt", REFUSED_7), "--at", "p=3")
        self.assertEqual(done.returncode, 0, said(done))
        self.assertIn("Windows: refuses the whole sheet (refused 7 place 3)", done.stdout.decode("utf-8"))
        self.assertEqual(moyanthu("sweep", self.file("short.sheet", b"\x01"), "--at", "p=3").returncode, 2)

    def test_four_allowances(self):
        for tent, status, words in ((60, 0, "Windows: piece 1 holds it"), (70, 1, "Windows: no piece holds it")):
            done = moyanthu("sweep", SHEETS / "tent.txt", "--at", f"green=133,hard=170,pot=28,tent={tent}")
            self.assertEqual(done.returncode, status, said(done))
            self.assertIn(f"{words}; the two agree", done.stdout.decode("utf-8"))

    def test_by_sweep(self):
        path = self.folder / "a.png"
        for name in ("a", "p-then-q", "never", "minus-two-p", "tent"):
            done = moyanthu("windows", SHEETS / f"{name}.txt", "--by-sweep", "--json", "--png", path)
            both = [json.loads(text) for text in (done.stdout, moyanthu("windows", SHEETS / f"{name}.txt", "--json").stdout)]
            self.assertEqual(*([data[key] for key in ("kept", "cut", "status")] for data in both), name)
            self.assertTrue(path.read_bytes().startswith(b"\x89PNG"))
        done = moyanthu("windows", self.file("many.txt", REFUSED_7), "--by-sweep")
        self.assertEqual(done.returncode, 0)
        self.assertRegex(done.stdout.decode("utf-8"), re.compile(r"by one Sweep for each setting: \d+ settings with a run, \d+ without"))
