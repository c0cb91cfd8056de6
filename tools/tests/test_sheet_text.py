"""The text form: round trips, the forms that are accepted, and what is said of wrong texts."""

import random
import re
import tempfile
import unittest
from pathlib import Path

import sheet_file
import sheet_text
from records import records
from sheet_file import Limit
from stored import DOCS, NAMES, ROOT, SHEETS, WINDOWS_RECORDS, moyanthu, sheet
from tokens import TextError, decode

# the stored records of Windows that are the paper's rows, by their place among the records
PAPER_ROWS = {0: "a", 1: "a-strict", 2: "p-then-q", 3: "q-then-p", 4: "no-limits", 5: "below-zero", 6: "from-minus-p",
              7: "minus-two-p", 8: "two-p", 9: "at-once", 10: "never", 12: "a-widest", 14: "a-longest"}


def rebuilt(file):
    """A file made text and back; raises a refusal if it is not readable."""
    return sheet_file.write(sheet_text.parse(sheet_text.write(sheet_file.read(file)))[0])


class RoundTrips(unittest.TestCase):
    def test_both_forms_of_every_sheet(self):
        self.assertEqual(NAMES, sorted(path.stem for path in SHEETS.glob("*.sheet")))
        for name in NAMES:
            file = (SHEETS / f"{name}.sheet").read_bytes()
            self.assertEqual(sheet_file.write(sheet(name)[0]), file, name)
            self.assertEqual(rebuilt(file), file, name)

    def test_names_are_kept(self):
        for name in NAMES:
            self.assertEqual(sheet_text.parse(sheet_text.write(*sheet(name))), sheet(name), name)

    def test_paper_rows_are_the_stored_records(self):
        files = list(records(WINDOWS_RECORDS, 1))
        for place, name in PAPER_ROWS.items():
            self.assertEqual((SHEETS / f"{name}.sheet").read_bytes(), files[place], name)

    def test_every_readable_stored_sheet(self):
        """All records of Windows, and every fourth of the reader's, of which many are damaged."""
        files = [*records(WINDOWS_RECORDS, 1), *list(records(ROOT / "crates" / "vectors_sheet" / "data" / "sheets.bin"))[::4]]
        readable = 0
        for number, file in enumerate(files):
            try:
                self.assertEqual(rebuilt(file), file, f"record {number}")
                readable += 1
            except sheet_file.Refused:
                pass
        self.assertGreater(readable, 3000)


def limit(text):
    """The only limit of a stage, with allowances p, q and watches v, w."""
    whole, _ = sheet_text.parse(f"allowance p 0..5\nallowance q 0..5\nwatch v\nwatch w\nstage s: {text}\nroute\n")
    return whole.stages[0][0]


class Accepted(unittest.TestCase):
    def test_limits(self):
        self.assertEqual(limit("v <= p"), Limit(1, 0, False, (0, 1, 0, 0, 0)))
        self.assertEqual(limit("w ≤ 2p + 5"), Limit(2, 0, False, (5, 2, 0, 0, 0)))
        self.assertEqual(limit("v < -1000"), Limit(1, 0, True, (-1000, 0, 0, 0, 0)))
        self.assertEqual(limit("v >= 3"), Limit(0, 1, False, (-3, 0, 0, 0, 0)))
        self.assertEqual(limit("v ≥ q - 1"), Limit(0, 1, False, (1, 0, -1, 0, 0)))
        self.assertEqual(limit("w > -2*q - 3 * p + 1000"), Limit(0, 2, True, (-1000, 3, 2, 0, 0)))
        self.assertEqual(limit("w>0"), Limit(0, 2, True, (0, 0, 0, 0, 0)))
        self.assertEqual(limit("v<=+p+p+1-4"), Limit(1, 0, False, (-3, 2, 0, 0, 0)))
        self.assertEqual(limit("v <= 00000000005"), Limit(1, 0, False, (5, 0, 0, 0, 0)))

    def test_order_of_lines_is_free(self):
        mixed = "route m\nmove m:b->a when w>=p resets w\nstage b\nwatch w\nstage a:w<p\nallowance p -3..-1\n"
        whole, names = sheet_text.parse(mixed)
        self.assertEqual(names, (("p",), ("w",), ("b", "a"), ("m",)))
        self.assertEqual(whole.moves[0], (0, 1, (1,), (Limit(0, 1, False, (0, -1, 0, 0, 0)),)))
        self.assertEqual(whole.ranges, ((-3, -1),))

    def test_line_ends_comments_and_letters(self):
        data = "\ufeff# with a mark of byte order\r\n\r\n\twatch härtet_2-a # ß\r\nstage s\r\nroute # none".encode("utf-8")
        whole, names = sheet_text.parse(decode(data))
        self.assertEqual((names.watch, whole.route), (("härtet_2-a",), ()))

    def test_line_that_ends_in_a_comma_goes_on(self):
        whole, _ = sheet_text.parse("watch w\nstage s\nmove m: s -> s\nroute m, # one\n\n  # two\n  m,\nm\n")
        self.assertEqual(whole.route, (0, 0, 0))

    def test_resets_are_a_set(self):
        whole, _ = sheet_text.parse("watch v\nwatch w\nstage s\nmove m: s -> s resets w, v\nroute\n")
        self.assertEqual(whole.moves[0].resets, (1, 2))

    def test_versions(self):
        """Without a line it is 1. The line may stand anywhere; the fourth coefficient comes last."""
        for text, version in (("", 1), ("version 1\n", 1), ("version 2\n", 2)):
            whole, names = sheet_text.parse(f"watch w\nstage s\n{text}route\n")
            self.assertEqual((whole.version, whole.ranges, names.allowance), (version, (), ()))
        whole, names = sheet_text.parse(ALLOWANCES + "watch w\nstage a: w <= 4s - 3r + 2q - p + 9\nroute\nversion 2\n")
        self.assertEqual((whole.version, names.allowance), (2, ("p", "q", "r", "s")))
        self.assertEqual(whole.stages[0], (Limit(1, 0, False, (9, -1, 2, -3, 4)),))
        self.assertTrue(sheet_text.write(whole).startswith("version 2\n\nallowance p 0..1\n"))
        self.assertEqual(sheet_text.parse(FOUR.format(0))[0].ranges[3], (0, 0))
        one, two = (sheet_text.parse(f"version {k}\nallowance p 0..1\nwatch w\nstage a: w <= p\nroute\n")[0] for k in (1, 2))
        self.assertEqual(one, two._replace(version=1))
        self.assertEqual(len(sheet_file.write(two)), len(sheet_file.write(one)) + 2)
        self.assertTrue(sheet_text.write(one).startswith("allowance p 0..1\n"))

    def test_the_manual(self):
        """Each block of the manual is a good sheet."""
        blocks = re.findall(r"```\n(.*?)```", (DOCS / "TEXT.md").read_text(encoding="utf-8"), re.DOTALL)
        self.assertGreaterEqual(len(blocks), 1)
        for block in blocks:
            sheet_text.parse(block)


ALLOWANCES = "allowance p 0..1\nallowance q 0..1\nallowance r 0..1\nallowance s 0..1\n"
FOUR = "version 2\nwatch w\nallowance p 0..63\nallowance q -3..60\nallowance r 900..963\nallowance s 0..{}\nstage a\nroute\n"
HEAD = "allowance p 0..10\nwatch v\nwatch w\nstage a\nstage b\n"  # lines 1 to 5
# a text, the line and column of the fault, and words of the message
WRONG = [
    # lines and names
    ("", 1, 1, "without a watch"),
    ("watch w\n", 2, 1, "without a stage"),
    ("watch w\nstage s", 2, 8, "without a route"),
    (HEAD + "root\n", 6, 1, "found 'root'; expected a line that starts with version, allowance, watch, stage, move, route"),
    (HEAD + "  5\n", 6, 3, "found '5'; expected a line that starts with"),
    (HEAD + "when v\n", 6, 1, "found 'when'; expected a line that starts with"),
    (HEAD + "route\nroute\n", 7, 1, "a second route"),
    (HEAD + "stage a@\n", 6, 8, "'@' has no meaning here"),
    (HEAD + "stage x²\n", 6, 7, "expected a name of letters"),
    (HEAD + "watch\n", 6, 6, "the line ends; expected a name for this watch"),
    (HEAD + "watch 2v\n", 6, 7, "found '2'; expected a name for this watch"),
    (HEAD + "stage when\n", 6, 7, "found 'when'; expected a name for this stage"),
    (HEAD + "stage a\n", 6, 7, "'a' is taken by another stage"),
    (HEAD + "watch p\n", 6, 7, "'p' is taken by another allowance"),
    (HEAD + "allowance w 0..1\n", 6, 11, "'w' is taken by another watch"),
    (HEAD + "watch x y\nroute", 6, 9, "found 'y'; expected the end of the line after the watch's name"),
    # ranges
    (HEAD + "allowance q\nroute", 6, 12, "the line ends; expected the lowest value"),
    (HEAD + "allowance q 1.5\nroute", 6, 14, "'.' has no meaning here"),
    (HEAD + "allowance q 1 5\nroute", 6, 15, "found '5'; expected '..'"),
    (HEAD + "allowance q 1..x\nroute", 6, 16, "found 'x'; expected the highest value"),
    (HEAD + "allowance q 1..2 3\nroute", 6, 18, "found '3'; expected the end of the line"),
    (HEAD + "allowance q 5..4\nroute", 6, 16, "the highest value 4 is below the lowest; expected at least 5"),
    (HEAD + "allowance q 0..64\nroute", 6, 16, "too wide; expected a highest value of at most 63"),
    (HEAD + "allowance q 940..1004\nroute", 6, 18, "the number 1004 is too big; expected at most 1000"),
    (HEAD + "allowance q -1001..-1000\nroute", 6, 14, "the number 1001 is too big"),
    (HEAD + "allowance q -5..-6\nroute", 6, 17, "the highest value -6 is below the lowest"),
    # stages and limits
    (HEAD + "stage c v <= p\nroute", 6, 9, "found 'v'; expected ':' and limits"),
    (HEAD + "stage c:\nroute", 6, 9, "the line ends; expected the name of a watch"),
    (HEAD + "stage c: x <= p\nroute", 6, 10, "no watch is called 'x'; expected one of v, w"),
    (HEAD + "stage c: p >= v\nroute", 6, 10, "found 'p'; expected a limit, which starts with a watch"),
    (HEAD + "stage c: v = p\nroute", 6, 12, "write <= and >="),
    (HEAD + "stage c: v \x1b p\nroute", 6, 12, "'\\x1b' has no meaning here"),
    (HEAD + "stage " + "c" * 20_000 + "\nroute", 6, 7, "has 20,000 letters; expected at most 60"),
    (HEAD + "stage c: v <= " + "9" * 5000 + "\nroute", 6, 15, "is too big"),
    (HEAD + "stage c: v p\nroute", 6, 12, "found 'p'; expected <=, <, >= or >"),
    (HEAD + "stage c: v <=\nroute", 6, 14, "the line ends; expected a number or an allowance"),
    (HEAD + "stage c: v <= q\nroute", 6, 15, "no allowance is called 'q'; expected one of p"),
    (HEAD + "stage c: v <= p-1\nroute", 6, 15, "no allowance is called 'p-1'; expected one of p, with spaces round a minus"),
    (HEAD + "stage c: v <= w\nroute", 6, 15, "'w' is a watch; expected a number or an allowance"),
    (HEAD + "stage c: v - w <= 5\nroute", 6, 12, "found '-'; expected <=, <, >= or >"),
    (HEAD + "stage c: v <= 2 p\nroute", 6, 17, "found 'p'; expected ',' and another limit, or the end of the line"),
    (HEAD + "stage c: v <= 3, w <= 4 5\nroute", 6, 25, "found '5'; expected ',' and another limit"),
    (HEAD + "stage c: v <= 1001\nroute", 6, 15, "the number 1001 is too big; expected at most 1000 in size; for a longer time"),
    (HEAD + "stage c: v <= 1440\nroute", 6, 15, "use a second watch that is reset on the way"),
    (HEAD + "stage c: v <= 99999999999999999999\nroute", 6, 15, "is too big"),
    (HEAD + "stage c: v <= 600 + 600\nroute", 6, 15, "comes to 1200; expected -1000 to 1000"),
    (HEAD + "stage c: v <= p - 1000p - 2p\nroute", 6, 15, "comes to -1001; expected -1000 to 1000"),
    (HEAD + "stage c: " + ", ".join(["v<1"] * 7) + "\nroute", 6, 40, "one limit too many; expected at most 6 for a stage"),
    (HEAD + "stage c: v < 1,\n   # more\nroute\n", 8, 1, "found 'route'; expected the list to go on"),
    # moves
    (HEAD + "move m a -> b\nroute", 6, 8, "found 'a'; expected ':' after the move's name"),
    (HEAD + "move m: c -> b\nroute", 6, 9, "no stage is called 'c'; expected one of a, b"),
    (HEAD + "move m: a b\nroute", 6, 11, "found 'b'; expected '->'"),
    (HEAD + "move m: a ->\nroute", 6, 13, "the line ends; expected the name of a stage"),
    (HEAD + "move m: a -> b v > 1\nroute", 6, 16, "found 'v'; expected 'when', 'resets' or the end of the line"),
    (HEAD + "move m: a -> b when\nroute", 6, 20, "the line ends; expected the name of a watch"),
    (HEAD + "move m: a -> b when v > 1 w > 2\nroute", 6, 27, "found 'w'; expected ',' and another limit, 'resets'"),
    (HEAD + "move m: a -> b resets v when v > 1\nroute", 6, 25, "found 'when'; expected ',' and another watch"),
    (HEAD + "move m: a -> b resets p\nroute", 6, 23, "no watch is called 'p'; expected one of v, w"),
    (HEAD + "move m: a -> b resets v, w, v\nroute", 6, 29, "watch 'v' is reset twice"),
    (HEAD + "move m: a -> b when " + ", ".join(["v<1"] * 7) + "\nroute", 6, 51, "at most 6 for a move"),
    # route
    (HEAD + "route m\n", 6, 7, "no move is called 'm'; expected a line 'move' that declares it"),
    (HEAD + "move m: a -> b\nroute m m\n", 7, 9, "found 'm'; expected ',' and another move"),
    (HEAD + "move m: a -> b\nroute m, m\n", 7, 10,
     "move 'm' starts in stage 'a'; expected a move from stage 'b', where the route has arrived"),
    (HEAD + "move m: b -> a\nroute m\n", 7, 7, "expected a move from stage 'a', where the route starts"),
    (HEAD + "move m: a -> a\nroute " + ", ".join(["m"] * 33), 7, 103, "one route move too many; expected at most 32"),
    # counts
    (ALLOWANCES.format(4), 4, 1, "at most 3 allowances, or the line 'version 2' for a fourth"),
    ("version 1\n" + ALLOWANCES.format(4), 5, 1, "at most 3 allowances, or the line 'version 2' for a fourth"),
    ("version 2\n" + ALLOWANCES.format(4) + "allowance t 0..1\n", 6, 1, "one allowance too many; expected at most 4 allowances"),
    ("".join(f"watch w{k}\n" for k in range(5)), 5, 1, "at most 4 watches"),
    ("".join(f"stage s{k}\n" for k in range(17)), 17, 1, "at most 16 stages"),
    ("".join(f"move m{k}: s -> s\n" for k in range(33)), 33, 1, "at most 32 moves"),
    # versions
    (HEAD + "version\nroute", 6, 8, "the line ends; expected 1 or 2 after 'version'"),
    (HEAD + "version 3\nroute", 6, 9, "found '3'; expected 1 or 2 after 'version'"),
    (HEAD + "version two\nroute", 6, 9, "found 'two'; expected 1 or 2 after 'version'"),
    (HEAD + "version 2 2\nroute", 6, 11, "found '2'; expected the end of the line after the version"),
    ("version 1\n" + HEAD + "version 1\nroute", 7, 1, "a second version; expected one line 'version' at most"),
    (HEAD + "stage version\nroute", 6, 7, "found 'version'; expected a name for this stage"),
    (FOUR.format(1), 6, 1, "the product of the widths of the ranges comes to 524,288; expected at most 262,144"),
    (FOUR.format(63), 6, 1, "comes to 16,777,216; expected at most 262,144"),
]


class Wrong(unittest.TestCase):
    def test_messages_with_line_and_column(self):
        for text, line, column, words in WRONG:
            with self.subTest(text=text), self.assertRaises(TextError) as caught:
                sheet_text.parse(text)
            why = caught.exception
            self.assertEqual((why.line, why.column), (line, column), f"{text!r}: {why}")
            self.assertIn(words, why.message)
            self.assertIn("expected", why.message)

    def test_damaged_texts_are_good_or_have_a_fault_in_the_text(self):
        draw = random.Random(1)
        words = ["p", "v", "when", "resets", "route", ",", ":", "->", "<", "..", "-", "2", "1001", "\n", "#", "é", "@", " "]
        whole = (SHEETS / "week.txt").read_text(encoding="utf-8")
        for _ in range(1500):
            at = draw.randrange(len(whole))
            text = whole[:at] + draw.choice(words) + whole[at + draw.randrange(12):]
            try:
                sheet_text.parse(text)
            except TextError as why:
                lines = text.split("\n")
                self.assertIn(why.line, range(1, len(lines) + 1))
                self.assertIn(why.column, range(1, len(lines[why.line - 1]) + 2))

    def test_bytes_that_are_not_utf_8(self):
        with self.assertRaises(TextError) as caught:
            decode("watch w\n# ü".encode("utf-8") + b"\xff\n")
        self.assertEqual((caught.exception.line, caught.exception.column), (2, 4))

    def test_a_mark_of_byte_order_has_no_column(self):
        for text in (b"watch \xff", b"\xef\xbb\xbfwatch \xff"):
            with self.assertRaises(TextError) as caught:
                decode(text)
            self.assertEqual((caught.exception.line, caught.exception.column), (1, 7))
        for mark in ("", "\ufeff"):
            done = moyanthu("check", given=f"{mark}watch w w\nstage s\nroute\n".encode("utf-8"))
            self.assertEqual(done.stderr.decode("utf-8").splitlines(), [
                "standard input:1:9: found 'w'; expected the end of the line after the watch's name",
                "    watch w w", "            ^"])

    def test_what_is_not_to_be_printed_is_not_echoed(self):
        done = moyanthu("check", given=b"watch w\x1b[31m\x07\nstage s\nroute\n")
        self.assertEqual(done.returncode, 3)
        self.assertFalse(set(done.stderr) & {0x1b, 0x07})
        self.assertIn("'\\x1b' has no meaning here", done.stderr.decode("utf-8"))


class Commands(unittest.TestCase):
    def test_build_text_and_check(self):
        with tempfile.TemporaryDirectory() as folder:
            out = Path(folder) / "out.sheet"
            self.assertEqual(moyanthu("build", SHEETS / "a.txt", "-o", out).returncode, 0)
            self.assertEqual(out.read_bytes(), (SHEETS / "a.sheet").read_bytes())
        text = moyanthu("text", SHEETS / "week.sheet").stdout
        self.assertEqual(moyanthu("build", given=text).stdout, (SHEETS / "week.sheet").read_bytes())
        for form in ("a.txt", "a.sheet"):
            self.assertIn(b"a good sheet: 1 allowance, 1 watch, 2 stages, 1 move, 1 move on the route, 62 bytes as a file\n",
                          moyanthu("check", SHEETS / form).stdout)
        text = moyanthu("text", SHEETS / "tent.sheet").stdout
        self.assertTrue(text.startswith(b"version 2\n\nallowance p 128..143\n"))
        self.assertEqual(moyanthu("build", given=text).stdout, (SHEETS / "tent.sheet").read_bytes())
        for form in ("tent.txt", "tent.sheet"):
            self.assertIn(b"a good sheet of version 2: 4 allowances, 4 watches, ", moyanthu("check", SHEETS / form).stdout)

    def test_nothing_is_written_where_the_text_is_wrong(self):
        with tempfile.TemporaryDirectory() as folder:
            text, out = Path(folder) / "bad.txt", Path(folder) / "out.sheet"
            text.write_text("watch w\nstage s: w <= q\nroute\n", encoding="utf-8")
            done = moyanthu("build", text, "-o", out)
            self.assertEqual((done.returncode, done.stdout, out.exists()), (3, b"", False))
            self.assertEqual(done.stderr.decode("utf-8").splitlines(), [
                f"{text}:2:15: no allowance is called 'q'; expected a line 'allowance' that declares it",
                "    stage s: w <= q",
                "                  ^"])
            self.assertEqual(moyanthu("check", text).returncode, 3)
            good = text.with_name("good.txt")
            good.write_text("watch w\nstage s\nroute\n", encoding="utf-8")
            self.assertEqual(moyanthu("build", good, "-o", good).returncode, 3)
            self.assertEqual(good.read_text(encoding="utf-8"), "watch w\nstage s\nroute\n")

    def test_damaged_files_are_refused(self):
        a = (SHEETS / "a.sheet").read_bytes()
        wide = a[:25] + b"\x40" + a[26:]
        far = (SHEETS / "tent.sheet").read_bytes()
        for at in (25, 29, 33, 37):  # the highest of each range, 63 above the lowest
            far = far[:at] + (int.from_bytes(far[at - 2:at], "little") + 63).to_bytes(2, "little") + far[at + 2:]
        for file, words in ((a[:21], "refused 2 place 0"), (b"\x03" + a[1:], "refused 3 place 0"),
                            (b"\x02" + a[1:], "refused 4 place 43"), (far, "refused 16 place 0"),
                            (wide, "refused 4 place 25"), (a[:-1], "refused 3 place 20"), (a + bytes(5000), "refused 2 place 0")):
            done = moyanthu("text", given=file)
            self.assertEqual((done.returncode, done.stdout), (2, b""))
            self.assertIn(f"standard input: {words}: ", done.stderr.decode("utf-8"))

    def test_the_other_form(self):
        done = moyanthu("build", SHEETS / "a.sheet")
        self.assertEqual((done.returncode, done.stdout), (3, b""))
        self.assertIn(b"a sheet file; expected a text", done.stderr)
