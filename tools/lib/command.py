"""The command: its words, what each does, and the status it ends with (docs/COMMAND.md)."""

import argparse
import os
import signal
import sys
import traceback

import ask
import many
import sheet_file
import sheet_text
from faults import ANSWER, FAILED, REFUSED, STOPPED, Fault, plain
from inputs import given, is_file_form, read_bytes, shown, text_sheet
from outputs import print_bytes, print_error, same_place, write_whole
from refusals import meaning
from wording import plural

VERSION = "moyanthu 1.0"
ABOUT = """\
When can each step of a timed route be made, while some times are not settled yet? Windows finds, for all settings of
the allowances at once, where a run follows the route; Sweep works out one setting. Both are proved programs, which this
command builds the first time (some minutes) and runs. A sheet is a text (docs/TEXT.md) or a sheet file; - or no name is
standard input."""
EXAMPLES = """\
examples
  tools/moyanthu check sheets/week.txt                                     is the text right?
  tools/moyanthu windows sheets/week.txt                                   which settings have a run, in pieces
  tools/moyanthu windows sheets/week.txt --at green=100,hard=180,pot=30    one setting, and how far it can move
  tools/moyanthu windows sheets/week.txt --schedule green=100,hard=180,pot=30   when each move can be made
  tools/moyanthu windows sheets/week.txt --png week.png                    a picture of the pieces
  tools/moyanthu sweep sheets/week.txt --at green=100,hard=180,pot=30      Sweep's answer beside Windows'
  tools/moyanthu windows sheets/*.sheet --json --jobs 2                    a line of JSON for each sheet

exit status: 0 an answer; 1 no run, or no piece that holds the setting; 2 refused; 3 bad use or a bad text;
4 input, output or a program failed; 130 stopped. Of several sheets it is the highest."""


class Parser(argparse.ArgumentParser):
    """Bad use is status 3, and help is written like every other output."""

    def __init__(self, *words, **options):
        super().__init__(*words, formatter_class=argparse.RawDescriptionHelpFormatter, allow_abbrev=False, **options)

    def error(self, message):
        raise Fault(f"{self.format_usage()}{self.prog}: {plain(message)}")

    def _print_message(self, message, file=None):
        print_bytes(message.encode("utf-8"))


def parser():
    whole = Parser(prog="moyanthu", description=ABOUT, epilog=EXAMPLES)
    whole.add_argument("--version", action="version", version=VERSION)
    commands = whole.add_subparsers(dest="command", metavar="windows | sweep | check | build | text", required=True)

    def command(name, about, does):
        added = commands.add_parser(name, help=about, description=about, epilog=EXAMPLES)
        added.set_defaults(does=does)
        return added

    windows = command("windows", "the pieces of a sheet, one setting, a schedule or a picture", run_windows)
    windows.add_argument("sheets", nargs="*", metavar="SHEET", help="a text or a sheet file; several with --json")
    asked = windows.add_mutually_exclusive_group()
    asked.add_argument("--at", metavar="p=3,q=1", action="append",
                       help="which piece holds this setting, and how far each allowance can move; may be given again")
    asked.add_argument("--schedule", metavar="p=3,q=1", help="when each move can be made under this setting")
    asked.add_argument("--by-sweep", action="store_true", help="one Sweep for each setting, instead of pieces")
    windows.add_argument("--svg", metavar="FILE", help="draw it; - is standard output")
    windows.add_argument("--png", metavar="FILE", help="draw it in pixels; - is standard output")
    windows.add_argument("--json", action="store_true", help="a line of JSON for each sheet (docs/COMMAND.md)")
    windows.add_argument("--jobs", type=count, default=1, metavar="N", help="sheets at a time (1)")
    sweep = command("sweep", "Sweep's answer for one setting, and Windows' beside it", run_sweep)
    sweep.add_argument("sheets", nargs="?", metavar="SHEET", help="a text or a sheet file")
    sweep.add_argument("--at", metavar="p=3,q=1", default="", help="the setting")
    sweep.add_argument("--json", action="store_true", help="a line of JSON")
    check = command("check", "is the sheet right?", run_check)
    check.add_argument("sheets", nargs="?", metavar="SHEET", help="a text or a sheet file")
    for name, about, does in (("build", "the sheet file of a text", run_build), ("text", "the text of a sheet file", run_text)):
        made = command(name, about, does)
        made.add_argument("sheets", nargs="?", metavar="FILE", help="the input")
        made.add_argument("-o", dest="output", default="-", metavar="FILE", help="the output; - is standard output")
    return whole


def count(word):
    if not (word.isascii() and word.isdigit() and 0 < len(word) < 4 and int(word)):
        raise argparse.ArgumentTypeError(f"'{word}'; expected a number from 1 to 999")
    return int(word)


def named(options):
    """The sheet that is named, or standard input, unless a person would have to type it there."""
    path = options.sheets or "-"
    if path == "-" and sys.stdin is not None and sys.stdin.isatty():
        raise Fault("no sheet is named, and standard input is a terminal; expected the name of a sheet")
    return path


def run_windows(options):
    options.sheets = options.sheets or [named(options)]
    drawn = [(kind, path) for kind, path in (("svg", options.svg), ("png", options.png)) if path is not None]
    if len(options.sheets) > 1 and (not options.json or drawn or options.schedule is not None or options.by_sweep):
        raise Fault("several sheets are listed with --json, with or without --at; expected one sheet for all else")
    if len(options.sheets) > 1 and "-" in options.sheets:
        raise Fault("standard input is one of several sheets; expected names of files")
    if drawn and options.at is not None:
        raise Fault("--at gives no picture; expected --svg and --png alone, with --schedule or with --by-sweep")
    if len(drawn) == 2 and same_place(options.svg, options.png):
        raise Fault("--svg and --png have the same place; expected another for one of them")
    if options.json and "-" in (options.svg, options.png):
        raise Fault("--json and a picture cannot both go to standard output; expected a file for the picture")
    if len(options.sheets) > 1:
        return many.windows(options)
    answer = ask.windows(given(options.sheets[0]), options)
    pictures = [(path, answer.picture(kind)) for kind, path in drawn] if answer.drawing else []
    to_output = any(path == "-" for path, _ in pictures)
    write_whole(pictures if to_output or pictures and not options.json else [*pictures, ("-", answer.printed(options.json))])
    return answer.status


def run_sweep(options):
    answer = ask.sweep(given(named(options)), options.at)
    print_bytes(answer.printed(options.json))
    return answer.status


def run_check(options):
    sheet = given(named(options))
    if sheet.sheet is None:
        return refused(sheet.file, sheet.name)
    whole, names = sheet.sheet, sheet.names
    counts = [plural(len(names.allowance), "allowance"), plural(len(names.watch), "watch", "watches"),
              plural(len(names.stage), "stage"), plural(len(names.move), "move"),
              f"{plural(len(whole.route), 'move')} on the route", f"{plural(len(sheet.file), 'byte')} as a file"]
    version = f" of version {whole.version}" if whole.version != 1 else ""
    print_bytes(f"{sheet.name}: a good sheet{version}: {', '.join(counts)}\n".encode("utf-8"))
    ask.warn(sheet)
    return ANSWER


def run_build(options):
    path = named(options)
    data = read_bytes(path)
    if is_file_form(data, path):
        raise Fault(f"{shown(path)}: a sheet file; expected a text (tools/moyanthu text makes one of it)")
    sheet, _ = text_sheet(data, shown(path))
    return written(options, path, sheet_file.write(sheet))


def run_text(options):
    path = named(options)
    data = read_bytes(path)
    if is_text(data):
        raise Fault(f"{shown(path)}: a text already; expected a sheet file")
    try:
        sheet = sheet_file.read(data)
    except sheet_file.Refused:
        return refused(data, shown(path))
    return written(options, path, sheet_text.write(sheet).encode("utf-8"))


def is_text(data):
    """A good text of a sheet."""
    try:
        text_sheet(data, "")
        return True
    except Fault:
        return False


def written(options, path, data):
    if "-" not in (options.output, path) and same_place(path, options.output):
        raise Fault(f"{plain(options.output)}: the output would replace the input; expected another name after -o")
    write_whole([(options.output, data)])
    return ANSWER


def refused(file, name):
    """Says why a file cannot be read."""
    try:
        sheet_file.read(file)
    except sheet_file.Refused as why:
        raise Fault(f"{name}: {why}: {meaning(why.number, why.place)}", REFUSED) from why


def main(words):
    options = parser().parse_args(words)
    return options.does(options)


def guarded(does):
    """Runs something on the words of the command line. Whatever goes wrong is a message and a status."""
    for number in (0, 1, 2):  # a stream that is closed is not to be taken by a file
        try:
            os.fstat(number)
        except OSError:
            os.open(os.devnull, os.O_RDWR)
    try:
        return does(sys.argv[1:])
    except Fault as why:
        print_error(f"{why}\n")
        return why.status
    except SystemExit as why:  # after help
        return why.code or ANSWER
    except KeyboardInterrupt:
        signal.signal(signal.SIGINT, signal.SIG_IGN)
        print_error("\nstopped\n")
        return STOPPED
    except Exception as why:  # a fault of this program: where it is, without a traceback
        place = traceback.extract_tb(why.__traceback__)[-1]
        print_error(f"moyanthu: {type(why).__name__}: {plain(why)} ({os.path.basename(place.filename)}:{place.lineno})\n")
        return FAILED
