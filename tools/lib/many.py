"""Many sheets: a line of JSON for each, in order, some at a time."""

import multiprocessing
import signal
from functools import partial

import ask
import jsonform
import programs
from faults import Fault
from inputs import given, shown
from outputs import print_bytes
from progress import Progress
from windows import Windows


def windows(options):
    """Prints a line for each sheet; gives the highest status."""
    work = partial(answer_line, options, Windows(programs.windows_command()))
    progress = Progress("windows", len(options.sheets))
    if options.jobs == 1:
        return printed(map(work, options.sheets), progress)
    with workers(min(options.jobs, len(options.sheets))) as pool:
        return printed(pool.imap(work, options.sheets), progress)


def workers(count):
    """Processes that Ctrl-C does not reach: the command ends them. One that it ended while it holds the lock of the queue
    would leave the command waiting for ever."""
    before = signal.signal(signal.SIGINT, signal.SIG_IGN)
    try:
        return multiprocessing.Pool(count)
    finally:
        signal.signal(signal.SIGINT, before or signal.SIG_DFL)


def printed(lines, progress):
    highest = 0
    for done, (line, status) in enumerate(lines, 1):
        print_bytes(line)
        progress.step(done, " sheets")
        highest = max(highest, status)
    progress.close()
    progress.say(progress.total, " sheets")
    return highest


def answer_line(options, runner, path):
    """The line of a sheet, which may say that it cannot be read, and the status."""
    try:
        answer = ask.windows(given(path), options, runner)
        return answer.printed(True), answer.status
    except Fault as why:
        return jsonform.line({"sheet": shown(path), "error": str(why), "status": why.status}).encode("utf-8"), why.status
