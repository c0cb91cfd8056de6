"""What the command writes: all files whole, or none of them; and the standard streams."""

import os
import stat
import sys

from faults import FAILED, Fault, failed


def print_bytes(data):
    """Writes to standard output, without a buffer that would be written again at the end."""
    if sys.stdout is None:
        raise Fault("standard output is closed", FAILED)
    try:
        write_all(sys.stdout.fileno(), data)
    except OSError as why:
        raise failed("standard output", why) from why


def print_error(text):
    """A line on standard error, if there is one."""
    try:
        if sys.stderr is not None:
            write_all(sys.stderr.fileno(), text.encode("utf-8", "backslashreplace"))
    except OSError:
        pass  # there is nobody left to tell


def write_all(file, data):
    while data:
        data = data[os.write(file, data):]


def same_place(one, other):
    """Two paths lead to one place; - is standard output."""
    return one == other or "-" not in (one, other) and os.path.realpath(one) == os.path.realpath(other)


def write_whole(files):
    """Writes each (path, bytes). They are written beside their places first and moved there when all are whole, so
    that after an error each place is as it was. What is not a file, such as a pipe, is written to, after the files;
    - is standard output."""
    moves = []
    try:
        for path, data in sorted(files, key=lambda file: no_file(file[0])):
            if path == "-":
                print_bytes(data)
                continue
            try:
                write_beside(path, data, moves)
            except (OSError, ValueError) as why:
                raise named_fault(path, why) from why
        while moves:
            os.replace(*moves[0])
            moves.pop(0)
    finally:
        for part, _ in moves:
            os.unlink(part)


def named_fault(path, why):
    return failed(path, why if isinstance(why, OSError) else OSError(str(why)))


def no_file(path):
    """Something is there that is not a file."""
    return path == "-" or os.path.exists(path) and not os.path.isfile(path)


def write_beside(path, data, moves):
    """Writes a file beside its place and notes the move. A file that is there already keeps its rights."""
    if no_file(path):
        with open(path, "wb", buffering=0) as out:
            write_all(out.fileno(), data)
        return
    mode = None
    if os.path.exists(path):
        mode = os.stat(path).st_mode
        with open(path, "ab"):  # an error if it may not be written
            pass
    place = os.path.realpath(path)
    part = os.path.join(os.path.dirname(place), f".{os.getpid()}.{len(moves)}.part")  # short: the name may be long
    with open(part, "xb") as out:
        moves.append((part, place))
        out.write(data)
    if mode is not None:
        os.chmod(part, stat.S_IMODE(mode))
