"""What can go wrong, in words for a person, and the statuses the command ends with (docs/COMMAND.md)."""

ANSWER = 0  # there is an answer
NO_RUN = 1  # no run, or no piece that holds the setting asked about
REFUSED = 2  # refused, with a number and a place
BAD = 3  # bad use, or a bad text
FAILED = 4  # input, output or a program failed
STOPPED = 130  # stopped by Ctrl-C


class Fault(Exception):
    """Something that stops the command: what and where, and the status."""

    def __init__(self, message, status=BAD):
        super().__init__(message)
        self.status = status


def failed(name, why):
    """The fault of an operating-system error at something with a name."""
    return Fault(f"{plain(name)}: {why.strerror or why}", FAILED)


def plain(text):
    """A text with what is not to be printed, such as ESC, written as \\x1b. Bytes of a file name that are not UTF-8
    are shown as bytes."""
    return "".join(c if c.isprintable() else escaped(c) for c in str(text))


def escaped(letter):
    code = ord(letter)
    if 0xdc80 <= code <= 0xdcff:  # how Python keeps a byte that is not UTF-8
        return f"\\x{code - 0xdc00:02x}"
    return f"\\x{code:02x}" if code < 0x100 else f"\\u{code:04x}"
