"""Data files that hold sheet files one after the other, as the reference writes them."""


def records(path, extra=0):
    """The sheet files of a data file: for each two bytes of length, the bytes, and some extra bytes that are passed over."""
    data = path.read_bytes()
    at = 0
    while at < len(data):
        start = at + 2
        at = start + int.from_bytes(data[at:start], "little")
        yield data[start:at]
        at += extra
