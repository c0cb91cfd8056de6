"""The refusals in words (docs/FORMAT.md)."""

GROUNDS = {
    1: "the table lent for the pieces has under 32 places",
    2: "the file has under 22 or over 4,096 bytes",
    3: "the version, the 4, a kind, an offset or a length in the contents of the file is wrong",
    4: "a field of one of the four bodies, or the end of a body, is wrong",
    5: "the first move of the route does not start in stage 0, or a move not where the last one arrived",
    6: "the setting lies outside a range, or is not 0 where the sheet has no such allowance",
    7: "one limit would list a 33rd piece",
    8: "a split would give its parts a 25th inequality",
    16: "the product of the widths of the ranges passes 262,144",
}


def meaning(number, place):
    """What a refusal says, and what its place counts."""
    ground = GROUNDS.get(number, "a refusal that is not in the table of docs/FORMAT.md")
    return f"{ground}{place_words(number, place)}"


def place_words(number, place):
    if number in (3, 4, 5):
        return f" (byte {place} of the file, counted from 0)"
    if number == 6:
        return f" (allowance {place}, counted from 0)"
    if number in (7, 8):
        return f" (after {place} {'move' if place == 1 else 'moves'} of the route)"
    return ""
