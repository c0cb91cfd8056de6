"""Sheets that Windows refuses by 7 and 8, each with the limit at which it does, known by how it is built.

Lower limits 2kp - k², each a line that touches p² at p = k, are each the tightest somewhere: n of them, and zero, give n + 1
pieces. So do upper limits that are such lines turned. Lower limits that rise, under an upper limit p, cut one setting each and
give the piece that is left one inequality each.
"""

from itertools import islice

from beginnings import ARRIVAL, MOVE, STAY


def along(head, places, resets=""):
    """The text of a route whose stages and moves have those limits in turn. The last move resets a watch."""
    lines = [head]
    for k, limits in enumerate(places):
        line, joins = (f"move m{k // 2}: s{k // 2} -> s{k // 2 + 1}", " when ") if k % 2 else (f"stage s{k // 2}", ": ")
        last = f" resets {resets}" if resets and k == len(places) - 2 else ""
        lines.append(f"{line}{joins if limits else ''}{', '.join(limits)}{last}")
    return "\n".join([*lines, f"route {', '.join(f'm{k}' for k in range(len(places) // 2))}", ""])


def dealt(limits, *counts):
    """So many of the limits to each place in turn."""
    limits = iter(limits)
    return [list(islice(limits, count)) for count in counts]


def rising_under_p(*counts):
    """Rising limits, and p as the upper limit of each stay that has a next one."""
    places = dealt((f"v >= {k}" for k in range(1, 30)), *counts)
    return [limits if k % 2 or k == len(places) - 1 else [*limits, "v <= p"] for k, limits in enumerate(places)]


LINES = [f"v >= {2 * k}p - {k * k}" for n in range(1, 18) for k in (n, -n)]
TURNED = [f"w <= {-2 * k}q + {k * k + 950}" for k in (1, -1, 2)]
ONE = "allowance p -20..20\nwatch v"
TWO = "allowance p -20..20\nallowance q -3..3\nwatch v\nwatch w"
RISING = "allowance p 0..63\nwatch v"

# Each sheet, the refusal's number and place, and the limit: when it comes, and which of its stage or move it is.
REFUSED = {
    "at a move": (along(ONE, dealt(LINES, 0, 6, 6, 6, 6, 6, 1, 2, 0)), 7, 3, MOVE, 0),
    "on arrival": (along(ONE, dealt(LINES, 0, 6, 6, 6, 6, 6, 0, 0, 3)), 7, 4, ARRIVAL, 1),
    "on arrival, after a reset": (along(TWO, dealt(LINES, 0, 6, 6, 6, 6, 6, 3), "w"), 7, 3, ARRIVAL, 1),
    "at the end of a stay": (along(TWO, [*dealt(LINES, 0, 6, 6, 6), ["w <= 900"], [], TURNED]), 7, 3, STAY, 1),
    "at the end of a stay, after a reset": (along(TWO, [*dealt(LINES, 0, 6, 6, 6, 0, 0), TURNED], "w"), 7, 3, STAY, 1),
    "a 25th inequality on arrival": (along(RISING, rising_under_p(0, 6, 5, 6, 5, 2, 1)), 8, 3, ARRIVAL, 0),
    "a 25th inequality at a move": (along(RISING, rising_under_p(0, 6, 5, 6, 5, 6, 0)), 8, 2, MOVE, 2),
}
