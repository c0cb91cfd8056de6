"""A picture's shapes as SVG."""

from html import escape

from faults import plain
from shapes import CUT, GRID, HATCH, INK, PAPER, Box, Cells, Grid, Tick, Words


def text(picture):
    """The whole file."""
    width, height = picture.width, picture.height
    head = (f'<svg xmlns="http://www.w3.org/2000/svg" width="{width}" height="{height}" '
            f'viewBox="0 0 {width} {height}" font-family="DejaVu Sans, Verdana, sans-serif" font-size="12" '
            f'fill="{INK}">')
    pitch, stripe, line = HATCH
    hatch = (f'<defs><pattern id="cut" width="{pitch}" height="{pitch}" patternUnits="userSpaceOnUse" '
             f'patternTransform="rotate(45)"><rect width="{pitch}" height="{pitch}" fill="{PAPER}"/>'
             f'<rect width="{stripe}" height="{pitch}" fill="{line}"/></pattern></defs>')
    back = f'<rect width="{width}" height="{height}" fill="{PAPER}"/>'
    parts = [ELEMENTS[type(shape)](shape) for shape in picture.shapes]
    return "\n".join([head, f"<title>{words_of(picture.title)}</title>", hatch, back, *parts, "</svg>"]) + "\n"


def words_of(text):
    """A text as XML has it: what it does not allow, such as ESC, is written in letters."""
    return escape(plain(text), quote=False)


def box(shape):
    role = f'class="{shape.role}" ' if shape.role else ""
    fill = "url(#cut)" if shape.fill == CUT else shape.fill
    edge = f' stroke="{INK}"' if shape.edge else ""
    return (f'<rect {role}x="{shape.x}" y="{shape.y}" width="{shape.width}" height="{shape.height}" '
            f'fill="{fill}"{edge}/>')


def cells(shape):
    path = "".join(f"M{x} {y}h{width}v{height}h-{width}z" for x, y, width, height in shape.rows)
    return (f'<path class="piece" data-piece="{shape.piece}" fill="{shape.fill}" shape-rendering="crispEdges" '
            f'd="{path}"/>')


def grid(shape):
    path = "".join(f"M{x} {shape.top}V{shape.bottom}" for x in shape.across)
    path += "".join(f"M{shape.left} {y}H{shape.right}" for y in shape.down)
    width, part = GRID
    return f'<path fill="none" stroke="{PAPER}" stroke-opacity="{part}" stroke-width="{width}" d="{path}"/>'


def tick(shape):
    line = f"v{shape.down}" if shape.down else f"h{shape.across}"
    return f'<path stroke="{INK}" d="M{number(shape.x)} {number(shape.y)}{line}"/>'


def words(shape):
    x, y = number(shape.x), number(shape.y)
    style = ""
    if shape.anchor != "start":
        style += f' text-anchor="{shape.anchor}"'
    if shape.fill != INK:
        style += f' fill="{shape.fill}"'
    if shape.heading:
        style += ' font-size="14" font-weight="bold"'
    if shape.italic:
        style += ' font-style="italic"'
    if shape.turned:
        style += f' transform="rotate(-90 {x} {y})"'
    return f'<text x="{x}" y="{y}"{style}>{words_of(shape.text)}</text>'


def number(place):
    return f"{place:.5g}"


ELEMENTS = {Box: box, Cells: cells, Grid: grid, Tick: tick, Words: words}
