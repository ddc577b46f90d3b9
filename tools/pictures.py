"""Pictures as SVG, by a few lines of their own: what `report-picture` and `sweep-table` share."""

import html

COLOURS = {"good": "#2a7d4f", "bad": "#c0392b", "missed": "#8a8a8a"}


def text(x, y, content, anchor="start", size=12):
    """A text at a place; its anchor is start, middle or end."""
    return f'<text x="{x:.1f}" y="{y:.1f}" font-size="{size}" text-anchor="{anchor}">{html.escape(str(content))}</text>'


def line(points, colour, width=1.5):
    """A line through points."""
    places = " ".join(f"{x:.1f},{y:.1f}" for x, y in points)
    return f'<polyline points="{places}" fill="none" stroke="{colour}" stroke-width="{width}"/>'


def box(x, y, width, height, colour):
    """A filled box."""
    return f'<rect x="{x:.1f}" y="{y:.1f}" width="{width:.1f}" height="{height:.1f}" fill="{colour}"/>'


def picture(width, height, parts):
    """A whole picture of these parts."""
    head = f'<svg xmlns="http://www.w3.org/2000/svg" width="{width}" height="{height}" viewBox="0 0 {width} {height}" font-family="sans-serif">'
    return "\n".join([head, box(0, 0, width, height, "white"), *parts, "</svg>"]) + "\n"


def legend(x, y):
    """What the colours mean."""
    parts = []
    for at, (name, colour) in enumerate(COLOURS.items()):
        parts += [box(x + 80 * at, y - 10, 12, 12, colour), text(x + 80 * at + 17, y, name)]
    return parts
