"""Writes SVG pictures, for measure/plot.

A picture has no background, and two sets of colours, for readers whose pages are light and dark.
"""
from html import escape

# The colour of each kind of part: texts, faint lines, and three series.
LIGHT = {"ink": "#1f2328", "faint": "#d0d7de", "first": "#0b62c4", "second": "#1a7f37", "third": "#bc4c00"}
DARK = {"ink": "#e6edf3", "faint": "#3d444d", "first": "#58a6ff", "second": "#3fb950", "third": "#f0883e"}


def _colours(colours):
    """Returns the rules of style by which the parts of each kind have its colour."""
    return " ".join(f"text.{name} {{ fill: {colour} }} path.{name} {{ stroke: {colour} }}"
                    f" circle.{name} {{ fill: {colour} }}" for name, colour in colours.items())


def picture(width, height, title, parts):
    """Returns a picture of this size, in pixels, with its parts."""
    return "\n".join([
        f'<svg xmlns="http://www.w3.org/2000/svg" viewBox="0 0 {width} {height}" width="{width}" height="{height}"'
        ' role="img" font-family="sans-serif" font-size="13">',
        f"<title>{escape(title)}</title>",
        f"<style>path {{ fill: none }} {_colours(LIGHT)}",
        f"@media (prefers-color-scheme: dark) {{ {_colours(DARK)} }}</style>",
        *parts, "</svg>"])


def text(x, y, words, kind="ink", anchor="start"):
    """Returns words at a place: its start, middle or end is there."""
    return f'<text class="{kind}" x="{x:.0f}" y="{y:.0f}" text-anchor="{anchor}">{escape(words)}</text>'


def path(points, kind, width=2):
    """Returns lines through points."""
    line = " L".join(f"{x:.0f} {y:.0f}" for x, y in points)
    return f'<path class="{kind}" stroke-width="{width}" d="M{line}"/>'


def dot(x, y, kind):
    """Returns a dot."""
    return f'<circle class="{kind}" cx="{x:.0f}" cy="{y:.0f}" r="3.5"/>'
