"""An SVG on a white ground, put together piece by piece; and the places of seconds in it."""
from xml.sax.saxutils import escape

INK, SOFT, GRID, PALE = "#1f2933", "#5b6770", "#e3e7eb", "#f1f4f6"
HATCH = "url(#hatch)"


class Drawing:
    def __init__(self, width, height, title):
        self.pieces = [
            f'<svg xmlns="http://www.w3.org/2000/svg" viewBox="0 0 {width} {height}" width="{width}" height="{height}" role="img"'
            ' font-family="Helvetica, Arial, sans-serif">',
            f"<title>{escape(title)}</title>",
            '<defs><pattern id="hatch" width="6" height="6" patternUnits="userSpaceOnUse" patternTransform="rotate(45)">'
            '<path d="M0 0V6" stroke="#9aa5b1" stroke-width="2.4"/></pattern></defs>',
            f'<rect width="{width}" height="{height}" rx="8" fill="#ffffff"/>',
        ]

    def text(self, x, y, words, colour=INK, anchor="start", size=12, bold=False):
        weight = ' font-weight="bold"' if bold else ""
        self.pieces.append(f'<text x="{x:.1f}" y="{y:.1f}" fill="{colour}" text-anchor="{anchor}" font-size="{size}"{weight}>{escape(words)}</text>')

    def line(self, points, colour, width=1.0, dashed=False):
        path = " ".join(f"{x:.1f},{y:.1f}" for x, y in points)
        dashes = ' stroke-dasharray="4 3"' if dashed else ""
        self.pieces.append(f'<polyline points="{path}" fill="none" stroke="{colour}" stroke-width="{width}" stroke-linejoin="round"{dashes}/>')

    def box(self, x, y, width, height, fill, opacity=1.0, rounded=0):
        size = f'width="{width:.1f}" height="{height:.1f}" rx="{rounded}"'
        self.pieces.append(f'<rect x="{x:.1f}" y="{y:.1f}" {size} fill="{fill}" fill-opacity="{opacity}"/>')

    def dot(self, x, y, colour):
        self.pieces.append(f'<circle cx="{x:.1f}" cy="{y:.1f}" r="3.5" fill="{colour}"/>')

    def written(self):
        return "\n".join(self.pieces + ["</svg>"]) + "\n"


class Scale:
    """The seconds of a window, from left to right."""

    def __init__(self, window, left, right):
        self.first, self.last = window
        self.left, self.right = left, right

    def __call__(self, at):
        return self.left + (at - self.first) * (self.right - self.left) / (self.last - self.first)


def corners(points):
    """The points at which a line turns, and its ends."""
    kept = points[:1]
    for before, here, after in zip(points, points[1:], points[2:]):
        if (here[1] - before[1]) * (after[0] - here[0]) != (after[1] - here[1]) * (here[0] - before[0]):
            kept.append(here)
    return kept + points[-1:]
