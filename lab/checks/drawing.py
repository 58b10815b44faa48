"""Plain SVG: a few shapes, and text whose width is reckoned high, so that it fits with any font."""

from xml.sax.saxutils import escape

INK, PALE, LINE, PAPER = "#222222", "#666666", "#999999", "#f4f4f0"
BLUE, LIGHT_BLUE, ORANGE = "#1f5f99", "#d9e8f5", "#a84a12"


def width_of(text, size):
    """At least so many pixels a text of this size takes."""
    return len(text) * size * 0.62


class Drawing:
    """A picture of this width, whose height is told at the end."""

    def __init__(self, width):
        self.width, self.parts = width, []

    def rectangle(self, x, y, width, height, fill="white", stroke=LINE, radius=3):
        self.parts.append(
            f'<rect x="{x:g}" y="{y:g}" width="{width:g}" height="{height:g}" rx="{radius}" fill="{fill}" stroke="{stroke}"/>'
        )

    def text(self, x, y, words, size=13, fill=INK, anchor="start", weight="normal"):
        self.parts.append(
            f'<text x="{x:g}" y="{y:g}" font-size="{size}" fill="{fill}" text-anchor="{anchor}" font-weight="{weight}">{escape(words)}</text>'
        )

    def line(self, *points, stroke=LINE, width=1, arrow=None, dashed=False):
        """A line through these points. `arrow` is the colour of the head at its end."""
        ends = " ".join(f"{x:g},{y:g}" for x, y in points)
        head = f' marker-end="url(#{self.head(arrow)})"' if arrow else ""
        dashes = ' stroke-dasharray="4 3"' if dashed else ""
        self.parts.append(f'<polyline points="{ends}" fill="none" stroke="{stroke}" stroke-width="{width:g}"{dashes}{head}/>')

    @staticmethod
    def head(colour):
        return "head-" + colour.strip("#")

    def number(self, x, y, number, fill):
        """A number in a disc."""
        self.parts.append(f'<circle cx="{x:g}" cy="{y:g}" r="9" fill="{fill}"/>')
        self.text(x, y + 4, str(number), 11, "white", "middle", "bold")

    def svg(self, height, title):
        """The whole text of the picture."""
        heads = "".join(
            f'<marker id="{self.head(colour)}" viewBox="0 0 10 10" refX="9" refY="5" markerWidth="7" markerHeight="7" orient="auto-start-reverse">'
            f'<path d="M0,0 L10,5 L0,10 z" fill="{colour}"/></marker>'
            for colour in (BLUE, ORANGE, LINE)
        )
        lines = [
            f'<svg xmlns="http://www.w3.org/2000/svg" viewBox="0 0 {self.width} {height:g}" width="{self.width}" height="{height:g}"'
            ' font-family="DejaVu Sans, Verdana, Arial, sans-serif">',
            f"<title>{escape(title)}</title>",
            f"<defs>{heads}</defs>",
            f'<rect width="{self.width}" height="{height:g}" fill="white"/>',
            *self.parts,
            "</svg>",
        ]
        return "\n".join(lines) + "\n"
