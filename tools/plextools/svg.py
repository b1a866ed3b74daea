"""Pieces of an SVG picture: paths, circles and texts, with what stands around them."""
from html import escape

MARKERS = """<defs>
<pattern id="hatch" width="{size:.1f}" height="{size:.1f}" patternUnits="userSpaceOnUse" patternTransform="rotate(45)">\
<path d="M0,0 V{size:.1f}" stroke="#333" stroke-width="{wide:.1f}"/></pattern>
<marker id="arrow" viewBox="0 0 10 10" refX="5" refY="5" markerWidth="{tip:.1f}" markerHeight="{tip:.1f}" \
markerUnits="userSpaceOnUse" orient="auto"><path d="M0,0 L10,5 L0,10 z" fill="#35608a"/></marker>
</defs>"""
INK = "#24476b"


def plain_text(text):
    """A text that XML can hold: bytes that are no UTF-8 and control characters become question marks."""
    whole = text.encode("utf-8", "surrogateescape").decode("utf-8", "replace")
    return escape("".join(letter if letter.isprintable() else "?" for letter in whole))


def light(place):
    """A light colour for the rank or label at this place; neighbouring places are far apart."""
    return f"hsl({(210 + place * 137.508) % 360:.0f},{55 if place else 40}%,{84 - place % 3 * 5}%)"


def strong(place):
    """A strong colour for the label at this place."""
    return f"hsl({(8 + place * 137.508) % 360:.0f},75%,{42 - place % 2 * 8}%)"


def moves(points, closed=False):
    """The path through points."""
    return "M" + " L".join(f"{x:.1f},{y:.1f}" for x, y in points) + ("z" if closed else "")


class Sheet:
    """A picture that grows by pieces and is written once."""

    def __init__(self, width, height):
        self.width, self.height, self.pieces = width, height, []

    def path(self, parts, **style):
        """One path of several parts in one style; `_` in a name of the style stands for `-`."""
        if parts:
            words = "".join(f' {name.replace("_", "-")}="{value}"' for name, value in style.items())
            self.pieces.append(f'<path d="{" ".join(parts)}"{words}/>')

    def circle(self, at, radius, fill, stroke, width):
        """A circle."""
        self.pieces.append(f'<circle cx="{at[0]:.1f}" cy="{at[1]:.1f}" r="{radius:.1f}" fill="{fill}" '
                           f'stroke="{stroke}" stroke-width="{width:.1f}"/>')

    def box(self, at, side, fill):
        """A small square of a legend, by its left middle."""
        self.pieces.append(f'<rect x="{at[0]:.1f}" y="{at[1] - side / 2:.1f}" width="{side}" height="{side}" '
                           f'fill="{fill}" stroke="#666" stroke-width="0.5"/>')

    def text(self, at, text, size, fill=INK, anchor="middle", extra=""):
        """A line of text, by its middle or its left end."""
        self.pieces.append(f'<text x="{at[0]:.1f}" y="{at[1]:.1f}" font-size="{size:.1f}" fill="{fill}" text-anchor="{anchor}" '
                           f'dominant-baseline="central" xml:space="preserve"{extra}>{plain_text(text)}</text>')

    def whole(self, tip, hatch):
        """The picture, with arrow tips and hatching of these sizes."""
        size = f'width="{self.width:.0f}" height="{self.height:.0f}" viewBox="0 0 {self.width:.0f} {self.height:.0f}"'
        marks = MARKERS.format(size=hatch, wide=hatch / 5, tip=tip)
        return "\n".join([f'<svg xmlns="http://www.w3.org/2000/svg" {size} font-family="DejaVu Sans, sans-serif">', marks,
                          '<rect width="100%" height="100%" fill="white"/>', *self.pieces, "</svg>", ""])
