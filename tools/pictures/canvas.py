"""A page of SVG: text, lines and shapes whose colours follow the reader's light or dark scheme.

The page has a background of its own, so that it can be read where the scheme that the browser tells isn't the page's."""
from xml.sax.saxutils import escape

FONT = "system-ui, -apple-system, 'Segoe UI', 'DejaVu Sans', Helvetica, Arial, sans-serif"
# of each class: what it paints, its colour in the light scheme, and in the dark one
COLOURS = {
    "page": ("fill", "#ffffff", "#0d1117"),
    "edge": ("stroke", "#d1d9e0", "#3d444d"),
    "ink": ("fill", "#1f2328", "#f0f6fc"),
    "soft": ("fill", "#59636e", "#9198a1"),
    "line": ("stroke", "#59636e", "#9198a1"),
    "grid": ("stroke", "#e4e8ec", "#262c36"),
    "blue": ("fill", "#0969da", "#58a6ff"),
    "blue-line": ("stroke", "#0969da", "#58a6ff"),
    "orange": ("fill", "#bc4c00", "#f0883e"),
    "orange-line": ("stroke", "#bc4c00", "#f0883e"),
    "room": ("fill", "#f3f6fa", "#161b22"),
    "blue-room": ("fill", "#ddf4ff", "#10243e"),
    "orange-room": ("fill", "#fff1e5", "#33200f"),
}
NARROW, WIDE = set("iljtfrI.,:;'|()[]! /-1"), set("mwMWGOQD@%")


def number(value):
    """A number as short as it can be told to a tenth."""
    return f"{value:.1f}".removesuffix(".0")


def width_of(text, size, bold=False):
    """About how wide a text is, by letters of a wide font."""
    wide = sum(0.40 if it in NARROW else 0.86 if it in WIDE else 0.68 if it.isupper() else 0.62 for it in text)
    return wide * size * (1.1 if bold else 1)


def wrapped(text, size, width, bold=False):
    """The text's words in lines that aren't wider."""
    lines = []
    for word in text.split():
        if lines and width_of(f"{lines[-1]} {word}", size, bold) <= width:
            lines[-1] += f" {word}"
        else:
            lines.append(word)
    return lines


class Canvas:
    """A picture in the making; its parts are painted in the order of the calls."""

    def __init__(self, width, height, title, description):
        self.width, self.height, self.title, self.description = width, height, title, description
        self.parts = []

    def add(self, tag, classes, **attributes):
        pairs = {"class": classes, **{it.replace("_", "-"): value for it, value in attributes.items() if value is not None}}
        told = " ".join(f'{it}="{number(value) if isinstance(value, (int, float)) else escape(value)}"' for it, value in pairs.items())
        self.parts.append(f"<{tag} {told}/>")

    def text(self, x, y, text, size=12, classes="ink", anchor=None, bold=False, turn=False):
        told = f'class="{classes}" x="{number(x)}" y="{number(y)}" font-size="{number(size)}"'
        told += f' text-anchor="{anchor}"' if anchor else ""
        told += ' font-weight="600"' if bold else ""
        told += f' transform="rotate(-90 {number(x)} {number(y)})"' if turn else ""
        self.parts.append(f"<text {told}>{escape(text)}</text>")

    def lines(self, x, y, lines, size=12, step=17, **how):
        """Texts below each other; answers the place below them."""
        for text in lines:
            self.text(x, y, text, size, **how)
            y += step
        return y

    def line(self, x1, y1, x2, y2, classes="line", width=1, dashes=None):
        self.add("line", classes, x1=x1, y1=y1, x2=x2, y2=y2, stroke_width=width, stroke_dasharray=dashes)

    def box(self, x, y, width, height, classes="room edge", round=6, stroke=1, dashes=None):
        self.add("rect", classes, x=x, y=y, width=width, height=height, rx=round, stroke_width=stroke, stroke_dasharray=dashes)

    def path(self, d, classes="line", width=1, dashes=None, fill="none"):
        self.add("path", classes, d=d, fill=fill, stroke_width=width, stroke_dasharray=dashes)

    def arrow(self, points, classes="line", head="soft", width=1.5, dashes=None):
        """A line along the points, which are on a grid's lines, with its head at the last."""
        (x0, y0), (x, y) = points[-2:]
        dx, dy = (x > x0) - (x < x0), (y > y0) - (y < y0)
        shaft = [*points[:-1], (x - 7 * dx, y - 7 * dy)]
        self.path("M" + "L".join(f"{number(a)} {number(b)}" for a, b in shaft), classes, width, dashes)
        corners = [(x, y), (x - 9 * dx - 4.5 * dy, y - 9 * dy - 4.5 * dx), (x - 9 * dx + 4.5 * dy, y - 9 * dy + 4.5 * dx)]
        self.add("path", head, d="M" + "L".join(f"{number(a)} {number(b)}" for a, b in corners) + "Z")

    def heading(self, *below):
        """The title at the page's top, and soft lines below it; answers the place below them."""
        self.text(20, 34, self.title, 18, bold=True)
        lines = [line for text in below for line in wrapped(text, 13, self.width - 40)]
        return self.lines(20, 56, lines, 13, 18, classes="soft")

    def svg(self, dark=None):
        """The page's text: in both schemes, or in one of them where it is asked for."""
        rules = [(f".{name}{{{what}:%s}}", light, other) for name, (what, light, other) in COLOURS.items()]
        light, other = ("".join(rule % (a, b)[of] for rule, a, b in rules) for of in (0, 1))
        style = other if dark else light if dark is False else f"{light}\n@media (prefers-color-scheme:dark){{{other}}}"
        size = f'width="{self.width}" height="{number(self.height)}" viewBox="0 0 {self.width} {number(self.height)}"'
        page = f'<rect class="page edge" x="0.5" y="0.5" width="{self.width - 1}" height="{number(self.height - 1)}" rx="8"/>'
        head = f'<svg xmlns="http://www.w3.org/2000/svg" {size} role="img" font-family="{FONT}">'
        about = [f"<title>{escape(self.title)}</title>", f"<desc>{escape(self.description)}</desc>", f"<style>{style}</style>", page]
        return "\n".join([head, *about, *self.parts, "</svg>"]) + "\n"
