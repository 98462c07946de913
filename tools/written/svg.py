"""Elements of SVG, with whole numbers."""
import re
from functools import cache, lru_cache
from xml.sax.saxutils import escape, quoteattr

_UNFIT = re.compile("[\x00-\x08\x0b-\x1f\x7f\ud800-\udfff\ufffe\uffff]")


def fit(text):
    """Text of which XML has each character; the others are shown as one that stands for what cannot be shown."""
    return _UNFIT.sub("\ufffd", text)


@cache
def attribute(key):
    """The name of an attribute."""
    return key.rstrip("_").replace("_", "-")


@lru_cache(1000)
def quoted(text):
    """The value of an attribute."""
    return quoteattr(fit(text))


def element(name, content="", **attributes):
    """An element. Underscores in names of attributes stand for hyphens, and one at the end for nothing."""
    words = "".join([f' {attribute(key)}="{value}"' if type(value) is int else f" {attribute(key)}={quoted(str(value))}" for key, value in attributes.items()])
    return f"<{name}{words}>{content}</{name}>" if content else f"<{name}{words}/>"


def title(text):
    """What hovering shows."""
    return f"<title>{escape(fit(text))}</title>"


def words(x, y, text, **attributes):
    """A line of text."""
    return element("text", escape(fit(text)), x=x, y=y, **attributes)


class Window:
    """A window onto a rectangle of the design, in which y goes up: its place and size in the picture."""

    def __init__(self, box, x, y, width, height):
        self.left, self.bottom, self.right, self.top = box
        self.across, self.up = self.right - self.left, self.top - self.bottom
        self.x, self.y, self.width, self.height = x, y, width, height

    def content(self, drawn):
        """The window with what is drawn in it, in units of the design."""
        return element("svg", "\n".join(drawn), x=self.x, y=self.y, width=self.width, height=self.height, viewBox=f"0 0 {self.across} {self.up}")

    def point(self, x, y):
        """Where a place of the design is in the picture."""
        return self.x + (x - self.left) * self.width // self.across, self.y + (self.top - y) * self.height // self.up

    def rect(self, box, content="", **attributes):
        """A rectangle of the design."""
        x1, y1, x2, y2 = box
        return element("rect", content, x=x1 - self.left, y=self.top - y2, width=x2 - x1, height=y2 - y1, **attributes)
