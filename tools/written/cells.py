"""Sizes of sites and macros of a LEF library, and the pins of power and ground of its blocks."""
from collections import defaultdict
from decimal import Decimal, InvalidOperation
from fractions import Fraction
from typing import NamedTuple

from .def_text import words_of
from .refusal import Refused

SIDEWAYS = ("E", "W", "FE", "FW")
_USES = ("POWER", "GROUND")


class Pin(NamedTuple):
    """A rectangle of a pin: its use and layer, and its corners in micrometres."""
    use: str
    layer: str
    corners: tuple


def turned(point, size, orientation):
    """Where a point of a macro of this size comes to lie, from the corner of the placed component's box."""
    (x, y), (width, height) = point, size
    return {"N": (x, y), "S": (width - x, height - y), "FN": (width - x, y), "FS": (x, height - y),
            "W": (height - y, x), "E": (y, width - x), "FW": (y, x), "FE": (height - y, width - x)}[orientation]


class Library:
    """What LEF texts say of sites and macros, with lengths in micrometres."""

    def __init__(self, *paths):
        self.paths = " and ".join(map(str, paths))
        self.sizes, self.blocks, self.pins = {}, set(), defaultdict(list)
        for path in paths:
            self._read(path)

    def _read(self, path):
        """Reads a text."""
        self._path, self._held, self._name, self._pin, self._layer, self._is_inside = path, [], None, None, None, False
        for line, word in words_of(path):
            self._held.append((line, word))
            self._step([word for _, word in self._held])

    def size(self, name, units, orientation):
        """Width and height of a placed site or macro in whole units, rounded down; None where no size stands here."""
        size = self.sizes.get(name)
        if size is None:
            return None
        width, height = (int(length * units // 1) for length in size)
        return (height, width) if orientation in SIDEWAYS else (width, height)

    def pin_boxes(self, component, units):
        """The rectangles of the pins of a placed block, in units: use, layer and box."""
        size = self.sizes[component.kind]
        for pin in self.pins.get(component.kind, ()):
            corners = [turned(pin.corners[k:k + 2], size, component.orientation) for k in (0, 2)]
            spans = [sorted(component.place[k] + corner[k] * units for corner in corners) for k in (0, 1)]
            yield pin.use, pin.layer, (spans[0][0], spans[1][0], spans[0][1], spans[1][1])

    def _step(self, words):
        """Takes the words since the last statement, if they are one."""
        first, count = words[0], len(words)
        if first in ("SITE", "MACRO") and count == 2 and (self._name is None or first == "MACRO"):
            self._name, self._pin, self._is_inside = words[1], None, False
        elif first == "PIN" and count == 2 and self._name is not None:
            self._pin, self._use, self._rects = words[1], None, []
        elif first in ("PORT", "OBS", "DENSITY") and self._name is not None:
            self._is_inside = True
        elif first == "END" and self._is_inside:
            self._is_inside = False
        elif first == "END" and count == 2:
            self._end(words[1])
        elif words[-1] == ";":
            self._statement(words)
        else:
            return
        self._held.clear()

    def _end(self, name):
        """The end of a pin or of a macro, or of a section of which nothing is read."""
        if name == self._pin:
            if self._use in _USES:
                self.pins[self._name] += [Pin(self._use, layer, corners) for layer, corners in self._rects]
            self._pin = None
        elif name == self._name:
            self._name = None

    def _statement(self, words):
        """Takes a statement that ends with `;`."""
        if self._name is None:
            return
        if words[0] == "SIZE" and words[2:3] == ["BY"] and len(words) == 5:
            self.sizes.setdefault(self._name, (self._length(1), self._length(3)))
        elif words[:2] == ["CLASS", "BLOCK"]:
            self.blocks.add(self._name)
        elif self._pin is not None and words[0] == "USE":
            self._use = self._use or words[1]
        elif self._pin is not None and self._is_inside and words[0] == "LAYER":
            self._layer = words[1]
        elif self._pin is not None and self._is_inside and words[0] == "RECT" and len(words) == 6:
            self._rects.append((self._layer, tuple(self._length(at) for at in range(1, 5))))

    def _length(self, at):
        """The length that a word of the statement is, exactly."""
        line, word = self._held[at]
        try:
            return Fraction(Decimal(word))
        except (InvalidOperation, ValueError, OverflowError):
            raise Refused(self._path, line, f"{word} is no length") from None
