"""The paths of special nets, as other tools write them, as single segments and single vias."""
from typing import NamedTuple

from ..refusal import Refused
from ..wiring import Piece
from .design import ORIENTATIONS, whole
from .shapes import COPIES

BEGINS = ("ROUTED", "FIXED", "COVER", "SHIELD")
PASSED = ("SOURCE", "WEIGHT", "VOLTAGE", "PATTERN", "ESTCAP", "ORIGINAL", "FIXEDBUMP", "PROPERTY")
SHAPES = ("RING", "STRIPE", "FOLLOWPIN")
NOT_METAL = "it says nothing of the metal"


def centre_line(piece):
    """What joins pieces: the layer, whether it goes along x, the centre line and the width."""
    return piece.layer, piece.is_horizontal, piece.y1 if piece.is_horizontal else piece.x1, piece.width


class Box(NamedTuple):
    """A rectangle of metal."""
    layer: str
    shape: str
    x1: int
    y1: int
    x2: int
    y2: int
    line: int

    def segment(self, is_level):
        """The path along x or along y, in the middle of the rectangle; an odd width is one unit less."""
        width = (self.y2 - self.y1 if is_level else self.x2 - self.x1) // 2 * 2
        low = (self.y1 if is_level else self.x1) + width // 2
        ends = (self.x1, low, self.x2, low) if is_level else (low, self.y1, low, self.y2)
        return Piece(self.layer, width, self.shape, *ends, self.line)


class Stood(NamedTuple):
    """A via at a place, and its line in the DEF."""
    name: str
    x: int
    y: int
    line: int


class Wiring:
    """The segments and vias of a net."""

    def __init__(self, name, word):
        self.name, self.word, self.use, self.segments, self.vias, self.boxes = name, word, None, [], [], []


class Reader:
    """Reads the entry of a special net."""

    def __init__(self, design, vias, words):
        self.source, self.vias, self.words, self.at = design.source, vias, words, 2
        self.net = Wiring(design.plain_name(words[1]), words[1])
        self.layer = self.width = self.written = self.place = None
        self.shape = None

    def peek(self):
        return self.words[self.at] if self.at < len(self.words) else ""

    def take(self):
        if self.at >= len(self.words):
            self.source.refuse(self.words[-1], "the entry ends too early")
        self.at += 1
        return self.words[self.at - 1]

    def read(self):
        """The wiring of the net."""
        while self.peek() and self.peek() != "+":
            self.at += 1
        if list(map(str, self.words[2:self.at])) != ["(", "*", self.words[1], ")"]:
            self.source.tell("changed", self.words[1], f"what the net is connected to is written as ( * {self.net.name} )")
        while self.peek():
            word = self.take()
            if word == "+":
                self.part(self.take())
            elif word.upper() == "NEW":
                self.begin()
            else:
                self.step(word)
        self.add_boxes()
        return self.net

    def begin(self):
        """A path begins with its layer and its width."""
        self.layer, self.written = str(self.take()), self.take()
        self.width = whole(self.source, self.written)
        self.shape, self.place = None, None

    def part(self, keyword):
        """What stands behind a `+`."""
        word = self.source.as_keyword(keyword)
        if word in BEGINS:
            if word == "SHIELD":
                self.source.tell("changed", keyword, f"the shield of {self.take()} is taken as wiring of the net")
                if self.peek() == "+":
                    return
            self.begin()
        elif word == "USE":
            self.net.use = self.source.as_keyword(self.take())
        elif word == "SHAPE":
            self.shape = self.known_shape(self.take())
        elif word == "MASK":
            self.take()
            self.source.tell("left out", keyword, "the mask of a shape has no effect on the grid")
        elif word == "RECT":
            self.rectangle(keyword, str(self.take()), [self.point(), self.point()])
        elif word in PASSED:
            while self.peek() not in ("+", ""):
                self.at += 1
            self.source.tell("passed over", keyword, NOT_METAL)
        else:
            self.source.refuse(keyword, "metal in this form is not converted; write it as paths along x or y")

    def known_shape(self, word):
        """A shape that pdn knows, or STRIPE for another one: both are metal alike."""
        shape = self.source.as_keyword(word)
        if shape in SHAPES:
            return shape
        self.source.tell("changed", word, "a shape that pdn does not know, written as STRIPE")
        return "STRIPE"

    def stated_shape(self, word):
        """The shape of the path, which is STRIPE where none is stated."""
        if self.shape is None:
            self.source.tell_of("changed", word, self.net.name, "metal without a SHAPE is written as STRIPE")
        return self.shape or "STRIPE"

    def step(self, word):
        """A point, a via or a word between them."""
        upper = word.upper()
        if self.layer is None:
            self.source.refuse(word, "a path begins with + ROUTED, a layer and a width")
        if word == "(":
            self.at -= 1
            self.go_to(word, self.point())
        elif upper == "MASK":
            self.take()
            self.source.tell("left out", word, "the mask of a shape has no effect on the grid")
        elif upper == "VIRTUAL":
            self.place = self.point()
            self.source.tell("left out", word, "a connection without metal: the path goes on at the next point")
        elif upper == "RECT":
            self.rectangle(word, self.layer, [self.point(), self.point()])
        else:
            self.via(word)

    def point(self):
        """( x y ) or ( x y beyond ), where * repeats a coordinate of the last point; the third number is 0 where none stands."""
        first, held = self.take(), []
        while first == "(" and self.peek() != ")":
            held.append(self.take())
        if first != "(" or len(held) not in (2, 3):
            self.source.refuse(first, "( x y ) is due")
        self.take()
        values = []
        for axis, word in enumerate(held):
            if word == "*" and (self.place is None or axis == 2):
                self.source.refuse(word, "no point stands before it")
            values.append(self.place[axis] if word == "*" else whole(self.source, word))
        return (*values, *([0] if len(values) == 2 else []))

    def go_to(self, word, point):
        """A segment from the last point to this one, longer at both ends where a third number says so."""
        if self.place is not None and self.place[:2] != point[:2]:
            self.segment(word, self.place, point)
        self.place = point

    def segment(self, word, start, end):
        """A segment between two points."""
        (x1, y1, before), (x2, y2, behind) = start, end
        if x1 != x2 and y1 != y2:
            self.source.refuse(word, "a slanted segment is not converted; write it as paths along x or y")
        if (x2, y2) < (x1, y1):
            x1, y1, x2, y2, before, behind = x2, y2, x1, y1, behind, before
        if y1 == y2:
            x1, x2 = x1 - before, x2 + behind
        else:
            y1, y2 = y1 - before, y2 + behind
        self.net.segments.append(Piece(self.layer, self.even(), self.stated_shape(word), x1, y1, x2, y2, self.source.line(word)))

    def even(self):
        """A width that has a centre line: an odd one is one unit less."""
        if self.width < 2:
            self.source.refuse(self.written, "a segment of this width has no metal with a centre line")
        if self.width % 2:
            self.source.tell("changed", self.written, f"an odd width on {self.layer} has no centre line, and is written with one unit less")
        return self.width - self.width % 2

    def rectangle(self, word, layer, corners):
        """A rectangle, which is written as a path when all segments are read."""
        (xa, ya, _), (xb, yb, _) = corners
        self.net.boxes.append(Box(layer, self.stated_shape(word), min(xa, xb), min(ya, yb), max(xa, xb), max(ya, yb), self.source.line(word)))

    def add_boxes(self):
        """Rectangles as paths: on the line of a wire that has their width, else along their longer side."""
        lines = {centre_line(segment) for segment in self.net.segments}
        for box in self.net.boxes:
            is_level = box.x2 - box.x1 >= box.y2 - box.y1
            if centre_line(box.segment(not is_level)) in lines:
                is_level = not is_level
            segment = box.segment(is_level)
            if (box.y2 - box.y1 if is_level else box.x2 - box.x1) % 2:
                self.source.changes.tell("changed", self.source.path, box.line, "RECT", f"an odd width on {box.layer} has no centre line, and is written with one unit less")
            if segment.width == 0:
                raise Refused(self.source.path, box.line, "RECT: a rectangle without a width of two units has no metal with a centre line")
            self.net.segments.append(segment)
            self.source.changes.tell("changed", self.source.path, box.line, "RECT", f"a rectangle of {self.net.name} is written as a path along {'x' if is_level else 'y'}")

    def via(self, word):
        """A via at the last point, perhaps turned or repeated. The path goes on on its other layer."""
        if self.place is None:
            self.source.refuse(word, "a via needs a point before it")
        made = self.vias.get(word)
        if self.peek() in ORIENTATIONS:
            turned = self.take()
            if turned not in ("N", "S", "FN", "FS"):
                self.source.refuse(turned, "a via that lies on its side is not converted; write a via with columns and rows exchanged")
            self.source.tell("changed", turned, "a via that is turned by this is the same, and is written without it")
        for x, y in self.places(word):
            self.net.vias.append(Stood(str(word), x, y, self.source.line(word)))
        if self.layer not in (made.lower, made.upper):
            self.source.refuse(word, f"the via does not join {self.layer}, on which the path is")
        self.layer = made.upper if self.layer == made.lower else made.lower

    def places(self, word):
        """Where a via stands: at the last point, or at many of them, DO columns BY rows STEP x y."""
        x, y, _ = self.place
        if self.peek().upper() != "DO":
            return [(x, y)]
        held = [self.take() for _ in range(7)]
        if [held[2].upper(), held[4].upper()] != ["BY", "STEP"]:
            self.source.refuse(word, "DO columns BY rows STEP x y is due behind it")
        columns, rows, across, up = (whole(self.source, held[at]) for at in (1, 3, 5, 6))
        if min(columns, rows) < 1 or columns * rows > COPIES:
            self.source.refuse(word, f"from 1 to {COPIES} places are due behind it")
        self.source.tell("changed", held[0], "a via that is repeated, written once for each place")
        return [(x + column * across, y + row * up) for column in range(columns) for row in range(rows)]
