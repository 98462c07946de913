"""Macros of LEF: their size and class, their pins of power and ground, and their obstructions."""
from typing import NamedTuple

from .quantities import number
from .shapes import moved, rectangles

SUPPLY = ("POWER", "GROUND")
MACRO_PLAIN = ("FIXEDMASK", "FOREIGN", "EEQ", "LEQ", "SYMMETRY", "SOURCE", "PROPERTY", "POWER", "GENERATE", "GENERATOR", "FUNCTION", "CLOCKTYPE")
PIN_PLAIN = ("TAPERRULE", "DIRECTION", "NETEXPR", "SUPPLYSENSITIVITY", "GROUNDSENSITIVITY", "SHAPE", "MUSTJOIN", "PROPERTY", "LEQ", "POWER",
             "RISETHRESH", "FALLTHRESH", "RISESATCUR", "FALLSATCUR", "VLO", "VHI", "CAPACITANCE", "RESISTANCE", "PULLDOWNRES", "TIEOFFR",
             "CURRENTSOURCE", "IV_TABLES", "MAXDELAY", "MAXLOAD", "FOREIGN", "SCANUSE", "OUTPUTNOISEMARGIN", "INPUTNOISEMARGIN", "OUTPUTRESISTANCE")


class Shape(NamedTuple):
    """A shape of a pin or an obstruction: its layer, the width of paths, its statement, and the spacing that it asks for itself, with its word."""
    layer: str
    width: object
    statement: list
    spacing: object = None

    def is_via(self):
        return self.statement[0].upper() == "VIA"


class Macro:
    """A macro with what grids need of it. Shapes are kept as they stand until somebody asks for their rectangles."""

    def __init__(self, source, name):
        self.source, self.word, self.name = source, name, str(name)
        self.size = self.kind = self.site = None
        self.kind_words, self.origin, self.pins, self.obstructions, self.converted = (), None, [], [], {}

    def is_block(self):
        return self.kind == "BLOCK"

    def shift(self):
        """What is added to each shape, so that the macro's corner is at 0 0."""
        return self.origin or (0, 0)

    def boxes(self, shapes):
        """The rectangles of shapes, each with its layer, from the macro's corner."""
        return [box for shape in shapes for box in self.boxes_of(shape)]

    def boxes_of(self, shape):
        """The rectangles of one shape."""
        key = id(shape.statement)
        if key not in self.converted:
            self.converted[key] = [(shape.layer, *moved(box, self.shift())) for box in rectangles(self.source, shape.statement, shape.width)]
        return self.converted[key]

    def rails(self, layers):
        """The rectangles of pins of power and ground on some layers that go from side to side: the use of the pin, the layer, the lower and the upper
        edge, the left and the right end."""
        found = []
        for pin in self.pins:
            shapes = [shape for shape in pin.shapes if shape.layer in layers and not shape.is_via()]
            found += [(pin.use, layer, y1, y2, x1, x2) for layer, x1, y1, x2, y2 in self.boxes(shapes) if x1 <= 0 and x2 >= self.size[0]]
        return found

    def key(self):
        """What a second macro of this name has to agree with."""
        shapes = [(str(shape.layer), shape.width, shape.spacing and shape.spacing[0], *map(str, shape.statement))
                  for shapes in [*(pin.shapes for pin in self.pins), self.obstructions] for shape in shapes]
        return self.size, self.kind, self.shift(), [(pin.name, pin.use) for pin in self.pins], shapes


class Pin:
    """A pin with its use and its shapes."""

    def __init__(self, name):
        self.name, self.use, self.shapes = str(name), None, []


def read_macro(source, library):
    """MACRO .. END."""
    name = source.take()
    macro = Macro(source, name)
    for first, word in source.section(name):
        read_macro_part(source, macro, first, word)
    if macro.size is None:
        source.refuse(name, "the macro has no SIZE; state it")
    before = library.macros.setdefault(macro.name, macro)
    if before is not macro:
        if before.key() != macro.key():
            source.refuse(name, f"the macro stands in {before.source.path}:{before.source.line(before.word)} with another text; hand in one of the two")
        source.tell("passed over", name, "the macro stands before and agrees")


def read_macro_part(source, macro, first, word):
    """A statement or a section of a macro."""
    if word == "PIN":
        read_pin(source, macro)
    elif word == "OBS":
        macro.obstructions += read_shapes(source)
    elif word in ("DENSITY", "TIMING"):
        source.skip_to("END", *(["TIMING"] if word == "TIMING" else []))
        source.tell("passed over", first, "of a macro: it says nothing of the grid")
    else:
        read_macro_statement(source, macro, first, word)


def read_macro_statement(source, macro, first, word):
    """A statement of a macro."""
    held = source.statement()
    if word == "SIZE":
        values = [number(piece) for piece in held[::2]]
        if len(held) != 3 or None in values or min(values) <= 0:
            source.refuse(first, "SIZE width BY height is due")
        macro.size = macro.size or tuple(source.lengths(first, values))
    elif word == "CLASS":
        source.one(first, held[:1])
        macro.kind_words = macro.kind_words or tuple(source.as_keyword(piece) for piece in held)
        macro.kind = macro.kind_words[0]
    elif word == "ORIGIN":
        values = [number(piece) for piece in held if piece not in "()"]
        if len(values) != 2 or None in values:
            source.refuse(first, "two numbers are due")
        if macro.origin is None and values != [0, 0]:
            source.tell("changed", first, f"of macro {macro.name}: moved into its rectangles, so that its corner is at 0 0")
        macro.origin = macro.origin or tuple(source.lengths(first, values))
    elif word == "SITE":
        macro.site = macro.site or str(source.one(first, held[:1]))
        source.tell("passed over", first, "of a macro: it serves to work out rows alone")
    elif word in MACRO_PLAIN:
        source.tell("passed over", first, "of a macro: it says nothing of the grid")
    else:
        source.refuse(first, "no statement of a MACRO that is known here; leave it out if the grid may be without it")


def read_pin(source, macro):
    """PIN .. END."""
    name = source.take()
    pin, plain = Pin(name), []
    for first, word in source.section(name):
        if word == "PORT":
            pin.shapes += read_shapes(source)
            continue
        held = source.statement()
        if word == "USE":
            pin.use = pin.use or source.as_keyword(source.one(first, held))
        elif word in PIN_PLAIN or word.startswith("ANTENNA"):
            plain.append(first)
        else:
            source.refuse(first, "no statement of a PIN that is known here; leave it out if the grid may be without it")
    if pin.use in SUPPLY:
        macro.pins.append(pin)
        for first in plain:
            source.tell("passed over", first, "of a pin of power or ground: it says nothing of the grid")
    else:
        source.tell_of("passed over", name, "PIN", "a pin that is neither of power nor of ground")


def read_shapes(source):
    """The shapes of a port or of the obstructions, up to their END."""
    shapes, layer, width, spacing = [], None, None, None
    while True:
        first = source.take()
        word = source.as_keyword(first)
        if word == "END":
            return shapes
        held = source.statement()
        if word == "LAYER":
            layer, spacing = read_shape_layer(source, first, held)
        elif word == "WIDTH":
            width = number(source.one(first, held))
        elif word in ("RECT", "POLYGON", "PATH", "VIA"):
            if layer is None and word != "VIA":
                source.tell("left out", first, "of an obstruction that is none to nets of power and ground (EXCEPTPGNET)")
            else:
                shapes.append(Shape(layer, width, [first, *held], spacing))
        elif word in ("CLASS", "PROPERTY"):
            source.tell("passed over", first, "of a port or an obstruction: it says nothing of the grid")
        else:
            source.refuse(first, "no shape of LEF that is known here")


def read_shape_layer(source, first, held):
    """LAYER name EXCEPTPGNET SPACING length or DESIGNRULEWIDTH length: the layer, None where its shapes are nothing to supplies, and the spacing."""
    layer, rest = str(source.one(first, held[:1])), held[1:]
    if rest[:1] and rest[0].upper() == "EXCEPTPGNET":
        layer, rest = None, rest[1:]
    if not rest:
        return layer, None
    value = number(rest[1]) if len(rest) == 2 else None
    if rest[0].upper() not in ("SPACING", "DESIGNRULEWIDTH") or value is None:
        source.refuse(rest[0], "EXCEPTPGNET, SPACING and a length, or DESIGNRULEWIDTH and a length are due behind a layer of shapes")
    if rest[0].upper() == "SPACING":
        return layer, (source.lengths(rest[0], [value])[0], rest[0])
    source.tell("left out", rest[0], "of an obstruction: metal keeps the SPACING of the layer from it")
    return layer, None
