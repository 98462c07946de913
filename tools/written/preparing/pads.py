"""Pads: from the design's pins of power and ground, a pad file of x, y, size and voltage, or a table of net, layer, x and y."""
from fractions import Fraction
from typing import NamedTuple

from ..refusal import Refused, read_text
from .design import parts_of, place_of, whole
from .quantities import decimal, nearest, number

TURNED = {"N": lambda x, y: (x, y), "S": lambda x, y: (-x, -y), "W": lambda x, y: (-y, x), "E": lambda x, y: (y, -x), "FN": lambda x, y: (-x, y),
          "FS": lambda x, y: (x, -y), "FW": lambda x, y: (y, x), "FE": lambda x, y: (-y, -x)}
HEADS = (["net", "layer", "x", "y"], ["x", "y", "size", "voltage"])
PIN_PARTS = ("NET", "SPECIAL", "DIRECTION", "NETEXPR", "SUPPLYSENSITIVITY", "GROUNDSENSITIVITY", "USE", "PORT", "LAYER", "POLYGON", "VIA", "PLACED", "FIXED",
             "COVER", "PROPERTY")


class Pad(NamedTuple):
    """A pad where it is wanted, in micrometres: its net, its layer (None for the highest that has straps of the net), and where it stands."""
    net: str
    layer: str
    x: Fraction
    y: Fraction
    path: str
    line: int
    word: str


class Supplies:
    """The voltages of nets, and where they come from."""

    def __init__(self, volts):
        self.volts = dict(volts)

    def net_at(self, volts, nets):
        """The net at a voltage, or None where it is not one alone."""
        found = [net for net in nets if self.volts.get(net) == volts]
        return found[0] if len(found) == 1 else None


def pads_of_pins(design, nets):
    """A pad at the middle of each shape of the pins of these nets."""
    source, found = design.source, []
    for words in design.pins:
        parts = [(source.as_keyword(keyword), keyword, held) for keyword, held in parts_of(source, words)]
        net = next((design.plain_name(held[0]) for part, _, held in parts if part == "NET" and held), None)
        pads = pads_of_pin(design, net, words[1], parts) if net in nets else []
        found += pads
        if not pads:
            source.tell_of("passed over", words[1], "PINS", "a pin of power or ground without a shape that is placed" if net in nets else "a pin of another net")
    return found


def pads_of_pin(design, net, name, parts):
    """The pads of one pin: each port has shapes and a place."""
    source, shapes, last, found = design.source, [], None, []
    for part, keyword, held in [*parts, ("PORT", name, [])]:
        if part == "PORT":
            found += [pad_of(design, net, name, shape, last) for shape in shapes if last]
            shapes, last = [], None
        elif part == "LAYER":
            corners = [whole(source, word) for word in held[1:] if word.lstrip("+-").isdecimal()][-4:]
            if len(corners) != 4:
                source.refuse(keyword, "LAYER name ( x y ) ( x y ) is due")
            shapes.append((str(held[0]), corners))
        elif part in ("PLACED", "FIXED", "COVER"):
            last = place_of(source, keyword, held)
        elif part in ("POLYGON", "VIA"):
            source.tell("passed over", keyword, f"of pin {name}: pads are taken from its rectangles")
        elif part not in PIN_PARTS and not part.startswith("ANTENNA"):
            source.refuse(keyword, "no part of a pin that is known here")
    return found


def pad_of(design, net, name, shape, place):
    """The pad in the middle of a shape, turned and moved to its place."""
    layer, (x1, y1, x2, y2) = shape
    x, y = TURNED[place[2]](Fraction(x1 + x2, 2), Fraction(y1 + y2, 2))
    source = design.source
    return Pad(net, layer, (place[0] + x) / design.units, (place[1] + y) / design.units, source.path, source.line(name), str(name))


def pads_of_file(path, nets, supplies, changes):
    """The pads of a file. A pad file without nets tells each by its voltage."""
    found = []
    for line, text in enumerate(read_text(path).splitlines(), 1):
        words = text.split("#")[0].replace(",", " ").split()
        if not words or [word.lower() for word in words] in HEADS:
            continue
        if len(words) != 4:
            raise Refused(path, line, f"{words[0]}: NET LAYER x y, or x, y, size and voltage are due")
        values = [number(word) for word in words]
        if None not in values:
            found.append(pad_at_voltage(path, line, words, values, nets, supplies, changes))
            changes.tell("left out", path, line, "size", "of a pad: the supply is connected at its middle")
        elif None not in values[2:]:
            if words[0] not in nets:
                raise Refused(path, line, f"{words[0]}: no net of the script or the wiring has this name")
            found.append(Pad(words[0], words[1], values[2], values[3], path, line, words[0]))
        else:
            raise Refused(path, line, f"{words[2]}: two numbers are due behind net and layer")
    return found


def pad_at_voltage(path, line, words, values, nets, supplies, changes):
    """A pad of x, y, size and voltage: its net is the one at this voltage; a net of power without a voltage takes the first."""
    net = supplies.net_at(values[3], nets)
    if net is None and values[3] > 0:
        free = [name for name, use in nets.items() if use == "POWER" and name not in supplies.volts]
        if len(free) == 1:
            net = free[0]
            supplies.volts[net] = values[3]
            changes.tell("guessed", path, line, words[3], f"net {net} is held at the voltage of its pads, {words[3]}")
    if net is None:
        raise Refused(path, line, f"{words[3]}: no net is held at this voltage; state --supply NET={words[3]}")
    return Pad(net, None, values[0], values[1], path, line, words[0])


class Place(NamedTuple):
    """Where pads are put: the straps, the layers from the lowest, the units, what tells of it, and the file that is written."""
    straps: list
    layers: list
    units: int
    changes: object
    name: str


def on_straps(pads, place):
    """The pads on the metal of their nets: those that stand beside it are moved to the nearest strap within a pitch."""
    return [on_strap(pad, *place) for pad in pads]


def on_strap(pad, straps, layers, units, changes, name):
    """One pad on its strap, in units of the design."""
    layer = pad.layer
    if layer is None:
        having = [name for name in layers if any(strap.net == pad.net and strap.layer == name for strap in straps)]
        layer = having[-1] if having else None
        if layer:
            changes.tell("guessed", pad.path, pad.line, pad.word, f"the pad of {pad.net} is on {layer}, its highest layer with straps, in {name}")
    mine = [strap for strap in straps if strap.net == pad.net and strap.layer == layer]
    if not mine:
        raise Refused(pad.path, pad.line, f"{pad.word}: the grid has no strap of {pad.net} on {layer or 'any layer'}; give pads by --pads")
    x, y = nearest(pad.x * units), nearest(pad.y * units)
    if any(strap.box[0] <= x <= strap.box[2] and strap.box[1] <= y <= strap.box[3] for strap in mine):
        tell_move(pad, x, y, units, changes, name)
        return pad.net, layer, x, y
    places = [(abs(place[0] - x) + abs(place[1] - y), place, strap) for strap in mine for place in [nearest_place(strap, x, y)]]
    distance, (to_x, to_y), strap = min(places, key=lambda held: held[:2])
    if distance > strap.pitch:
        raise Refused(pad.path, pad.line, f"{pad.word}: the nearest strap of {pad.net} on {layer} is {decimal(Fraction(distance, units), 6)} micrometres away, "
                                          f"more than a pitch; give pads by --pads")
    tell_move(pad, to_x, to_y, units, changes, name)
    return pad.net, layer, to_x, to_y


def nearest_place(strap, x, y):
    """The place on the line of a strap that is nearest."""
    x1, y1, x2, y2 = strap.box
    return (strap.centre, min(max(y, y1), y2)) if strap.is_upright else (min(max(x, x1), x2), strap.centre)


def tell_move(pad, x, y, units, changes, name):
    """Tells how far a pad is moved, if it is."""
    moves = [abs(Fraction(x, units) - pad.x), abs(Fraction(y, units) - pad.y)]
    if any(moves):
        changes.tell("changed", pad.path, pad.line, pad.word, f"a pad of {pad.net} at {decimal(pad.x, 6)} {decimal(pad.y, 6)} is moved to "
                     f"{decimal(Fraction(x, units), 6)} {decimal(Fraction(y, units), 6)}, {decimal(sum(moves), 6)} micrometres, in {name}")


def pad_text(pad, units):
    net, layer, x, y = pad
    return f"pad {net} {layer} {decimal(Fraction(x, units), 6)} {decimal(Fraction(y, units), 6)}\n"
