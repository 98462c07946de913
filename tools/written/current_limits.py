"""What the limit of the current of a resistor of `build` or `signoff` may be, by its resistance and the technology.

The netlist has no widths and no counts of cuts. But a wire of known length has one resistance for each width, and an array one for each
count, so its resistance tells its width or its count; where it fits several, each of their limits is possible.
"""
import re
from fractions import Fraction
from math import floor
from typing import NamedTuple, Optional

from .circuit import whole_number, words_of
from .def_text import statements
from .refusal import Refused, read_text
from .technology import density_at

NODE = re.compile(r"n([1-9][0-9]*)_(-?[0-9]+)_(-?[0-9]+)")
PICOMETRES = 10 ** 6
MOST_CHOICES = 1000


class Point(NamedTuple):
    """Where a node is: the number of its layer of its net, and its place."""
    number: int
    x: int
    y: int


class Via(NamedTuple):
    """A generated via of a DEF: its lower and its upper layer, its cuts' number and area in square picometres, and the resistance of one."""
    lower: str
    upper: str
    cuts: int
    area: Fraction
    cut: str
    ohms: Optional[int]


def point_of(name):
    """The point of a node of `build`, or None."""
    found = NODE.fullmatch(name)
    return Point(*map(int, found.groups())) if found else None


def rounded(above, below):
    """A quotient rounded to the nearest whole number, halves up, and at least 1: a resistance in nano-ohms."""
    return max(1, (2 * above + below) // (2 * below))


def divisors(above, ohms):
    """Which whole numbers divide this so that the rounded quotient is the resistance. None where they are too many to tell."""
    if ohms == 1:
        return None
    least, most = 2 * above // (2 * ohms + 1), 2 * above // (2 * ohms - 1) + 1
    if most - least > MOST_CHOICES:
        return None
    return [below for below in range(max(least, 1), most + 1) if rounded(above, below) == ohms]


class Bias:
    """The supplies and drop limits of a bias file in yoctovolts, and its pads with places in picometres."""

    def __init__(self, path):
        self.path, self.supplies, self.drops, self.pads = path, {}, {}, []
        for line, text in enumerate(read_text(path).split("\n"), 1):
            words = words_of(re.sub(r"(^|[ \t\r])#.*", "", text))
            try:
                self._take(words)
            except (IndexError, ValueError):
                raise Refused(path, line, "this is no line of a bias file") from None

    def _take(self, words):
        if words[:1] in (["supply"], ["droplimit"]):
            value = whole_number(words[2], 24)
            if value is None:
                raise ValueError
            (self.supplies if words[0] == "supply" else self.drops)[words[1]] = value
        elif words[:1] == ["pad"]:
            x, y = (whole_number(word, 6, False) for word in words[3:5])
            if x is None or y is None:
                raise ValueError
            self.pads.append((words[1], words[2], x, y))


def read_units(path):
    """How many units a micrometre has in a DEF, None where it does not say so, and the words of its generated vias."""
    units, vias = None, []
    for statement in statements(path):
        words = statement.words
        try:
            if "UNITS" in words and words[words.index("UNITS"):][1:3] == ["DISTANCE", "MICRONS"]:
                units = units or int(words[words.index("UNITS") + 3])
            elif words[:1] == ["-"] and "VIARULE" in words and "CUTSIZE" in words:
                vias.append(words)
        except (IndexError, ValueError):
            raise Refused(path, statement.lines[0], "this statement is not read") from None
    return units, vias


def units_by_pads(circuit, technology, bias):
    """How many units a micrometre has, by the places of the pads along their metal. None where they do not tell one number."""
    held = {}
    for node in circuit.pads:
        point = point_of(circuit.groups[node])
        if point and point.number in circuit.notes:
            held.setdefault(circuit.notes[point.number], []).append(point)
    choices = None
    for net, layer, x, y in bias.pads:
        is_horizontal = layer in technology.routing and technology.routing[layer].is_horizontal
        along = x if is_horizontal else y
        if not along:
            continue
        found = {Fraction((point.x if is_horizontal else point.y) * PICOMETRES, along) for point in held.get((net, layer), ())}
        choices = found if choices is None else choices & found
    whole = [int(units) for units in choices or () if units.denominator == 1 and 1 <= units <= 20000]
    return whole[0] if len(whole) == 1 else None


class CurrentLimits:
    """The possible limits of each resistor of a netlist of `build` or `signoff`."""

    def __init__(self, circuit, technology, units, vias=()):
        self.circuit, self.technology, self.units = circuit, technology, units
        self.vias = [via for via in map(self._via, vias) if via is not None]
        self.points = [point_of(name) for name in circuit.groups]
        self.kept = {}

    def _via(self, words):
        """A generated via of the DEF; None where it has not the form of one."""
        words = [word.strip('"') for word in words]
        try:
            layers, size = words.index("LAYERS"), words.index("CUTSIZE")
            lower, cut, upper = words[layers + 1:layers + 4]
            width, height = map(int, words[size + 1:size + 3])
            rows, columns = map(int, words[words.index("ROWCOL") + 1:][:2]) if "ROWCOL" in words else (1, 1)
        except (ValueError, IndexError):
            return None
        if not {lower, upper} <= set(self.technology.routing) or cut not in self.technology.cuts:
            return None
        name = words[words.index("VIARULE") + 1]
        rule = next((rule for rule in self.technology.rules if rule.name == name), None)
        area = Fraction(width * height * PICOMETRES ** 2, self.units ** 2)
        return Via(lower, upper, rows * columns, area, cut, self.technology.ohms_of_cut(rule) if rule else None)

    def of(self, place):
        """The limits in femtoamperes that a resistor may have, None among them for none; or None where they are too many to tell."""
        start, end, ohms = self.circuit.resistors[place]
        one, other = self.points[start], self.points[end]
        (net, layer), (other_net, other_layer) = (self._note(point, node) for point, node in ((one, start), (other, end)))
        if net != other_net:
            raise Refused(self.circuit.path, None, f"R{place + 1} joins the nets {net} and {other_net}")
        is_wire = layer == other_layer
        key = (layer, abs(one.x - other.x) + abs(one.y - other.y), ohms) if is_wire else (tuple(sorted((layer, other_layer))), ohms)
        if key not in self.kept:
            self.kept[key] = self._of_wire(*key) if is_wire else self._of_array(*key)
        if self.kept[key] == set():
            raise Refused(self.circuit.path, None, f"no wire and no array of {self.technology.path} has the resistance of R{place + 1}")
        return self.kept[key]

    def _note(self, point, node):
        """The net and the layer of a node."""
        if point is None or point.number not in self.circuit.notes:
            raise Refused(self.circuit.path, None, f"{self.circuit.groups[node]} is no node of 'pdn build', or no line '* layer:' tells its net")
        return self.circuit.notes[point.number]

    def _of_wire(self, layer, length, ohms):
        """Of a wire: density times width, rounded down."""
        held = self.technology.routing.get(layer)
        if held is None or held.ohms is None:
            return set()
        widths = divisors(held.ohms * length, ohms)
        if held.density is None:
            return {None}
        if widths is None:
            return None
        return {floor(density_at(held.density, Fraction(width * PICOMETRES, self.units)) * Fraction(width, self.units)) for width in widths if width % 2 == 0}

    def _of_array(self, layers, ohms):
        """Of an array of cuts: density times the area of a cut times the count of cuts, rounded down."""
        found = set()
        for via in self._arrays(layers, ohms):
            if via is None:
                return None
            density = self.technology.cuts[via.cut].density
            found.add(None if density is None else floor(density_at(density, via.area) * via.area * via.cuts / PICOMETRES ** 2))
        return found

    def _arrays(self, layers, ohms):
        """The arrays between two layers with this resistance: those of the DEF, or else those of the rules with any count of cuts.
        None stands for more than can be told."""
        if self.vias:
            yield from (via for via in self.vias if {via.lower, via.upper} == set(layers) and via.ohms is not None and rounded(via.ohms, via.cuts) == ohms)
            return
        for rule in self.technology.rules:
            held = self.technology.ohms_of_cut(rule)
            if {rule.lower, rule.upper} != set(layers) or held is None:
                continue
            counts = divisors(held, ohms)
            if counts is None and self.technology.cuts[rule.cut].density is not None:
                yield None
                return
            area = Fraction(rule.sides[0] * rule.sides[1])
            yield from (Via(rule.lower, rule.upper, cuts, area, rule.cut, held) for cuts in (counts or [1]))
