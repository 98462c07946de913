"""What the example takes of a placement: the box of its cells, the straps of qflow's own grid, and from them the pads."""
import re
from fractions import Fraction

from written.cells import Library
from written.placed import Placed

NETS = ("gnd", "vdd")


class Floor:
    """A placed design: where its cells begin and end, in micrometres, and where straps of qflow's grid stand, between which and the cells it leaves gaps."""

    def __init__(self, placed, lef):
        self.library = Library(str(lef))
        held = Placed(str(placed), self.library)
        boxes, self.units = [component.box for component in held.frames()], held.units
        self.left, self.bottom = (Fraction(min(box[at] for box in boxes), held.units) for at in (0, 1))
        self.right, self.top = (Fraction(max(box[at] for box in boxes), held.units) for at in (2, 3))
        self.gaps = {net: [Fraction(x, held.units) for x in places] for net, places in straps_of_qflow(placed.read_text()).items()}

    def width_of(self, macro):
        """The width of a macro in the design's units."""
        return self.library.size(macro, self.units, "N")[0]

    def windows(self, free):
        """What is to be free of cells around each strap, in the design's units."""
        return [(int((x - free) * self.units), int((x + free) * self.units)) for places in self.gaps.values() for x in places]

    def offsets(self, net):
        """Where the gaps for a net are, from the left side of the cells on."""
        return " ".join(length(x - self.left) for x in self.gaps[net])

    def pads_at_ends(self, layer):
        """Pads at both ends of each strap that stands in a gap."""
        return "".join(f"{net} {layer} {length(x)} {length(y)}\n" for net in NETS for x in self.gaps[net] for y in (self.bottom, self.top))

    def pads_at_middles(self, layer, first, step):
        """A pad at the middle of each strap, of which ground has the first, power the second, and so on."""
        text, x, count = "", self.left + first, 0
        while x < self.right:
            text += f"{NETS[count % 2]} {layer} {length(x)} {length((self.bottom + self.top) / 2)}\n"
            x, count = x + step, count + 1
        return text


def length(value):
    """Micrometres with as many places as they need."""
    return f"{float(value):.4f}".rstrip("0").rstrip(".")


def straps_of_qflow(text):
    """Where the vias of qflow's grid stand along x, by net: one above the other they are its straps."""
    section = re.search(r"^SPECIALNETS .*?^END SPECIALNETS", text, re.M | re.S)
    places = {net: set() for net in NETS}
    for entry in re.findall(r"^- .*?;", section[0] if section else "", re.M | re.S):
        net = entry.split()[1]
        if net in places:
            places[net] = {int(x) for x in re.findall(r"metal1 \d+ \( (-?\d+) -?\d+ \) \( \* \* \) \w+", entry)}
    return {net: sorted(xs) for net, xs in places.items()}
