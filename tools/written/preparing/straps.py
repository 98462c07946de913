"""Where the metal of a grid lies, as far as it is told without drawing it: straps, rings and rails of the grids over the core.

It serves to put pads on their straps. Blockages and blocks may cut what stands here; `pdn build` draws the grid, and refuses a pad beside it.
"""
from fractions import Fraction
from typing import NamedTuple

from .quantities import floor, number


class Strap(NamedTuple):
    """A strap in units of the design: its rectangle, its line, and how far it is to the next one of its net."""
    net: str
    layer: str
    is_upright: bool
    centre: int
    box: tuple
    pitch: int


class Core(NamedTuple):
    """What the rows span, and the die."""
    box: tuple
    die: tuple
    row_height: int


def core_of(design, library, rows):
    """The smallest rectangle that holds all rows."""
    boxes = []
    for row in rows:
        width, height = (floor(length * design.units) for length in library.sites[row.site][0])
        step = width if row.step is None else row.step
        boxes.append((row.x, row.y, row.x + (row.count - 1) * step + width, row.y + height))
    box = (min(box[0] for box in boxes), min(box[1] for box in boxes), max(box[2] for box in boxes), max(box[3] for box in boxes))
    return Core(box, design.die, boxes[0][3] - boxes[0][1])


class Drawing:
    """The straps of a script over a design."""

    def __init__(self, script, design, library, rows):
        self.script, self.design, self.library, self.rows = script, design, library, rows
        self.core = core_of(design, library, rows)
        self.macro_grids = [grid.get("-name") for grid in script.of("define_pdn_grid") if grid.get("-macro")]

    def units(self, word):
        return int(number(word) * self.design.units)

    def is_upright(self, layer):
        return self.library.layers[layer].direction == "VERTICAL"

    def nets_of(self, command):
        """The nets of a stripe or a ring, in their order."""
        grid = self.script.grids()[command.get("-grid")]
        nets = self.domain_nets(grid)
        if command.get("-starts_with", grid.get("-starts_with")) == "POWER":
            nets.reverse()
        return command.get("-nets", nets)

    def domain_nets(self, grid):
        """The ground and the power net of a grid's domain."""
        domains, named = self.script.of("set_voltage_domain"), grid.get("-voltage_domains")
        domain = next((one for one in domains if named and one.get("-name") == named[0]), domains[-1])
        return [domain.get("-ground"), domain.get("-power")]

    def straps(self):
        """All straps, rings and rails of grids over the core."""
        found = []
        for command in self.script.commands:
            if command.get("-grid") in self.macro_grids:
                continue
            if command.name == "add_pdn_ring":
                found += self.ring(command)
            elif command.name == "add_pdn_stripe":
                found += self.rails(command) if command.get("-followpins") else self.stripes(command)
        return found

    def ring_measures(self, ring):
        """Widths and spacings by layer, and the four offsets: left, bottom, right, top."""
        layers = ring.get("-layers")
        widths, spacings = ([self.units(word) for word in ring.get(option)] for option in ("-widths", "-spacings"))
        offsets = [self.units(word) for word in ring.get("-core_offsets")]
        offsets = offsets * 4 if len(offsets) == 1 else offsets * 2 if len(offsets) == 2 else offsets
        return dict(zip(layers, widths * 2)), dict(zip(layers, spacings * 2)), offsets

    def ring_box(self, ring, place, outer):
        """The inner or the outer edges of the sides of the net at a place of the ring."""
        widths, spacings, offsets = self.ring_measures(ring)
        upright = next(layer for layer in ring.get("-layers") if self.is_upright(layer))
        level = next(layer for layer in ring.get("-layers") if not self.is_upright(layer))
        grown = []
        for side, layer in enumerate((upright, level, upright, level)):
            grown.append(offsets[side] + place * (widths[layer] + spacings[layer]) + (widths[layer] if outer else 0))
        x1, y1, x2, y2 = self.core.box
        return (x1 - grown[0], y1 - grown[1], x2 + grown[2], y2 + grown[3]), widths, upright, level

    def ring(self, ring):
        """The four sides of a ring for each of its nets."""
        for place, net in enumerate(self.nets_of(ring)):
            inner, widths, upright, level = self.ring_box(ring, place, False)
            outer = self.ring_box(ring, place, True)[0]
            pitch = 2 * max(widths.values())
            for side, layer in ((0, upright), (2, upright), (1, level), (3, level)):
                box, axis = list(outer), side % 2
                low, high = sorted((inner[side], outer[side]))
                box[axis], box[axis + 2] = low, high
                yield Strap(net, layer, layer == upright, (low + high) // 2, tuple(box), pitch)

    def reach(self, command, net, is_upright):
        """From where to where a strap of a net goes."""
        axis = 1 if is_upright else 0
        low, high = self.core.box[axis], self.core.box[axis + 2]
        if is_upright and not command.get("-followpins"):
            rails = [self.units(rail.get("-width")) for rail in self.script.of("add_pdn_stripe")
                     if rail.get("-followpins") and rail.get("-grid") == command.get("-grid")]
            low, high = low - max(rails, default=0) // 2, high + max(rails, default=0) // 2
        rings = [ring for ring in self.script.of("add_pdn_ring") if ring.get("-grid") == command.get("-grid") and net in self.nets_of(ring)]
        if command.get("-extend_to_core_ring") and rings:
            outer = self.ring_box(rings[0], self.nets_of(rings[0]).index(net), True)[0]
            low, high = outer[axis], outer[axis + 2]
        return (self.core.die[axis], self.core.die[axis + 2]) if command.get("-extend_to_boundary") else (low, high)

    def stripes(self, stripe):
        """The straps of a stripe."""
        layer, width, pitch = stripe.get("-layer"), self.units(stripe.get("-width")), self.units(stripe.get("-pitch", "0"))
        is_upright = self.is_upright(layer)
        apart = width + self.units(stripe.get("-spacing")) if stripe.get("-spacing") else pitch // 2
        axis = 0 if is_upright else 1
        low, high = self.core.box[axis], self.core.box[axis + 2]
        for place, net in enumerate(self.nets_of(stripe)):
            centre, count = low + self.units(stripe.get("-offset", "0")) + place * apart, 0
            limit = int(stripe.get("-number_of_straps", "1000000"))
            while pitch > 0 and centre + width // 2 <= high and count < limit:
                if centre - width // 2 >= low:
                    yield self.strap(stripe, net, centre, width, pitch)
                centre, count = centre + pitch, count + 1

    def strap(self, command, net, centre, width, pitch):
        """A strap with its rectangle."""
        is_upright = self.is_upright(command.get("-layer"))
        start, end = self.reach(command, net, is_upright)
        low, high = centre - width // 2, centre + width // 2
        box = (low, start, high, end) if is_upright else (start, low, end, high)
        return Strap(net, command.get("-layer"), is_upright, centre, box, pitch)

    def rails(self, rail):
        """The rails along the rows: ground below and power above a row in N, and the other way around in FS."""
        ground, power = self.domain_nets(self.script.grids()[rail.get("-grid")])
        width, edges = self.units(rail.get("-width")), set()
        for row in self.rows:
            top = row.y + floor(Fraction(self.library.sites[row.site][0][1]) * self.design.units)
            stands = row.orientation in ("N", "FN")
            edges |= {(row.y, ground if stands else power), (top, power if stands else ground)}
        return [self.strap(rail, net, y, width, 2 * self.core.row_height) for y, net in sorted(edges)]
