"""The metal that a script draws over a design: rails, straps and rings, cut where blockages and other domains are.

Only what a refusal says of places is explained by it: nothing is decided. Grids over macros, and what blocks cut away, are not drawn.
"""
from typing import NamedTuple

from .lengths import MICROMETRE, in_units

SIDEWAYS = ("E", "W", "FE", "FW")
MOST_LINES = 10 ** 5


class Rail(NamedTuple):
    """A piece of metal along its axis, `x` or `y`: its net and layer, its centre line and width, from where to where it goes, and the
    command that draws it."""
    net: str
    layer: str
    axis: str
    centre: int
    width: int
    start: int
    end: int
    command: object

    def box(self):
        """Left, bottom, right and top."""
        half = self.width // 2
        if self.axis == "x":
            return self.start, self.centre - half, self.end, self.centre + half
        return self.centre - half, self.start, self.centre + half, self.end


class TooMuch(Exception):
    """More lines than are worth drawing for an explanation."""


def row_box(row, sizes):
    """The box of a row, by the sizes of sites."""
    width, height = sizes[row.site]
    step = width if row.step is None else row.step
    return row.x, row.y, row.x + (row.count - 1) * step + width, row.y + height


def hull(boxes):
    """The smallest rectangle that holds all of them."""
    return min(box[0] for box in boxes), min(box[1] for box in boxes), max(box[2] for box in boxes), max(box[3] for box in boxes)


def lies_in(box, outer):
    return outer[0] <= box[0] and outer[1] <= box[1] and box[2] <= outer[2] and box[3] <= outer[3]


def overlaps(one, other):
    return one[0] < other[2] and other[0] < one[2] and one[1] < other[3] and other[1] < one[3]


def grown(box, by):
    return box[0] - by, box[1] - by, box[2] + by, box[3] + by


def without(start, end, cuts):
    """The runs from start to end that no cut overlaps."""
    for first, last in sorted(cuts):
        if first >= end or last <= start:
            continue
        if first > start:
            yield start, first
        start = max(start, last)
    if start < end:
        yield start, end


def merged(spans):
    """Spans that meet, joined; each with the command of its first."""
    held = []
    for start, end, command in sorted(spans, key=lambda span: span[:2]):
        if held and start <= held[-1][1]:
            held[-1] = (held[-1][0], max(held[-1][1], end), held[-1][2])
        else:
            held.append((start, end, command))
    return held


class Drawing:
    """The pieces of metal of a script over a design of a technology; `sizes` are those of sites in units."""

    def __init__(self, technology, design, script, sizes):
        self.technology, self.design, self.script, self.sizes = technology, design, script, sizes
        self.units = design.units
        self.boxes = [row_box(row, sizes) for row in design.rows]
        self.regions = {id(domain): self._region(domain) for domain in script.domains}
        self.core_grids = [grid for grid in script.grids if not grid.has("-macro")]
        self.rings = {}
        self.pieces = self._cut([rail for grid in self.core_grids for rail in self._grid(grid)])

    def _region(self, domain):
        """The rectangle of a domain's region, or None."""
        name = domain.value("-region")
        return None if name is None else self.design.regions[name][0][0]

    def units_of(self, length):
        """A length in picometres as units; a length of a script that was drawn is a whole number of them."""
        value = in_units(length, self.units)
        if value is None:
            raise ValueError("a length between two units")
        return value

    def owner(self, box):
        """The domain that owns a row's box."""
        for domain in self.script.domains:
            region = self.regions[id(domain)]
            if region is not None and lies_in(box, region):
                return domain
        return next((domain for domain in self.script.domains if self.regions[id(domain)] is None), None)

    def owner_of_component(self, x, y):
        """The domain that owns a component at this place, or None."""
        for domain in self.script.domains:
            region = self.regions[id(domain)]
            if region is not None and region[0] <= x < region[2] and region[1] <= y < region[3]:
                return domain
        return next((domain for domain in self.script.domains if self.regions[id(domain)] is None), None)

    def rows_of(self, domain):
        """The rows of a domain with their boxes."""
        return [(row, box) for row, box in zip(self.design.rows, self.boxes) if self.owner(box) is domain]

    def commands_of(self, grid, commands):
        return [command for command in commands if self.script.grid_of(command) is grid]

    def widest_rail(self, grids):
        """The width of the widest rail of some grids."""
        widths = [self.units_of(stripe.length("-width")) for grid in grids for stripe in self.commands_of(grid, self.script.stripes) if stripe.has("-followpins")]
        return max(widths, default=0)

    def _grid(self, grid):
        """The lines that a grid draws, before they are cut at blockages."""
        domain = self.script.domain_of(grid)
        rows = self.rows_of(domain)
        if not rows:
            return
        core = hull([box for _, box in rows])
        self.rings[id(grid)] = rings = [side for ring in self.commands_of(grid, self.script.rings) for side in self._ring(ring, core)]
        for stripe in self.commands_of(grid, self.script.stripes):
            lines = self._rails(stripe, domain, rows, core, rings) if stripe.has("-followpins") else self._straps(stripe, grid, core, rings)
            for line in lines:
                yield from self._outside(line, domain)
        yield from rings

    def _reach(self, stripe, net, axis, absent, rings):
        """From where to where a strap or rail goes."""
        low, high = (0, 2) if axis == "x" else (1, 3)
        if stripe.has("-extend_to_boundary"):
            return self.design.die[low], self.design.die[high]
        sides = [side.box() for side in rings if side.net == net]
        if stripe.has("-extend_to_core_ring") and sides:
            outer = hull(sides)
            return outer[low], outer[high]
        return absent

    def _straps(self, stripe, grid, core, rings):
        """The straps of a stripe."""
        layer = self.technology.names[stripe.value("-layer")]
        axis, edge, far = ("y", core[0], core[2]) if layer.is_vertical else ("x", core[1], core[3])
        width, pitch, offset = (self.units_of(stripe.length(option, 0)) for option in ("-width", "-pitch", "-offset"))
        apart = width + self.units_of(stripe.length("-spacing")) if stripe.has("-spacing") else pitch // 2
        half = self.widest_rail([grid]) // 2
        absent = (core[1] - half, core[3] + half) if layer.is_vertical else (core[0], core[2])
        number = int(stripe.value("-number_of_straps")) if stripe.has("-number_of_straps") else None
        if pitch <= 0 or (far - edge) // pitch > MOST_LINES:
            raise TooMuch
        for order, net in enumerate(self.script.nets_of(stripe)):
            reach = self._reach(stripe, net, axis, absent, rings)
            for count in range((far - edge) // pitch + 2):
                centre = edge + offset + count * pitch + order * apart
                if (number is None or count < number) and edge <= centre - width // 2 and centre + width // 2 <= far and reach[0] < reach[1]:
                    yield Rail(net, layer.name, axis, centre, width, *reach, stripe)

    def _rails(self, stripe, domain, rows, core, rings):
        """The rails of a stripe along rows."""
        width, ground, power = self.units_of(stripe.length("-width")), domain.value("-ground"), domain.value("-power")
        for row, box in rows:
            lower, upper = (ground, power) if row.orient in ("N", "FN") else (power, ground)
            for net, centre in ((lower, box[1]), (upper, box[3])):
                start, end = self._reach(stripe, net, "x", (box[0], box[2]), rings)
                if start < end:
                    yield Rail(net, stripe.value("-layer"), "x", centre, width, start, end, stripe)

    def _ring(self, ring, core):
        """The four sides of each net of a ring."""
        layers = ring.values("-layers")
        widths, spacings = ([self.units_of(length) for length in ring.lengths(option)] for option in ("-widths", "-spacings"))
        widths, spacings = ((values * 2)[:2] for values in (widths, spacings))
        offsets = [self.units_of(length) for length in ring.lengths("-core_offsets")]
        left, bottom, right, top = {1: offsets * 4, 2: [offsets[0], offsets[-1]] * 2, 4: offsets}[len(offsets)]
        upright = 0 if self.technology.names[layers[0]].is_vertical else 1
        across, up = widths[upright], widths[1 - upright]
        step_x, step_y = across + spacings[upright], up + spacings[1 - upright]
        for order, net in enumerate(self.script.nets_of(ring)):
            inner = (core[0] - left - order * step_x, core[1] - bottom - order * step_y, core[2] + right + order * step_x, core[3] + top + order * step_y)
            outer = (inner[0] - across, inner[1] - up, inner[2] + across, inner[3] + up)
            for centre in (inner[0] - across // 2, inner[2] + across // 2):
                yield Rail(net, layers[upright], "y", centre, across, outer[1], outer[3], ring)
            for centre in (inner[1] - up // 2, inner[3] + up // 2):
                yield Rail(net, layers[1 - upright], "x", centre, up, outer[0], outer[2], ring)

    def spacing_of(self, layer):
        """A layer's spacing in units, rounded up."""
        return -(-self.technology.names[layer].spacing * self.units // MICROMETRE)

    def _outside(self, line, domain):
        """The runs of a line outside the regions of the other domains."""
        by = self.spacing_of(line.layer) + self.widest_rail(self.core_grids) // 2
        boxes = [grown(region, by) for other, region in ((other, self.regions[id(other)]) for other in self.script.domains if other is not domain) if region]
        yield from cut_at(line, boxes)

    def _cut(self, lines):
        """The pieces: the runs of each line that no blockage of its layer overlaps, those of one line joined."""
        blocked = {}
        for blockage in self.design.blockages:
            if blockage.layer in self.technology.names:
                by = self.spacing_of(blockage.layer) if blockage.spacing is None else blockage.spacing
                blocked.setdefault(blockage.layer, []).append(grown(blockage.box, by))
        groups = {}
        for line in lines:
            groups.setdefault((line.net, line.layer, line.axis, line.centre, line.width), []).append((line.start, line.end, line.command))
        return [piece for key, spans in groups.items() for start, end, command in merged(spans)
                for piece in cut_at(Rail(*key, start, end, command), blocked.get(key[1], []))]

    def on(self, net=None, layer=None):
        """The pieces of a net, or on a layer, or both."""
        return [piece for piece in self.pieces if net in (None, piece.net) and layer in (None, piece.layer)]


def cut_at(line, boxes):
    """The runs of a line outside of boxes that overlap its width."""
    box = line.box()
    low, high = (0, 2) if line.axis == "x" else (1, 3)
    cuts = [(other[low], other[high]) for other in boxes if overlaps(box, other) and other[0] < other[2] and other[1] < other[3]]
    for start, end in without(line.start, line.end, cuts):
        yield line._replace(start=start, end=end)
