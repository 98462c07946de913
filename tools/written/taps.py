"""The nodes at which the loads of placed components are tapped, and what voltage each component is certified to have at least.

A component draws its current from the lowest rail of each of its two nets over its middle: at half of its width, rounded down to
units, and from its lower to its upper edge. A block under a grid over macros draws it from its pins. A netlist has a load at each of these nodes,
and no word of who draws it: so a component is tied to the loaded nodes that lie there, and where these are not of two nets, it is not.
"""
from bisect import bisect_left
from typing import NamedTuple, Optional

from .netlist import GROUND, read_cards, read_layer_notes
from .placed import Component
from .refusal import Refused
from .units import ceiling

MILLION = 10 ** 6


class Tied(NamedTuple):
    """A component with its nodes of power and of ground, and how it is tied: by rails or by pins. Where it is not, why it is not."""
    component: Component
    power: tuple
    ground: tuple
    way: str
    why: Optional[str]


class Seen(NamedTuple):
    """A component with the least voltage between its power and its ground, that of the supplies, and what is lost of it at most, in nanovolts."""
    tied: Tied
    least: int
    supply: int
    lost: int

    def share(self):
        """What is lost of the supply at most, in millionths, rounded up; None where the supplies are equal."""
        return ceiling(self.lost * MILLION, self.supply) if self.supply > 0 else None


class Taps:
    """The loaded nodes of a netlist, by their places."""

    def __init__(self, netlist, drops, library):
        self.drops, self.library = drops, library
        self.notes = read_layer_notes(netlist)
        self.columns, loaded = {}, set()
        for card in read_cards(netlist):
            if card.kind == "i" and card.end == GROUND:
                node = drops.report.place.get(card.start)
                if node is None:
                    raise Refused(netlist, card.line, f"{card.start} is no node of {drops.report.path}: it is of another run")
                loaded.add(node)
        for node in loaded:
            self.columns.setdefault(drops.points[node].x, []).append(node)
        self.places = sorted(self.columns)
        for nodes in self.columns.values():
            nodes.sort(key=lambda node: (drops.points[node].y, drops.points[node].number))

    def tie(self, component, units):
        """Ties a component to the nodes of its loads."""
        if component.place is None:
            return Tied(component, (), (), "", "it is not placed")
        if component.box is None:
            return Tied(component, (), (), "", f"no size of its macro stands in {self.library.paths}")
        if component.kind in self.library.blocks:
            held = {use: sorted(self._nodes_of_pins(component, units, use)) for use in ("POWER", "GROUND")}
            if held["POWER"] and held["GROUND"]:
                return Tied(component, tuple(held["POWER"]), tuple(held["GROUND"]), "pins", None)
        return self._tie_to_rails(component)

    def _tie_to_rails(self, component):
        """Ties a component to the lowest loaded node of each net over its middle, where these are two nets."""
        left, lower, right, upper = component.box
        lowest = {}
        for node in self.columns.get(left + (right - left) // 2, ()):
            if lower <= self.drops.points[node].y <= upper:
                lowest.setdefault(self.drops.net_of(node), node)
        if len(lowest) != 2:
            names = " and ".join(sorted(self.drops.report.nets[net].name for net in lowest))
            return Tied(component, (), (), "", f"loads of {names} are tapped over its middle" if names else "no load is tapped over its middle")
        ground, power = sorted(lowest, key=lambda net: self.drops.supplies[net].low)
        if self.drops.supplies[power].low == self.drops.supplies[ground].low:
            return Tied(component, (), (), "", "the two nets over its middle have one supply")
        return Tied(component, (lowest[power],), (lowest[ground],), "rails", None)

    def _nodes_of_pins(self, component, units, use):
        """The loaded nodes within a block's pins of this use."""
        found = set()
        for kind, layer, (left, bottom, right, top) in self.library.pin_boxes(component, units):
            if kind != use:
                continue
            for x in self.places[bisect_left(self.places, left):]:
                if x > right:
                    break
                found.update(node for node in self.columns[x]
                             if bottom <= self.drops.points[node].y <= top and self.notes.get(self.drops.points[node].number, ("", ""))[1] == layer)
        return found

    def seen(self, tied):
        """The least voltage between the power and the ground of a component that is tied."""
        nodes, supplies = self.drops.report.nodes, self.drops.supplies
        least = min(nodes[node].low for node in tied.power) - max(nodes[node].high for node in tied.ground)
        supply = supplies[self.drops.net_of(tied.power[0])].high - supplies[self.drops.net_of(tied.ground[0])].low
        return Seen(tied, least, supply, supply - least)


def instances(taps, placed):
    """The components that are tied, the one with the least voltage first, and those that are not."""
    tied = [taps.tie(component, placed.units) for component in placed.components]
    seen = [taps.seen(held) for held in tied if held.why is None]
    return sorted(seen, key=lambda held: held.least), [held for held in tied if held.why is not None]
