"""The bounds that a report states: of the drop of a node against its net's supply, and of the share of its limit that a current
takes. Both are whole numbers, rounded up."""
from decimal import ROUND_CEILING, ROUND_FLOOR
from functools import cached_property
from typing import NamedTuple, Optional

from .netlist import GROUND, read_cards
from .numbering import nets_of_numbers, points_of
from .refusal import Refused
from .units import ceiling

NANOVOLT = 10 ** 15
NANOAMPERE = 10 ** 6
MILLION = 10 ** 6


class Supply(NamedTuple):
    """Between which whole nanovolts the voltage of a net's pads lies. They are one but where it has more than 9 places."""
    low: int
    high: int


def in_nanovolts(volts):
    """A voltage as whole nanovolts, rounded down and up."""
    nanovolts = volts.scaleb(9)
    return Supply(int(nanovolts.to_integral_value(ROUND_FLOOR)), int(nanovolts.to_integral_value(ROUND_CEILING)))


def stated_supplies(netlist):
    """The supply at each pad by the sources of a netlist, by the names of the pads."""
    return {card.start: in_nanovolts(card.value) for card in read_cards(netlist) if card.kind == "v" and card.end == GROUND}


class Drops:
    """The nets of a report's nodes, their supplies, and how far each node may stand from its supply."""

    def __init__(self, report, netlist=None):
        self.report = report
        self.points = points_of(report)
        self.net_of_number = nets_of_numbers(report, self.points, netlist)
        self.stated = {} if netlist is None else stated_supplies(netlist)
        self.nets = [self.net_of_number[point[0]] for point in self.points]
        self.nodes_of_net = [[] for _ in report.nets]
        for node, net in enumerate(self.nets):
            self.nodes_of_net[net].append(node)
        self.supplies = [self._supply(net) for net in range(len(report.nets))]
        self.bounds = [0] * len(report.nodes)
        self.beyond = [False] * len(report.nodes)
        for net, nodes in enumerate(self.nodes_of_net):
            self._bound_all(net, nodes)

    @cached_property
    def drops(self):
        """For each branch the greater of the bounds of its two ends: between them the voltage is nowhere lower or higher."""
        bounds = self.bounds
        return [one if one > other else other for one, other in [(bounds[branch[0]], bounds[branch[1]]) for branch in self.report.branches]]

    @cached_property
    def strains(self):
        """For each branch the share of its limit that the bound of its current takes, 0 where it has none, and that bound."""
        most = [high if high > -low else -low for _, _, low, high, _, _ in self.report.branches]
        return [(-(-carried * NANOAMPERE * MILLION // branch[4]) if branch[4] else 0, carried) for carried, branch in zip(most, self.report.branches)]

    def net_of(self, node):
        """The place of the net of a node."""
        return self.nets[node]

    def is_pad(self, node):
        """Whether the node stands at one voltage, which only pads do."""
        return self.report.nodes[node].low == self.report.nodes[node].high

    def _supply(self, net):
        """The supply of a net: that of its pads in the netlist, or else in the report; None where it has no nodes."""
        nodes = self.nodes_of_net[net]
        if not nodes:
            return None
        held = [self.report.nodes[node] for node in nodes]
        found = next((self.stated[node.name] for node in held if node.name in self.stated), None)
        found = found or next((Supply(node.low, node.low) for node in held if node.low == node.high), None)
        if found is None:
            raise Refused(self.report.path, 2 + net, "no node of this net stands at one voltage, so its supply is not known; name the netlist by --netlist")
        return found

    def _bound_all(self, net, nodes):
        """How far each node of a net stands from its supply at most, in nanovolts, and whether that is more than the net's limit."""
        held, limit = self.report.nodes, self.report.nets[net].limit
        for node in nodes:
            low, high = self.supplies[net]
            bound = self.bounds[node] = max(high - held[node][1], held[node][2] - low)
            self.beyond[node] = limit is not None and bound * NANOVOLT > limit

    def is_beyond(self, node):
        """Whether the bound of a node's drop exceeds the limit of its net."""
        return self.beyond[node]

    def worst(self, net):
        """The node of a net that may stand furthest from its supply, the first of several; None where it has no node."""
        return max(self.nodes_of_net[net], key=lambda node: self.bounds[node], default=None)


def current(branch):
    """How much current a branch carries at most, in nanoamperes, in whichever direction."""
    return max(branch.high, -branch.low)


def is_over(branch):
    """Whether the bound of the current exceeds the limit."""
    return branch.limit is not None and current(branch) * NANOAMPERE > branch.limit


def share(branch) -> Optional[int]:
    """Which share of its limit the bound of the current takes, in millionths. None where no limit is stated, and where it is 0."""
    return ceiling(current(branch) * NANOAMPERE * MILLION, branch.limit) if branch.limit else None
