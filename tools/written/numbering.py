"""Which net and layer the nodes of a report have.

A node `n<number>_<x>_<y>` has the number n * L + l + 1, where n is the place of its net, l that of its layer, and L the count of
routing layers. A report has no L. The comments of the netlist tell net and layer of each number; without the netlist they are
told only where exactly one answer fits.
"""
import re
from typing import NamedTuple

from .netlist import read_layer_notes
from .refusal import Refused

_NAME = re.compile(r"n([1-9][0-9]*)_(-?[0-9]+)_(-?[0-9]+)")
MOST_LAYERS = 1000


class Point(NamedTuple):
    """Where a node stands: the number of its layer and net, and its place."""
    number: int
    x: int
    y: int


def points_of(report):
    """The point of each node of a report of `build`."""
    found = [_NAME.fullmatch(node[0]) for node in report.nodes]
    if None in found:
        place = found.index(None)
        raise Refused(report.path, report.line_of_node(place), f"{report.nodes[place].name} is no name of a node of 'pdn build'")
    return [Point(int(number), int(x), int(y)) for number, x, y in [words.groups() for words in found]]


def layer_counts(nets, numbers):
    """The counts of routing layers with which each of the numbers is one of some net."""
    least = -(-max(numbers, default=1) // max(nets, 1))
    return range(least, min(max(numbers, default=1), MOST_LAYERS) + 1)


def nets_of_numbers(report, points, netlist=None):
    """The place of its net for each number, from the netlist's comments or from the report alone."""
    if netlist is not None:
        return nets_by_notes(report, points, netlist)
    groups = joined_numbers(report, points)
    supplies = [supply_of(report, points, group) for group in groups]
    numbers = [number for group in groups for number in group]
    answers = {nets_by_count(layers, groups, supplies) for layers in layer_counts(len(report.nets), numbers)}
    answers.discard(None)
    if len(answers) != 1:
        raise Refused(report.path, 2, "the names of the nodes do not tell their nets; name the netlist by --netlist")
    return {number: net for group, net in zip(groups, answers.pop()) for number in group}


def nets_by_notes(report, points, netlist):
    """The place of its net for each number, by the comments of the netlist."""
    notes = read_layer_notes(netlist)
    place = {net.name: at for at, net in enumerate(report.nets)}
    nets = {}
    for node, point in enumerate(points):
        net, _ = notes.get(point.number, (None, None))
        if net not in place:
            raise Refused(report.path, report.line_of_node(node), f"{netlist} tells no net of this report for {report.nodes[node].name}")
        nets[point.number] = place[net]
    return nets


def joined_numbers(report, points):
    """The numbers in groups, so that branches join the numbers of one group: those of one group are of one net."""
    numbers = [point[0] for point in points]
    joins = {(numbers[branch[0]], numbers[branch[1]]) for branch in report.branches}
    groups = {number: {number} for number in {point.number for point in points}}
    for one, other in joins:
        if groups[one] is not groups[other]:
            groups[one] |= groups[other]
            groups.update(dict.fromkeys(groups[other], groups[one]))
    return sorted({min(group): sorted(group) for group in groups.values()}.values())


def supply_of(report, points, numbers):
    """The voltage of the pads of these numbers, or None. A node whose interval is a point is a pad: elsewhere its upper end
    is above its lower one."""
    numbers = set(numbers)
    found = {node.low: place for place, node in enumerate(report.nodes) if node.low == node.high and points[place].number in numbers}
    if len(found) > 1:
        raise Refused(report.path, report.line_of_node(max(found.values())), "this pad has another voltage than one of the same net")
    return next(iter(found), None)


def nets_by_count(layers, groups, supplies):
    """The place of the net of each group, if there are so many routing layers; None where the numbers of one group would be of
    two nets, or one net would have two supplies."""
    nets, held = [], {}
    for group, supply in zip(groups, supplies):
        net = (group[0] - 1) // layers
        if (group[-1] - 1) // layers != net or (supply is not None and held.setdefault(net, supply) != supply):
            return None
        nets.append(net)
    return tuple(nets)
