"""The nodes and branches of a report as rows of a table: net, layer, place, bounds, and the share of the limit.

Of a report of `solve` or `step` net, layer and place are not known, and of one of `build` or `signoff` the layers only with the netlist. Places
are micrometres where the units are known, and else the units of the design.
"""
from .bounds import NANOVOLT, Drops, current, share
from .netlist import read_layer_notes
from .report import Steps
from .units import ceiling, micrometres, milliamperes, millivolts, percent, trimmed

NODES = ("step", "node", "net", "layer", "x", "y", "low_mV", "high_mV", "drop_mV", "limit_mV", "share_percent")
BRANCHES = ("branch", "net", "layer", "x", "y", "to_x", "to_y", "from_node", "to_node", "low_mA", "high_mA", "at_most_mA", "limit_mA", "share_percent", "verdict")
WORDS = frozenset(("node", "net", "layer", "branch", "from_node", "to_node", "verdict"))


class Rows:
    """The rows of a report. Cells are words and decimals as text, and None where there is nothing to say."""

    def __init__(self, report, netlist=None, units=None):
        self.report, self.units = report, units
        self.drops = Drops(report, netlist) if not isinstance(report, Steps) and report.nets else None
        self.notes = read_layer_notes(netlist) if netlist is not None else {}

    def nodes(self):
        """A row for each node, of each step."""
        if isinstance(self.report, Steps):
            for step, held in enumerate(self.report.steps):
                yield from (dict.fromkeys(NODES) | {"step": str(step), **voltages(node)} for node in held)
            return
        for place, node in enumerate(self.report.nodes):
            yield dict.fromkeys(NODES) | voltages(node) | self._drop(place) | self._where(place)

    def branches(self):
        """A row for each branch."""
        for place, branch in enumerate(() if isinstance(self.report, Steps) else self.report.branches):
            taken = share(branch)
            row = {"branch": f"R{place + 1}", **self._where(branch.start), **self._where(branch.end, "to_"),
                   "from_node": self.report.nodes[branch.start].name, "to_node": self.report.nodes[branch.end].name,
                   "low_mA": milliamperes(branch.low), "high_mA": milliamperes(branch.high), "at_most_mA": milliamperes(current(branch)),
                   "limit_mA": None if branch.limit is None else trimmed(branch.limit, 12),
                   "share_percent": None if taken is None else percent(taken), "verdict": branch.verdict}
            row["layer"] = self._layers(branch)
            yield dict.fromkeys(BRANCHES) | row

    def _drop(self, node):
        """How far a node may stand from its supply, and which share of the limit that is."""
        if self.drops is None:
            return {}
        bound, limit = self.drops.bounds[node], self.report.nets[self.drops.net_of(node)].limit
        cells = {"drop_mV": millivolts(bound), "limit_mV": None if limit is None else trimmed(limit, 21)}
        if limit:
            cells["share_percent"] = percent(ceiling(bound * NANOVOLT * 10 ** 6, limit))
        return cells

    def _where(self, node, prefix=""):
        """Net, layer and place of a node; of the further end of a branch, with a prefix, the place alone."""
        if self.drops is None:
            return {}
        point = self.drops.points[node]
        cells = {f"{prefix}x": self._length(point.x), f"{prefix}y": self._length(point.y)}
        if not prefix:
            cells |= {"net": self.report.nets[self.drops.net_of(node)].name, "layer": self.notes.get(point.number, (None, None))[1]}
        return cells

    def _layers(self, branch):
        """The layer of a wire, or the two of an array of cuts."""
        if self.drops is None or not self.notes:
            return None
        names = [self.notes[self.drops.points[end].number][1] for end in (branch.start, branch.end)]
        return names[0] if names[0] == names[1] else "-".join(names)

    def _length(self, units):
        """A length, in micrometres where the units are known."""
        return str(units) if self.units is None else micrometres(units, self.units)


def voltages(node):
    """The name of a node and its interval."""
    return {"node": node.name, "low_mV": millivolts(node.low), "high_mV": millivolts(node.high)}
