"""What of two reports got worse: bounds of drops, of currents, and verdicts, by net, node and branch."""
from collections import Counter
from typing import NamedTuple, Optional

from .bounds import Drops, current
from .report import Steps

RANK = {"NOLIMIT": 0, "SAFE": 0, "OPEN": 1, "UNSAFE": 2}


class Bound(NamedTuple):
    """A bound in whole units of the last place, and the limit and the verdict where there are some."""
    value: int
    limit: Optional[int] = None
    verdict: str = "NOLIMIT"


class Change(NamedTuple):
    """Something of both reports: its name, its old bound and its new one."""
    name: str
    old: Bound
    new: Bound

    @property
    def rise(self):
        return self.new.value - self.old.value

    @property
    def is_limit_worse(self):
        """Whether the verdict got worse, or the limit lower, or there is none any more."""
        if self.new.limit is None or self.old.limit is None:
            return self.old.limit is not None or RANK[self.new.verdict] > RANK["SAFE"]
        return self.new.limit < self.old.limit or RANK[self.new.verdict] > RANK[self.old.verdict]


class Compared:
    """Two lists of named bounds: what is in both, and the names of what is in one alone. A bound that changes by at most the least change
    counts as before."""

    def __init__(self, old, new, least):
        both = [Change(name, old[name], bound) for name, bound in new.items() if name in old]
        worse = [change for change in both if change.rise > least or change.is_limit_worse]
        self.worse = sorted(worse, key=lambda change: (not change.is_limit_worse, -change.rise))
        self.better = sum(-change.rise > least and not change.is_limit_worse for change in both)
        self.same = len(both) - len(self.worse) - self.better
        self.gone = [name for name in old if name not in new]
        self.come = [name for name in new if name not in old]


def net_bounds(report, drops):
    """The worst drop of each net."""
    bounds = {}
    for place, net in enumerate(report.nets):
        worst = drops.worst(place)
        bounds[net.name] = Bound(0 if worst is None else drops.bounds[worst], net.limit, net.verdict)
    return bounds


def node_bounds(report, drops):
    """The drop of each node."""
    return {node.name: Bound(drops.bounds[place]) for place, node in enumerate(report.nodes)}


def branch_bounds(report):
    """The current of each branch by the names of its ends, the first first; several between two nodes are counted."""
    bounds, seen = {}, Counter()
    for branch in report.branches:
        ends = tuple(sorted(report.nodes[end].name for end in branch[:2]))
        seen[ends] += 1
        name = " to ".join(ends) + (f", number {seen[ends]} of these" if seen[ends] > 1 else "")
        bounds[name] = Bound(current(branch), branch.limit, branch.verdict)
    return bounds


def intervals(report):
    """The interval of each node, of each step."""
    if isinstance(report, Steps):
        return {f"{node.name} at step {step}": node for step, held in enumerate(report.steps) for node in held}
    return {node.name: node for node in report.nodes}


def reach_bounds(old, new):
    """Of reports without nets, where no supply says which way is worse: how far the new interval reaches out of the old one."""
    old, new = intervals(old), intervals(new)
    reach = {name: max(old[name].low - node.low, node.high - old[name].high, 0) if name in old else 0 for name, node in new.items()}
    return dict.fromkeys(old, Bound(0)), {name: Bound(value) for name, value in reach.items()}


def compared(old, new, netlists, least):
    """What is compared of two reports: a heading, the unit, and both sides."""
    if isinstance(old, Steps) or not old.nets:
        yield "nodes, by how far the new interval reaches out of the old one", "mV", Compared(*reach_bounds(old, new), least)
    else:
        drops = [Drops(report, netlist) for report, netlist in zip((old, new), netlists)]
        yield "nets, by the bound of their worst drop", "mV", Compared(*map(net_bounds, (old, new), drops), least)
        yield "nodes, by the bound of their drop", "mV", Compared(*map(node_bounds, (old, new), drops), least)
    if not isinstance(old, Steps):
        yield "branches, by the bound of their current", "mA", Compared(*map(branch_bounds, (old, new)), least)
