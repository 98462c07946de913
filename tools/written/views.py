"""What a map shows: the bound of the drop, or the share of its limit that the bound of the current takes."""
from typing import NamedTuple, Optional

from .bounds import is_over, share
from .units import milliamperes, millivolts, percent


class Reading(NamedTuple):
    """What is shown of one branch: a whole number, None where there is none, and whether it is beyond its limit."""
    value: Optional[int]
    is_beyond: bool


class Mark(NamedTuple):
    """The worst place of a net: where it is, the words beside it, and the lines of the legend."""
    x: int
    y: int
    label: str
    lines: tuple


class Drop:
    """Branches by the greater of the bounds of their two ends, in nanovolts: between them the voltage is nowhere lower or higher."""
    heading, unit_words, places = "Drop against the supply, at most", "in mV", 6
    beyond, bare = "beyond the drop limit", "metal behind the last node"

    def __init__(self, drops):
        self.drops, self.report = drops, drops.report

    def readings(self):
        """What is shown of each branch."""
        beyond = self.drops.beyond
        return [Reading(drop, beyond[branch[0]] or beyond[branch[1]]) for drop, branch in zip(self.drops.drops, self.report.branches)]

    def mark(self, net):
        """The worst node of a net, or None."""
        worst = self.drops.worst(net)
        if worst is None:
            return None
        name, bound = self.report.nodes[worst].name, millivolts(self.drops.bounds[worst])
        _, x, y = self.drops.points[worst]
        return Mark(x, y, f"{name}: {bound} mV", (f"worst node {name}", f"drop at most {bound} mV"))


class Current:
    """Branches by the share of their limit that the bound of the current takes, in millionths."""
    heading, unit_words, places = "Current, at most", "in % of the electromigration limit", 4
    beyond, bare = "beyond the limit", "no limit, or metal behind the last node"

    def __init__(self, drops):
        self.drops, self.report = drops, drops.report

    def readings(self):
        """What is shown of each branch."""
        return [Reading(share(branch), is_over(branch)) for branch in self.report.branches]

    def mark(self, net):
        """The branch of a net that is nearest to its limit or furthest beyond it, or None."""
        worst, most = None, (False, -1)
        for place, branch in enumerate(self.report.branches):
            taken = share(branch)
            strain = (is_over(branch) and taken is None, -1 if taken is None else taken)
            if strain > most and self.drops.net_of(branch.start) == net:
                worst, most = place, strain
        if worst is None:
            return None
        taken = "beyond a limit of 0" if most[0] else f"{percent(most[1])} %"
        held = self.report.branches[worst]
        (_, x, y), (_, other_x, other_y) = self.drops.points[held.start], self.drops.points[held.end]
        names = f"{self.report.nodes[held.start].name} to {self.report.nodes[held.end].name}"
        return Mark((x + other_x) // 2, (y + other_y) // 2, f"R{worst + 1}: {taken}", (f"worst branch R{worst + 1}", names, f"takes at most {taken}"))


def words_of(drops, branches):
    """What hovering says of some branches: their bounds of drop and current, and the least good verdict."""
    all_drops, strains, held = drops.drops, drops.strains, drops.report.branches
    lines = [f"drop at most {millivolts(max([all_drops[branch] for branch in branches]))} mV"]
    most = max(branches, key=strains.__getitem__)
    part, carried = strains[most]
    verdicts = {held[branch][5] for branch in branches}
    verdict = next(word for word in ("UNSAFE", "OPEN", "NOLIMIT", "SAFE") if word in verdicts)
    taken = f", {percent(part)} % of its limit" if held[most].limit else ""
    lines.append(f"current at most {milliamperes(carried)} mA{taken}: {verdict}")
    return "\n".join(lines)
