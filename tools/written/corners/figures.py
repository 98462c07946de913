"""The figures of one run, net by net, as whole numbers of small units: what its report says of drops, currents and verdicts."""
from collections import Counter

from ..bounds import current, is_over, share
from ..report import VERDICTS


def strain(branch):
    """What branches are ordered by: those beyond a limit of 0 first, then the share of the limit."""
    taken = share(branch)
    return (is_over(branch) and taken is None, taken or 0)


def branch_figures(report, places):
    """The branch of a net that takes the greatest share of its limit; None where none has a limit."""
    limited = [place for place in places if report.branches[place].limit is not None]
    if not limited:
        return None
    worst = max(limited, key=lambda place: strain(report.branches[place]))
    branch = report.branches[worst]
    return {"branch": f"R{worst + 1}", "current_na": current(branch), "limit_fa": branch.limit, "share_ppm": share(branch)}


def figures_of(report, drops):
    """For each net of a report its worst node, its worst branch, and how many branches have each verdict."""
    places = [[] for _ in report.nets]
    for place, branch in enumerate(report.branches):
        places[drops.net_of(branch.start)].append(place)
    rows = []
    for number, net in enumerate(report.nets):
        worst = drops.worst(number)
        count = Counter(report.branches[place].verdict for place in places[number])
        rows.append({"net": net.name, "verdict": net.verdict, "limit_yv": net.limit, "nodes": len(drops.nodes_of_net[number]),
                     "worst_node": None if worst is None else report.nodes[worst].name, "drop_nv": None if worst is None else drops.bounds[worst],
                     "branches": {verdict: count[verdict] for verdict in VERDICTS}, "em": branch_figures(report, places[number])})
    return rows
