"""The summary as CSV: a row for each block, net and corner, the worst corner of each net first, and then the runs without figures."""
import csv
import io

from ..units import milliamperes, millivolts, percent, trimmed
from ..report import VERDICTS

COLUMNS = ("block", "net", "corner", "result", "verdict", "drop_mV", "limit_mV", "share_percent", "worst_node", "em_share_percent", "em_branch", "em_current_mA",
           "em_limit_mA", *VERDICTS, "nodes", "build_seconds", "build_cpu_seconds", "build_MB", "built_on", "checked_on", "certificate_sha256", "map", "line")


def share_of(row):
    """The share of the limit in percent, rounded up; empty where there is none."""
    share = row.share()
    return "" if share is None else percent(-(-share.numerator * 10 ** 6 // share.denominator))


def em_of(net):
    """The share of the worst branch, its name, current and limit."""
    em = net["em"]
    if em is None:
        return ["", "", "", ""]
    return ["" if em["share_ppm"] is None else percent(em["share_ppm"]), em["branch"], milliamperes(em["current_na"]), trimmed(em["limit_fa"], 12)]


def seconds(milliseconds):
    return trimmed(milliseconds, 3)


def cells_of(row):
    """The cells of one row of figures."""
    net, record, built = row.net, row.record, row.record["built"]
    return [row.block, net["net"], row.corner, "finished", net["verdict"], "" if net["drop_nv"] is None else millivolts(net["drop_nv"]),
            "" if net["limit_yv"] is None else trimmed(net["limit_yv"], 21), share_of(row), net["worst_node"] or "", *em_of(net),
            *(net["branches"][verdict] for verdict in VERDICTS), net["nodes"], seconds(built["wall_ms"]), seconds(built["cpu_ms"]), trimmed(built["peak_kb"], 3),
            built["machine"], record["checked"]["machine"], record["outputs"]["certificate"], f"maps/{row.block}/{row.corner}.html", built["line"]]


def text_of(summary):
    """The whole table."""
    out = io.StringIO()
    writer = csv.writer(out, lineterminator="\n")
    writer.writerow(COLUMNS)
    for group in summary.groups:
        writer.writerows(cells_of(row) for row in group)
    for failure in summary.failures:
        cells = dict.fromkeys(COLUMNS, "")
        cells.update(block=failure.block, corner=failure.corner, result=failure.what, line=failure.line)
        writer.writerow(cells.values())
    return out.getvalue()
