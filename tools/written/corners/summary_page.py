"""The summary as one HTML page, without anything from outside."""
from html import escape

from ..report import VERDICTS
from ..units import millivolts, trimmed
from .summary_csv import em_of, seconds, share_of

STYLE = """
:root { color-scheme: light; }
body { font: 14px/1.45 system-ui, sans-serif; margin: 1.5rem auto; max-width: 92rem; padding: 0 1rem; color: #1d2229; }
h1 { font-size: 1.5rem; margin: 0 0 .3rem; } h2 { font-size: 1.15rem; margin: 2rem 0 .4rem; } h3 { font-size: 1rem; margin: 1.3rem 0 .3rem; }
p { max-width: 60rem; margin: .3rem 0; } .wide { overflow-x: auto; } h3 + .wide th { min-width: 2.6rem; } h3 + .wide th:first-child { min-width: 11rem; } h3 + .wide th:nth-child(6) { min-width: 9.5rem; }
table { border-collapse: collapse; } th, td { padding: .2rem .6rem; border-bottom: 1px solid #dfe3e8; text-align: right; white-space: nowrap; vertical-align: top; }
th { background: #f1f3f6; font-weight: 600; } .text, th.text { text-align: left; } td.told { text-align: left; white-space: pre-wrap; min-width: 20rem; }
.bad { background: #c62828; color: #fff; font-weight: 600; } .asked { background: #f8d7d4; } .good { color: #1b6e33; }
code { font-family: ui-monospace, monospace; font-size: .92em; } a { color: #0b57a4; }
"""
HEAD = ("corner", "verdict", "drop mV", "limit mV", "of limit %", "worst node", "EM %", "at", *VERDICTS, "s", "CPU s", "MB", "map")
TEXT_COLUMNS = ("corner", "verdict", "worst node", "at", "map")


def cell(value, kind="", title=""):
    """A cell of a table."""
    attributes = (f' class="{kind}"' if kind else "") + (f' title="{escape(title)}"' if title else "")
    return f"<td{attributes}>{value}</td>"


def table(head, text_columns, rows):
    """A table with its head."""
    names = "".join(f'<th class="text">{escape(name)}</th>' if name in text_columns else f"<th>{escape(name)}</th>" for name in head)
    return f'<div class="wide"><table><thead><tr>{names}</tr></thead><tbody>{"".join(rows)}</tbody></table></div>'


def kind_of_verdict(verdict, count=1):
    """How a verdict is coloured: red where it is UNSAFE or OPEN, pale red where no limit is stated."""
    if verdict == "SAFE" or not count:
        return ""
    return "asked" if verdict == "NOLIMIT" else "bad"


def row_of(row):
    """The row of a corner."""
    net, built = row.net, row.record["built"]
    share, (em, branch, *_) = share_of(row), em_of(net)
    counts = "".join(cell(net["branches"][verdict], kind_of_verdict(verdict, net["branches"][verdict])) for verdict in VERDICTS)
    drop = "none" if net["drop_nv"] is None else millivolts(net["drop_nv"])
    limit = "none" if net["limit_yv"] is None else trimmed(net["limit_yv"], 21)
    link = f'<a href="maps/{escape(row.block)}/{escape(row.corner)}.html">map</a>'
    verdict = kind_of_verdict(net["verdict"])
    return ("<tr>" + cell(escape(row.corner), "text") + cell(net["verdict"], f"text {verdict or 'good'}") + cell(drop) + cell(limit) + cell(share or "–")
            + cell(escape(net["worst_node"] or "–"), "text") + cell(em or "–") + cell(branch or "–", "text") + counts + cell(seconds(built["wall_ms"]))
            + cell(seconds(built["cpu_ms"])) + cell(round(built["peak_kb"] / 1000)) + cell(link, "text") + "</tr>")


def failures_part(failures):
    """The runs without figures, with their lines and explanations."""
    if not failures:
        return "<p class=good>Each run finished, and each certificate was accepted.</p>"
    rows = [f"<tr>{cell(escape(one.block), 'text')}{cell(escape(one.corner), 'text')}{cell(escape(one.what), 'text bad')}"
            + cell(f"<code>{escape(one.line)}</code>" + "".join("\n" + escape(line) for line in one.told), "told") + "</tr>" for one in failures]
    head = ("block", "corner", "what", "line and explanation")
    return "<h2>Runs without a result or with a fault</h2>" + table(head, head, rows)


def checks_part(records):
    """Which file was checked where."""
    rows = []
    for block, corner, record in records:
        checked, read = record.get("checked"), record.get("read_again")
        if checked is None:
            continue
        same = checked["machine"] == record["built"]["machine"]
        accepted = "text" if checked["status"] == 0 else "text bad"
        place = "runs" if checked["status"] == 0 else "refused"
        reading = cell(escape(read["line"]), "text" if read["status"] == 0 else "text bad") if read else cell("not read", "text bad")
        rows.append("<tr>" + cell(f"{escape(place)}/{escape(block)}/{escape(corner)}/certificate", "text")
                    + cell(f"<code>{record['outputs']['certificate'][:16]}…</code>", "text", record["outputs"]["certificate"])
                    + cell(f"<code>{record['outputs']['netlist'][:16]}…</code>", "text", record["outputs"]["netlist"])
                    + cell(escape(record["built"]["machine"]), "text") + cell(escape(checked["machine"]) + (" (the same)" if same else ""), "text")
                    + cell(escape(checked["line"]), accepted) + cell(seconds(checked["wall_ms"])) + reading + "</tr>")
    head = ("certificate", "its SHA-256", "SHA-256 of the netlist", "built on", "checked on", "check says", "s", "the report read again")
    return table(head, tuple(name for name in head if name != "s"), rows)


def page_of(summary, blocks, corners, name):
    """The whole page."""
    unsafe = sum(not row.is_safe() for row in summary.rows)
    groups = "".join(f"<h3>{escape(group[0].block)}: net {escape(group[0].net['net'])}, {group[0].net['nodes']} nodes</h3>"
                     + table(HEAD, TEXT_COLUMNS, [row_of(row) for row in group]) for group in summary.groups)
    told = f"{len(blocks)} blocks at {len(corners)} corners: {len(blocks) * len(corners)} runs, {len(summary.failures)} without a result or with a fault. "
    told += "".join(f"{line[0].upper()}{line[1:]}. " for line in map(escape, summary.skipped))
    told += f"{len(summary.rows)} rows of nets, of which {unsafe} have a verdict other than SAFE."
    return f"""<!doctype html>
<html lang="en"><head><meta charset="utf-8"><title>Sign-off at all corners</title><style>{STYLE}</style></head><body>
<h1>Sign-off at all corners</h1>
<p>{told} The same figures stand in <a href="{name}.csv">{name}.csv</a>.</p>
{failures_part(summary.failures)}
<h2>Nets, the worst corner of each first</h2>
<p>The drop is the bound that the report states of the node that may stand furthest from its supply; EM is the greatest share of its limit that the bound of
a branch's current takes. The four columns of verdicts count branches. Red is UNSAFE or OPEN; pale red says that no limit is stated, so nothing was asked.
Seconds and memory are those of the run of <code>build</code> or <code>signoff</code>.</p>
{groups}
<h2>Certificates</h2>
<p>Which certificate was checked where. Anyone can repeat it on any machine, with the two files alone:
<code>pdn check --netlist runs/BLOCK/CORNER/netlist --certificate runs/BLOCK/CORNER/certificate</code>.</p>
{checks_part(summary.records)}
</body></html>
"""
