"""What the runs of a table of blocks and a table of corners came to: rows of figures, runs that failed, and where each file was checked."""
import os
from fractions import Fraction
from typing import NamedTuple, Optional

from ..bounds import NANOVOLT
from .records import FINISHED, read_record


class Row(NamedTuple):
    """A net of a block at a corner: its figures, and the record of the run."""
    block: str
    corner: str
    net: dict
    record: dict

    def share(self) -> Optional[Fraction]:
        """Which share of its limit the bound of the drop takes; None where there is no limit, or none but 0."""
        limit, drop = self.net["limit_yv"], self.net["drop_nv"]
        return Fraction(drop * NANOVOLT, limit) if limit and drop is not None else None

    def is_safe(self):
        """Whether no verdict of the net and of its branches is another than SAFE."""
        return self.net["verdict"] == "SAFE" and not any(count for verdict, count in self.net["branches"].items() if verdict != "SAFE")


class Failure(NamedTuple):
    """A run without figures: why, the line of the program, and what is told of it."""
    block: str
    corner: str
    what: str
    line: str
    told: list


class Summary:
    """All runs of a folder of results."""

    def __init__(self, folder, blocks, corners, skipped=()):
        self.folder, self.skipped, self.rows, self.failures, self.records = folder, skipped, [], [], []
        for block in blocks:
            for corner in corners:
                self._take(block, corner)
        self.groups = grouped(self.rows)

    def path(self, *names):
        return os.path.join(self.folder, *names)

    def _take(self, block, corner):
        """Takes one run as far as it came."""
        figures, fault = self.path("figures", block, f"{corner}.json"), self.path("faults", block, f"{corner}.json")
        if os.path.isfile(fault):
            held = read_record(fault)
            what = f"{held['what']} ended with {held['status']} on {held['machine']}, and is to be tried again"
            self.failures.append(Failure(block, corner, what, held["line"], []))
        elif os.path.isfile(figures):
            self._take_record(block, corner, read_record(figures))
        else:
            self.failures.append(Failure(block, corner, "not finished", "", []))

    def _take_record(self, block, corner, record):
        self.records.append((block, corner, record))
        built, checked, read = record["built"], record.get("checked"), record.get("read_again")
        if built["status"] not in FINISHED:
            self.failures.append(Failure(block, corner, f"{record['command']} ended with {built['status']}", built["line"], record.get("explanation", [])))
        elif checked["status"] != 0:
            self.failures.append(Failure(block, corner, f"check on {checked['machine']} refused the certificate", checked["line"], []))
        else:
            if read["status"] != 0:
                self.failures.append(Failure(block, corner, f"tools/check_report on {read['machine']} ended with {read['status']}", read["line"], []))
            if "no_map" in record:
                self.failures.append(Failure(block, corner, "no map could be drawn", record["no_map"], []))
            self.rows += [Row(block, corner, net, record) for net in record["nets"]]

    def is_safe(self):
        """Whether each run finished and was accepted, and no verdict is another than SAFE."""
        return not self.failures and all(row.is_safe() for row in self.rows)


def is_broken(row):
    """Whether the net's limit is not kept, or not known to be."""
    return row.net["verdict"] in ("UNSAFE", "OPEN")


def worst_first(group):
    """The corners of a net, those first whose limit is not kept, then by the share of the limit, or by the drop where a corner has no limit but 0."""
    by_share = all(row.share() is not None for row in group)
    return sorted(group, key=lambda row: (is_broken(row), row.share() if by_share else row.net["drop_nv"] or 0), reverse=True)


def strain(group):
    """What nets are ordered by: those with a limit that is not kept first, then those with another verdict than SAFE, then by the worst share of a limit."""
    return any(map(is_broken, group)), any(not row.is_safe() for row in group), max(row.share() or 0 for row in group)


def grouped(rows):
    """The rows of each block and net with the worst corner first, and the worst net first."""
    groups = {}
    for row in rows:
        groups.setdefault((row.block, row.net["net"]), []).append(row)
    return sorted(map(worst_first, groups.values()), key=strain, reverse=True)
