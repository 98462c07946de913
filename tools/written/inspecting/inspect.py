"""All findings of five texts."""
import os

from .blocks import blocks_without_grid, foreign_connects
from .loads import least_of_report, nets_without_pads, too_few_currents, wrong_units
from .metal import off_grid, outside_die, too_near
from .technology import without_limit, without_resistance, without_spacing
from .texts import Texts


def findings(lef, design, pdn, bias, report=None, grid=None):
    """The findings, in the order of the texts: the LEF files, the design, the script, the bias file, a power report or None, and the manufacturing grid or None."""
    texts = Texts(lef, design, pdn, bias)
    least = None if report is None else least_of_report(report)
    found = [*without_spacing(texts), *without_limit(texts), *without_resistance(texts), *blocks_without_grid(texts), *foreign_connects(texts),
             *outside_die(texts), *too_near(texts), *off_grid(texts, grid or texts.grid), *wrong_units(texts), *nets_without_pads(texts),
             *too_few_currents(texts, least)]
    return list(dict.fromkeys(map(str, found)))


def findings_in(folder, report=None, grid=None):
    """The findings of the texts that tools/prepare wrote to a folder."""
    files = [os.path.join(folder, name) for name in ("technology.lef", "cells.lef", "design.def", "grid.pdn", "bias")]
    return findings(files[:2], *files[2:], report, grid)
