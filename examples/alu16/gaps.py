"""Keeps straps free of cells. qflow leaves a gap for each strap, which begins in every row where a cell ends, so that the gaps are not below one another.

The cells of a row stay in their order and near their places; the cells of fill, which are one site wide, take the sites that are left.
"""
import bisect
import re
from collections import defaultdict
from typing import NamedTuple

COMPONENT = re.compile(r"^(- (\S+) (\S+) \+ PLACED \( )(-?\d+)( (-?\d+) \) \S+ ;)$", re.M)
FILL = "FILL"


class NoRoom(Exception):
    """A row has too many cells between two straps."""


class Cell(NamedTuple):
    """A cell of a row."""
    name: str
    kind: str
    x: int
    width: int


class Move(NamedTuple):
    """A cell that is moved along its row: its name, its macro, its line in the placed design, its height, and from where to where."""
    name: str
    kind: str
    line: int
    y: int
    x: int
    to_x: int


def cleared(text, width_of, windows):
    """A placed design in which no cell but fill stands in a window, a stretch along x, and the cells that are moved for that, fill among them, in the order
    of the text. `width_of` tells the width of a macro in the design's units."""
    rows, places = defaultdict(list), {}
    for found in COMPONENT.finditer(text):
        rows[int(found[6])].append(Cell(found[2], found[3], int(found[4]), width_of(found[3])))
    for row in rows.values():
        places.update(placed_anew(row, windows))
    return COMPONENT.sub(lambda found: f"{found[1]}{places[found[2]]}{found[5]}", text), list(moves(text, places))


def moves(text, places):
    """The cells of a placed design that stand at other places now."""
    breaks = [found.start() for found in re.finditer("\n", text)]
    for found in COMPONENT.finditer(text):
        x, to_x = int(found[4]), places[found[2]]
        if x != to_x:
            yield Move(found[2], found[3], bisect.bisect_left(breaks, found.start()) + 1, int(found[6]), x, to_x)


def placed_anew(row, windows):
    """The places of the cells of a row: names and x."""
    fill, cells = [cell for cell in row if cell.kind == FILL], sorted((cell for cell in row if cell.kind != FILL), key=lambda cell: cell.x)
    begin, end = min(cell.x for cell in row), max(cell.x + cell.width for cell in row)
    places = []
    for stretch, held in between(cells, windows, begin, end):
        places += fitted(held, *stretch)
    taken = [(x, x + cell.width) for cell, x in places]
    site = fill[0].width if fill else end - begin
    free = [x for x in range(begin, end, site) if not any(low < x + site and x < high for low, high in taken)]
    if len(free) != len(fill):
        raise NoRoom(f"{len(fill)} cells of fill and {len(free)} sites that are left")
    return [(cell.name, x) for cell, x in places] + [(cell.name, x) for cell, x in zip(fill, free)]


def stretches_of(windows, begin, end):
    """The stretches of a row from `begin` to `end` between the windows, of which any part may lie off the row or in another one. None ends below its beginning."""
    at = begin
    for window in sorted(windows):
        low, high = (min(max(edge, at), end) for edge in window)
        yield at, low
        at = high
    yield at, end


def between(cells, windows, begin, end):
    """The stretches between the windows, each with the cells that are to stand there: those whose middle is nearest to it, as far as they have room."""
    stretches = list(stretches_of(windows, begin, end))
    held = [[] for _ in stretches]
    for cell in cells:
        middle = cell.x + cell.width / 2
        distances = [max(low - middle, middle - high, 0) for low, high in stretches]
        held[distances.index(min(distances))].append(cell)
    for at, (low, high) in enumerate(stretches[:-1]):
        while sum(cell.width for cell in held[at]) > high - low:
            held[at + 1].insert(0, held[at].pop())
    for at, (low, high) in reversed(list(enumerate(stretches))[1:]):
        while sum(cell.width for cell in held[at]) > high - low:
            held[at - 1].append(held[at].pop(0))
    return zip(stretches, held)


def fitted(cells, begin, end):
    """Places for cells in a stretch, in their order: to the right of the one before, and to the left of the one behind."""
    places, least = [], begin
    for cell in cells:
        places.append(max(cell.x, least))
        least = places[-1] + cell.width
    most = end
    for at in reversed(range(len(cells))):
        places[at] = min(places[at], most - cells[at].width)
        most = places[at]
    if most < begin:
        raise NoRoom(f"{len(cells)} cells between {begin} and {end}")
    return list(zip(cells, places))
