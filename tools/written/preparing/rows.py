"""Rows of a design: those of the core's site, or rows worked out from the placed cells where the DEF has none."""
from collections import Counter, defaultdict
from fractions import Fraction

from ..refusal import Refused
from .design import Row
from .quantities import decimal


def in_units(length, units):
    """A length in micrometres in the design's units, as a fraction."""
    return Fraction(length) * units


def core_rows(design, library):
    """The rows of the core's site, which is that of most rows; the others are left out."""
    if not design.rows:
        return placed_rows(design, library)
    source, counts = design.source, Counter(row.site for row in design.rows)
    site = max(counts, key=lambda name: counts[name])
    for row in design.rows:
        if row.site != site:
            source.tell_of("left out", row.word, "ROW", f"a row of site {row.site}: the core's site is {site}")
        elif site not in library.sites:
            source.refuse(row.word, f"no LEF has the SITE {site}; hand in the one that has it")
    check_site(source, library, site, design.units)
    return [row for row in design.rows if row.site == site]


def check_site(source, library, site, units):
    """The size of the core's site has to be whole units of the design."""
    for length in library.sites[site][0]:
        if in_units(length, units).denominator != 1:
            raise Refused(source.path, None, f"{site}: the size {decimal(length, 6)} of the site is no whole number of the design's {units} units to a micrometre; "
                                             "write the DEF with more units")


def placed_rows(design, library):
    """Rows from the cells that are one site high, each as long as its cells reach."""
    source, held = design.source, defaultdict(list)
    for component in design.components.values():
        macro = library.macros.get(component.macro)
        if macro is None:
            source.refuse(component.word, f"no LEF has its macro {component.macro}; hand in the one that has it")
        if component.place and not macro.is_block() and macro.site in library.sites and macro.size[1] == library.sites[macro.site][0][1]:
            held[component.place[1]].append((component, macro))
    if not held:
        raise Refused(source.path, None, "ROW: the design has no row, and no placed cell of the height of its site to work one out from")
    site = site_of(source, held)
    check_site(source, library, site, design.units)
    rows = [row_of(design, library.sites[site][0], site, number, y, held[y]) for number, y in enumerate(sorted(held))]
    check_rows(source, rows, in_units(library.sites[site][0][1], design.units))
    first = held[rows[0].y][0][0].word
    source.tell_of("guessed", first, "ROW", f"the design has no row: {len(rows)} rows of site {site} are worked out from the cells that are placed on them")
    return rows


def site_of(source, held):
    """The one site of all these cells."""
    sites = Counter(macro.site for cells in held.values() for _, macro in cells)
    if len(sites) > 1:
        raise Refused(source.path, None, f"ROW: the design has no row, and its cells are of the sites {', '.join(sorted(sites))}; add the rows")
    return next(iter(sites))


def row_of(design, size, site, number, y, cells):
    """The row at a height: its orientation is that of its cells, which have the same pin at the lower edge."""
    source, width = design.source, in_units(size[0], design.units)
    lying = {component.place[2] in ("N", "FN") for component, _ in cells}
    sideways = [component.word for component, _ in cells if component.place[2] not in ("N", "FN", "S", "FS")]
    if sideways:
        source.refuse(sideways[0], "a cell that lies on its side tells no row; add the rows")
    if len(lying) > 1:
        source.refuse(cells[0][0].word, f"cells at y {y} stand in N and in S, so that no row is told; add the rows")
    left = min(component.place[0] for component, _ in cells)
    right = max(component.place[0] + in_units(macro.size[0], design.units) for component, macro in cells)
    count = (right - left) / width
    if count.denominator != 1:
        source.tell_of("guessed", cells[0][0].word, "ROW", f"the row at y {y} is {decimal(count, 3)} sites long, and is written with the next whole number")
    return Row(f"ROW_{number}", site, left, y, "N" if lying == {True} else "FS", -(-count.numerator // count.denominator), int(width), cells[0][0].word)


def check_rows(source, rows, height):
    """Rows that are worked out may not overlap."""
    for below, above in zip(rows, rows[1:]):
        if above.y - below.y < height:
            source.refuse(above.word, f"cells at y {below.y} and {above.y} are nearer than a row is high, so that no row is told; add the rows")
