#!/usr/bin/env python3
"""gen_design.py SIDE DOMAINS FOLDER: a made-up placed design of SIDE by SIDE cells in one or four voltage domains.

Writes `def`, `pdn` and `bias` into the folder; technology and cells are those of `pdn generate`, which makes designs of at most
300 rows. With one domain the design is laid out as that of `pdn generate --number 1`, of any side. With four domains the cells stand in
four quarters with a gap of 5 micrometres between them; the first quarter is that of the domain without a region, and each of
the others has a region around its rows. All have a power net of their own and share the ground net.
"""
import pathlib
import sys

CELL = 2800  # the width and height of a cell, in units of which a micrometre has 2000
GAP = 10000
STRIPES = [("metal4", "0.48", "56.0", "2"), ("metal7", "1.40", "40.0", "2")]


class Quarter:
    """A domain with its rows: `rows` of `columns` cells, from (x, y) on."""

    def __init__(self, number, x, y, rows, columns, alone):
        self.x, self.y, self.rows, self.columns = x, y, rows, columns
        self.name = "CORE" if number == 0 else f"QUARTER{number}"
        self.power = "VDD" if number == 0 else f"VDD{number}"
        self.region = None if number == 0 else f"quarter{number}"
        self.prefix = "u" if alone else f"q{number}_u"
        self.grid = "grid" if number == 0 else f"grid{number}"
        self.row = "row_" if alone else f"row{number}_"

    def box(self):
        return self.x, self.y, self.x + self.columns * CELL, self.y + self.rows * CELL


def quarters(side, domains):
    if domains == 1:
        return [Quarter(0, 0, 0, side, side, True)]
    half = side // 2
    step = half * CELL + GAP
    return [Quarter(k, (k % 2) * step, (k // 2) * step, half, half, False) for k in range(4)]


def picks():
    """The cells, by the two highest bits of a state of 64 bits."""
    state = 1
    while True:
        state = (state * 6364136223846793005 + 1442695040888963407) % 2 ** 64
        yield state >> 62


def write_design(path, all_quarters):
    x2 = max(q.box()[2] for q in all_quarters)
    y2 = max(q.box()[3] for q in all_quarters)
    cells = picks()
    with open(path, "w") as out:
        out.write(f"VERSION 5.8 ;\nDESIGN made ;\nUNITS DISTANCE MICRONS 2000 ;\nDIEAREA ( 0 0 ) ( {x2} {y2} ) ;\n")
        for q in all_quarters:
            for k in range(q.rows):
                orient = "FS" if k % 2 else "N"
                out.write(f"ROW {q.row}{k} unit {q.x} {q.y + k * CELL} {orient} DO {7 * q.columns} BY 1 STEP 400 0 ;\n")
        fenced = [q for q in all_quarters if q.region]
        if fenced:
            out.write(f"REGIONS {len(fenced)} ;\n")
            for q in fenced:
                out.write("- %s ( %d %d ) ( %d %d ) ;\n" % (q.region, *q.box()))
            out.write("END REGIONS\n")
        out.write(f"COMPONENTS {sum(q.rows * q.columns for q in all_quarters)} ;\n")
        for q in all_quarters:
            for k in range(q.rows):
                orient = "FS" if k % 2 else "N"
                for j in range(q.columns):
                    out.write(f"- {q.prefix}{k}_{j} C{next(cells)} + PLACED ( {q.x + j * CELL} {q.y + k * CELL} ) {orient} ;\n")
        out.write("END COMPONENTS\nEND DESIGN\n")


def write_script(path, all_quarters):
    lines = [f"set_voltage_domain -name {q.name} -power {q.power} -ground VSS" + (f" -region {q.region}" if q.region else "") for q in all_quarters]
    for q in all_quarters:
        lines.append(f"define_pdn_grid -name {q.grid} -voltage_domains {q.name}")
        lines.append(f"add_pdn_stripe -grid {q.grid} -layer metal1 -width 0.17 -followpins")
        lines += [f"add_pdn_stripe -grid {q.grid} -layer {layer} -width {width} -pitch {pitch} -offset {offset}" for layer, width, pitch, offset in STRIPES]
        lines.append(f"add_pdn_connect -grid {q.grid} -layers {{metal1 metal4}}")
        lines.append(f"add_pdn_connect -grid {q.grid} -layers {{metal4 metal7}}")
    pathlib.Path(path).write_text("\n".join(lines) + "\npdngen\n")


def tenths(units):
    """Units in micrometres, with one place."""
    return f"{units // 2000}.{units % 2000 // 200}"


def write_bias(path, all_quarters):
    lines = ["supply VSS 0", "droplimit VSS 0.1"]
    for q in all_quarters:
        lines += [f"supply {q.power} 1.1", f"droplimit {q.power} 0.1"]
    lines += [f"cell C{k} {current}" for k, current in enumerate(("0.25u", "0.5u", "0.75u", "1u"))]
    for q in all_quarters:
        x1, y1, x2, y2 = q.box()
        for first, net in ((4000, "VSS"), (44000, q.power)):
            for y in range(y1 + first, y2 - 1400 + 1, 80000):
                lines += [f"pad {net} metal7 {tenths(x)} {tenths(y)}" for x in (x1, x2)]
    pathlib.Path(path).write_text("\n".join(lines) + "\n")


def main(words):
    side, domains, folder = int(words[0]), int(words[1]), pathlib.Path(words[2])
    folder.mkdir(parents=True, exist_ok=True)
    all_quarters = quarters(side, domains)
    write_design(folder / "def", all_quarters)
    write_script(folder / "pdn", all_quarters)
    write_bias(folder / "bias", all_quarters)


if __name__ == "__main__":
    main(sys.argv[1:])
