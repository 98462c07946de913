"""Designs, scripts, technologies and wirings that are as hard on `build` and `signoff` as can be thought of, for bench/slow.

FAMILIES is as in slow_networks.py. Each is the technology of examples/small-design with more in it, over a design whose rows are of
sites of 400 by 2800 units, 2000 units to a micrometre. Where a loop is over pairs, so many of both stand in it.
"""
import math
import pathlib

from slow_networks import MOST_BYTES, Family

TECH = (pathlib.Path(__file__).resolve().parent.parent / "examples" / "small-design" / "technology.lef").read_text(encoding="ascii")
BUILD = ["build --lef lef --cells cells --def def --pdn pdn --bias bias --out-def out.def --netlist out.net --certificate out.cert --report out.rep"]
SIGNOFF = ["signoff --lef lef --cells cells --def def --wires wires --bias bias --netlist out.net --certificate out.cert --report out.rep"]
# segments, and vias, of a wiring
MOST_WIRES = 1_000_000
CELLS = "VERSION 5.8 ;\nSITE unit\nSIZE 0.2 BY 1.4 ;\nEND unit\nMACRO C0\nCLASS CORE ;\nSIZE 1.4 BY 1.4 ;\nEND C0\n"
BLOCK = "MACRO B0\nCLASS BLOCK ;\nSIZE 1.4 BY 1.4 ;\nPIN VDD\nUSE POWER ;\nPORT\nLAYER metal4 ;\nRECT 0.4 0.4 1 1 ;\nEND\nEND VDD\nEND B0\n"
HEAD = "set_voltage_domain -name CORE -power VDD -ground VSS\ndefine_pdn_grid -name grid -voltage_domains CORE\n"
LINES = "add_pdn_stripe -grid grid -layer metal4 -width 0.48 -pitch 2 -offset 1\n"
RAILS = "add_pdn_stripe -grid grid -layer metal1 -width 0.17 -followpins\n"
BIAS = "supply VDD 1.1\nsupply VSS 0\npad VDD metal4 2 0\npad VSS metal4 1 0\n"


def text(folder, name, parts):
    with open(folder / name, "w", encoding="latin-1", newline="\n") as out:
        out.writelines(parts)


def section(name, entries):
    """A section of a DEF file; none where it has no entry."""
    entries = list(entries)
    return [f"{name} {len(entries)} ;\n", *entries, f"END {name}\n"] if entries else []


def row_at(place, sites):
    return f"ROW r{place} unit 0 {2800 * place} {'FS' if place % 2 else 'N'} DO {sites} BY 1 STEP 400 0 ;\n"


def rows_over(lines, count=2):
    """Rows so long that the core has so many lines of LINES."""
    return [row_at(k, max(lines * 5, 20)) for k in range(count)]


def design(folder, rows, regions=(), components=(), blockages=(), side=1 << 29):
    text(folder, "def", ["VERSION 5.8 ;\nDESIGN slow ;\nUNITS DISTANCE MICRONS 2000 ;\n", f"DIEAREA ( 0 0 ) ( {side} {side} ) ;\n", *rows,
                         *section("REGIONS", regions), *section("COMPONENTS", components), *section("BLOCKAGES", blockages), "END DESIGN\n"])


def inputs(folder, script, tech=TECH, cells=CELLS, bias=BIAS):
    text(folder, "pdn", [*script, "pdngen\n"])
    text(folder, "lef", tech)
    text(folder, "cells", [*cells, "END LIBRARY\n"])
    text(folder, "bias", bias)


def blocked(folder, size):
    design(folder, rows_over(size), blockages=(f"- LAYER metal4 RECT ( 0 2000 ) ( {size * 2000} 3000 ) ;\n" for _ in range(size)))
    inputs(folder, [HEAD, LINES])


def inner_blocked(folder, size):
    design(folder, [row_at(k, 300) for k in range(size)], blockages=(f"- LAYER metal2 RECT ( {k % 900} 0 ) ( {k % 900 + 1} {size * 2800} ) ;\n" for k in range(size)))
    inputs(folder, [HEAD, RAILS, LINES.replace("pitch 2", "pitch 40"), "add_pdn_connect -grid grid -layers {metal1 metal4}\n"],
           bias=BIAS.replace("metal4 2", "metal4 21"))


def regions_of(size):
    return [f"- R{k} ( {k % 30000 * 10000} {100000 + k // 30000 * 10000} ) ( {k % 30000 * 10000 + 2000} {102000 + k // 30000 * 10000} ) ;\n" for k in range(size)]


def domains_of(size):
    return [f"set_voltage_domain -name D{k} -power VDD -ground VSS -region R{k}\n" for k in range(size)]


def regions(folder, size):
    design(folder, rows_over(10), regions=regions_of(size))
    inputs(folder, [HEAD, *domains_of(size), LINES])


def region_lines(folder, size):
    design(folder, rows_over(size), regions=regions_of(size // 10))
    inputs(folder, [HEAD, *domains_of(size // 10), LINES])


def far_regions(size, rows):
    low = 2800 * rows + 100000
    return [f"- R{k} ( {k % 30000 * 10000} {low + k // 30000 * 10000} ) ( {k % 30000 * 10000 + 2000} {low + 2000 + k // 30000 * 10000} ) ;\n" for k in range(size)]


def region_rows(folder, size):
    design(folder, rows_over(10, size), regions=far_regions(size, size))
    inputs(folder, [HEAD, *domains_of(size), LINES])


def region_cells(folder, size):
    components = (f"- u{k} C0 + PLACED ( {k % 10 * 2800} 0 ) N ;\n" for k in range(size))
    design(folder, rows_over(20), regions=regions_of(size), components=components)
    inputs(folder, [HEAD, *domains_of(size), RAILS, LINES, "add_pdn_connect -grid grid -layers {metal1 metal4}\n"], bias=BIAS + "cell C0 1u\n")


def grids(folder, size):
    design(folder, rows_over(10, size))
    inputs(folder, [HEAD, *(f"define_pdn_grid -name g{k} -voltage_domains CORE\n" for k in range(size)), LINES])


def grid_rails(folder, size):
    """So many grids over one domain, each with rails, all at the same places."""
    lines = [f"define_pdn_grid -name g{k} -voltage_domains CORE\nadd_pdn_stripe -grid g{k} -layer metal1 -width 0.17 -followpins\n" for k in range(size)]
    design(folder, rows_over(20))
    inputs(folder, [HEAD, *lines], bias="supply VDD 1.1\nsupply VSS 0\npad VDD metal1 1 1.4\npad VSS metal1 1 0\n")


def block_layers(folder, size):
    """For each block it is kept of each layer whether it cuts there."""
    components = (f"- b{k} B0 + PLACED ( {k * 4000} 2800 ) N ;\n" for k in range(size))
    design(folder, rows_over(10), components=components)
    inputs(folder, [HEAD, LINES, "define_pdn_grid -name block -macro -cells B0 -halo 0.01\n"], cells=[CELLS, BLOCK], tech=with_layers(size + size % 2))


def halos(folder, size):
    components = (f"- b{k} B0 + PLACED ( {k * 2000} 2800 ) N ;\n" for k in range(size))
    design(folder, rows_over(size), components=components)
    inputs(folder, [HEAD, LINES, "define_pdn_grid -name block -macro -cells B0 -halo 0.01\n"], cells=[CELLS, BLOCK])


def instances(folder, size):
    components = (f"- b{k} B0 + PLACED ( {k * 4000} 2800 ) N ;\n" for k in range(size))
    design(folder, rows_over(10), components=components)
    names = " ".join(f"b{k}" for k in range(size))
    inputs(folder, [HEAD, LINES, f"define_pdn_grid -name block -macro -instances {{{names}}} -halo 0.01\n"], cells=[CELLS, BLOCK])


def pins(folder, size):
    block = ["MACRO B0\nCLASS BLOCK ;\n", f"SIZE 4 BY {size} ;\n", "PIN VDD\nUSE POWER ;\nPORT\nLAYER metal2 ;\n",
             *(f"RECT 1 {k} 1.4 {k}.4 ;\n" for k in range(size)), "END\nEND VDD\nEND B0\n"]
    components = (f"- b{k} B0 + PLACED ( {k * 10000} 0 ) N ;\n" for k in range(10))
    design(folder, rows_over(100), components=components)
    inputs(folder, [HEAD, LINES, "define_pdn_grid -name block -macro -cells B0\n"], cells=[CELLS, *block])


def crossed(size):
    """Rows and lines with some so many crossings, and its script."""
    return rows_over(size // 50, 100), [HEAD, RAILS, LINES, "add_pdn_connect -grid grid -layers {metal1 metal4}\n"]


def stacks(folder, size):
    rows, script = crossed(size)
    design(folder, rows)
    inputs(folder, script)


def via_rules(folder, size):
    rows, script = crossed(size)
    design(folder, rows)
    rule = TECH[TECH.index("VIARULE Via1Array"):TECH.index("VIARULE Via2Array")]
    rule = rule.replace("LAYER metal1 ;\n    ENCLOSURE 0 0.035 ;", "LAYER metal1 ;\n    ENCLOSURE 0 0.035 ;\n    WIDTH 50 TO 60 ;")
    more = "".join(rule.replace("Via1Array", f"X{k}") for k in range(size))
    inputs(folder, script, tech=TECH.replace("VIARULE Via1Array", more + "VIARULE Via1Array", 1))


def density(folder, size):
    rows, script = crossed(size)
    design(folder, rows)
    points = " ".join(f"{0.000001 * (k + 1):.6f}" for k in range(size))
    table = f"DCCURRENTDENSITY AVERAGE WIDTH {points} ;\n  TABLEENTRIES {' '.join(['10'] * size)} ;"
    head, tail = TECH.split("LAYER metal4\n", 1)
    inputs(folder, script, tech=head + "LAYER metal4\n" + tail.replace("DCCURRENTDENSITY AVERAGE 10 ;", table, 1))


def layers_of(count):
    layer = TECH[TECH.index("LAYER via1"):TECH.index("LAYER via2")]
    return "".join(layer.replace("via1", f"c{k}").replace("metal2", f"x{k}").replace("VERTICAL", "VERTICAL" if k % 2 else "HORIZONTAL") for k in range(count))


def with_layers(count):
    return TECH.replace("VIARULE Via1Array", layers_of(count) + "VIARULE Via1Array", 1)


def connects(folder, size):
    count = 2 * math.isqrt(size) + 2
    pairs = [(a, b) for b in range(count) for a in range(b) if (a + b) % 2][:size]
    design(folder, rows_over(size))
    inputs(folder, [HEAD, LINES, *(f"add_pdn_connect -grid grid -layers {{x{a} x{b}}}\n" for a, b in pairs)], tech=with_layers(count))


def layers(folder, size):
    design(folder, rows_over(10), blockages=(f"- LAYER x{size - 2} RECT ( 0 0 ) ( 1 1 ) ;\n" for _ in range(size)))
    inputs(folder, [HEAD, LINES, f"add_pdn_connect -grid grid -layers {{metal1 x{size - 1}}}\n"], tech=with_layers(size + size % 2))


def sites(folder, size):
    design(folder, [row_at(k, size) for k in range(2)])
    inputs(folder, [HEAD, RAILS], bias="supply VDD 1.1\nsupply VSS 0\npad VDD metal1 1 1.4\npad VSS metal1 1 0\n")


def rules(folder, size):
    design(folder, rows_over(10000))
    inputs(folder, [HEAD, *(LINES for _ in range(size))])


def braces(folder, size):
    design(folder, rows_over(10))
    inputs(folder, ["global_connect " + "{" * size + "}" * size + "\n", HEAD, LINES])


def statements(folder, size):
    """Statements that are as long as the text: a net with so many pins, a region of so many rectangles, a property of so many words."""
    design(folder, rows_over(10), regions=["- R0 " + "( 0 0 ) ( 1 1 ) " * size + ";\n"], components=["- u0 C0 + PROPERTY p " + "a " * size + ";\n"])
    parts = (folder / "def").read_text(encoding="ascii").rsplit("END DESIGN\n", 1)
    text(folder, "def", [parts[0], "NETS 1 ;\n- n ", *("( a b ) " for _ in range(size)), ";\nEND NETS\nEND DESIGN\n"])
    inputs(folder, [HEAD, LINES], cells=[CELLS, "MACRO C1\nPROPERTY p " + "a " * size + ";\nCLASS CORE ;\nSIZE 1 BY 1 ;\nEND C1\n"])


def pad_layers(folder, size):
    """So many pads at one place over metal of as many layers: each is sought among all of them."""
    script = [HEAD, *(f"add_pdn_stripe -grid grid -layer {{}} -width 0.48 -pitch 8 -offset 1\n".format(f"x{k}") for k in range(size))]
    design(folder, rows_over(20, 10))
    inputs(folder, script, tech=with_layers(size + size % 2),
           bias=["supply VDD 1.1\nsupply VSS 0\n", *(f"pad VSS x{k} 1 1\n" for k in range(size)), *(f"pad VDD x{k} 5 5\n" for k in range(size))])


def component_names(folder, size):
    tail = 0x9E3779B97F4A7C15.to_bytes(8, "little").decode("latin-1")
    components = (f"- {k:08}{tail} C0 ;\n" for k in range(size))
    design(folder, rows_over(10), components=components)
    inputs(folder, [HEAD, LINES])


WIRES = pathlib.Path(__file__).resolve().parent.parent / "examples" / "small-wiring" / "wires.def"


def wiring(folder, more):
    """The wiring of the small design with more of it behind its last via of VDD."""
    small = WIRES.parent.parent / "small-design"
    for name, source in (("lef", "technology.lef"), ("cells", "cells.lef"), ("def", "design.def"), ("bias", "bias")):
        (folder / name).write_bytes((small / source).read_bytes())
    head, tail = WIRES.read_text(encoding="ascii").split("( 6000 2800 ) rail1 ;", 1)
    text(folder, "wires", [head, "( 6000 2800 ) rail1\n", *more, ";", tail])


def segments(folder, size):
    wiring(folder, (f"NEW metal4 960 + SHAPE STRIPE ( 6000 {k % 1000} ) ( * {2970 - k % 1000} )\n" for k in range(size)))


def vias(folder, size):
    wiring(folder, ("NEW metal1 0 + SHAPE STRIPE ( 6000 2800 ) rail1\n" for _ in range(size)))


def via_levels(folder, size):
    """As many vias on each of three levels at one place: their third power of chains."""
    more = [f"NEW metal{k} 0 + SHAPE STRIPE ( 6000 2800 ) rail{k}\n" for k in (1, 2, 3)]
    wiring(folder, (line for _ in range(size // 3) for line in more))


def each(size):
    return BUILD


def signed(size):
    return SIGNOFF


FAMILIES = {
    "blocked": Family("lines, and as many blockages that each lie over all of them", 200_000, blocked, each),
    "inner_blocked": Family("rails, and as many blockages between them and the straps over all of them", 180_000, inner_blocked, each),
    "regions": Family("domains with a region each", MOST_BYTES // 70, regions, each),
    "region_lines": Family("lines, and a tenth as many domains with a region", 200_000, region_lines, each),
    "region_rows": Family("rows, and as many domains with a region", 150_000, region_rows, each),
    "region_cells": Family("components, and as many domains with a region", MOST_BYTES // 70, region_cells, each),
    "grids": Family("grids over one domain, and as many rows", 180_000, grids, each),
    "grid_rails": Family("grids over one domain with rails each", MOST_BYTES // 130, grid_rails, each),
    "block_layers": Family("blocks, and as many layers", MOST_BYTES // 340, block_layers, each),
    "halos": Family("lines, and as many blocks with a halo", 200_000, halos, each),
    "instances": Family("blocks, and a grid over macros that names each", MOST_BYTES // 40, instances, each),
    "pins": Family("rectangles of a pin of a macro that stands ten times", 100_000, pins, each),
    "stacks": Family("half as many stacks at crossings of rails and straps", 480_000, stacks, each),
    "via_rules": Family("rules of vias that do not suit, and half as many stacks", 1_000_000, via_rules, each),
    "density": Family("entries of a table of current densities, and as many branches", 400_000, density, each),
    "connects": Family("connects of two layers each, and as many lines", 200_000, connects, each),
    "layers": Family("layers between those of a connect, and as many blockages", 1_000_000, layers, each),
    "sites": Family("sites of two rows", 1 << 30, sites, each),
    "rules": Family("stripe commands of 10,000 lines each", MOST_BYTES // 72, rules, each),
    "braces": Family("braces within braces", MOST_BYTES // 2 - 1000, braces, each),
    "statements": Family("words of a statement of the design and of a macro", MOST_BYTES // 32, statements, each),
    "pad_layers": Family("layers with a strap at one place, and as many pads there", MOST_BYTES // 350, pad_layers, each),
    "component_names": Family("components whose names have one hash", MOST_BYTES // 23, component_names, each),
    "segments": Family("segments of a wiring that lie over one another", MOST_WIRES - 100, segments, signed),
    "vias": Family("vias at one place", MOST_WIRES - 100, vias, signed),
    "via_levels": Family("vias at one place on three levels, so many in all", MOST_WIRES - 100, via_levels, signed),
}
