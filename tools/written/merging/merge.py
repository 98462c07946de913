"""Puts the grid that `pdn build` wrote into the placed design that it was drawn over."""
from ..preparing.changes import Changes
from ..preparing.design import read_design
from ..preparing.pads import pads_of_pins
from ..refusal import Refused
from ..wiring import Wiring
from .sections import Placed
from .words import net_text, via_text


def check_same(placed, grid):
    """The grid has to be of this design: its name, its units and its die."""
    for what, held, wanted in (("DESIGN", placed.heads["DESIGN"], [grid.design]), ("UNITS", placed.heads["UNITS"][-1:], [str(grid.units)]),
                               ("DIEAREA", placed.die(), grid.die)):
        if held != wanted:
            placed.refuse(placed.starts[what], f"{what}: {grid.path} has another, so that it is the grid of another design")


def kept_entries(placed, section, names, told, changes):
    """The texts of the entries of a section that stay: all but those with the names of the grid's."""
    kept = []
    for entry in placed.entries[section]:
        if entry.name in names:
            changes.tell("left out", placed.path, placed.line(entry.begin), entry.name, told)
        else:
            kept.append(placed.text[entry.begin:entry.end] + "\n")
    return kept


def vias_of(placed, grid, is_fixed, changes):
    """The entries of VIAS: those of the placed design, and behind them those of the grid."""
    kept = kept_entries(placed, "VIAS", grid.vias, "a via of this name is one of the grid's, which stands in its place", changes)
    return kept + [via_text(via, grid, is_fixed) for via in grid.vias.values()]


def nets_of(placed, grid, is_fixed, changes):
    """The entries of SPECIALNETS: those of the placed design that are no nets of the grid, and behind them those of the grid."""
    before = {entry.name: entry for entry in placed.entries["SPECIALNETS"]}
    names = {net.name for net in grid.nets}
    texts = kept_entries(placed, "SPECIALNETS", names, "the net's own wiring and properties, in place of which the grid's wiring stands", changes)
    for net in grid.nets:
        held = before[net.name].connections() if net.name in before else ""
        if not held:
            changes.tell("guessed", placed.path, None, net.name, f"the pins of the net are taken to bear its name: ( * {net.name} )")
        texts.append(net_text(net, held or f"( * {net.name} )", is_fixed))
    return texts


def tell_pins_off(placed, grid, changes):
    """Tells of pins of power and ground whose middle lies on no metal of the grid, as pins of a grid that stood there before."""
    pieces = {net.name: net.pieces for net in grid.nets}
    for pad in pads_of_pins(read_design(placed.path, Changes()), pieces):
        x, y = pad.x * grid.units, pad.y * grid.units
        boxes = [piece.box() for piece in pieces[pad.net] if piece.layer == pad.layer]
        if not any(box[0] <= x <= box[2] and box[1] <= y <= box[3] for box in boxes):
            changes.tell("missing", pad.path, pad.line, pad.word, f"a pin of {pad.net} that lies on no metal of the grid on {pad.layer}; move it, or take it out")


def section_text(name, entries):
    return f"{name} {len(entries)} ;\n{''.join(entries)}END {name}\n"


def place_of(placed, section):
    """From where to where a section stands, or where it is to stand: vias before the components, special nets before the nets."""
    if section in placed.spans:
        begin, end = placed.spans[section]
        return begin, end + (placed.text[end:end + 1] == "\n")
    following = "COMPONENTS" if section == "VIAS" else "NETS" if "NETS" in placed.starts else "END DESIGN"
    return placed.starts[following], placed.starts[following]


def merged(grid_path, placed_path, is_fixed):
    """The text of the merged design, and the lines that tell what was done."""
    grid, placed, changes = Wiring(grid_path), Placed(placed_path), Changes()
    if not any(net.pieces or net.arrays for net in grid.nets):
        raise Refused(grid_path, None, "SPECIALNETS: no net of it has metal")
    check_same(placed, grid)
    entries = {"VIAS": vias_of(placed, grid, is_fixed, changes), "SPECIALNETS": nets_of(placed, grid, is_fixed, changes)}
    tell_pins_off(placed, grid, changes)
    parts, at = [], 0
    for (begin, end), section in sorted((place_of(placed, section), section) for section in entries):
        parts += [placed.text[at:begin], section_text(section, entries[section])]
        at = end
    return "".join([*parts, placed.text[at:]]), changes.text()
