"""The explanation of an answer: what the table says of it, with the places and the values of this very run."""

from ..refusal import Refused
from . import extraction, files_at_fault, grids, networks, usage, words_at_fault
from .answers import DRAWING, EXTRACTION, TEXT_OF_OPTION, answer_of
from .case import Case

PAGE = "docs/ANSWERS.md"
DETAILS = {
    "Halo": grids.halo, "RingLayers": grids.ring_layers, "RailLayer": grids.rail_layer, "ParallelConnect": grids.parallel_connect, "NoRows": grids.no_rows,
    "OffGrid": grids.off_grid, "OddWidth": grids.odd_width, "RegionShape": grids.region_shape, "RegionsMeet": grids.regions_meet, "RowAcross": grids.row_across,
    "EmptyDomain": grids.empty_domain, "TooMany": grids.too_many, "NoSheet": grids.no_sheet, "Stack": grids.stack, "Touch": grids.touch,
    "NoResistance": grids.no_resistance, "NetCount": grids.net_count, "ViaLayers": grids.via_layers, "ViaSize": grids.via_size, "ViaOff": grids.via_off,
    "NoSupply": extraction.no_supply, "PadOff": extraction.pad_off, "LoadOff": extraction.load_off,
    "PadConflict": networks.conflict, "Unsupplied": networks.unsupplied, "NotCertified": networks.not_certified, "FloatingCapacitor": networks.floating_capacitor,
}
FILES = {"ReadFault": files_at_fault.read_fault, "WriteFault": files_at_fault.write_fault, "TooLong": files_at_fault.too_long}


def place_of(case):
    """The option, line, word and kind of a refusal at a word of a text; None where it is none."""
    for option in TEXT_OF_OPTION:
        head = f"{case.settings.get(option, '')}:"
        if option in case.settings and case.refusal.startswith(head):
            numbers, _, kind = case.refusal[len(head):].partition(": ")
            line, _, word = numbers.partition(":")
            if line.isdigit() and word.isdigit() and kind:
                options = case.options_of_file(case.settings[option])
                return text_of_kind(case, options, kind), int(line), int(word), kind
    return None


def text_of_kind(case, options, kind):
    """Of several options that name one file the first whose text may have the kind. A design's wiring is read after it."""
    if "--wires" in options and kind in ("UnknownVia", "WireForm", "ViaForm", "Twice", "Syntax", "Number NotNumber", "Number Range") and case.command == "signoff" \
            and options[0] != "--wires":
        return "--wires" if kind in ("UnknownVia", "WireForm", "ViaForm") else options[0]
    if kind == "Origin" or "--lef" not in options or kind in ("UnknownLayer", "BadTable"):
        return options[0]
    return options[0]


def is_bias_line(case, words):
    """Whether the refusal UnknownName is about a line of the bias file: a number that names nothing of the script or the wiring."""
    name = words[1] if len(words) > 1 else ""
    if not name.isdigit() or len(words) != 2 or int(name) not in case.bias:
        return False
    if case.command == "build":
        held = {held for command in case.script.commands for option in ("-layer", "-layers", "-nets", "-region") for held in command.values(option)}
        held |= {row.site for row in case.design.rows} | {component.cell for component in case.design.components}
    else:
        held = {part for via in case.wires.vias for part in (via.rule, *via.layers)} | {path.layer for net in case.wires.wired() for path in net.paths}
    known = set(case.sizes) | {layer.name for layer in case.technology.routing}
    return name not in held or name in known


def detail(case):
    """Says what this very run has to do with its refusal, and answers the row of the table."""
    words = case.refusal.split(" ")
    name, rest = words[0], case.refusal.partition(" ")[2]
    at = place_of(case)
    if at:
        option, line, word, kind = at
        words_at_fault.text_refused(case, option, line, word, kind)
        return
    if name in FILES:
        FILES[name](case, rest)
    elif name == "Usage":
        usage.explain_usage(case)
    elif name == "UnknownName":
        unknown_name(case, words, rest)
    elif name == "Range":
        networks.out_of_range(case, words[1], int(words[2]), int(words[3]))
    elif name in DETAILS:
        DETAILS[name](case, *words[1:])


def unknown_name(case, words, name):
    """A name that is not known: of the bias file, of the script or of the wiring."""
    if is_bias_line(case, words):
        extraction.unknown_line(case, name)
    elif case.command == "signoff":
        grids.unknown_wire_name(case, name)
    else:
        grids.unknown_name(case, name)


def row_of(case):
    """The row of the table that the refusal is, or None."""
    at = place_of(case)
    if at:
        return answer_of(at[3], TEXT_OF_OPTION[at[0]])
    if case.refusal.startswith("UnknownName "):
        try:
            part = EXTRACTION if is_bias_line(case, case.refusal.split(" ")) else DRAWING
        except (Refused, LookupError, ValueError, StopIteration):
            part = DRAWING
        return next(answer for answer in part if answer.key == "UnknownName" and case.command in answer.places)
    return answer_of(case.refusal, case.command)


def explained(words, status, line, is_strict=False):
    """The lines of an explanation. Where a text cannot be read again it says less; `is_strict` lets the fault through, for tests."""
    case = Case(words, status, line)
    try:
        detail(case)
    # a text may have changed since, or be one that is read otherwise here: the row of the table is right all the same
    except Exception as fault:  # noqa: BLE001
        if is_strict:
            raise
        case.say(f"no more is told of it here: {fault}" if isinstance(fault, Refused) else "no more is told of it here: a text could not be read again")
    row = row_of(case)
    if row is not None:
        case.say(f"{row.words.split(' <')[0]}: {plain(row.means)}")
        case.say(f"what to do: {plain(row.todo)} ({PAGE})")
    return case.said


def plain(sentence):
    """A sentence of the table as it stands on a terminal."""
    return sentence.replace("\\|", "|")


