"""A power grid that another tool wrote, in the words that `pdn signoff` reads."""
from collections import defaultdict

from ..refusal import Refused
from ..wiring import Piece
from .design_text import head_text
from .paths import Reader, centre_line
from .straps import Strap
from .vias import Vias

def read_wiring(design, library, rules, wanted):
    """The wired nets of power and ground, as segments and vias, and the vias. Nets beside the wanted ones are left out, where any are wanted."""
    vias, nets = Vias(design, library, rules), []
    uses = uses_of_pins(library)
    for words in design.nets:
        name = design.plain_name(words[1])
        if not is_wired(words):
            design.source.tell("passed over", words[1], "a special net without metal")
            continue
        use = use_of(design, words, name, uses)
        if use not in ("POWER", "GROUND") or (wanted and name not in wanted):
            design.source.tell_of("left out", words[1], "SPECIALNETS", "a wired net that is not the power or the ground net of the grid")
            continue
        nets.append(Reader(design, vias, words).read())
        design.renamed(words[1])
        nets[-1].use = use
    if not nets:
        return None
    for use in ("POWER", "GROUND"):
        named = [net for net in nets if net.use == use]
        if len(named) != 1:
            line = design.source.line(named[1].word) if named else None
            raise Refused(design.source.path, line, f"SPECIALNETS: {len(named)} wired nets of {use}, and pdn signs off one; name two nets by --nets")
    for net in nets:
        put_in_order(net, vias, design, library)
    return nets, vias


def use_of(design, words, name, uses):
    """The use of a net: its USE, else that of the pins of this name in the LEF."""
    for first, second, third in zip(words, words[1:], words[2:]):
        if first == "+" and second.upper() == "USE":
            return third.upper()
    if name in uses:
        design.source.tell("guessed", words[1], f"the net has no USE, and is taken for {uses[name]}, as the pins of this name in the LEF")
    return uses.get(name)


def is_wired(words):
    """Whether an entry of SPECIALNETS has metal."""
    return any(first == "+" and second.upper() in ("ROUTED", "FIXED", "COVER", "SHIELD", "RECT", "POLYGON", "VIA") for first, second in zip(words, words[1:]))


def uses_of_pins(library):
    """The use of pins by their names, where all agree."""
    found = defaultdict(set)
    for macro in library.macros.values():
        for pin in macro.pins:
            found[pin.name].add(pin.use)
    return {name: next(iter(uses)) for name, uses in found.items() if len(uses) == 1}


def put_in_order(net, vias, design, library):
    """Each segment and each via once, rails where the cells have them, and nothing within other metal."""
    source = design.source
    net.vias = largest(once(net.vias, source, "the via stands twice at its place"), vias, source)
    net.segments = once(net.segments, source, "the segment stands twice")
    add_rails(net, vias, design, library)
    pieces = joined(net.segments, source)
    net.segments = without_inner(net, pieces, source)
    refuse_touching(net, source)
    refuse_vias_off(net, vias, source)
    source.tell("changed", net.word, f"the wiring is written as {len(net.segments)} segments and {len(net.vias)} vias, each by itself")


def once(things, source, why):
    """Things without their repetitions."""
    found = {}
    for thing in things:
        if thing[:-1] in found:
            source.changes.tell("left out", source.path, thing.line, thing[0], why)
        else:
            found[thing[:-1]] = thing
    return list(found.values())


def largest(stood, vias, source):
    """Of several vias at one place that join the same layers the one with the most cuts: the others' cuts may be the same ones."""
    found = {}
    for via in stood:
        made = vias.made[via.name]
        place = made.lower, via.x, via.y
        held = found.setdefault(place, via)
        if held is via:
            continue
        less, found[place] = (held, via) if vias.made[held.name].cuts < made.cuts else (via, held)
        source.changes.tell("left out", source.path, less.line, less.name, f"another via of these layers stands at its place, {found[place].name}")
    return list(found.values())


def joined(segments, source=None):
    """Segments that lie on one line and meet, as one with the shape of the longest; in the order of lines."""
    lines = defaultdict(list)
    for segment in segments:
        lines[centre_line(segment)].append(segment)
    pieces = []
    for line in sorted(lines):
        run = []
        for segment in sorted(lines[line], key=lambda one: one.span()):
            if run and segment.span()[0] <= max(one.span()[1] for one in run):
                run.append(segment)
            else:
                pieces += [piece_of(line, run, source)] if run else []
                run = [segment]
        pieces.append(piece_of(line, run, source))
    return pieces


def piece_of(line, run, source):
    """The piece of segments that meet on a line. A rail stays a rail where shorter metal of another shape lies on it, which is told."""
    layer, is_level, centre, width = line
    start, end = min(one.span()[0] for one in run), max(one.span()[1] for one in run)
    longest = max(run, key=lambda one: one.span()[1] - one.span()[0])
    for one in run:
        if one.shape != longest.shape and source:
            source.changes.tell("changed", source.path, one.line, one.shape, f"metal on a longer wire of SHAPE {longest.shape}, to which it is joined")
    ends = (start, centre, end, centre) if is_level else (centre, start, centre, end)
    return Piece(layer, width, longest.shape, *ends, longest.line)


def holds(outer, inner):
    """Whether a rectangle holds another."""
    return outer[0] <= inner[0] and outer[1] <= inner[1] and inner[2] <= outer[2] and inner[3] <= outer[3]


def meet(first, second):
    """Whether two closed rectangles have a point in common."""
    return first[0] <= second[2] and second[0] <= first[2] and first[1] <= second[3] and second[1] <= first[3]


def neighbours(pieces):
    """Pairs of pieces of one layer that meet, each once."""
    layers = defaultdict(list)
    for piece in pieces:
        layers[piece.layer].append(piece)
    for held in layers.values():
        active = []
        for piece in sorted(held, key=lambda one: one.box()):
            active = [other for other in active if other.box()[2] >= piece.box()[0]]
            yield from ((other, piece) for other in active if meet(other.box(), piece.box()))
            active.append(piece)


def without_inner(net, pieces, source):
    """The pieces without those whose metal lies within another one, on which no via ends by itself."""
    gone = set()
    for first, second in neighbours(pieces):
        for inner, outer in ((first, second), (second, first)):
            if holds(outer.box(), inner.box()) and outer not in gone and inner not in gone and not alone(net, inner, outer):
                gone.add(inner)
                source.changes.tell("left out", source.path, inner.line, inner.layer, f"metal of {net.name} that lies within another wire of its layer")
    return [piece for piece in pieces if piece not in gone]


def on_line(via, piece):
    """Whether the place of a via lies on the centre line of a piece."""
    return piece.x1 <= via.x <= piece.x2 and piece.y1 <= via.y <= piece.y2


def alone(net, inner, outer):
    """Whether a via stands on the line of the inner piece and not on that of the outer one."""
    return any(on_line(via, inner) and not on_line(via, outer) for via in net.vias)


def refuse_touching(net, source):
    """Wires of one net and layer that meet on two lines have no joint in `pdn`."""
    for first, second in neighbours(net.segments):
        other, later = sorted((first, second), key=lambda piece: piece.line)
        raise Refused(source.path, later.line, f"{later.layer}: a wire of {net.name} touches the one of line {other.line} on "
                      "another centre line or with another width, and this joint is not converted; join the two by one segment, or by vias")


def refuse_vias_off(net, vias, source):
    """A stack of vias has to begin and end on the centre line of a wire."""
    lines, ends = defaultdict(list), defaultdict(set)
    for piece in net.segments:
        lines[centre_line(piece)[:3]].append(piece)
    for via in net.vias:
        ends[via.x, via.y] ^= {vias.made[via.name].lower, vias.made[via.name].upper}
    for via in net.vias:
        for layer in (vias.made[via.name].lower, vias.made[via.name].upper):
            near = [*lines[layer, True, via.y], *lines[layer, False, via.x]]
            if layer in ends[via.x, via.y] and not any(on_line(via, piece) for piece in near):
                raise Refused(source.path, via.line, f"{via.name}: at {via.x} {via.y} no wire of {net.name} on {layer} has the place of this via on its centre "
                                                     "line, and the joint is not converted; move the via, or put a segment through the place")


def add_rails(net, vias, design, library):
    """Rails from the pins of abutting cells, where the wiring has none; wires that lie on them become rails."""
    if any(segment.shape == "FOLLOWPIN" for segment in net.segments):
        return
    source = design.source
    runs = joined(pin_segments(net, design, library))
    layers = {segment.layer for segment in net.segments} | {layer for via in net.vias for layer in (vias.made[via.name].lower, vias.made[via.name].upper)}
    runs = [run for run in runs if run.layer in layers]
    for place, segment in enumerate(net.segments):
        if any(centre_line(segment)[:3] == centre_line(run)[:3] and segment.width >= run.width and meet(segment.box(), run.box()) for run in runs):
            net.segments[place] = segment._replace(shape="FOLLOWPIN")
            source.changes.tell("changed", source.path, segment.line, segment.shape, f"a wire of {net.name} along the pins of cells is written as FOLLOWPIN")
    if runs:
        source.tell_of("guessed", net.word, net.name, f"{len(runs)} rails are made of the pins of abutting cells, since the wiring has none")
    net.segments += runs


def pin_segments(net, design, library):
    """A segment for each rectangle of a pin of the net's use that goes from side to side of a placed cell."""
    layers, held = {layer.name for layer in library.routing()}, {}
    for component in design.components.values():
        macro = library.macros.get(component.macro)
        if component.place is None or macro is None or macro.is_block() or component.place[2] not in ("N", "S", "FN", "FS"):
            continue
        if macro.name not in held:
            held[macro.name] = [rail[1:] for rail in macro.rails(layers) if rail[0] == net.use]
        for rail in held[macro.name]:
            yield from pin_segment(design, component, [length * design.units for length in macro.size], rail)


def pin_segment(design, component, size, rail):
    """The segment of a rail of a placed cell, if its edges are whole units with a centre line."""
    x, y, orientation = component.place
    low, high, left, right = (length * design.units for length in rail[1:])
    if orientation in ("S", "FS"):
        low, high = size[1] - high, size[1] - low
    if orientation in ("S", "FN"):
        left, right = size[0] - right, size[0] - left
    centre, width = (low + high) / 2, high - low
    if all(length.denominator == 1 for length in (centre, width / 2, left, right)):
        y += int(centre)
        yield Piece(rail[0], int(width), "FOLLOWPIN", x + int(left), y, x + int(right), y, design.source.line(component.word))
    else:
        design.source.tell_of("left out", component.word, component.macro, f"no rail on {rail[0]} is made of a pin that is off the design's units, or has no centre line")


def segment_text(segment):
    return f"{segment.layer} {segment.width} + SHAPE {segment.shape} ( {segment.x1} {segment.y1} ) ( {segment.x2} {segment.y2} )"


def net_text(net, vias):
    """A net with its wiring."""
    lines = [segment_text(segment) for segment in net.segments]
    lines += [f"{vias.made[via.name].lower} 0 + SHAPE STRIPE ( {via.x} {via.y} ) {via.name}" for via in net.vias]
    return f"- {net.name} ( * {net.name} ) + USE {net.use}\n  + ROUTED " + "\n  NEW ".join(lines) + " ;\n"


def wires_text(design, nets, vias):
    """OUT/wires.def."""
    used = {via.name for net in nets for via in net.vias}
    for name, words in vias.entries.items():
        if name not in used:
            design.source.tell_of("left out", words[1], "VIAS", "a via that no wire of the grid uses")
    entries = [vias.made[name].text for name in sorted(used)]
    return "".join([head_text(design), f"VIAS {len(entries)} ;\n", *entries, "END VIAS\n", f"SPECIALNETS {len(nets)} ;\n",
                    *(net_text(net, vias) for net in nets), "END SPECIALNETS\nEND DESIGN\n"])


def straps_of(nets, design):
    """The wires as straps, for pads: how far a pad may be moved is the distance of two neighbours, or the die where there is one alone."""
    found = []
    for net in nets:
        centres = defaultdict(set)
        for segment in net.segments:
            centres[centre_line(segment)[:2]].add(centre_line(segment)[2])
        for segment in net.segments:
            places = sorted(centres[centre_line(segment)[:2]])
            pitch = min((later - earlier for earlier, later in zip(places, places[1:])), default=max(design.die[2] - design.die[0], design.die[3] - design.die[1]))
            found.append(Strap(net.name, segment.layer, not segment.is_horizontal, centre_line(segment)[2], segment.box(), pitch))
    return found
