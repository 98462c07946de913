"""The technology in the words that `pdn` reads: layers and via rules, with what the caller gives and what fixed vias tell."""
from collections import defaultdict
from fractions import Fraction

from ..refusal import Refused
from .quantities import ceiling, decimal, has_places

HEAD = "VERSION 5.8 ;\n"
# places of lengths, resistances and densities in what pdn reads
LENGTH, OHMS, DENSITY = 6, 9, 12


class Given:
    """What the caller says of layers: resistances, densities, and the layers whose densities are in mA for each cut."""

    def __init__(self, resistances, densities, per_cut):
        self.resistances, self.densities, self.per_cut = resistances, densities, per_cut

    def check(self, library):
        """Refuses a name that is no layer."""
        for name in [*self.resistances, *self.densities, *(self.per_cut - {"all"})]:
            if name not in library.layers:
                raise Refused("the caller", None, f"{name}: no LEF has a layer of this name; mend the option")


def check_layers(library):
    """Refuses a routing layer that pdn cannot take."""
    for layer in library.layers.values():
        if layer.kind is None:
            layer.source.refuse(layer.word, "the layer has no TYPE; state it")
        if layer.kind == "ROUTING" and layer.direction not in ("HORIZONTAL", "VERTICAL"):
            layer.source.refuse(layer.word, "a routing layer needs DIRECTION HORIZONTAL or VERTICAL; state it")


def use_overhangs(library):
    """OVERHANG of old rules as an ENCLOSURE on all sides, which asks for at least as much metal as either reading of it."""
    for rule in library.rules.values():
        for part in rule.parts:
            if part.overhang and part.enclosure is None:
                value, word = part.overhang
                part.enclosure = [value, value]
                rule.source.tell("changed", word, f"taken as ENCLOSURE {decimal(value, LENGTH)} {decimal(value, LENGTH)}, on all sides")


def cut_part(library, rule):
    """The part of a rule for its cut layer, where it has two routing layers and one cut layer; else None."""
    kinds = [library.layers[part.layer].kind if part.layer in library.layers else None for part in rule.parts]
    return rule.parts[kinds.index("CUT")] if sorted(map(str, kinds)) == ["CUT", "ROUTING", "ROUTING"] else None


def usable(library):
    """The rules that pdn takes, those with WIDTH first, since the first whose ranges hold is taken."""
    rules = []
    for rule in library.rules.values():
        cut = cut_part(library, rule)
        lacks = cut is None or cut.box is None or cut.spacing is None or any(part.enclosure is None for part in rule.parts if part is not cut)
        if lacks:
            rule.source.tell("left out", rule.word, "a rule without two routing layers with ENCLOSURE and a cut layer with RECT and SPACING")
        else:
            rules.append(rule)
    ordered = sorted(rules, key=lambda rule: not rule.has_width())
    for rule in rules:
        if rule.has_width() and rules.index(rule) > ordered.index(rule):
            rule.source.tell("changed", rule.word, "a rule with WIDTH, put before those without, since the first that fits is taken")
    return ordered


def pair_of(library, layers):
    """The lower and the upper routing layer and the cut layer between of three names, or None."""
    known = [library.layers[name] for name in layers if name in library.layers]
    order = list(library.layers)
    metals = sorted((layer.name for layer in known if layer.kind == "ROUTING"), key=order.index)
    cuts = [layer.name for layer in known if layer.kind == "CUT"]
    return (metals[0], cuts[0], metals[1]) if len(metals) == 2 and len(cuts) == 1 and len(layers) == 3 else None


def made_rules(library, rules):
    """A rule for each pair of layers that fixed vias alone join: the cut and the enclosures of the first via with one cut."""
    joined = {pair_of(library, [part.layer for part in rule.parts]) for rule in rules}
    for via in sorted(library.vias.values(), key=lambda via: not via.is_default):
        pair = pair_of(library, list(via.boxes))
        if pair is None or pair in joined or any(len(boxes) != 1 for boxes in via.boxes.values()):
            continue
        joined.add(pair)
        yield via, pair


def made_rule_text(library, via, pair):
    """The rule that is made of a via: cuts stand as near as the cut layer's SPACING allows."""
    lower, cut, upper = (via.boxes[name][0] for name in pair)
    spacing = library.layers[pair[1]].spacing or library.layers[pair[1]].table_spacing
    if spacing is None:
        via.source.tell("missing", via.word, f"no rule joins {pair[0]} and {pair[2]}, and none is made of this via, since {pair[1]} has no SPACING")
        return ""
    enclosures = [least_enclosure(metal, cut) for metal in (lower, upper)]
    if min(min(pair) for pair in enclosures) < 0:
        via.source.tell("missing", via.word, f"no rule joins {pair[0]} and {pair[2]}, and none is made of this via, whose cut is not inside its metal")
        return ""
    via.source.tell("changed", via.word, f"no rule joins {pair[0]} and {pair[2]}: one is made of the rectangles of this fixed via")
    width, height = cut[2] - cut[0], cut[3] - cut[1]
    half = [decimal(length / 2, LENGTH) for length in (width, height)]
    lines = [f"VIARULE pdn_{via.name} GENERATE"]
    for name, enclosure in ((pair[0], enclosures[0]), (pair[2], enclosures[1])):
        lines += [f"  LAYER {name} ;", f"    ENCLOSURE {decimal(enclosure[0], LENGTH)} {decimal(enclosure[1], LENGTH)} ;"]
    lines += [f"  LAYER {pair[1]} ;", f"    RECT -{half[0]} -{half[1]} {half[0]} {half[1]} ;",
              f"    SPACING {decimal(width + spacing, LENGTH)} BY {decimal(height + spacing, LENGTH)} ;", f"END pdn_{via.name}"]
    return "\n".join(lines) + "\n"


def least_enclosure(metal, cut):
    """How far the metal reaches beyond the cut in x and in y, on the side where it is less."""
    return min(cut[0] - metal[0], metal[2] - cut[2]), min(cut[1] - metal[1], metal[3] - cut[3])


def cut_areas(library, rules, vias):
    """The greatest area of a cut of each cut layer, by rules, else by its WIDTH."""
    areas = defaultdict(Fraction)
    for rule in rules:
        part = cut_part(library, rule)
        areas[part.layer] = max(areas[part.layer], (part.box[2] - part.box[0]) * (part.box[3] - part.box[1]))
    for via, (_, cut, _) in vias:
        box = via.boxes[cut][0]
        areas[cut] = max(areas[cut], (box[2] - box[0]) * (box[3] - box[1]))
    for layer in library.layers.values():
        if layer.name not in areas and layer.width:
            areas[layer.name] = layer.width ** 2
    return areas


def resistance_text(library, layer, given, rules):
    """The RESISTANCE of a layer: its own, the caller's, or that of a fixed via with one cut."""
    value = layer.resistance
    if layer.name in given.resistances:
        ohms, path, line, word = given.resistances[layer.name]
        if value is None:
            value = ohms
            layer.source.changes.tell("changed", path, line, word, f"{layer.name} has no resistance of its own, and takes {decimal(ohms, OHMS)} ohms")
        else:
            layer.source.changes.tell("passed over", path, line, word, f"{layer.name} has a resistance in {layer.source.path}, which counts")
    if value is None and layer.kind == "CUT":
        value = resistance_of_vias(library, layer)
    if value is None and not (layer.kind == "CUT" and has_own_resistance(library, layer, rules)):
        option = "--via-resistance" if layer.kind == "CUT" else "--sheet-resistance"
        layer.source.tell("missing", layer.word, f"the layer has no resistance; give {option} {layer.name}=OHMS")
    if value is None:
        return []
    if not has_places(value, OHMS):
        value = Fraction(ceiling(value * 10**OHMS), 10**OHMS)
        layer.source.tell("changed", layer.word, f"its resistance is rounded up to {decimal(value, OHMS)} ohms, with {OHMS} places")
    return [f"  RESISTANCE {'RPERSQ ' if layer.kind == 'ROUTING' else ''}{decimal(value, OHMS)} ;"]


def has_own_resistance(library, layer, rules):
    """Whether each rule of the cut layer states a resistance."""
    parts = [cut_part(library, rule) for rule in rules]
    return bool([part for part in parts if part.layer == layer.name]) and all(part.resistance for part in parts if part.layer == layer.name)


def resistance_of_vias(library, layer):
    """The resistance of the first fixed via that has one cut of the layer and states one."""
    for via in library.vias.values():
        if via.resistance is not None and len(via.boxes.get(layer.name, ())) == 1:
            via.source.tell("changed", via.word, f"its resistance is moved to its cut layer {layer.name}")
            return via.resistance
    return None


def density_text(layer, given, areas):
    """The DCCURRENTDENSITY of a layer: the caller's, or its own, in mA for each square micrometre of a cut."""
    tell = layer.source.changes.tell
    if layer.name in given.densities:
        value, path, line, word = given.densities[layer.name]
        tell("changed", path, line, word, f"{layer.name} has the limit {decimal(value, DENSITY)} of the caller")
        return [f"  DCCURRENTDENSITY AVERAGE {decimal(value, DENSITY)} ;"]
    if layer.density:
        value, word = layer.density
        if layer.kind == "CUT" and (layer.name in given.per_cut or "all" in given.per_cut):
            value = per_area(layer, value, word, areas)
        return [f"  DCCURRENTDENSITY AVERAGE {decimal(value, DENSITY)} ;"]
    if layer.table:
        head, points, values = layer.table
        return [f"  DCCURRENTDENSITY AVERAGE {head} {' '.join(decimal(point, 12) for point in points)} ;",
                f"    TABLEENTRIES {' '.join(decimal(value, DENSITY) for value in values)} ;"]
    but = f", though it has {layer.other_limit}" if layer.other_limit else ""
    layer.source.tell("missing", layer.word, f"the layer has no DCCURRENTDENSITY AVERAGE{but}, so its currents have no limit; "
                                             f"give --current-density {layer.name}=MILLIAMPERES")
    return []


def per_area(layer, value, word, areas):
    """A limit for each cut as a density: divided by the cut's area, cut after 12 places, which makes it no greater."""
    area = areas.get(layer.name)
    if not area:
        layer.source.refuse(word, "the area of a cut is not known: no rule and no WIDTH of the layer tells it")
    layer.source.tell("changed", word, f"of {layer.name}: {decimal(value, DENSITY)} mA for each cut, divided by its area {decimal(area, 12)}")
    return value / area


def layer_text(library, layer, given, rules, areas):
    """A layer, in the order of pdn's own technologies."""
    lines = [f"LAYER {layer.name}", f"  TYPE {layer.kind} ;"]
    if layer.kind == "ROUTING":
        lines.append(f"  DIRECTION {layer.direction} ;")
        spacing = spacing_of(layer)
        if spacing is not None:
            lines.append(f"  SPACING {decimal(spacing, LENGTH)} ;")
    lines += resistance_text(library, layer, given, rules)
    lines += density_text(layer, given, areas)
    return "\n".join([*lines, f"END {layer.name}"]) + "\n"


def spacing_of(layer):
    """The spacing that metal keeps: its own, or the greatest of its table, which is no less than any that the table asks."""
    if layer.table_spacing is not None and (layer.spacing is None or layer.table_spacing > layer.spacing):
        own = "" if layer.spacing is None else f", in place of {decimal(layer.spacing, LENGTH)}"
        layer.source.tell("changed", layer.word, f"SPACING is the greatest of its SPACINGTABLE, {decimal(layer.table_spacing, LENGTH)}{own}")
        return layer.table_spacing
    if layer.table_spacing is not None:
        layer.source.tell("passed over", layer.word, f"its SPACINGTABLE has no more than its SPACING, {decimal(layer.spacing, LENGTH)}")
    if layer.spacing is None:
        layer.source.tell("missing", layer.word, "the layer has no SPACING, so that metal keeps no distance from blockages")
    return layer.spacing


def outward(value, units):
    """A length in whole units of the design, rounded up."""
    return Fraction(ceiling(value * units), units)


def rule_text(library, rule, units):
    """A rule. Enclosures and spacings off the design's units are rounded up to them; a cut that is off them is refused."""
    lines = [f"VIARULE {rule.name} GENERATE" + (" DEFAULT" if rule.is_default else "")]
    for part in rule.parts:
        lines.append(f"  LAYER {part.layer} ;")
        if library.layers[part.layer].kind == "CUT":
            lines += cut_lines(rule, part, units)
            continue
        lines.append(f"    ENCLOSURE {' '.join(on_grid(rule, length, units) for length in part.enclosure)} ;")
        if part.width:
            lines.append(f"    WIDTH {decimal(part.width[0], LENGTH)} TO {decimal(part.width[1], LENGTH)} ;")
    return "\n".join([*lines, f"END {rule.name}"]) + "\n"


def cut_lines(rule, part, units):
    """The part of a rule for its cuts."""
    x1, y1, x2, y2 = part.box
    if any((length * units).denominator != 1 for length in (x2 - x1, y2 - y1)):
        rule.source.refuse(rule.word, f"its cut is no whole number of the design's {units} units to a micrometre; write the DEF with more units")
    lines = [f"    RECT {' '.join(decimal(length, LENGTH) for length in part.box)} ;",
             f"    SPACING {' BY '.join(on_grid(rule, length, units) for length in part.spacing)} ;"]
    if part.resistance is not None:
        lines.append(f"    RESISTANCE {decimal(part.resistance, OHMS)} ;")
    return lines


def on_grid(rule, length, units):
    """A length of a rule on the design's units."""
    rounded = outward(length, units)
    if rounded != length:
        rule.source.tell("changed", rule.word, f"its length {decimal(length, LENGTH)} is rounded up to {decimal(rounded, LENGTH)}, "
                                               f"on the {units} units to a micrometre")
    return decimal(rounded, LENGTH)


def use_rules(library):
    """The rules that pdn takes, after old words are read."""
    check_layers(library)
    use_overhangs(library)
    return usable(library)


def technology_text(library, rules, given, units, models=()):
    """OUT/technology.lef. Model rules stand before the others, since the first that fits is taken."""
    vias = list(made_rules(library, rules))
    areas = cut_areas(library, rules, vias)
    parts = [HEAD]
    if library.units:
        parts.append(f"UNITS\n  DATABASE MICRONS {library.units} ;\nEND UNITS\n")
    for layer in library.layers.values():
        if layer.kind in ("ROUTING", "CUT"):
            parts.append(layer_text(library, layer, given, rules, areas))
        else:
            layer.source.tell("passed over", layer.word, f"a layer of TYPE {layer.kind}")
    parts += models
    parts += [rule_text(library, rule, units) for rule in rules]
    parts += [made_rule_text(library, via, pair) for via, pair in vias]
    return "".join(parts) + "END LIBRARY\n"
