"""Cuts that do not fit the crossing of a rail and a strap: model cuts with the same number and the same ohms, where the caller asks for them.

A kit whose vias have metal wider than the rail draws patches, which `pdn` does not. A model rule holds for the widths of that one crossing. Its
name says that what it draws is not for manufacture, and stands in the written DEF with each of its vias.
"""
from fractions import Fraction
from typing import NamedTuple

from .quantities import decimal, floor, number
from .technology_text import LENGTH, OHMS, cut_part, pair_of

MARK = "not_for_manufacture"


class Crossing(NamedTuple):
    """A crossing of two layers: its size in x and y, in micrometres, and the connect that asks for vias there."""
    lower: str
    upper: str
    size: tuple
    connect: object


def model_rules(script, library, rules, units, is_asked, changes):
    """The texts of the model rules. Where they are not asked for, what does not fit is told."""
    texts, seen = [], set()
    for crossing in crossings(script, library):
        for lower, upper in neighbours(library, crossing):
            rule = fitting_rule(library, rules, lower, upper, crossing)
            key = (lower, upper, crossing.size)
            if rule is None or key in seen or all(fits(library, rule, crossing, axis) for axis in (0, 1)):
                continue
            seen.add(key)
            told = f"no cut of rule {rule.name} fits the crossing of {' by '.join(decimal(length, LENGTH) for length in crossing.size)}"
            place = crossing.connect.path, crossing.connect.line, "add_pdn_connect"
            if is_asked:
                name = f"{MARK}_{len(seen)}_{rule.name}"
                texts.append(model_text(library, rule, crossing, name, units))
                changes.tell("changed", *place, f"{told}: {name} has smaller cuts with the same ohms, and limits by their smaller area")
            else:
                changes.tell("missing", *place, f"{told}; widen rail or strap, or give --model-cuts for a model that is not for manufacture")
    return texts


def crossings(script, library):
    """The crossings of each connect: of all widths on its two layers."""
    order, widths = list(library.layers), widths_of(script)
    for connect in script.of("add_pdn_connect"):
        layers = [name for name in connect.get("-layers", ()) if name in library.layers]
        if len(layers) != 2 or library.layers[layers[0]].direction == library.layers[layers[1]].direction:
            continue
        lower, upper = sorted(layers, key=order.index)
        for first in sorted(widths.get(lower, ())):
            for second in sorted(widths.get(upper, ())):
                size = (second, first) if library.layers[lower].direction == "HORIZONTAL" else (first, second)
                yield Crossing(lower, upper, size, connect)


def widths_of(script):
    """The widths of the straps, rails and rings on each layer."""
    found = {}
    for command in script.commands:
        if command.name == "add_pdn_stripe":
            found.setdefault(command.get("-layer"), set()).add(number(command.get("-width")))
        elif command.name == "add_pdn_ring":
            for layer, width in zip(command.get("-layers"), command.get("-widths") * 2):
                found.setdefault(layer, set()).add(number(width))
    return found


def neighbours(library, crossing):
    """The pairs of neighbouring routing layers from the lower to the upper one."""
    names = [layer.name for layer in library.routing()]
    chain = names[names.index(crossing.lower):names.index(crossing.upper) + 1]
    return list(zip(chain, chain[1:]))


def width_at(library, layer, crossing):
    """The width of a layer at a crossing: the extent across its direction."""
    return crossing.size[1] if library.layers[layer].direction == "HORIZONTAL" else crossing.size[0]


def fitting_rule(library, rules, lower, upper, crossing):
    """The first rule of two layers whose ranges hold."""
    for rule in rules:
        pair = pair_of(library, [part.layer for part in rule.parts])
        metals = [part for part in rule.parts if part.layer in (lower, upper)]
        if pair and (pair[0], pair[2]) == (lower, upper) and all(
                part.width is None or min(part.width) <= width_at(library, part.layer, crossing) <= max(part.width) for part in metals):
            return rule
    return None


def measures(library, rule, axis):
    """The cut, the pitch and the greater enclosure of a rule in x or in y. An enclosure has its larger number along the layer."""
    cut = cut_part(library, rule)
    enclosures = []
    for part in rule.parts:
        if part is not cut:
            is_along = (library.layers[part.layer].direction == "HORIZONTAL") == (axis == 0)
            enclosures.append(max(part.enclosure) if is_along else min(part.enclosure))
    return cut.box[axis + 2] - cut.box[axis], cut.spacing[axis], max(enclosures)


def fits(library, rule, crossing, axis):
    """Whether a cut with its enclosures fits in x or in y."""
    cut, _, enclosure = measures(library, rule, axis)
    return cut + 2 * enclosure <= crossing.size[axis]


def model_measures(library, rule, crossing, axis, units):
    """The cut and the pitch of the model: as many cuts as the rule has where it fits, else one, which is no longer than the crossing."""
    cut, pitch, enclosure = measures(library, rule, axis)
    room = crossing.size[axis]
    count = int((room - cut - 2 * enclosure) // pitch) + 1 if fits(library, rule, crossing, axis) else 1
    cut = min(cut, room)
    for step in (pitch, Fraction(floor((room - cut) * units / count) + 1, units)):
        if step >= cut and (room - cut) // step + 1 == count:
            return cut, step
    rule.source.refuse(rule.word, f"no model of {count} cuts fits {decimal(room, LENGTH)} micrometres; leave --model-cuts out, and widen rail or strap")


def model_text(library, rule, crossing, name, units):
    """A rule without enclosures for the widths of one crossing."""
    (width, across), (height, up) = (model_measures(library, rule, crossing, axis, units) for axis in (0, 1))
    lines, cut = [f"VIARULE {name} GENERATE"], cut_part(library, rule)
    for part in rule.parts:
        lines.append(f"  LAYER {part.layer} ;")
        if part is not cut:
            held = decimal(width_at(library, part.layer, crossing), LENGTH)
            lines += ["    ENCLOSURE 0 0 ;", f"    WIDTH {held} TO {held} ;"]
            continue
        half = [decimal(length / 2, LENGTH) for length in (width, height)]
        lines += [f"    RECT -{half[0]} -{half[1]} {half[0]} {half[1]} ;", f"    SPACING {decimal(across, LENGTH)} BY {decimal(up, LENGTH)} ;"]
        if part.resistance is not None:
            lines.append(f"    RESISTANCE {decimal(part.resistance, OHMS)} ;")
    return "\n".join([*lines, f"END {name}"]) + "\n"
