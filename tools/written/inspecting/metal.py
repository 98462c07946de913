"""Straps that leave the die, come too near to each other, or are off the manufacturing grid."""
from fractions import Fraction

from ..preparing.quantities import decimal, number
from .texts import Finding


def microns(texts, length):
    return decimal(Fraction(length, texts.design.units), 6)


def beyond(box, die):
    """How far a rectangle goes beyond another, in x and in y."""
    return max(die[0] - box[0], box[2] - die[2], 0), max(die[1] - box[1], box[3] - die[3], 0)


def outside_die(texts):
    """Rings and stripes outside the die. The end of a strap may reach the outer edge of a rail that lies on the edge of the die."""
    for command, straps in texts.straps:
        if command.get("-followpins"):
            continue
        far = [max(out) for strap in straps for out in [beyond_die(texts, command, strap)] if max(out) > 0]
        if far:
            what = "sides of the ring go" if command.name == "add_pdn_ring" else "straps go"
            yield Finding(command.path, command.line, command.name, f"{len(far)} {what} beyond the die, by up to {microns(texts, max(far))} micrometres; "
                          "make the die larger, or the offset, the width or the number of straps smaller")


def beyond_die(texts, command, strap):
    """How far a strap goes beyond the die; along its line what lies on half a rail does not count."""
    out = list(beyond(strap.box, texts.design.die))
    if command.name == "add_pdn_stripe":
        rails = [texts.drawing.units(rail.get("-width")) for rail in texts.script.of("add_pdn_stripe") if rail.get("-followpins")]
        along = 1 if strap.is_upright else 0
        out[along] = 0 if 2 * out[along] <= max(rails, default=0) else out[along]
    return out


def gap(first, second):
    """How far two rectangles are apart, in the greater of x and y; not above 0 where they touch."""
    return max(second[0] - first[2], first[0] - second[2], second[1] - first[3], first[1] - second[3])


def near_pairs(straps, spacing):
    """The pairs of straps that do not touch and are nearer to each other than a spacing. They are met across their lines, along which they are long."""
    axis = 0 if straps[0][1].is_upright else 1
    open_ones = []
    for one in sorted(straps, key=lambda held: held[1].box[axis]):
        open_ones = [other for other in open_ones if other[1].box[axis + 2] + spacing > one[1].box[axis]]
        for other in open_ones:
            if 0 < gap(other[1].box, one[1].box) < spacing:
                yield other, one
        open_ones.append(one)


def too_near(texts):
    """Straps nearer to each other than the SPACING of their layer, told once for each two commands."""
    layers = {}
    for command, straps in texts.straps:
        for strap in straps:
            layers.setdefault(strap.layer, []).append((command, strap))
    for name, straps in layers.items():
        stated = texts.library.layers[name].spacing
        if stated is None:
            continue
        told = {}
        for first, second in near_pairs(straps, stated * texts.design.units):
            early, late = sorted((first[0], second[0]), key=lambda command: command.line)
            told.setdefault((late.line, early.line), (late, []))[1].append(gap(first[1].box, second[1].box))
        for (_, line), (command, gaps) in sorted(told.items(), key=lambda held: held[0]):
            other = "each other" if line == command.line else f"those of line {line}"
            yield Finding(command.path, command.line, name, f"{len(gaps)} times metal is nearer to {other} than the layer's SPACING {decimal(stated, 6)}, "
                          f"the nearest {microns(texts, min(gaps))} micrometres; move it, or make it one strap")


def off_grid(texts, stated):
    """Straps with an edge that is no multiple of the manufacturing grid."""
    if stated is None:
        return
    step = number(stated) * texts.design.units if number(stated) else 0
    if step <= 0 or step.denominator != 1:
        return
    for command, straps in texts.straps:
        off = [strap for strap in straps if any(edge % int(step) for edge in strap.box)]
        if off:
            yield Finding(command.path, command.line, off[0].layer, f"{len(off)} straps have an edge off the manufacturing grid of {stated} micrometres; "
                          "take an offset, a pitch and an even width on it")
