"""Rectangles of metal: what a written DEF says of them, and whether two lists of them are one."""
from collections import Counter, defaultdict


def pieces_of(wiring):
    """The rectangles of the pieces, each with its layer, as often as they stand there."""
    return Counter((piece.layer, *piece.box()) for net in wiring.nets for piece in net.pieces)


def strips(boxes):
    """The area of rectangles, cut at each height where it changes into strips that are as wide as they can be, and joined again
    where strips of one width lie on each other: one area has one such list."""
    heights = sorted({height for box in boxes for height in (box[1], box[3])})
    begins, ends = defaultdict(list), defaultdict(list)
    for box in boxes:
        begins[box[1]].append(box)
        ends[box[3]].append(box)
    active, open_strips, found = set(), {}, set()
    for height in heights:
        active.difference_update(ends[height])
        active.update(begins[height])
        spans = joined([(box[0], box[2]) for box in active])
        for span in [span for span in open_strips if span not in spans]:
            found.add((span[0], open_strips.pop(span), span[1], height))
        for span in spans:
            open_strips.setdefault(span, height)
    return found


def joined(spans):
    """Spans along a line, those that meet joined."""
    whole = []
    for start, end in sorted(spans):
        if whole and start <= whole[-1][1]:
            whole[-1] = (whole[-1][0], max(whole[-1][1], end))
        else:
            whole.append((start, end))
    return set(whole)


def by_layer(rectangles):
    """The rectangles of each layer, without it."""
    layers = defaultdict(set)
    for layer, *box in rectangles:
        layers[layer].add(tuple(box))
    return layers


def strips_of_layers(rectangles, layers):
    """The strips of some layers, each with its layer."""
    held = by_layer(rectangles)
    return Counter((layer, *strip) for layer in layers for strip in strips(held[layer]))


def differences(tool, got, wanted):
    """What a tool read and was not written, and the other way around, a line for each."""
    lines = [f"{tool} lacks {layer} {box}" for layer, *box in sorted((wanted - got).elements())]
    return lines + [f"{tool} has besides {layer} {box}" for layer, *box in sorted((got - wanted).elements())]


def report_on(tool, got, wanted, path, how=""):
    """Says whether the metal is the same, with at most ten of the differences, and the status that follows."""
    found = differences(tool, got, wanted)
    if not found:
        print(f"{tool}: {sum(wanted.values())} rectangles of metal, as {path} has them{how}")
        return 0
    for line in found[:10]:
        print(line)
    print(f"{tool}: {len(found)} rectangles differ from {path}{how}")
    return 1
