"""Which pieces of metal the connects of a grid join."""
from .drawing import overlaps

MOST_PIECES = 20000


def crosses(one, other):
    """Whether a piece crosses another of the other axis with the full width of both."""
    if one.axis == other.axis:
        return False
    upright, level = (one, other) if one.axis == "y" else (other, one)
    box, across = upright.box(), level.box()
    return level.start <= box[0] and box[2] <= level.end and upright.start <= across[1] and across[3] <= upright.end


def joins_of(case):
    """The pairs of layers that connects join."""
    return {frozenset(layers) for layers, _ in case.script.all_connects()} if case.command == "build" else None


def part_of(case, at):
    """The pieces that are joined to the one on which a place lies, that piece first; none where it is not found."""
    pieces = [piece for piece in case.pieces if piece.net == at.net]
    point = (at.x, at.y, at.x, at.y)
    there = [piece for piece in pieces if meets(piece.box(), point)]
    # a node inside a stack lies on no metal of its layer, and is joined to that at the ends of the stack
    held = [piece for piece in there if piece.layer == at.layer] or there
    pairs = joins_of(case)
    if pairs is None or len(pieces) > MOST_PIECES:
        return held
    part, others = list(held), [piece for piece in pieces if piece not in held]
    for piece in part:
        near = [other for other in others if frozenset((piece.layer, other.layer)) in pairs and crosses(piece, other)]
        part += near
        others = [other for other in others if other not in near]
    return part


def meets(one, other):
    """Whether two closed rectangles share a point."""
    return one[0] <= other[2] and other[0] <= one[2] and one[1] <= other[3] and other[1] <= one[3]


def crossing_at(pieces, layers, x, y):
    """The two pieces whose centre lines cross at a place, one on a layer up to the lower and one from the upper; None where there are none."""
    upright = [piece for piece in pieces if piece.axis == "y" and piece.centre == x and piece.start <= y <= piece.end]
    level = [piece for piece in pieces if piece.axis == "x" and piece.centre == y and piece.start <= x <= piece.end]
    for one in upright:
        for other in level:
            low, high = sorted((layers.index(one.layer), layers.index(other.layer)))
            if one.net == other.net and low < high:
                yield one, other, low, high


def touching(pieces, layer, box):
    """The pieces with this rectangle on a layer, or else those that overlap it."""
    held = [piece for piece in pieces if piece.layer == layer]
    return [piece for piece in held if piece.box() == box] or [piece for piece in held if overlaps(piece.box(), box)]


def crossing_with(pieces, box):
    """Two pieces of one net whose crossing is this rectangle, or None: the stack there joins them."""
    upright = [piece for piece in pieces if piece.axis == "y" and piece.box()[0::2] == box[0::2] and piece.start <= box[1] and box[3] <= piece.end]
    level = [piece for piece in pieces if piece.axis == "x" and piece.box()[1::2] == box[1::2] and piece.start <= box[0] and box[2] <= piece.end]
    return next(((one, other) for one in upright for other in level if one.net == other.net), None)
