"""Shapes of LEF as rectangles: polygons are cut, repeated ones written out, and all are moved by their macro's origin."""
from .quantities import number

# the most copies of a shape or a via that are written out
COPIES = 1_000_000


def points_of(source, first, words):
    """The numbers of a shape in twos."""
    values = [number(word) for word in words]
    if None in values or len(values) % 2 or not values:
        source.refuse(first, "its numbers are not points; mend the shape")
    source.lengths(first, values)
    return list(zip(values[::2], values[1::2]))


def rectangles(source, statement, width):
    """The rectangles of a statement RECT, POLYGON or PATH of a pin or an obstruction."""
    first, rest = statement[0], [word for word in statement[1:] if word not in "()"]
    kind = first.upper()
    rest, iterated = without_mask(source, rest)
    steps = [(0, 0)]
    if iterated:
        rest, steps = steps_of(source, first, rest)
        source.tell("changed", first, "a shape that is repeated (ITERATE), written out")
    points = points_of(source, first, rest)
    if kind == "RECT":
        boxes = [box_of(source, first, points)]
    elif kind == "POLYGON":
        boxes = [box_of(source, first, points)] if len(points) == 2 else cut(source, first, points)
        source.tell("changed", first, "cut into rectangles")
    else:
        boxes = path_boxes(source, first, points, width)
        source.lengths(first, [length for box in boxes for length in box])
        source.tell("changed", first, "a path, written as rectangles")
    return [(x1 + x, y1 + y, x2 + x, y2 + y) for x, y in steps for x1, y1, x2, y2 in boxes]


def without_mask(source, words):
    """The words without `MASK n` and `ITERATE`, and whether the latter stood there."""
    if words[:1] and words[0].upper() == "MASK":
        source.tell("left out", words[0], "the mask of a shape has no effect on the grid")
        words = words[2:]
    iterated = bool(words) and words[0].upper() == "ITERATE"
    return (words[1:] if iterated else words), iterated


def steps_of(source, first, words):
    """The points of a repeated shape, and where its copies stand: DO columns BY rows STEP x y."""
    upper = [word.upper() for word in words]
    if "DO" not in upper or upper[upper.index("DO") + 2:-2:2] != ["BY", "STEP"]:
        source.refuse(first, "a repeated shape needs DO columns BY rows STEP x y")
    begin = upper.index("DO")
    columns, rows, across, up = (number(words[begin + at]) for at in (1, 3, 5, 6))
    if None in (columns, rows, across, up) or columns.denominator * rows.denominator != 1 or min(columns, rows) < 1:
        source.refuse(first, "a repeated shape needs DO columns BY rows STEP x y")
    if columns * rows > COPIES:
        source.refuse(first, f"more than {COPIES} copies of a shape")
    source.lengths(first, [across, up])
    return words[:begin], [(column * across, row * up) for column in range(int(columns)) for row in range(int(rows))]


def box_of(source, first, points):
    """The rectangle between two corners, which may come in any order."""
    if len(points) != 2:
        source.refuse(first, "a rectangle has two corners; mend the shape")
    (x1, y1), (x2, y2) = points
    return min(x1, x2), min(y1, y2), max(x1, x2), max(y1, y2)


def path_boxes(source, first, points, width):
    """The rectangles of a path, which goes half a width beyond its ends."""
    if width is None:
        source.refuse(first, "a path without WIDTH; state it before the path")
    half, boxes = width / 2, []
    for start, end in zip(points, points[1:] or points):
        if start[0] != end[0] and start[1] != end[1]:
            source.refuse(first, "a slanted path; write it as rectangles")
        x1, y1, x2, y2 = box_of(source, first, [start, end])
        boxes.append((x1 - half, y1 - half, x2 + half, y2 + half))
    return boxes


def cut(source, first, points):
    """The rectangles of a polygon whose sides go along x and y: strips between the heights at which it has a corner, as wide as they are."""
    sides = list(zip(points, points[1:] + points[:1]))
    if any(start[0] != end[0] and start[1] != end[1] for start, end in sides):
        source.refuse(first, "a polygon with a slanted side; write it as rectangles")
    upright = [(start[0], *sorted((start[1], end[1]))) for start, end in sides if start[0] == end[0]]
    heights, strips = sorted({y for _, y in points}), {}
    boxes = []
    for low, high in zip(heights, heights[1:]):
        crossed = sorted(x for x, bottom, top in upright if bottom <= low and high <= top)
        spans = list(zip(crossed[::2], crossed[1::2]))
        for span in [span for span in strips if span not in spans]:
            boxes.append((span[0], strips.pop(span), span[1], low))
        for span in spans:
            strips.setdefault(span, low)
    boxes += [(start, low, end, heights[-1]) for (start, end), low in strips.items()]
    return sorted(boxes, key=lambda box: (box[1], box[0]))


def moved(box, origin):
    """A rectangle from its macro's corner."""
    return box[0] + origin[0], box[1] + origin[1], box[2] + origin[0], box[3] + origin[1]
