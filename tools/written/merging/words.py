"""Vias and nets of a grid: in the words of the standard, as `pdn build` wrote them, or in plain ones for readers that know fewer."""
from ..refusal import Refused


def via_text(via, grid, is_fixed):
    """An entry of VIAS: the generated via, or its rectangles of metal and cuts around its place."""
    if not is_fixed:
        width, height, across, up, columns, rows = via.cuts
        return (f"- {via.name} + VIARULE {via.rule} + CUTSIZE {width} {height} + LAYERS {via.lower} {via.cut} {via.upper} + CUTSPACING {across} {up} "
                f"+ ENCLOSURE {' '.join(map(str, via.enclosure))} + ROWCOL {rows} {columns} ;\n")
    shapes = [(via.lower, *metal_box(via, grid, 0)), (via.upper, *metal_box(via, grid, 2)), *((via.cut, *box) for box in cut_boxes(via, grid))]
    return f"- {via.name}" + "".join(f"\n  + RECT {layer} ( {x1} {y1} ) ( {x2} {y2} )" for layer, x1, y1, x2, y2 in shapes) + " ;\n"


def halves(via, grid):
    """Half of the span of the cuts, which has to be a whole number of units."""
    if via.span[0] % 2 or via.span[1] % 2:
        raise Refused(grid.path, None, f"{via.name}: its cuts span an odd number of units, so that it has no rectangles around its place; "
                                       "leave out --fixed-vias")
    return via.span[0] // 2, via.span[1] // 2


def metal_box(via, grid, side):
    """The metal of the lower (0) or the upper (2) layer."""
    (across, up), (x, y) = halves(via, grid), via.enclosure[side:side + 2]
    return -across - x, -up - y, across + x, up + y


def cut_boxes(via, grid):
    """The cuts."""
    (left, bottom), (width, height, across, up, columns, rows) = halves(via, grid), via.cuts
    for column in range(columns):
        for row in range(rows):
            x, y = column * (width + across) - left, row * (height + up) - bottom
            yield x, y, x + width, y + height


def net_text(net, connections, is_fixed):
    """An entry of SPECIALNETS: a net with its connections, its use and its wiring. In plain words the shape of a wire is left out."""
    lines = [f"- {net.name} {connections} + USE {net.use}\n"]
    wires = [(piece.line, f"{piece.layer} {piece.width}", piece.shape, f"( {piece.x1} {piece.y1} ) ( {piece.x2} {piece.y2} )") for piece in net.pieces]
    wires += [(array.line, f"{array.via.lower} 0", "STRIPE", f"( {array.x} {array.y} ) {array.via.name}") for array in net.arrays]
    for at, (_, wire, shape, points) in enumerate(sorted(wires)):
        said = wire if is_fixed else f"{wire} + SHAPE {shape}"
        lines.append(f"{'  NEW' if at else '  + ROUTED'} {said} {points}\n")
    return "".join([*lines, "  ;\n"])
