"""What is drawn over blocks without anybody having asked for it."""
from .texts import Finding


def metal_through(texts, box):
    """How many straps and rails of the grids over the core go through a rectangle where no blockage covers them."""
    return sum(not is_covered(texts, strap.layer, common(strap.box, box)) for _, straps in texts.straps for strap in straps
               if meets(strap.box, box))


def meets(first, second):
    """Whether two rectangles share an area."""
    return first[0] < second[2] and second[0] < first[2] and first[1] < second[3] and second[1] < first[3]


def common(first, second):
    return max(first[0], second[0]), max(first[1], second[1]), min(first[2], second[2]), min(first[3], second[3])


def is_covered(texts, layer, box):
    """Whether blockages of the layer cover a rectangle: what is left of it when each of them is taken away is nothing."""
    left = [box]
    for words in texts.design.blockages:
        if [word.upper() for word in words[1:2]] == ["LAYER"] and words[2] == layer:
            for held in rectangles_of(words):
                left = [piece for whole in left for piece in without(whole, held)]
    return not left


def rectangles_of(words):
    """The rectangles of an entry of BLOCKAGES."""
    for at, word in enumerate(words):
        if word.upper() == "RECT":
            numbers = [int(held) for held in words[at + 1:at + 9] if held not in "()"]
            yield tuple(min(numbers[k::2]) for k in (0, 1)) + tuple(max(numbers[k::2]) for k in (0, 1))


def without(box, taken):
    """What is left of a rectangle: at most four."""
    if not meets(box, taken):
        return [box]
    x1, y1, x2, y2 = common(box, taken)
    parts = [(box[0], box[1], box[2], y1), (box[0], y2, box[2], box[3]), (box[0], y1, x1, y2), (x2, y1, box[2], y2)]
    return [part for part in parts if part[0] < part[2] and part[1] < part[3]]


def blocks_without_grid(texts):
    """Blocks over which the grid of the core goes on as if they were not there, since no block of the design has a grid over macros."""
    blocks = list(texts.blocks())
    if any(grid for _, _, grid in blocks):
        return
    stated = {line.words[0] for line in texts.bias if line.kind in ("cell", "instance")}
    for component, box, _ in blocks:
        count = metal_through(texts, box)
        if count:
            current = ", and its current is drawn from a rail" if stated & {component.name, component.macro} else ""
            yield Finding(texts.design.source.path, texts.line_of(component), component.name,
                          f"a block of {component.macro} under no grid over macros: {count} rails and straps go through it{current}; define a grid "
                          "with -macro for it, or block its layers")


def foreign_connects(texts):
    """Connects of one grid that join the pins of a block through the straps of the block's own grid, which has no such connect."""
    order = [layer.name for layer in texts.library.routing()]
    for connect in texts.script.of("add_pdn_connect"):
        ends = set(connect.get("-layers"))
        reach = {name for name in order if min(map(order.index, ends)) <= order.index(name) <= max(map(order.index, ends))}
        for component, _, grid in texts.blocks():
            pins = pin_layers(texts, component) & ends
            if grid is None or grid.get("-name") == connect.get("-grid") or not pins or ends in connects_of(texts, grid):
                continue
            through = (strap_layers(texts, grid) & reach) - pins
            if through:
                yield Finding(connect.path, connect.line, " ".join(connect.get("-layers")),
                              f"the connect of grid {connect.get('-grid')} joins pins of block {component.name} on {' '.join(sorted(pins))} through straps of grid "
                              f"{grid.get('-name')} on {' '.join(sorted(through))}; give grid {grid.get('-name')} the connect if that is meant, or take other layers")


def pin_layers(texts, component):
    """The layers of the pins of power and ground of a component."""
    return {layer for pin in texts.library.macros[component.macro].pins for layer, *_ in pin.shapes}


def strap_layers(texts, grid):
    """The layers of the straps and rings of a grid."""
    mine = [command for command in texts.script.commands if command.get("-grid") == grid.get("-name") and not command.get("-followpins")]
    return {layer for command in mine if command.name in ("add_pdn_stripe", "add_pdn_ring") for layer in [command.get("-layer"), *(command.get("-layers") or ())]}


def connects_of(texts, grid):
    return [set(connect.get("-layers")) for connect in texts.script.of("add_pdn_connect") if connect.get("-grid") == grid.get("-name")]
