"""The cells in the words that `pdn` reads: sites, and macros with their pins of power and ground."""
from .quantities import decimal
from .technology_text import HEAD, LENGTH


def box_text(box):
    return " ".join(decimal(length, LENGTH) for length in box)


def shape_lines(boxes, indent):
    """Rectangles, each behind its layer where that changes."""
    lines, last = [], None
    for layer, *box in boxes:
        if layer != last:
            lines.append(f"{indent}LAYER {layer} ;")
            last = layer
        lines.append(f"{indent}  RECT {box_text(box)} ;")
    return lines


def drawn(macro, shapes, library):
    """The rectangles of shapes of a block that lie on layers of the technology. A block with a via among them is refused."""
    found = []
    for shape in shapes:
        layer = library.layers.get(shape.layer)
        if shape.is_via():
            macro.source.refuse(shape.statement[0], "a via in a pin or an obstruction of a block; write its rectangles")
        elif layer is None or layer.kind not in ("ROUTING", "CUT"):
            macro.source.tell("left out", shape.statement[0], f"of macro {macro.name} on {shape.layer}, which is no layer of metal or of cuts in the LEF")
        else:
            more = further(macro, shape, layer)
            found += [(name, x1 - more, y1 - more, x2 + more, y2 + more) for name, x1, y1, x2, y2 in macro.boxes_of(shape)]
    return found


def further(macro, shape, layer):
    """How much greater a shape is written that asks for more spacing than its layer, which is what `pdn` keeps."""
    if shape.spacing is None:
        return 0
    (spacing, word), least = shape.spacing, max(layer.spacing or 0, layer.table_spacing or 0)
    if spacing <= least:
        macro.source.tell("left out", word, f"of an obstruction on {layer.name}: metal keeps the SPACING of the layer from it, which is no less")
        return 0
    macro.source.tell("changed", word, f"of an obstruction on {layer.name}: it asks for more than the SPACING of the layer, and is written greater by "
                                       f"{decimal(spacing - least, LENGTH)} on all sides")
    return spacing - least


def macro_text(macro, library):
    """A macro: blocks with their pins of power and ground and their obstructions, cells with their size alone."""
    lines = [f"MACRO {macro.name}"]
    if macro.kind_words:
        lines.append(f"  CLASS {' '.join(macro.kind_words)} ;")
    lines += ["  ORIGIN 0 0 ;", f"  SIZE {decimal(macro.size[0], LENGTH)} BY {decimal(macro.size[1], LENGTH)} ;"]
    if macro.is_block():
        for pin in macro.pins:
            lines += [f"  PIN {pin.name}", f"    USE {pin.use} ;", "    PORT", *shape_lines(drawn(macro, pin.shapes, library), "      "), "    END",
                      f"  END {pin.name}"]
        lines += ["  OBS", *shape_lines(drawn(macro, macro.obstructions, library), "    "), "  END"]
    return "\n".join([*lines, f"END {macro.name}"]) + "\n"


def cells_text(library):
    """OUT/cells.lef."""
    parts = [HEAD]
    for name, (size, kind) in library.sites.items():
        lines = [f"SITE {name}", *([f"  CLASS {kind} ;"] if kind else []), f"  SIZE {decimal(size[0], LENGTH)} BY {decimal(size[1], LENGTH)} ;", f"END {name}"]
        parts.append("\n".join(lines) + "\n")
    for macro in library.macros.values():
        if not macro.is_block() and (macro.pins or macro.obstructions):
            macro.source.tell_of("left out", macro.word, "MACRO", "pins and obstructions of a macro that is no block: currents are drawn from its rails")
        parts.append(macro_text(macro, library))
    return "".join(parts) + "END LIBRARY\n"
