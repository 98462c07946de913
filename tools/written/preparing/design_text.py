"""The design in the words that `pdn` reads: die, rows, components, blockages and regions."""
from .design import parts_of, whole
from .shapes import cut

HEAD = 'VERSION 5.8 ;\nDIVIDERCHAR "/" ;\nBUSBITCHARS "[]" ;\n'
BLOCKS_NOTHING = ("EXCEPTPGNET", "FILLS", "SLOTS")
BLOCKAGE_PARTS = (*BLOCKS_NOTHING, "SPACING", "PUSHDOWN", "COMPONENT", "DESIGNRULEWIDTH", "MASK", "SOFT", "PARTIAL")


def head_text(design):
    """What a DEF begins with."""
    x1, y1, x2, y2 = design.die
    return f"{HEAD}DESIGN {design.name} ;\nUNITS DISTANCE MICRONS {design.units} ;\nDIEAREA ( {x1} {y1} ) ( {x2} {y2} ) ;\n"


def row_text(row):
    step = "" if row.step is None else f" STEP {row.step} 0"
    return f"ROW {row.name} {row.site} {row.x} {row.y} {row.orientation} DO {row.count} BY 1{step} ;\n"


def component_text(component):
    if component.place is None:
        return f"- {component.name} {component.macro} ;\n"
    x, y, orientation = component.place
    return f"- {component.name} {component.macro} + {component.how} ( {x} {y} ) {orientation} ;\n"


def section_text(name, entries):
    """A section with its entries, where there is any."""
    return f"{name} {len(entries)} ;\n{''.join(entries)}END {name}\n" if entries else ""


def region_text(source, words):
    """A region: its name and its rectangles. Its type has no effect on the grid."""
    for keyword, _ in parts_of(source, words):
        source.tell("passed over", keyword, "of a region: it says nothing of the grid")
    end = next((at for at, word in enumerate(words) if word == "+"), len(words))
    values = [whole(source, word) for word in words[2:end] if word not in "()"]
    if len(values) % 4 or not values:
        source.refuse(words[1], "a region has rectangles, each of two corners")
    return f"- {words[1]} " + " ".join(f"( {x} {y} )" for x, y in zip(values[::2], values[1::2])) + " ;\n"


def blockage_text(design, library, words):
    """An entry of BLOCKAGES, with its polygons cut into rectangles; empty where it blocks no metal."""
    source = design.source
    if source.as_keyword(words[1]) != "LAYER":
        source.tell_of("left out", words[1], "BLOCKAGES", "a blockage of placement blocks no metal")
        return ""
    parts = {source.as_keyword(keyword): held for keyword, held in parts_of(source, shapes_off(words))}
    unknown = [keyword for keyword, _ in parts_of(source, shapes_off(words)) if keyword.upper() not in BLOCKAGE_PARTS]
    if unknown:
        source.refuse(unknown[0], "no part of a blockage that is known here")
    if words[2] not in library.layers or any(part in BLOCKS_NOTHING for part in parts):
        source.tell("left out", words[2], "a blockage that blocks no metal of supplies on a layer of the technology")
        return ""
    for keyword, _ in parts_of(source, shapes_off(words)):
        if keyword.upper() != "SPACING":
            source.tell("left out", keyword, "of a blockage: it has no effect on the grid")
    spacing = f" + SPACING {whole(source, source.one(words[2], parts['SPACING']))}" if "SPACING" in parts else ""
    boxes = [box for first, held in shapes_of(words) for box in boxes_of(source, first, held)]
    return f"- LAYER {words[2]}{spacing}" + "".join(f" RECT ( {x1} {y1} ) ( {x2} {y2} )" for x1, y1, x2, y2 in boxes) + " ;\n"


def shapes_of(words):
    """The shapes of an entry: the word RECT or POLYGON, and what follows it."""
    begins = [at for at, word in enumerate(words) if word.upper() in ("RECT", "POLYGON") and at > 2]
    return [(words[begin], words[begin + 1:end]) for begin, end in zip(begins, begins[1:] + [len(words)])]


def shapes_off(words):
    """The words of an entry before its shapes."""
    begins = [at for at, word in enumerate(words) if word.upper() in ("RECT", "POLYGON") and at > 2]
    return words[:begins[0]] if begins else words


def boxes_of(source, first, held):
    """The rectangles of a shape."""
    values = [whole(source, word) for word in held if word not in "()"]
    points = list(zip(values[::2], values[1::2]))
    if source.as_keyword(first) == "RECT":
        if len(values) != 4:
            source.refuse(first, "a rectangle has two corners")
        return [(min(values[0], values[2]), min(values[1], values[3]), max(values[0], values[2]), max(values[1], values[3]))]
    source.tell("changed", first, "of a blockage: cut into rectangles")
    return cut(source, first, points)


def design_text(design, library, rows):
    """OUT/design.def."""
    parts = [head_text(design), *map(row_text, rows)]
    parts.append(section_text("REGIONS", [region_text(design.source, words) for words in design.regions]))
    parts.append(section_text("COMPONENTS", [component_text(component) for component in design.components.values()]))
    parts.append(section_text("BLOCKAGES", [text for words in design.blockages if (text := blockage_text(design, library, words))]))
    return "".join(parts) + "END DESIGN\n"
