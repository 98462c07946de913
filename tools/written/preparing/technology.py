"""Layers, fixed vias and via rules of LEF, as far as grids need them."""
from fractions import Fraction

from .quantities import number
from .shapes import rectangles

# what a layer may have besides; none of it changes what is drawn, extracted or limited
LAYER_PLAIN = ("PITCH", "DIAGPITCH", "OFFSET", "DIAGWIDTH", "DIAGSPACING", "DIAGMINEDGELENGTH", "AREA", "MINSIZE", "WIREEXTENSION", "MINIMUMCUT",
               "MAXWIDTH", "MINWIDTH", "MINSTEP", "MINENCLOSEDAREA", "PROTRUSIONWIDTH", "CAPACITANCE", "HEIGHT", "THICKNESS", "SHRINKAGE",
               "CAPMULTIPLIER", "EDGECAPACITANCE", "MINIMUMDENSITY", "MAXIMUMDENSITY", "DENSITYCHECKWINDOW", "DENSITYCHECKSTEP",
               "FILLACTIVESPACING", "ENCLOSURE", "PREFERENCLOSURE", "ARRAYSPACING", "MASK", "SLOTWIREWIDTH", "SLOTWIRELENGTH", "SLOTWIDTH",
               "SLOTLENGTH", "MAXADJACENTSLOTSPACING", "MAXCOAXIALSLOTSPACING", "MAXEDGESLOTSPACING", "SPLITWIREWIDTH", "ACCURRENTDENSITY",
               "LENGTHTHRESHOLD", "EXCEPTPGNET", "INDUCTANCE", "DIELECTRIC")
VIA_PLAIN = ("FOREIGN", "PROPERTY", "VIARULE", "CUTSIZE", "LAYERS", "CUTSPACING", "ENCLOSURE", "ROWCOL", "ORIGIN", "OFFSET", "PATTERN")
TABLE_HEADS = ("WIDTH", "CUTAREA")


class Layer:
    """A layer with what stands of it, and where."""

    def __init__(self, source, name):
        self.source, self.word, self.name = source, name, str(name)
        self.kind = self.direction = self.spacing = self.table_spacing = self.width = self.resistance = self.density = self.table = None
        self.other_limit = None

    def said(self):
        """What a second section of the layer has to agree with."""
        return {"TYPE": self.kind, "DIRECTION": self.direction, "SPACING": self.spacing or self.table_spacing, "WIDTH": self.width,
                "RESISTANCE": self.resistance, "DCCURRENTDENSITY": self.density or self.table}


class Via:
    """A fixed via: its rectangles by layer, and its resistance."""

    def __init__(self, source, name):
        self.source, self.word, self.name = source, name, str(name)
        self.is_default, self.resistance, self.boxes = False, None, {}


class Rule:
    """A rule of generated vias: its parts in their order."""

    def __init__(self, source, name):
        self.source, self.word, self.name = source, name, str(name)
        self.parts, self.is_default = [], False

    def has_width(self):
        return any(part.width for part in self.parts)


class Part:
    """The part of a rule for one layer."""

    def __init__(self, layer):
        self.layer = str(layer)
        self.enclosure = self.width = self.box = self.spacing = self.resistance = self.overhang = None


def numbers(source, first, words, count):
    """So many numbers, parentheses and BY or TO left out."""
    values = [number(word) for word in words if word.upper() not in ("(", ")", "BY", "TO")]
    if len(values) != count or None in values:
        source.refuse(first, f"{count} number{'s are' if count > 1 else ' is'} due behind it")
    return values


def read_layer(source, library):
    """LAYER .. END. A second section of a layer has to agree with the first."""
    name = source.take()
    layer = Layer(source, name)
    for first, word in source.section(name):
        read_layer_statement(source, layer, first, word)
    before = library.layers.setdefault(layer.name, layer)
    if before is not layer:
        join_layer(source, name, before, layer)


def join_layer(source, name, before, layer):
    """Fills what the first section of a layer lacks with what the second one has."""
    for what, value in layer.said().items():
        held = before.said()[what]
        if value is not None and held is not None and value != held:
            source.refuse(name, f"the layer stands before with another {what}; hand in one of the two")
    for field in ("kind", "direction", "spacing", "table_spacing", "width", "resistance", "density", "table"):
        if getattr(before, field) is None:
            setattr(before, field, getattr(layer, field))
    source.tell("passed over", name, "the layer stands before and agrees; what its first section lacks is taken from here")


def read_layer_statement(source, layer, first, word):
    """A statement of a layer."""
    held = source.statement()
    kind = held[0].upper() if held else ""
    if word == "TYPE":
        layer.kind = layer.kind or source.as_keyword(source.one(first, held))
    elif word == "DIRECTION":
        layer.direction = layer.direction or source.as_keyword(source.one(first, held))
    elif word == "WIDTH":
        layer.width = layer.width or numbers(source, first, held, 1)[0]
        source.tell("passed over", first, "of a layer: it serves for resistances by length and limits for each cut alone")
    elif word == "SPACING":
        read_spacing(source, layer, first, held)
    elif word == "SPACINGTABLE":
        layer.table_spacing = layer.table_spacing or greatest_of_table(source, first, held)
    elif word == "RESISTANCE":
        read_resistance(source, layer, first, held)
    elif word == "DCCURRENTDENSITY" and kind == "AVERAGE":
        read_density(source, layer, first, held)
    elif word in ("ACCURRENTDENSITY", "DCCURRENTDENSITY", "CURRENTDEN"):
        pass_over_limit(source, layer, first, held)
    elif word == "PROPERTY" or word.startswith("ANTENNA") or word in LAYER_PLAIN:
        if any("CURRENTDENSITY" in piece.upper() for piece in held):
            layer.other_limit = "densities in a property"
        source.tell("passed over", first, "the statement says nothing of the grid")
    elif layer.kind in ("ROUTING", "CUT"):
        source.refuse(first, "no statement of a LAYER that is known here; leave it out if the grid may be without it")


def read_spacing(source, layer, first, held):
    """The first SPACING that is one number; the others speak of wires alone."""
    if len(held) == 1 and layer.spacing is None:
        layer.spacing = source.lengths(first, numbers(source, first, held, 1))[0]
        if layer.kind == "CUT":
            source.tell("passed over", first, "of a cut layer: it serves for rules that are made of fixed vias alone")
    else:
        source.tell("passed over", first, "only the first SPACING of a layer that is one number counts")


def greatest_of_table(source, first, held):
    """The greatest spacing of a table. Widths and lengths of its rows and columns are no spacings."""
    words = [word.upper() for word in held]
    if words[:1] == ["PARALLELRUNLENGTH"]:
        begins = [at for at, word in enumerate(words) if word == "WIDTH"]
        rows = [held[begin + 2:end] for begin, end in zip(begins, begins[1:] + [len(held)])]
    elif words[:1] == ["TWOWIDTHS"]:
        begins = [at for at, word in enumerate(words) if word == "WIDTH"]
        rows = [held[begin + (4 if words[begin + 2:begin + 3] == ["PRL"] else 2):end] for begin, end in zip(begins, begins[1:] + [len(held)])]
    else:
        source.tell("passed over", first, "a table of spacings that depends on neighbours")
        return None
    values = [number(word) for row in rows for word in row]
    if not values or None in values:
        source.refuse(first, "the table has an entry that is no number")
    return source.lengths(first, [max(values)])[0]


def read_resistance(source, layer, first, held):
    """The sheet resistance of a routing layer, or that of a cut."""
    if layer.kind == "ROUTING" and held and held[0].upper() == "RPERSQ":
        layer.resistance = layer.resistance or numbers(source, first, held[1:], 1)[0]
    elif layer.kind == "CUT":
        layer.resistance = layer.resistance or numbers(source, first, held, 1)[0]
    else:
        source.refuse(first, "RESISTANCE RPERSQ and a number, or a number for a cut layer are due")


def read_density(source, layer, first, held):
    """A density of direct current: a number, or a table by width or by cut area."""
    if len(held) == 2:
        layer.density = layer.density or (numbers(source, first, held[1:], 1)[0], first)
        return
    head, entries = held[1:], source.statement()
    if not head or head[0].upper() not in TABLE_HEADS or not entries or entries[0].upper() != "TABLEENTRIES":
        source.refuse(first, "a number, or WIDTH or CUTAREA .. ; TABLEENTRIES .. ; is due")
    points, values = numbers(source, first, head[1:], len(head) - 1), numbers(source, first, entries[1:], len(head) - 1)
    layer.table = layer.table or (head[0].upper(), tuple(points), tuple(values))


def pass_over_limit(source, layer, first, held):
    """Limits other than of average direct current: their tables are passed over too."""
    layer.other_limit = layer.other_limit or str(first.upper())
    if len(held) != 2 or number(held[1]) is None:
        while source.peek() and source.statement()[:1] not in (["TABLEENTRIES"], ["tableentries"]):
            pass
    source.tell("passed over", first, "only the density of average direct current is a limit here")


def read_via(source, library):
    """A fixed via."""
    name = source.take()
    via, layer = Via(source, name), None
    for first, word in source.section(name):
        if word in ("DEFAULT", "GENERATED", "TOPOFSTACKONLY"):
            via.is_default |= word == "DEFAULT"
            continue
        held = source.statement()
        if word == "LAYER":
            layer = str(source.one(first, held))
        elif word == "RESISTANCE":
            via.resistance = numbers(source, first, held, 1)[0]
        elif word in ("RECT", "POLYGON"):
            via.boxes.setdefault(layer, []).extend(rectangles(source, [first, *held], None))
        elif word not in VIA_PLAIN:
            source.refuse(first, "no statement of a VIA that is known here; leave it out if the grid may be without it")
    source.tell_of("passed over", name, "VIA", "fixed vias are not drawn; what grids take of them is told by their names")
    library.vias.setdefault(via.name, via)


def read_rule(source, library):
    """A via rule. One without GENERATE names fixed vias, and is passed over."""
    name = source.take()
    rule, generates = Rule(source, name), False
    for first, word in source.section(name):
        if word in ("GENERATE", "DEFAULT"):
            generates |= word == "GENERATE"
            rule.is_default |= word == "DEFAULT"
        else:
            read_part_statement(source, rule, first, word)
    if not generates:
        source.tell("passed over", name, "a rule without GENERATE")
    elif rule.name in library.rules:
        source.tell("passed over", name, "a rule of this name stands before, and counts")
    else:
        library.rules[rule.name] = rule


def read_part_statement(source, rule, first, word):
    """A statement of a part of a rule."""
    held = source.statement()
    if word == "LAYER":
        rule.parts.append(Part(source.one(first, held)))
        return
    if not rule.parts:
        if word not in ("PROPERTY", "VIA"):
            source.refuse(first, "a LAYER is due before it")
        source.tell("passed over", first, "of a rule: it says nothing of its arrays")
        return
    part = rule.parts[-1]
    if word == "ENCLOSURE":
        part.enclosure = part.enclosure or source.lengths(first, numbers(source, first, held, 2))
    elif word == "OVERHANG":
        part.overhang = part.overhang or (source.lengths(first, numbers(source, first, held, 1))[0], first)
    elif word == "METALOVERHANG":
        if numbers(source, first, held, 1)[0] != Fraction(0):
            source.refuse(first, "metal beyond a crossing is not drawn here; write ENCLOSURE in place of it")
        source.tell("passed over", first, "it is 0")
    elif word == "WIDTH":
        part.width = part.width or source.lengths(first, numbers(source, first, held, 2))
    elif word == "RECT":
        part.box = part.box or source.lengths(first, numbers(source, first, held, 4))
    elif word == "SPACING":
        part.spacing = part.spacing or source.lengths(first, numbers(source, first, held, 2))
    elif word == "RESISTANCE":
        part.resistance = part.resistance or numbers(source, first, held, 1)[0]
    elif word in ("DIRECTION", "VIA", "PROPERTY"):
        source.tell("passed over", first, "of a rule: it says nothing of its arrays")
    else:
        source.refuse(first, "no statement of a VIARULE that is known here")
