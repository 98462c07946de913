"""Reads a placed design in DEF: die, rows, components, blockages, regions, pins of supplies, and the wiring as it stands."""
from typing import NamedTuple

from .quantities import number
from .words import Source

PLAIN = ("VERSION", "NAMESCASESENSITIVE", "TECHNOLOGY", "HISTORY", "TRACKS", "GCELLGRID", "ARRAY", "FLOORPLAN", "DEFAULTCAP", "CANPLACE",
         "CANNOTOCCUPY", "COMPONENTMASKSHIFT")
SECTIONS = ("PROPERTYDEFINITIONS", "NONDEFAULTRULES", "PINPROPERTIES", "STYLES", "SLOTS", "FILLS", "NETS", "SCANCHAINS", "GROUPS", "IOTIMINGS",
            "ASSERTIONS", "CONSTRAINTS", "PARTITIONS", "TIMINGDISABLES")
PLACES = ("PLACED", "FIXED", "COVER")
COMPONENT_PLAIN = ("SOURCE", "WEIGHT", "EEQMASTER", "REGION", "PROPERTY", "MASKSHIFT", "HALO", "ROUTEHALO", "GENERATE", "FOREIGN", "ROUTESTATUS")
ORIENTATIONS = ("N", "S", "E", "W", "FN", "FS", "FE", "FW")


class Row(NamedTuple):
    """A row: its name, site, corner, orientation, and how many sites it has at which step (None where it stands nowhere)."""
    name: str
    site: str
    x: int
    y: int
    orientation: str
    count: int
    step: int
    word: object


class Component(NamedTuple):
    """A component: its name as it is written, its macro, its place where it has one, the word of the place, and where it stands."""
    name: str
    macro: str
    place: tuple
    how: str
    word: object


class Design:
    """What the DEF says. Entries of vias, pins and special nets are kept as their words."""

    def __init__(self, source):
        self.source = source
        self.name = self.units = self.die = None
        self.bus, self.divider = "[]", "/"
        self.rows, self.components, self.regions, self.blockages = [], {}, [], []
        self.vias, self.pins, self.nets = [], [], []

    def renamed(self, word):
        """A name in plain words, which is told where it is another one."""
        name = self.plain_name(word)
        if name != word:
            self.source.tell("changed", word, f"the name is written as {name}, without escapes, with [] for bits and / for levels")
        return name

    def plain_name(self, word):
        """A name without escapes, with `[]` for bits and `/` between levels, as power reports have it."""
        name = word.replace("\\", "")
        if self.bus != "[]":
            name = name.replace(self.bus[0], "[").replace(self.bus[1], "]")
        return name if self.divider == "/" else name.replace(self.divider, "/")


def read_design(path, changes):
    """The design of a DEF file."""
    source = Source(path, changes)
    design = Design(source)
    while True:
        first = source.take()
        word = source.as_keyword(first)
        if word == "END":
            if source.keyword() == "DESIGN":
                break
            source.refuse(first, "an END of nothing; only END DESIGN may stand here")
        read_part(source, design, first, word)
    for what, held in (("DESIGN", design.name), ("UNITS", design.units), ("DIEAREA", design.die)):
        if held is None:
            source.refuse(source.words[0], f"the design has no {what}; add the statement")
    return design


def read_part(source, design, first, word):
    """A statement or a section of the design."""
    readers = {"DESIGN": read_name, "UNITS": read_units, "DIEAREA": read_die, "ROW": read_row, "BUSBITCHARS": read_letters, "DIVIDERCHAR": read_letters}
    entries = {"COMPONENTS": read_component, "BLOCKAGES": keep("blockages"), "REGIONS": keep("regions"), "VIAS": keep("vias"), "PINS": keep("pins"),
               "SPECIALNETS": keep("nets")}
    if word in readers:
        readers[word](source, design, first, source.statement())
    elif word in entries:
        read_entries(source, design, word, entries[word])
    elif word in SECTIONS:
        source.skip_to("END", word)
        source.tell("passed over", first, "the section says nothing of the grid")
    elif word == "BEGINEXT":
        source.skip_to("ENDEXT")
        source.tell("passed over", first, "the section says nothing of the grid")
    elif word in PLAIN:
        source.statement()
        source.tell("passed over", first, "the statement says nothing of the grid")
    else:
        source.refuse(first, "no statement of DEF that is known here; leave it out if the grid may be without it")


def keep(field):
    """What keeps an entry's words in a field of the design."""
    return lambda source, design, words: getattr(design, field).append(words)


def read_entries(source, design, section, reader):
    """The entries of a section, each from its `-` to its `;`."""
    first, head = source.words[source.at - 1], source.statement()
    if len(head) != 1 or not head[0].isdecimal():
        source.refuse(first, "the number of its entries is due behind it, and nothing else")
    while True:
        first = source.take()
        if first.upper() == "END":
            if source.keyword() != section:
                source.refuse(first, f"END {section} is due")
            return
        if first != "-":
            source.refuse(first, f"an entry of {section} begins with -")
        words = [first, *source.statement()]
        if len(words) < (3 if section in ("COMPONENTS", "BLOCKAGES") else 2):
            source.refuse(first, f"an entry of {section} without its first words")
        reader(source, design, words)


def whole(source, word):
    """A coordinate, which is a whole number of units; one that is written with a point is told."""
    value = number(word)
    if value is None or value.denominator != 1:
        source.refuse(word, "a whole number of units is due")
    if not word.lstrip("+-").isdecimal():
        source.tell("changed", word, f"a coordinate with a point, taken as {value}")
    return int(value)


def read_name(source, design, first, held):
    design.name = design.name or str(source.one(first, held))


def read_letters(source, design, first, held):
    """The letters around bits, and the one between levels."""
    letters = held[0].strip('"') if len(held) == 1 else ""
    if first.upper() == "BUSBITCHARS" and len(letters) == 2:
        wanted, design.bus = "[]", letters
    elif first.upper() == "DIVIDERCHAR" and len(letters) == 1:
        wanted, design.divider = "/", letters
    else:
        source.refuse(first, "its letters are due in quotes")
    if letters != wanted:
        source.tell("changed", first, f"it is {letters} here, and names are written with {wanted}")


def read_units(source, design, first, held):
    if len(held) != 3 or not held[2].isdecimal() or not 1 <= int(held[2]) <= 20000:
        source.refuse(first, "UNITS DISTANCE MICRONS and a number from 1 to 20000 are due")
    design.units = design.units or int(held[2])


def read_die(source, design, first, held):
    """The die: two corners, or the four of a rectangle."""
    values = [whole(source, word) for word in held if word not in "()"]
    points = list(zip(values[::2], values[1::2]))
    xs, ys = sorted({x for x, _ in points}), sorted({y for _, y in points})
    if len(values) % 2 or len(xs) != 2 or len(ys) != 2 or len(points) not in (2, 4) or (len(points) == 4 and not is_box(points)):
        source.refuse(first, "the die is no rectangle; make it one that holds it, and block what is outside")
    if len(points) == 4:
        source.tell("changed", first, "the rectangle of four points is written by two corners")
    design.die = design.die or (xs[0], ys[0], xs[1], ys[1])


def is_box(points):
    """Whether four points go around a rectangle."""
    return len(set(points)) == 4 and all((start[0] == end[0]) != (start[1] == end[1]) for start, end in zip(points, points[1:] + points[:1]))


def read_row(source, design, first, held):
    """ROW name site x y orientation DO count BY count STEP x y."""
    end = next((at for at, word in enumerate(held) if word == "+"), len(held))
    upper = [word.upper() for word in held[:end]]
    if len(upper) not in (5, 9, 12) or upper[5:9:2] not in ([], ["DO", "BY"]) or upper[9:10] not in ([], ["STEP"]):
        source.refuse(first, "ROW name site x y orientation DO count BY count STEP x y is due")
    columns, lines, step = 1, 1, None
    if upper[5:6] == ["DO"]:
        columns, lines = whole(source, held[6]), whole(source, held[8])
    if upper[9:10] == ["STEP"]:
        step = whole(source, held[10])
    for keyword, _ in parts_of(source, held):
        source.tell("passed over", keyword, "of a row: it says nothing of the grid")
    if lines != 1:
        source.refuse(held[0], "a row that goes up has no rails along x; write it as rows of one site in y")
    if upper[4] not in ("N", "S", "FN", "FS"):
        source.refuse(held[4], "a row in this orientation has no rails along x; place rows in N, S, FN or FS")
    design.rows.append(Row(str(held[0]), str(held[1]), whole(source, held[2]), whole(source, held[3]), upper[4], columns, step, first))


def parts_of(source, words):
    """The parts of an entry: for each `+` the keyword behind it and the words up to the next one."""
    begins = [at for at, word in enumerate(words) if word == "+"]
    for begin, end in zip(begins, begins[1:] + [len(words)]):
        if begin + 1 == end:
            source.refuse(words[begin], "a part without a keyword")
        yield words[begin + 1], words[begin + 2:end]


def read_component(source, design, words):
    """- name macro + PLACED ( x y ) orientation."""
    place, how, name = None, "PLACED", design.plain_name(words[1])
    for keyword, held in parts_of(source, words):
        part = source.as_keyword(keyword)
        if part in PLACES and place is None:
            place, how = place_of(source, keyword, held), "FIXED" if part == "COVER" else part
            if part == "COVER":
                source.tell("changed", keyword, "of a component: it is written as FIXED, which is the same here")
        elif part in COMPONENT_PLAIN:
            source.tell("passed over", keyword, "of a component: it says nothing of the grid")
        elif part not in (*PLACES, "UNPLACED"):
            source.refuse(keyword, "no part of a component that is known here")
    if place is None:
        source.tell_of("passed over", words[1], "COMPONENTS", "a component without a place")
    if name in design.components:
        source.refuse(words[1], f"the component {name} stands before")
    if name != words[1]:
        source.tell_of("changed", words[1], "COMPONENTS", "a name is written without escapes, with [] for bits and / for levels")
    design.components[name] = Component(name, str(words[2]), place, how, words[1])


def place_of(source, keyword, held):
    """( x y ) orientation."""
    if len(held) != 5 or held[0] != "(" or held[3] != ")" or held[4].upper() not in ORIENTATIONS:
        source.refuse(keyword, "( x y ) and an orientation are due")
    return whole(source, held[1]), whole(source, held[2]), source.as_keyword(held[4])
