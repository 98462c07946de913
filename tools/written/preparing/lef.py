"""Reads LEF libraries, any number in any order, into one library of layers, vias, rules, sites and macros."""
from .macros import read_macro
from .quantities import number
from .technology import read_layer, read_rule, read_via
from .words import Source

# statements at the top that say nothing of what is drawn
PLAIN = ("VERSION", "NAMESCASESENSITIVE", "BUSBITCHARS", "DIVIDERCHAR", "MANUFACTURINGGRID", "CLEARANCEMEASURE", "USEMINSPACING", "FIXEDMASK",
         "MAXVIASTACK", "PROPERTY", "NOWIREEXTENSIONATPIN", "MINFEATURE", "DIELECTRIC", "OUTPUTPINANTENNASIZE", "INPUTPINANTENNASIZE",
         "INOUTPINANTENNASIZE", "ANTENNAINPUTGATEAREA", "ANTENNAINOUTDIFFAREA", "ANTENNAOUTPUTDIFFAREA", "UNIVERSALNOISEMARGIN",
         "EDGERATETHRESHOLD1", "EDGERATETHRESHOLD2", "EDGERATESCALEFACTOR", "CREATEDBY")
# sections that end with END and their own word
SECTIONS = ("PROPERTYDEFINITIONS", "SPACING", "IRDROP", "NOISETABLE", "CORRECTIONTABLE")
# sections that end with END and their name
NAMED = ("NONDEFAULTRULE", "ARRAY")


class Library:
    """What the LEF files say, joined."""

    def __init__(self):
        self.units = None
        self.layers, self.vias, self.rules, self.sites, self.macros = {}, {}, {}, {}, {}

    def routing(self):
        """The routing layers, from the lowest to the highest."""
        return [layer for layer in self.layers.values() if layer.kind == "ROUTING"]


def read_libraries(paths, changes):
    """The library that the files make together. The layers of a file that has cells alone are those of the others."""
    library, seen = Library(), set()
    for path in paths:
        if path in seen:
            changes.tell("passed over", path, None, "LEF", "the file is named twice, and read once")
            continue
        seen.add(path)
        read_library(Source(path, changes), library)
    return library


def read_library(source, library):
    """Reads one file. What stands behind its END LIBRARY is another library, as where files were joined."""
    while source.more():
        first = source.take()
        word = source.as_keyword(first)
        if word == "END":
            if source.keyword() != "LIBRARY":
                source.refuse(first, "an END of nothing; only END LIBRARY may stand here")
            if source.more():
                source.tell("changed", first, "text stands behind END LIBRARY, and is read as one more library")
        else:
            read_section(source, library, first, word)


def read_section(source, library, first, word):
    """Reads a statement or a section at the top."""
    readers = {"LAYER": read_layer, "VIA": read_via, "VIARULE": read_rule, "SITE": read_site, "MACRO": read_macro}
    if word in readers:
        readers[word](source, library)
    elif word == "UNITS":
        read_units(source, library)
    elif word in SECTIONS:
        source.skip_to("END", word)
        source.tell("passed over", first, "the section says nothing of the grid")
    elif word in NAMED:
        source.skip_to("END", source.take())
        source.tell("passed over", first, "the section says nothing of the grid")
    elif word in ("BEGINEXT", "&ALIAS"):
        source.skip_to("ENDEXT" if word == "BEGINEXT" else "&ENDALIAS")
        source.tell("passed over", first, "the section says nothing of the grid")
    elif word in PLAIN:
        source.statement()
        source.tell("passed over", first, "the statement says nothing of the grid")
    else:
        source.refuse(first, "no statement of LEF that is known here; leave it out if the grid may be without it")


def read_units(source, library):
    """UNITS .. END UNITS, of which the database units count."""
    for first, word in source.section("UNITS"):
        held = source.statement()
        if word != "DATABASE":
            check_unit(source, first, word, held)
        elif len(held) == 2 and held[1].isdecimal():
            if library.units and library.units != held[1]:
                source.tell("passed over", first, f"it is {held[1]} here, and the one of an earlier file counts, {library.units}")
            library.units = library.units or str(held[1])
        else:
            source.refuse(first, "DATABASE MICRONS and a number are due")


def check_unit(source, first, word, held):
    """Ohms and milliamperes are the units of LEF's resistances and densities: another scale is refused."""
    if word in ("RESISTANCE", "CURRENT"):
        if len(held) != 2 or number(held[1]) != 1:
            source.refuse(first, "a scale other than 1; write the numbers of this file with scale 1")
    source.tell("passed over", first, "the unit says nothing of the grid")


def read_site(source, library):
    """SITE .. END, of which the size counts."""
    name, size, kind = source.take(), None, None
    for first, word in source.section(name):
        held = source.statement()
        if word == "SIZE":
            size = size or size_of(source, first, held)
        elif word == "CLASS":
            kind = kind or source.one(first, held).upper()
        elif word in ("SYMMETRY", "ROWPATTERN", "PROPERTY"):
            source.tell("passed over", first, "of a site: it says nothing of the grid")
        else:
            source.refuse(first, "no statement of a SITE that is known here")
    if size is None:
        source.refuse(name, "the site has no SIZE; state it")
    if library.sites.setdefault(str(name), (size, kind))[0] != size:
        source.refuse(name, "the site stands before with another size; hand in one of the two")


def size_of(source, first, held):
    """The width and the height of SIZE w BY h."""
    values = [number(word) for word in held[::2]]
    if len(held) != 3 or held[1].upper() != "BY" or None in values or min(values) <= 0:
        source.refuse(first, "SIZE width BY height is due")
    return tuple(source.lengths(first, values))
