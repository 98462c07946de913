"""What klayout and magic read otherwise in the wiring of a DEF than pdn, each with its line.

It was found with klayout 0.28.5 and magic 8.3.105, by what they answer, and by the source of magic's reader. docs/TOOLS.md says of each who is right by the LEF/DEF 5.8
Language Reference.
"""
import struct

from .def_text import statements, words_of
from .other_words import SHAPES, has_no_length, paths_of
from .routed import ROUTES, generated_via, use_of

# what magic knows behind a path of wiring. It knows the same shapes as the reference
PARTS = ("SHAPE", "STYLE", "USE", "VOLTAGE", "FIXEDBUMP", "ORIGINAL", "PATTERN", "ESTCAP", "WEIGHT", "PROPERTY")
LOST = "passes over the rest of this net, and takes the nets behind it for vias"
# magic keeps a rectangle for each cut of a via, reads a number with 24 bits, and doubles it in one of 32
MOST_CUTS, FURTHEST, DIGITS = 10 ** 6, 2 ** 28, "f"


def by_klayout(wiring):
    """What klayout reads otherwise."""
    for statement in statements(wiring.path):
        if statement.section == "SPECIALNETS":
            yield from passed_net(statement, "klayout")
            for path in paths_of(wiring, statement) if use_of(statement.words) else ():
                if len(path.points) > 2:
                    yield path.line, "klayout lets the metal go on by half the width at each inner point of a path"


def by_magic(wiring):
    """What magic reads otherwise."""
    yield from broken_end(wiring.path)
    passed = {}
    for statement in statements(wiring.path):
        if statement.section == "SPECIALNETS":
            yield from lost_part(statement)
            yield from passed_net(statement, "magic")
            for path in paths_of(wiring, statement) if use_of(statement.words) else ():
                if any(has_no_length(*ends) for ends in zip(path.points, path.points[1:])):
                    yield path.line, "magic draws a square of the width where a segment has no length"
        elif statement.section not in ("", "VIAS"):
            passed.setdefault(statement.section, statement.lines[0])
    for section, line in passed.items():
        yield line, f"pdn passes over the section {section}, and magic reads its words"


def broken_end(path):
    """`END` and `DESIGN` on two lines."""
    before = (0, "")
    for line, word in words_of(path):
        if (before[1], word) == ("END", "DESIGN") and line != before[0]:
            yield line, "magic breaks off between `END` and `DESIGN`, which stand on two lines"
        before = line, word


def taken_for(word, known):
    """The word that magic takes a word for: it may be shortened, and its case does not count. None where there is no such word, or are several."""
    found = [name for name in known if name.startswith(word.upper())]
    return word.upper() if word.upper() in found else found[0] if len(found) == 1 else None


def lost_part(statement):
    """The first part behind a path of a net that magic does not know, or takes for another one, and each `NEW` before it that it takes for wiring."""
    words, part, is_routed = statement.words, "", False
    for at in range(2, len(words) - 2):
        if words[at] == "NEW" and is_routed and part not in (*ROUTES, "SHAPE"):
            yield statement.lines[at], f"magic takes `NEW` behind `+ {part}` for wiring"
        if words[at] != "+":
            continue
        part, line = words[at + 1], statement.lines[at + 1]
        known = taken_for(part, PARTS)
        if not is_routed:
            is_routed = part in ROUTES
        elif known is None:
            yield line, f"magic does not know `+ {part}` behind a path of wiring, {LOST}"
            return
        elif part in ROUTES:
            yield line, f"magic takes `+ {part}` behind a path of wiring for {known}, and the words of the path for vias"
            return
        elif known == "SHAPE" and taken_for(words[at + 2], SHAPES) is None:
            yield line, f"magic does not know the shape {words[at + 2]}, {LOST}"
            return


def passed_net(statement, tool):
    """A net that pdn passes over."""
    words = statement.words
    if words[0] == "-" and len(words) > 1 and use_of(words) is None and any(word in ROUTES for word in words):
        yield statement.lines[0], f"pdn passes over the net {words[1]}, which is none of power or ground, and {tool} draws its wiring"


# ## what is handed to magic in other words in any case, and what cannot be handed to it

def cuts_of(words):
    """How many cuts the generated via of an entry of VIAS has."""
    at = words.index("ROWCOL") if "ROWCOL" in words else None
    return 1 if at is None else int(words[at + 1]) * int(words[at + 2])


def great_vias(wiring):
    """Each generated via with more cuts than magic can be asked to keep: its line, its name and what there is of it."""
    for statement in statements(wiring.path):
        if statement.section == "VIAS" and generated_via(statement.words) and cuts_of(statement.words) > MOST_CUTS:
            yield statement.lines[0], statement.words[1], f"magic keeps a rectangle for each of the {cuts_of(statement.words)} cuts of {statement.words[1]}"


def is_of_magic(number):
    """Whether magic reads a number as it is, and has room for it."""
    return abs(number) <= FURTHEST and struct.unpack(DIGITS, struct.pack(DIGITS, number))[0] == number


def beyond_magic(wiring):
    """The numbers of pieces and placed arrays that magic cannot be handed."""
    for net in wiring.nets:
        held = [(piece.line, (*piece.box(), piece.width)) for piece in net.pieces]
        held += [(array.line, (array.x, array.y, *array.via.span, *array.via.enclosure)) for array in net.arrays]
        for line, numbers in held:
            for number in numbers:
                if not is_of_magic(number):
                    yield line, f"magic reads a number with 24 bits, and is handed none beyond 2^28: {number}"
