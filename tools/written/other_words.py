"""The wiring of a DEF said again, in words that klayout and magic read as pdn does.

The vias that are placed stand there, and the nets of power and ground with their paths, and nothing else. A path stands as it is but for this: each but the first
of its net begins with `NEW`; a shape that the LEF/DEF 5.8 Language Reference does not have is left out; and a path of more than two points, or with a segment of
no length, stands as its segments, with that one along x from the end of one lengthening to that of the other, where it has any. Where halves of a unit are wanted
all lengths are doubled.
"""
from .def_text import statements
from .routed import Paths, generated_via, use_of

# SPECIALNETS, special wiring: these and no others
SHAPES = ("RING", "PADRING", "BLOCKRING", "STRIPE", "FOLLOWPIN", "IOWIRE", "COREWIRE", "BLOCKWIRE", "BLOCKAGEWIRE", "FILLWIRE", "FILLWIREOPC", "DRCFILL")


LENGTHS = {"CUTSIZE": 2, "CUTSPACING": 2, "ENCLOSURE": 4}


def in_other_words(wiring, units, parts=1):
    """The text, in so many parts of a unit. So many of them are a micrometre: whoever compares it counts in units, whatever their length is."""
    placed = {array.via.name for net in wiring.nets for array in net.arrays}
    vias, nets = [], []
    for statement in statements(wiring.path):
        use = use_of(statement.words) if statement.section == "SPECIALNETS" else None
        if statement.section == "VIAS" and generated_via(statement.words) and statement.words[1] in placed:
            vias.append(" ".join([*via_words(statement.words, parts), ";"]))
        elif use:
            nets += net_lines(wiring, statement, use, parts)
    return "\n".join(["VERSION 5.8 ;", 'DIVIDERCHAR "/" ;', 'BUSBITCHARS "[]" ;', "DESIGN wiring ;", f"UNITS DISTANCE MICRONS {units} ;", f"VIAS {len(vias)} ;",
                      *vias, "END VIAS", f"SPECIALNETS {nets.count(';')} ;", *nets, "END SPECIALNETS", "END DESIGN", ""])


def via_words(words, parts):
    """A generated via in parts of a unit."""
    at_length = {at + more for at, word in enumerate(words) if words[at - 1] == "+" for more in range(1, 1 + LENGTHS.get(word, 0))}
    return [str(parts * int(word)) if at in at_length else word for at, word in enumerate(words)]


def net_lines(wiring, statement, use, parts):
    """A net, a line for each path."""
    said = [line for path in paths_of(wiring, statement) for line in path_lines(path, parts)]
    return [f"- {statement.words[1]} + USE {use}", *(f"{'NEW' if place else '+ ROUTED'} {line}" for place, line in enumerate(said)), ";"] if said else []


def paths_of(wiring, statement):
    """The paths of a net of power or ground."""
    kept = []
    Paths(wiring, statement, kept)
    return kept


def has_no_length(one, other):
    """Whether two points of a path are one place."""
    return one[:2] == other[:2]


def path_lines(path, parts):
    """A path, or each segment of it that has metal, from its layer on."""
    head = [path.layer, str(parts * path.width), *(["+", "SHAPE", path.shape] if path.shape in SHAPES else [])]
    segments = list(zip(path.points, path.points[1:]))
    if len(segments) < 2 and not any(has_no_length(*ends) for ends in segments):
        return [" ".join([*head, *point_words(path.words[5 if path.shape else 2:], parts)])]
    ends = [(((x - reach), y), (x + more, y)) if has_no_length((x, y), other) else ((x, y, reach), other) for (x, y, reach), other in segments for more in other[2:]]
    return [" ".join([*head, *(f"( {' '.join(str(parts * number) for number in point)} )" for point in points)]) for points in ends if points[0] != points[1]]


def point_words(words, parts):
    """The words of points and of a via behind them, in parts of a unit."""
    is_inside = False
    for word in words:
        is_inside = word == "(" or is_inside and word != ")"
        yield str(parts * int(word)) if is_inside and word not in ("(", "*") else word
