"""Supply nets that any tool wired: the generated vias of a DEF, and the paths of its special nets of power and ground.

It is read as `pdn signoff` reads it. Segments of one net, layer, width and centre line that meet are one piece. What lies in a
DEF that `pdn build` wrote comes out as `wiring` reads it.
"""
from typing import NamedTuple

from .def_text import Head, statements
from .refusal import Refused
from .wiring import Array, Net, Piece, Via

_VIA_WORDS = {"VIARULE": 1, "CUTSIZE": 2, "LAYERS": 3, "CUTSPACING": 2, "ENCLOSURE": 4, "ROWCOL": 2}
ROUTES = ("ROUTED", "FIXED", "COVER")
# of the shapes in one piece the first counts
_SHAPES = ("RING", "STRIPE", "FOLLOWPIN")


class Path(NamedTuple):
    """A path of wiring: the word behind SHAPE, if there is one, and the points, each as x, y and how far the metal goes on beyond it. Its words go from
    the layer on."""
    layer: str
    width: int
    shape: str
    points: list
    words: list
    line: int


class Routed(Head):
    """What a DEF says of its die and of its nets of power and ground. Design, units and die may be absent."""

    def __init__(self, path):
        super().__init__(path)
        self.vias, self.nets = {}, []
        for statement in statements(path):
            if statement.section == "VIAS":
                via = generated_via(statement.words)
                self.vias.update({via.name: via} if via else {})
            elif statement.section == "SPECIALNETS":
                self._take_net(statement)
            elif not statement.section:
                self.take(statement)
        if not any(net.pieces for net in self.nets):
            raise Refused(path, None, "no net of power or ground has wiring here")

    def layers(self):
        """The names of the layers of pieces and vias, each once."""
        names = dict.fromkeys(piece.layer for net in self.nets for piece in net.pieces)
        names.update(dict.fromkeys(layer for via in self.vias.values() for layer in (via.lower, via.upper)))
        return list(names)

    def bounds(self):
        """The smallest rectangle with the die and all pieces in it."""
        boxes = [piece.box() for net in self.nets for piece in net.pieces]
        if self.die:
            boxes.append(self.die)
        return tuple(min(box[k] for box in boxes) for k in (0, 1)) + tuple(max(box[k] for box in boxes) for k in (2, 3))

    def _take_net(self, statement):
        """Takes a net of power or ground."""
        use = use_of(statement.words)
        if use is None:
            return
        paths = Paths(self, statement)
        net = Net(statement.words[1], use, statement.lines[0])
        net.pieces, net.arrays = joined_pieces(paths.segments), paths.arrays
        self.nets.append(net)


def use_of(words):
    """POWER or GROUND, where that is the use of this net: the first of them that it says. Else None."""
    return next((words[at + 1] for at in range(3, len(words) - 1)
                 if words[at - 1:at + 1] == ["+", "USE"] and words[at + 1] in ("POWER", "GROUND")), None)


def generated_via(words):
    """The via that an entry of VIAS is. None where no rule generates it or it is not in the form that pdn reads: no path may end with that."""
    held = {}
    for at, word in enumerate(words):
        if word == "+" and at + 1 < len(words) and words[at + 1] in _VIA_WORDS:
            held[words[at + 1]] = words[at + 2:at + 2 + _VIA_WORDS[words[at + 1]]]
    try:
        (width, height), (across, up), enclosure = (tuple(map(int, held[name])) for name in ("CUTSIZE", "CUTSPACING", "ENCLOSURE"))
        rows, columns = map(int, held.get("ROWCOL", (1, 1)))
        lower, _, upper = held["LAYERS"]
    except (KeyError, ValueError):
        return None
    if "VIARULE" not in held or len(enclosure) != 4:
        return None
    span = (columns * width + (columns - 1) * across, rows * height + (rows - 1) * up)
    return Via(words[1], lower, held["LAYERS"][1], upper, span, enclosure)


class Paths:
    """The paths of a net, as segments and arrays. Each path is put into a list, where one is handed in."""

    def __init__(self, routed, statement, kept=None):
        self.routed, self.statement, self.kept = routed, statement, kept
        self.words, self.lines = statement.words, statement.lines
        self.segments, self.arrays = [], []
        at, is_routed = 2, False
        while at < len(self.words):
            if self.words[at] == "+":
                # `NEW` goes on with wiring alone: behind another part it is passed over with it
                is_routed = self.word(at + 1) in ROUTES
                at = self._take_path(at + 2) if is_routed else at + 1
            elif self.words[at] == "NEW" and is_routed:
                at = self._take_path(at + 1)
            else:
                at += 1

    def word(self, at):
        """The word there, which is empty behind the last."""
        return self.words[at] if at < len(self.words) else ""

    def refuse(self, at):
        line = self.lines[min(at, len(self.lines) - 1)]
        raise Refused(self.routed.path, line, f"'{self.word(at) or ';'}' stands where a path of wiring goes on, which pdn does not read either")

    def _take_path(self, at):
        """Takes a path from its layer on: the place behind it."""
        begin, layer, width, shape, points = at, self.word(at), self.routed.whole(self.statement, at + 1), "", []
        at += 2
        if self.word(at) == "+" and self.word(at + 1) == "SHAPE":
            shape, at = self.word(at + 2), at + 3
        while self.word(at) == "(":
            found, at_next = self._point(at, points[-1] if points else None)
            if points:
                self._segment(layer, width, shape, points[-1], found, self.lines[at])
            points.append(found)
            at = at_next
        if self.word(at) not in ("", "+", "NEW"):
            at = self._take_array(at, points[-1] if points else None)
        if not points or self.word(at) not in ("", "+", "NEW"):
            self.refuse(at)
        if self.kept is not None:
            self.kept.append(Path(layer, width, shape, points, self.words[begin:at], self.lines[begin]))
        return at

    def _point(self, at, before):
        """A point: x, y, and how far the metal goes on beyond it; and the place behind it."""
        end = next((k for k in range(at + 1, min(at + 5, len(self.words))) if self.words[k] == ")"), None)
        if end is None or end - at not in (3, 4):
            self.refuse(at)
        values = []
        for k in (1, 2):
            is_repeated = self.words[at + k] == "*" and before is not None
            values.append(before[k - 1] if is_repeated else self.routed.whole(self.statement, at + k))
        values.append(self.routed.whole(self.statement, at + 3) if end - at == 4 else 0)
        return tuple(values), end + 1

    def _segment(self, layer, width, shape, one, other, line):
        """A segment between two points, lengthened beyond each of them. Between two equal points it goes along x, and is none without a lengthening."""
        if one[0] != other[0] and one[1] != other[1]:
            raise Refused(self.routed.path, line, "a segment goes along x or along y")
        along = 0 if one[1] == other[1] else 1
        first, last = (one, other) if one[along] <= other[along] else (other, one)
        ends = [list(first[:2]), list(last[:2])]
        ends[0][along] -= first[2]
        ends[1][along] += last[2]
        if ends[0] != ends[1]:
            self.segments.append(Piece(layer, width, kind_of(shape, along == 0), *ends[0], *ends[1], line))

    def _take_array(self, at, point):
        """Takes the via at the end of a path: the place behind it."""
        via = self.routed.vias.get(self.words[at])
        if via is None or point is None:
            raise Refused(self.routed.path, self.lines[at], f"no generated via {self.words[at]} stands above")
        self.arrays.append(Array(*point[:2], via, self.lines[at]))
        return at + (2 if self.word(at + 1) == "N" else 1)


def kind_of(shape, is_horizontal):
    """What a shape counts as: a ring, along x a rail, and else a strap."""
    return shape if shape == "RING" or (shape == "FOLLOWPIN" and is_horizontal) else "STRIPE"


def joined_pieces(segments):
    """The segments as pieces: those of one layer, width and centre line that meet are one, with the first of the shapes of all,
    in the order of the first of each."""
    lines = {}
    for place, segment in enumerate(segments):
        across = segment.y1 if segment.is_horizontal else segment.x1
        lines.setdefault((segment.layer, segment.width, segment.is_horizontal, across), []).append((*segment.span(), place))
    found = []
    for spans in lines.values():
        runs = []
        for start, end, place in sorted(spans):
            if runs and start <= runs[-1][1]:
                runs[-1][1] = max(runs[-1][1], end)
                runs[-1][2].append(place)
            else:
                runs.append([start, end, [place]])
        found += runs
    found.sort(key=lambda run: min(run[2]))
    return [joined_piece([segments[place] for place in sorted(places)], start, end) for start, end, places in found]


def joined_piece(segments, start, end):
    """The piece that some segments make from start to end."""
    first, shape = segments[0], min((segment.shape for segment in segments), key=_SHAPES.index)
    ends = (start, first.y1, end, first.y1) if first.is_horizontal else (first.x1, start, first.x1, end)
    return Piece(first.layer, first.width, shape, *ends, first.line)
