"""The map of a chip: its metal in the colours of a view, with a legend."""
from collections import defaultdict
from typing import NamedTuple

from .colours import BARE, BEYOND
from .matching import PIN
from .raster import Raster
from .svg import Window, element, title, words
from .units import millivolts, trimmed
from .views import words_of

SPAN = 900, 720
SIDE = 330
EDGE = 28
HEAD = 64
LINE = 17
RING = 11
GREY = "#5a6070"


class Part(NamedTuple):
    """A rectangle of one colour: its colour's number (0 for metal without one), and what hovering says."""
    box: tuple
    colour: int
    words: str
    is_stack: bool = False


def ranks(wiring):
    """How many layers lie below each layer in the chain of vias."""
    below = {via.upper: via.lower for via in wiring.vias.values()}

    def rank(layer):
        return 1 + rank(below[layer]) if layer in below else 0
    return {layer: rank(layer) for layer in wiring.layers()}


def diamond(x, y, content=""):
    """The sign of a pad."""
    return element("path", content, d=f"M{x} {y - 7}l7 7l-7 7l-7 -7z", fill="#ffffff", stroke="#111111", stroke_width=1.5)


def ring(x, y, content=""):
    """The sign of a worst place."""
    return "".join(element("circle", content, cx=x, cy=y, r=RING, fill="none", stroke=stroke, stroke_width=width)
                   for stroke, width in (("#ffffff", 5), ("#111111", 2)))


def size_of(die, units):
    """The size of the die in words, where both are known."""
    if die is None:
        return "a die of unknown size"
    lengths = (die[2] - die[0], die[3] - die[1])
    if units is None:
        return f"{lengths[0]} by {lengths[1]} units"
    return " by ".join(trimmed(length * 10 ** 6 // units, 6) for length in lengths) + " µm"


def heading(chip, head):
    """What is drawn: the design, its die, and the files."""
    pins = chip.count_of_pins()
    return (f"{head.design or 'a design without a name'}: {size_of(head.die, head.units)}",
            f"{len(chip.report.nodes)} nodes, {len(chip.report.branches)} branches; {chip.report.verdicts(chip.report.branches)}"
            + (f"; {pins} along pins of blocks, which the DEF does not have" if pins else ""))


class Map:
    """What is drawn of a chip in one view."""

    def __init__(self, chip, view, scale, readings, rows=(), cells=()):
        self.chip, self.view, self.scale = chip, view, scale
        self.rows, self.cells = rows, cells
        self.colours = [BARE, *scale.colours, BEYOND]
        boxes = [chip.wiring.bounds(), *(row.box for row in rows), *(cell.box for cell in cells)]
        low, high = [min(box[k] for box in boxes) for k in (0, 1)], [max(box[k] for box in boxes) for k in (2, 3)]
        self.unit = max(high[0] - low[0], high[1] - low[1], 1000) // 100
        self.box = (low[0] - 2 * self.unit, low[1] - 2 * self.unit, high[0] + 2 * self.unit, high[1] + 2 * self.unit)
        bands = {value: 1 + scale.band(value) for value in {reading.value for reading in readings} - {None}}
        # the number of each branch's colour: 0 for metal without one, the last beyond its limit
        self.numbers = [len(self.colours) - 1 if is_beyond else bands.get(value, 0) for value, is_beyond in readings]

    def box_of(self, piece, start=None, end=None):
        """The rectangle of a piece or of a part of it as it is drawn: at least as wide as can be seen."""
        x1, y1, x2, y2 = piece.box(start, end)
        more = max(self.unit * 3 // 10 - piece.width, 0) // 2
        return (x1, y1 - more, x2, y2 + more) if piece.is_horizontal else (x1 - more, y1, x2 + more, y2)

    def runs(self, net, piece):
        """The parts of a piece: neighbouring segments of one colour are joined."""
        runs = []
        for segment in self.chip.segments.get((net, piece), ()):
            number = self.numbers[segment.branch]
            if runs and runs[-1][0] == number:
                runs[-1][1].append(segment)
            else:
                runs.append((number, [segment]))
        for number, segments in runs:
            yield Part(self.box_of(piece, segments[0].start, segments[-1].end), number, self.run_words(net, piece, segments))

    def piece_words(self, net, piece):
        """What a piece is."""
        shape = "pin of a block, which the DEF does not have" if piece.shape == PIN else piece.shape
        return f"{self.chip.nets[net].name} {piece.layer} {shape}"

    def run_words(self, net, piece, segments):
        """What hovering says of some segments of a piece."""
        first, last = segments[0], segments[-1]
        names = f"{self.node_at(piece, first, first.start)} to {self.node_at(piece, last, last.end)}"
        count = f"R{first.branch + 1}" if first is last else f"{len(segments)} branches"
        return "\n".join([self.piece_words(net, piece), f"{names}, {count}",
                          words_of(self.chip.drops, [segment.branch for segment in segments])])

    def node_at(self, piece, segment, place):
        """The name of the end of a segment that is at a place along its piece."""
        branch = self.chip.report.branches[segment.branch]
        along = 1 if piece.is_horizontal else 2
        node = branch.start if self.chip.drops.points[branch.start][along] == place else branch.end
        return self.chip.report.nodes[node].name

    def stacks(self, net):
        """The stacks of a net, each with the worst colour of its arrays."""
        held = defaultdict(list)
        for array in self.chip.nets[net].arrays:
            held[array.x, array.y].append(array)
        for (x, y), arrays in held.items():
            branches = [self.chip.branch_of[net, array] for array in arrays]
            half = [max([self.unit // 5, *(array.via.half_size()[k] for array in arrays)]) for k in (0, 1)]
            layers = f"{arrays[0].via.lower} to {arrays[-1].via.upper}"
            said = f"stack of {self.chip.nets[net].name} at ( {x} {y} ), {layers}\n{words_of(self.chip.drops, branches)}"
            yield Part((x - half[0], y - half[1], x + half[0], y + half[1]), max(self.numbers[branch] for branch in branches), said, True)

    def pieces_by_layer(self, nets):
        """Nets and pieces from the lowest layer to the highest."""
        rank = ranks(self.chip.wiring)
        pieces = [(net, piece) for net in nets for piece in self.chip.pieces(net)]
        return sorted(pieces, key=lambda held: rank[held[1].layer])

    def frames(self, window):
        """The die, the rows and the cells."""
        die = self.chip.wiring.die
        drawn = [window.rect(die, title("the die"), fill="#fbfbfa", stroke="#60656f", stroke_width=1, vector_effect="non-scaling-stroke")] if die else []
        for place, row in enumerate(self.rows):
            drawn.append(window.rect(row.box, title(f"row {row.name}"), fill="#eceef1" if place % 2 == 0 else "#f5f6f7"))
        for cell in self.cells:
            drawn.append(window.rect(cell.box, title(f"{cell.name}, a {cell.kind}"), fill="none", stroke="#8a8f98", stroke_width=1, stroke_dasharray="4 3",
                                     vector_effect="non-scaling-stroke", pointer_events="all"))
        return drawn

    def parts(self, nets):
        """The coloured parts of some nets, the worst last, so that nothing hides it."""
        parts = [part for net, piece in self.pieces_by_layer(nets) for part in self.runs(net, piece)]
        parts += [part for net in nets for part in self.stacks(net)]
        return sorted(parts, key=lambda part: part.colour)

    def metal(self, window, nets):
        """The metal of some nets in grey, layer by layer, and what has a colour over it."""
        drawn = []
        for net, piece in self.pieces_by_layer(nets):
            drawn.append(window.rect(self.box_of(piece), title(self.piece_words(net, piece)), fill=BARE))
        edge = {"stroke": "#1d2129", "stroke_width": 1, "vector_effect": "non-scaling-stroke"}
        return drawn + [window.rect(part.box, title(part.words), fill=self.colours[part.colour], **(edge if part.is_stack else {}))
                        for part in self.parts(nets)]

    def raster(self, window, nets, cells):
        """The metal of some nets as a picture of so many cells along the longer side, in each the worst."""
        raster = Raster(self.box, cells)
        for net, piece in self.pieces_by_layer(nets):
            raster.paint(self.box_of(piece), 1)
        for part in self.parts(nets):
            raster.paint(part.box, 1 + part.colour)
        return [element("image", x=0, y=0, width=window.across, height=window.up, preserveAspectRatio="none", href=raster.data_link(self.colours))]

    def pads(self, window, nets):
        """The pads: nodes that stand at their supply."""
        drops = self.chip.drops
        for node in (node for net in nets for node in drops.nodes_of_net[net] if drops.is_pad(node)):
            held = self.chip.report.nodes[node]
            yield diamond(*window.point(*drops.points[node][1:]), title(f"pad {held.name}, {millivolts(held.low)} mV"))

    def marks(self, window, nets):
        """The worst place of each net: a ring, and words beside it that keep clear of the others."""
        taken = []
        for mark in filter(None, map(self.view.mark, nets)):
            x, y = window.point(mark.x, mark.y)
            yield ring(x, y, title(mark.label))
            is_left, is_high = x < window.x + window.width // 2, y < window.y + window.height // 2
            at = y + (30 if is_high else -19)
            while any(abs(at - other) < LINE for other in taken):
                at += LINE if is_high else -LINE
            taken.append(at)
            yield words(x + (RING if is_left else -RING), at, mark.label, text_anchor="start" if is_left else "end", fill="#111111",
                        font_weight="bold", stroke="#ffffff", stroke_width=4, paint_order="stroke", stroke_linejoin="round")

    def panel(self, window, nets, cells=None):
        """The map of some nets in a window; of so many cells where a count is given."""
        drawn = self.frames(window) + (self.metal(window, nets) if cells is None else self.raster(window, nets, cells))
        return "\n".join([window.content(drawn), *self.pads(window, nets), *self.marks(window, nets)])

    def legend(self, x, y, nets):
        """The colours with the ends of their bands, what the signs mean, and the worst of each net."""
        drawn, scale = [], self.scale
        drawn += [words(x, y, self.view.heading, font_weight="bold"), words(x, y + LINE, self.view.unit_words, fill=GREY)]
        y += 2 * LINE
        if max(self.numbers, default=0) == len(self.colours) - 1:
            drawn += [element("rect", x=x, y=y, width=22, height=LINE, fill=BEYOND), words(x + 34, y + 13, self.view.beyond)]
            y += LINE + 8
        for band in reversed(range(len(scale.colours))):
            drawn += [element("rect", x=x, y=y, width=22, height=LINE, fill=scale.colours[band]),
                      words(x + 34, y + 5, scale.label(scale.ends[band]))]
            y += LINE
        drawn.append(words(x + 34, y + 5, "0"))
        y += LINE
        drawn += [element("rect", x=x, y=y, width=22, height=LINE - 4, fill=BARE), words(x + 34, y + 11, self.view.bare, fill=GREY)]
        y += LINE + 8
        drawn += [diamond(x + 11, y + 5), words(x + 34, y + 10, "pad", fill=GREY),
                  element("rect", x=x + 86, y=y, width=10, height=10, fill="#ffffff", stroke="#1d2129"), words(x + 104, y + 10, "stack", fill=GREY),
                  ring(x + 172, y + 5), words(x + 190, y + 10, "worst", fill=GREY)]
        return "\n".join(drawn + self.net_lines(x, y + 2 * LINE, nets))

    def net_lines(self, x, y, nets):
        """For each net its supply, its worst place, and the verdict of its drop limit."""
        drawn = []
        for net in nets:
            held, supply, mark = self.chip.report.nets[net], self.chip.drops.supplies[net], self.view.mark(net)
            limit = "no drop limit" if held.limit is None else f"drop limit {trimmed(held.limit, 21)} mV: {held.verdict}"
            stands = "no nodes" if supply is None else f"supply {trimmed(supply.low, 6)} mV"
            y += LINE + 8
            drawn.append(words(x, y, held.name, font_weight="bold"))
            for line in (stands, *(mark.lines if mark else ()), limit):
                y += LINE
                drawn.append(words(x + 12, y, line))
        return drawn

    def page(self, heading, panels, cells=None):
        """The whole picture: a heading, a panel for each list of nets with its caption, and the legend."""
        across, up = self.box[2] - self.box[0], self.box[3] - self.box[1]
        beside = len(panels) if 2 * across < 3 * up else 1
        room = (SPAN[0] if beside == 1 else SPAN[0] * 13 // 10 // beside, SPAN[1])
        width = min(room[0], room[1] * across // up)
        height = max(width * up // across, 1)
        drawn = [words(EDGE, 30, heading[0], font_size=19, font_weight="bold"), words(EDGE, 50, heading[1], fill=GREY)]
        for place, (caption, nets) in enumerate(panels):
            x = EDGE + (place % beside) * (width + EDGE)
            y = HEAD + (place // beside) * (height + 2 * LINE)
            if caption:
                drawn.append(words(x, y + LINE, caption, font_weight="bold"))
            drawn.append(self.panel(Window(self.box, x, y + LINE + 6, width, height), nets, cells))
        x = EDGE + beside * (width + EDGE)
        shown = sorted({net for _, nets in panels for net in nets})
        drawn.append(self.legend(x, HEAD + 2 * LINE, shown))
        lines = len(self.scale.colours) + 11 + 5 * len(shown)
        end = max(HEAD + -(-len(panels) // beside) * (height + 2 * LINE), HEAD + lines * LINE) + 2 * LINE
        drawn.append(words(EDGE, end - 12, "Drawn from files that pdn wrote; it claims nothing that they do not say.", fill=GREY, font_size=12))
        return element("svg", "\n" + "\n".join([element("rect", width="100%", height="100%", fill="#ffffff"), *drawn]) + "\n",
                       xmlns="http://www.w3.org/2000/svg", viewBox=f"0 0 {x + SIDE} {end}", width=x + SIDE, height=end,
                       font_family="DejaVu Sans, Verdana, sans-serif", font_size=13) + "\n"
