"""The branches of a report laid on the metal of the written DEF of the same run.

Each branch is the wire between two neighbouring junctions of a piece, or one array of a stack. What is a node of the report and lies
on no metal, an array that is no branch, and the like, show that the DEF is that of another design. Pins of blocks are not in a written
DEF: a branch along no piece is one of a pin where a stack of the DEF ends on it, and is laid where its two nodes are.
"""
from bisect import bisect_right
from typing import NamedTuple

from .numbering import layer_counts
from .netlist import read_layer_notes
from .refusal import Refused
from .wiring import Net, Piece

PIN = "PIN"
INFINITY = float("inf")


class Segment(NamedTuple):
    """A branch along a piece, from one place of it to another."""
    start: int
    end: int
    branch: int


class Metal:
    """The pieces and stacks of a DEF, found by net, layer and place."""

    def __init__(self, nets):
        self.lines, self.points, self.arrays = {}, set(), {}
        for net, held in enumerate(nets):
            for piece in held.pieces:
                across = piece.y1 if piece.is_horizontal else piece.x1
                self.lines.setdefault((net, piece.layer, piece.is_horizontal, across), []).append((*piece.span(), piece))
            for array in held.arrays:
                self.arrays.setdefault((net, array.via.lower, array.x, array.y), []).append(array)
                self.points.update((net, layer, array.x, array.y) for layer in (array.via.lower, array.via.upper))
        for pieces in self.lines.values():
            pieces.sort()

    def piece(self, net, layer, one, other):
        """The piece along whose centre line two places lie, or None."""
        (x, y), (other_x, other_y) = one, other
        found = self._along((net, layer, True, y), x, other_x) if y == other_y else None
        return self._along((net, layer, False, x), y, other_y) if found is None and x == other_x else found

    def _along(self, line, start, end):
        """The piece of a line that has two places of it, or None."""
        pieces = self.lines.get(line)
        if pieces is None:
            return None
        if start > end:
            start, end = end, start
        first, last, piece = pieces[0] if len(pieces) == 1 else pieces[max(bisect_right(pieces, (start, INFINITY)) - 1, 0)]
        return piece if first <= start and end <= last else None

    def meets(self, net, piece):
        """Whether a piece of the net and layer lies on the centre line of another within its ends."""
        start, end = piece.span()
        across = piece.y1 if piece.is_horizontal else piece.x1
        spans = self.lines.get((net, piece.layer, piece.is_horizontal, across), ())
        return any(first <= end and last >= start for first, last, _ in spans)

    def has(self, net, layer, place):
        """Whether a place is on a piece or in a stack."""
        return (net, layer, *place) in self.points or self.piece(net, layer, place, place) is not None


def nets_in_order(report, wiring, drops):
    """The nets of the DEF in the order of the report. One without metal may be absent from either."""
    held = {net.name: net for net in wiring.nets}
    names = {net.name for net in report.nets}
    for net in wiring.nets:
        if net.pieces and net.name not in names:
            raise Refused(wiring.path, net.line, f"the net {net.name} is not in {report.path}: the DEF is of another design")
    for place, net in enumerate(report.nets):
        if drops.nodes_of_net[place] and net.name not in held:
            raise Refused(report.path, 2 + place, f"the net {net.name} is not in {wiring.path}: the DEF is of another design")
    return [held.get(net.name) or Net(net.name, "", 0) for net in report.nets]


class Layers:
    """Which net and layer each number has: told by the netlist's comments, or found as the only ones that fit the metal.

    Nodes may lie on metal that the DEF does not have: pins of blocks. These nodes are no ends of stacks, which the DEF has all.
    """

    def __init__(self, chip):
        self.chip, self.report, self.wiring, self.points = chip, chip.report, chip.wiring, chip.drops.points
        self.stacked = {end for branch in self.report.branches for end in branch[:2] if self.points[branch.start].number != self.points[branch.end].number}

    def found(self, netlist):
        """The net and layer of each number."""
        possible = self._possible()
        if netlist is not None:
            return self._told(possible, netlist)
        above = {via.lower: via.upper for via in self.wiring.vias.values()}
        answers = []
        for layers in layer_counts(len(self.chip.nets), possible):
            answers += [answer for answer in layers_by_count(layers, possible, above) if answer not in answers]
        if len(answers) > 1:
            bare = [len(self.bare(answer)) for answer in answers]
            answers = [answer for answer, count in zip(answers, bare) if count == min(bare)]
        if not answers:
            raise Refused(self.wiring.path, None, f"no layers fit the names of the nodes of {self.report.path}: the DEF is of another design")
        if len(answers) > 1:
            raise Refused(self.report.path, 2, "the names of the nodes do not tell their layers; name the netlist by --netlist")
        return answers[0]

    def bare(self, answer):
        """The nodes that lie on no metal of the DEF, by these layers."""
        return [node for node, point in enumerate(self.points) if not self.chip.metal.has(*answer[point.number], point[1:])]

    def _possible(self):
        """For each number the nets and layers on whose metal its nodes at stacks lie; all of its nodes where none is at a stack."""
        every = [(net, layer) for net in range(len(self.chip.nets)) for layer in self.wiring.layers()]
        whole, stacked, has = {}, {}, self.chip.metal.has
        for node, (number, x, y) in enumerate(self.points):
            before = whole.get(number, every)
            fit = whole[number] = [pair for pair in before if has(*pair, (x, y))]
            if node in self.stacked:
                held = stacked.get(number, every)
                left = fit if held == before else [pair for pair in held if has(*pair, (x, y))]
                if not left:
                    self.chip.refuse_node(node)
                stacked[number] = left
        for node, point in enumerate(self.points):
            if not whole[point.number] and point.number not in stacked:
                self.chip.refuse_node(node)
        return {**whole, **stacked}

    def _told(self, possible, netlist):
        """What the netlist's comments say, where it fits the metal."""
        names, notes = [net.name for net in self.chip.nets], read_layer_notes(netlist)
        answer = {number: (names.index(notes[number][0]), notes[number][1]) for number in possible
                  if number in notes and notes[number][0] in names}
        if any(answer.get(number) not in pairs for number, pairs in possible.items()):
            raise Refused(netlist, 1, f"these layers and nets are not those of {self.wiring.path}")
        return answer


def orders(places, choices, above, chosen):
    """Each way to give the places of layers their names, of those that remain for each place: no name twice, and the upper
    layer of a via right above its lower one."""
    if len(chosen) == len(places):
        yield dict(chosen)
        return
    place = places[len(chosen)]
    for layer in choices[place]:
        is_free = layer not in chosen.values() and above.get(layer) not in chosen.values()
        if is_free and all((above[name] == layer) == (place == at + 1) for at, name in chosen.items() if name in above):
            yield from orders(places, choices, above, {**chosen, place: layer})


def layers_by_count(layers, possible, above):
    """Each way to give the numbers their nets and layers, if there are so many routing layers."""
    choices = {}
    for number, pairs in possible.items():
        net, place = divmod(number - 1, layers)
        fit = {layer for at, layer in pairs if at == net}
        choices[place] = choices.get(place, fit) & fit
    for order in orders(sorted(choices), choices, above, {}):
        yield {number: ((number - 1) // layers, order[(number - 1) % layers]) for number in possible}


class Chip:
    """A report and its DEF: for each piece its segments, and for each array its branch."""

    def __init__(self, report, wiring, drops, netlist=None):
        self.report, self.wiring, self.drops = report, wiring, drops
        self.nets = nets_in_order(report, wiring, drops)
        self.metal = Metal(self.nets)
        self.layer_of = Layers(self).found(netlist)
        self.segments, self.branch_of, self.pins = {}, {}, {}
        # the segments of a piece, found by the piece itself, since its words take long to be hashed
        self._laid = {}
        bare = [branch for branch, held in enumerate(report.branches) if not self._lay(branch, drops.points[held.start], drops.points[held.end])]
        self._lay_pins(bare)
        self._check_arrays()
        self._check_segments()

    def pieces(self, net):
        """The pieces of a net, and the lines of pins that the DEF does not have."""
        return [*self.nets[net].pieces, *self.pins.get(net, ())]

    def count_of_pins(self):
        """How many branches run along pins that the DEF does not have."""
        return sum(len(self.segments[net, piece]) for net, pieces in self.pins.items() for piece in pieces)

    def refuse_node(self, node):
        """Refuses a node that is nowhere on the metal."""
        raise Refused(self.report.path, self.report.line_of_node(node),
                      f"{self.report.nodes[node].name} lies on no metal of {self.wiring.path}: the DEF is of another design")

    def _refuse_branch(self, branch, what):
        raise Refused(self.report.path, self.report.line_of_branch(branch),
                      f"R{branch + 1} {what} of {self.wiring.path}: the DEF is of another design")

    def _lay(self, branch, start, end):
        """Lays a branch on its piece or its array; not where it has neither of its two ends on a piece that has both."""
        net, layer = self.layer_of[start.number]
        one, other = start[1:], end[1:]
        if start.number != end.number:
            self._lay_array(branch, net, {layer, self.layer_of[end.number][1]}, one)
            return True
        piece = self.metal.piece(net, layer, one, other)
        if one == other:
            self._refuse_branch(branch, f"runs along no piece of {layer}")
        if piece is None:
            return False
        self._lay_along(branch, net, piece, one, other)
        return True

    def _lay_along(self, branch, net, piece, one, other):
        """Lays a branch on its piece."""
        laid = self._laid.get(id(piece))
        if laid is None:
            laid = self._laid[id(piece)] = (0 if piece.is_horizontal else 1, self.segments.setdefault((net, piece), []))
        along, segments = laid
        start, end = one[along], other[along]
        segments.append(Segment(start, end, branch) if start <= end else Segment(end, start, branch))

    def _lay_array(self, branch, net, layers, place):
        """Lays a branch on the array between two layers at a place."""
        for lower in layers:
            for array in self.metal.arrays.get((net, lower, *place), ()):
                if array.via.upper in layers and (net, array) not in self.branch_of:
                    self.branch_of[net, array] = branch
                    return
        self._refuse_branch(branch, "goes through no array")

    def _lay_pins(self, bare):
        """Lays the branches that run along no piece: pins of blocks, which the DEF does not have. A pin is joined to the grid by a stack, and
        does not meet a piece on its line; else the DEF is of another design."""
        for (net, layer, is_horizontal, across), branches in self._lines_of(bare).items():
            for piece, held in pins_along(layer, is_horizontal, across, branches):
                ends = [end for branch in held for end in self.report.branches[branch][:2]]
                loose = [end for end in ends if not self.metal.has(net, layer, self.drops.points[end][1:])]
                is_held = any((net, layer, *self.drops.points[end][1:]) in self.metal.points for end in ends)
                if not is_held or self.metal.meets(net, piece):
                    self.refuse_node(loose[0]) if loose else self._refuse_branch(held[0], f"runs along no piece of {layer}")
                self.pins.setdefault(net, []).append(piece)
                for branch in held:
                    start, end = (self.drops.points[end][1:] for end in self.report.branches[branch][:2])
                    self._lay_along(branch, net, piece, start, end)

    def _lines_of(self, bare):
        """Branches by net, layer, direction and line, each with its span."""
        lines = {}
        for branch in bare:
            start, end = (self.drops.points[end] for end in self.report.branches[branch][:2])
            net, layer = self.layer_of[start.number]
            if start.x != end.x and start.y != end.y:
                self._refuse_branch(branch, f"runs along no piece of {layer}")
            is_horizontal = start.y == end.y
            span = sorted((start.x, end.x) if is_horizontal else (start.y, end.y))
            lines.setdefault((net, layer, is_horizontal, start.y if is_horizontal else start.x), []).append((*span, branch))
        return lines

    def _check_arrays(self):
        """Each array is a branch."""
        for net, held in enumerate(self.nets):
            for array in held.arrays:
                if (net, array) not in self.branch_of:
                    raise Refused(self.wiring.path, array.line, f"this array is no branch of {self.report.path}: the DEF is of another design")

    def _check_segments(self):
        """The segments of a piece meet, end to end."""
        for segments in self.segments.values():
            segments.sort()
            for one, other in zip(segments, segments[1:]):
                if one.end != other.start:
                    self._refuse_branch(other.branch, "does not begin where its neighbour ends on a piece")


def pins_along(layer, is_horizontal, across, spans):
    """The pins along a line: spans that meet end to end are one, which has no width here; each with its branches."""
    runs = []
    for start, end, branch in sorted(spans):
        if runs and start == runs[-1][1]:
            runs[-1][1] = end
            runs[-1][2].append(branch)
        else:
            runs.append([start, end, [branch]])
    for start, end, branches in runs:
        ends = (start, across, end, across) if is_horizontal else (across, start, across, end)
        yield Piece(layer, 0, PIN, *ends, 0), branches
