"""The map as one page without any other: what `map_page` has, with the report, the metal and the cells as packed columns of numbers."""
import base64
import html
import json
import os
import sys
import zlib
from array import array

from .bounds import NANOVOLT, is_over, share
from .chip_map import ranks
from .colours import BARE, BEYOND, STOPS
from .matching import PIN
from .refusal import read_text
from .report import VERDICTS
from .svg import fit
from .units import trimmed

FOLDER = os.path.join(os.path.dirname(os.path.abspath(__file__)), "map_page")
SCRIPTS = ("data.js", "values.js", "tiles.js", "words.js", "view.js", "main.js", "side.js", "pointer.js", "start.js")
CODES = {"i4": "i", "u4": "I", "u2": "H", "u1": "B", "f8": "d"}
NONE = float("nan")
WIRE, ARRAY, OF_PIN = 0, 1, 2
SAYS = {"node": "Upper bounds of the drop, from the certified intervals of the nodes.",
        "branch": "Upper bounds of the current. The interval of a current comes from those of its two nodes taken apart, and may be many times too wide.",
        "cell": "Upper bounds of what a cell lacks of its supply, from the certified intervals of its nodes."}


def column(name, kind, values):
    """A column of numbers as a part of the page."""
    numbers = array(CODES[kind], values)
    if sys.byteorder == "big":
        numbers.byteswap()
    return part(name, kind, numbers.tobytes())


def part(name, kind, data):
    """Bytes as a part of the page, packed."""
    packed = base64.b64encode(zlib.compress(data, 6)).decode("ascii")
    return f'<script type="text/plain" data-kind="{kind}" id="{name}">{packed}</script>'


class Page:
    """The page of a chip, with cells where a placed design is given, and their voltages where taps are."""

    def __init__(self, chip, head, heading, placed=None, seen=None):
        self.chip, self.report, self.drops = chip, chip.report, chip.drops
        self.head, self.heading, self.placed, self.seen = head, heading, placed, seen
        self.layers = self.layers_in_order()
        self.layer_place = {layer: place for place, layer in enumerate(self.layers)}
        self.limits = list(dict.fromkeys(branch.limit for branch in self.report.branches))

    def text(self):
        """The whole page."""
        head = json.dumps(self.facts(), separators=(",", ":")).replace("<", "\\u003c")
        arrays = "\n".join([*self.node_columns(), *self.branch_columns(), *self.piece_columns(), *self.cell_columns()])
        files = {name: read_text(os.path.join(FOLDER, name)) for name in ("page.html", "style.css", "notes.html", *SCRIPTS)}
        parts = {"TITLE": html.escape(fit(self.heading[0])), "STYLE": files["style.css"], "NOTES": files["notes.html"],
                 "SCRIPT": "\n".join(files[name] for name in SCRIPTS), "HEAD": head, "ARRAYS": arrays}
        page = files["page.html"]
        for name in ("TITLE", "STYLE", "NOTES", "SCRIPT", "ARRAYS", "HEAD"):
            before, mark, after = page.partition(f"@{name}@")
            page = before + (parts[name] if mark else "") + after
        return page

    def layers_in_order(self):
        """The layers from the lowest up: those with nodes by their numbers, the others by the chain of vias."""
        order, rank = {}, ranks(self.chip.wiring)
        for number, (_, layer) in sorted(self.chip.layer_of.items()):
            order.setdefault(layer, []).append(number)
        first = sorted(order, key=lambda layer: self.place_of_number(order[layer][0]))
        return first + sorted((layer for layer in self.chip.wiring.layers() if layer not in order), key=lambda layer: rank[layer])

    def place_of_number(self, number):
        """The place of the layer of a number, which counts on by the count of layers from net to net."""
        count = next(((other - one) // (net_b - net_a) for one, (net_a, layer_a) in self.chip.layer_of.items()
                      for other, (net_b, layer_b) in self.chip.layer_of.items() if layer_a == layer_b and net_b > net_a), None)
        return number if count is None else (number - 1) % count

    def facts(self):
        """All but the columns."""
        die, box = self.head.die, self.chip.wiring.bounds()
        if self.head.die:
            box = tuple(min(die[k], box[k]) for k in (0, 1)) + tuple(max(die[k], box[k]) for k in (2, 3))
        components = self.placed.frames() if self.placed else ()
        self.kinds = list(dict.fromkeys(component.kind for component in components))
        return {"title": self.heading[0], "counts": self.heading[1], "units": self.head.units, "die": die, "box": box, "layers": self.layers,
                "nets": [self.net_facts(net) for net in range(len(self.report.nets))], "limits": [None if limit is None else trimmed(limit, 12) for limit in self.limits],
                "verdicts": VERDICTS, "cells": len(components), "kinds": self.kinds, "tied": self.seen is not None, "says": SAYS,
                "stops": STOPS, "bare": rgb(BARE), "beyond": rgb(BEYOND)}

    def net_facts(self, net):
        """A net: its name and supply, the limit of its drop, and what percents are of, in nanovolts."""
        held, supply = self.report.nets[net], self.drops.supplies[net]
        others = sorted(other.low for other in self.drops.supplies if other and other.low > 0)
        own = supply.low if supply else 0
        percent_of = own if own > 0 else (others[0] if others else 0)
        limit = "no drop limit" if held.limit is None else f"drop limit {trimmed(held.limit, 21)} mV, {held.verdict}"
        stands = "no nodes" if supply is None else f"{trimmed(supply.low, 6)} mV"
        return {"name": held.name, "words": f"{held.name}: {stands}, {limit}", "limit": held.limit / NANOVOLT if held.limit else None,
                "percentOf": percent_of, "percentWords": f"{trimmed(percent_of, 6)} mV"}

    def node_columns(self):
        """The columns of the nodes."""
        nodes, points, drops = self.report.nodes, self.drops.points, self.drops
        of_number = {number: (net, self.layer_place[layer]) for number, (net, layer) in self.chip.layer_of.items()}
        yield column("nodeNumber", "u4", [point.number for point in points])
        yield column("nodeX", "f8", [point.x for point in points])
        yield column("nodeY", "f8", [point.y for point in points])
        yield column("nodeNet", "u2", [of_number[point.number][0] for point in points])
        yield column("nodeLayer", "u2", [of_number[point.number][1] for point in points])
        yield column("nodeLow", "f8", [node.low for node in nodes])
        yield column("nodeHigh", "f8", [node.high for node in nodes])
        yield column("nodeDrop", "f8", drops.bounds)
        yield column("nodeBeyond", "u1", [drops.is_beyond(node) for node in range(len(nodes))])
        yield column("pads", "u4", [node for node in range(len(nodes)) if drops.is_pad(node)])

    def branch_boxes(self):
        """For each branch its box, its lower and upper layer, and its kind."""
        laid = [None] * len(self.report.branches)
        for (_, piece), segments in self.chip.segments.items():
            layer = self.layer_place[piece.layer]
            for segment in segments:
                laid[segment.branch] = (*piece.box(segment.start, segment.end), layer, layer, OF_PIN if piece.shape == PIN else WIRE)
        for (_, held), branch in self.chip.branch_of.items():
            across, up = held.via.half_size()
            laid[branch] = (held.x - across, held.y - up, held.x + across, held.y + up,
                            self.layer_place[held.via.lower], self.layer_place[held.via.upper], ARRAY)
        return laid

    def branch_columns(self):
        """The columns of the branches."""
        branches, laid = self.report.branches, self.branch_boxes()
        for place, name in enumerate(("Left", "Bottom", "Right", "Top")):
            yield column(f"branch{name}", "f8", [held[place] for held in laid])
        for place, name in enumerate(("Layer", "Upper", "Kind"), 4):
            yield column(f"branch{name}", "u2", [held[place] for held in laid])
        limit_place = {limit: place for place, limit in enumerate(self.limits)}
        yield column("branchStart", "u4", [branch.start for branch in branches])
        yield column("branchEnd", "u4", [branch.end for branch in branches])
        yield column("branchLow", "f8", [branch.low for branch in branches])
        yield column("branchHigh", "f8", [branch.high for branch in branches])
        yield column("branchLimit", "u4", [limit_place[branch.limit] for branch in branches])
        yield column("branchShare", "f8", [NONE if share(branch) is None else share(branch) for branch in branches])
        yield column("branchVerdict", "u1", [VERDICTS.index(branch.verdict) for branch in branches])
        yield column("branchOver", "u1", [is_over(branch) for branch in branches])

    def piece_columns(self):
        """The columns of the pieces."""
        pieces = [(net, piece) for net in range(len(self.chip.nets)) for piece in self.chip.pieces(net)]
        boxes = [piece.box() for _, piece in pieces]
        for place, name in enumerate(("Left", "Bottom", "Right", "Top")):
            yield column(f"piece{name}", "f8", [box[place] for box in boxes])
        yield column("pieceNet", "u2", [net for net, _ in pieces])
        yield column("pieceLayer", "u2", [self.layer_place[piece.layer] for _, piece in pieces])

    def cell_columns(self):
        """The columns of the cells, where a placed design is given."""
        components = self.placed.frames() if self.placed else ()
        if not components:
            return
        kind_place = {kind: place for place, kind in enumerate(self.kinds)}
        for place, name in enumerate(("Left", "Bottom", "Right", "Top")):
            yield column(f"cell{name}", "f8", [component.box[place] for component in components])
        yield column("cellKind", "u4", [kind_place[component.kind] for component in components])
        yield part("cellNames", "text", "\n".join(fit(component.name) for component in components).encode())
        held = {seen.tied.component: seen for seen in self.seen or ()}
        yield column("cellLost", "f8", [held[component].lost if component in held else NONE for component in components])
        yield column("cellLeast", "f8", [held[component].least if component in held else NONE for component in components])


def rgb(colour):
    """A colour as its three numbers."""
    return list(bytes.fromhex(colour[1:]))
