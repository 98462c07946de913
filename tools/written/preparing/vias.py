"""Vias of foreign wiring as generated vias: those of a rule in the one order that `pdn` reads, fixed ones as arrays of as many cuts."""
import math
from typing import NamedTuple

from .design import parts_of, whole
from .technology_text import cut_part, pair_of

ORDER = ("VIARULE", "CUTSIZE", "LAYERS", "CUTSPACING", "ENCLOSURE", "ROWCOL")


class Generated(NamedTuple):
    """A generated via: its layers from the lowest, how many cuts it has, and its entry."""
    lower: str
    upper: str
    cuts: int
    text: str


class Vias:
    """The vias that wiring may name: those of the design, and the fixed ones of the LEF. Each is made where it is used first."""

    def __init__(self, design, library, rules):
        self.design, self.library = design, library
        self.entries = {str(words[1]): words for words in design.vias}
        self.rules = {}
        for rule in rules:
            self.rules.setdefault(pair_of(library, [part.layer for part in rule.parts]), []).append(rule)
        self.made = {}

    def get(self, word):
        """The generated via of a name in the wiring."""
        name = str(word)
        if name not in self.made:
            if name in self.entries:
                self.made[name] = self.of_entry(name, self.entries[name])
            elif name in self.library.vias:
                self.made[name] = self.of_boxes(word, name, self.boxes_of_lef(name))
            else:
                self.design.source.refuse(word, "no via of the design or of the LEF has this name")
        return self.made[name]

    def of_entry(self, name, words):
        """The via of an entry of VIAS."""
        source = self.design.source
        parts = [(source.as_keyword(keyword), keyword, held) for keyword, held in parts_of(source, words)]
        if any(part == "VIARULE" for part, _, _ in parts):
            return self.of_rule(name, parts)
        boxes = {}
        for part, keyword, held in parts:
            if part != "RECT":
                source.refuse(keyword, f"of via {name}: no generated via is made of it; write the via by a rule")
            corners = [whole(source, word) for word in held[1:] if word not in "()"]
            if len(corners) != 4:
                source.refuse(keyword, f"of via {name}: RECT layer and two corners are due")
            boxes.setdefault(str(held[0]), []).append(tuple(corners))
        return self.of_boxes(words[1], name, boxes)

    def of_rule(self, name, parts):
        """A via that a rule made, with its parts in order."""
        source, found = self.design.source, {}
        for part, keyword, held in parts:
            if part in ("ORIGIN", "OFFSET") and all(whole(source, word) == 0 for word in held):
                source.tell("left out", keyword, f"of via {name}: it is 0")
            elif part in ORDER:
                found[part] = held
            else:
                source.refuse(keyword, f"of via {name}: its metal or cuts are not those of the rule; write a via without it")
        lacks = [part for part in ORDER[:5] if part not in found]
        if lacks or len(found["LAYERS"]) != 3:
            source.refuse(parts[0][1], f"of via {name}: {(lacks or ['LAYERS with three names'])[0]} is due")
        if [part for part, _, _ in parts if part in ORDER] != [part for part in ORDER if part in found]:
            source.tell("changed", parts[0][1], f"of via {name}: its parts are put in order")
        text = f"- {name} " + "".join(f"+ {part} {' '.join(map(str, found[part]))} " for part in ORDER if part in found) + ";\n"
        counts = [whole(source, word) for word in found.get("ROWCOL", ())]
        return Generated(str(found["LAYERS"][0]), str(found["LAYERS"][2]), math.prod(counts), text)

    def boxes_of_lef(self, name):
        """The rectangles of a fixed via of the LEF in units."""
        via, found = self.library.vias[name], {}
        for layer, boxes in via.boxes.items():
            for box in boxes:
                lengths = [length * self.design.units for length in box]
                if any(length.denominator != 1 for length in lengths):
                    via.source.refuse(via.word, "a rectangle of the via is no whole number of the design's units")
                found.setdefault(layer, []).append(tuple(map(int, lengths)))
        return found

    def rule_of(self, pair, size):
        """The rule of these layers whose resistance and limits count: one with cuts of this size before others, and one for all widths before one for some."""
        def is_other(rule):
            x1, y1, x2, y2 = (length * self.design.units for length in cut_part(self.library, rule).box)
            return (x2 - x1, y2 - y1) != size, rule.has_width()
        return min(self.rules[pair], key=is_other).name

    def of_boxes(self, word, name, boxes):
        """A fixed via as a generated one of a rule with its layers: as many cuts, with the metal around them."""
        source, pair = self.design.source, pair_of(self.library, list(boxes))
        if pair is None or pair not in self.rules:
            source.refuse(word, f"of via {name}: no rule has its layers {' '.join(boxes)}, so that no generated via is made of it")
        lower, cut, upper = (boxes[layer] for layer in pair)
        array = array_of(cut)
        if array is None or len(lower) != 1 or len(upper) != 1:
            source.refuse(word, f"of via {name}: its cuts are no array, or it has several rectangles of one metal; no generated via is made of it")
        span, size, apart, columns, rows = array
        enclosures = [enclosure for metal in (lower[0], upper[0]) for enclosure in around(metal, span)]
        if min(enclosures) < 0:
            source.refuse(word, f"of via {name}: a cut is not inside its metal")
        rule = self.rule_of(pair, size)
        source.tell("changed", word, f"a via of rectangles, written as a generated via of rule {rule} with {columns} by {rows} cuts")
        text = (f"- {name} + VIARULE {rule} + CUTSIZE {size[0]} {size[1]} + LAYERS {' '.join(pair)} + CUTSPACING {apart[0]} {apart[1]} "
                f"+ ENCLOSURE {' '.join(map(str, enclosures))} + ROWCOL {rows} {columns} ;\n")
        return Generated(pair[0], pair[2], columns * rows, text)


def array_of(cuts):
    """The span of cuts, the size of one, how far apart they are, and how many stand in a row and in a column; None where they are no array."""
    sizes = {(x2 - x1, y2 - y1) for x1, y1, x2, y2 in cuts}
    xs, ys = sorted({cut[0] for cut in cuts}), sorted({cut[1] for cut in cuts})
    steps = [{later - earlier for earlier, later in zip(places, places[1:])} for places in (xs, ys)]
    if len(sizes) != 1 or len(cuts) != len(set(cuts)) or len(cuts) != len(xs) * len(ys) or any(len(step) > 1 for step in steps):
        return None
    width, height = next(iter(sizes))
    across, up = ((next(iter(step)) - length if step else None) for step, length in zip(steps, (width, height)))
    apart = (across if across is not None else up or 0, up if up is not None else across or 0)
    return (xs[0], ys[0], xs[-1] + width, ys[-1] + height), (width, height), apart, len(xs), len(ys)


def around(metal, span):
    """How far the metal reaches beyond the cuts in x and in y, on the side where it is more."""
    return max(span[0] - metal[0], metal[2] - span[2]), max(span[1] - metal[1], metal[3] - span[3])
