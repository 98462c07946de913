"""The segments and vias of power and ground nets in a DEF of another tool, as far as explanations need them."""
from typing import NamedTuple

from ..refusal import read_text
from .drawing import Rail
from .lexing import statements_in


class Via(NamedTuple):
    """A generated via: its name, its rule, its three layers bottom up, and its word."""
    name: str
    rule: str
    layers: tuple
    word: object


class WiredNet:
    """A net of SPECIALNETS: its name, its use, the words of its paths, and its word."""

    def __init__(self, name, words):
        self.name, self.word = name.text, name
        self.use = use_of([word.text for word in words])
        # the words of a signal net may have any form
        self.paths = list(paths_in(words)) if self.use in ("POWER", "GROUND") else []


def use_of(texts):
    """The use of a net: the word after `+ USE`."""
    return next((texts[at + 2] for at in range(len(texts) - 2) if texts[at:at + 2] == ["+", "USE"]), None)


class Path(NamedTuple):
    """One path: its layer and width, its points with their extensions, the via at its end if it has one, and its first word."""
    layer: str
    width: int
    points: list
    via: object
    word: object


def paths_in(words):
    """The paths of a net's entry."""
    at = 0
    while at < len(words):
        if words[at].text in ("ROUTED", "FIXED", "COVER", "NEW") and at + 2 < len(words):
            end = next((end for end in range(at + 1, len(words)) if words[end].text in ("NEW", "ROUTED", "FIXED", "COVER", "USE")), len(words))
            yield path_of(words[at + 1:end])
            at = end
        else:
            at += 1


def path_of(words):
    """A path of its words: LAYER width [+ SHAPE x] ( x y [extension] ) .. [via]."""
    points, via, at = [], None, 2
    while at < len(words):
        if words[at].text == "(":
            close = next(end for end in range(at, len(words)) if words[end].text == ")")
            points.append(point_of([word.text for word in words[at + 1:close]], points))
            at = close
        elif words[at].text == "+":
            at += 2 if at + 1 < len(words) and words[at + 1].text in ("SHAPE", "STYLE") else 1
        elif points:
            via = words[at]
        at += 1
    return Path(words[0].text, int(words[1].text), points, via, words[0])


def point_of(texts, before):
    """A point with its extension; `*` repeats a coordinate of the point before."""
    x, y = (before[-1][axis] if text == "*" else int(text) for axis, text in enumerate(texts[:2]))
    return x, y, int(texts[2]) if len(texts) > 2 else None


def segment_box(first, second):
    """Along which axis a segment goes, its centre line, and from where to where with its extensions."""
    axis = "x" if first[1] == second[1] else "y"
    along, across = (0, 1) if axis == "x" else (1, 0)
    low, high = sorted((first, second), key=lambda place: place[along])
    return axis, low[across], low[along] - (low[2] or 0), high[along] + (high[2] or 0)


class Wires:
    """The generated vias and the power and ground nets of a DEF text."""

    def __init__(self, path):
        self.path = path
        self.vias, self.nets, section = [], [], None
        for words in statements_in(read_text(path)):
            texts = [word.text for word in words]
            if texts[:1] == ["END"]:
                section = None
            elif section is None and texts[:1] in (["VIAS"], ["SPECIALNETS"]):
                section = texts[0]
            elif section == "VIAS" and "VIARULE" in texts and "LAYERS" in texts:
                at = texts.index("LAYERS")
                self.vias.append(Via(texts[1], texts[texts.index("VIARULE") + 1], tuple(texts[at + 1:at + 4]), words[1]))
            elif section == "SPECIALNETS" and texts[:1] == ["-"] and len(texts) > 1:
                self.nets.append(WiredNet(words[1], words[2:]))

    def wired(self):
        """The power and ground nets that have wiring."""
        return [net for net in self.nets if net.paths]

    def vias_at(self, x, y):
        """The words of the paths that end with a via at a place, each with its net."""
        return [(net, path) for net in self.wired() for path in net.paths if path.via is not None and path.points[-1][:2] == (x, y)]

    def segments(self):
        """The segments of the wiring as pieces along an axis, each with the word that its path begins with."""
        pieces = []
        for net in self.wired():
            for path in net.paths:
                for first, second in zip(path.points, path.points[1:]):
                    axis, centre, start, end = segment_box(first, second)
                    pieces.append(Rail(net.name, path.layer, axis, centre, path.width, start, end, path.word))
        return pieces
