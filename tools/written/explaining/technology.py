"""What a LEF technology says of layers and rules of vias, as far as explanations need it. The text is one that pdn accepts."""
from typing import NamedTuple, Optional

from ..refusal import read_text
from .lengths import picometres
from .lexing import statements_in


class Layer:
    """A layer: its name and line, whether it is one of routing or of cuts, its direction, its spacing, and its resistance."""

    def __init__(self, name, line):
        self.name, self.line = name, line
        self.kind = self.direction = self.resistance = None
        self.spacing = 0
        self.has_spacing = False

    @property
    def is_vertical(self):
        return self.direction == "VERTICAL"


class RulePart:
    """What a rule says of one of its layers."""

    def __init__(self, name):
        self.name = name
        self.enclosure = self.widths = self.rect = self.spacing = None


class Rule(NamedTuple):
    """A rule that generates vias: its name and line, and its parts for the lower and the upper metal and the cuts between."""
    name: str
    line: int
    lower: RulePart
    upper: RulePart
    cut: RulePart
    resistance: Optional[str]


class Technology:
    """The layers and the rules of a LEF text, in its order."""

    def __init__(self, path):
        self.path = path
        self.layers, self.rules, self.names = [], [], {}
        self._section = self._parts = None
        for statement in statements_in(read_text(path)):
            self._take([word for word in statement])
        self.routing = [layer for layer in self.layers if layer.kind == "ROUTING"]

    def _take(self, words):
        """Takes a statement; a section begins within its first one, as `LAYER name TYPE ROUTING`."""
        texts = [word.text for word in words]
        if self._section is None:
            if texts[:1] == ["LAYER"] and len(texts) > 2:
                self._section = ("LAYER", Layer(texts[1], words[0].line))
                self._take_of_layer(self._section[1], texts[2:])
            elif texts[:1] == ["VIARULE"] and len(texts) > 2:
                self._section, self._parts = ("VIARULE", texts[1], words[0].line, "GENERATE" in texts[2:4]), []
                self._take_of_rule(texts[3 + (texts[3:4] == ["DEFAULT"]):])
            elif texts[:1] in (["MACRO"], ["SITE"], ["VIA"], ["NONDEFAULTRULE"]) and len(texts) > 1:
                self._section = ("OTHER", texts[1])
        elif texts[:1] == ["END"] and len(texts) == 2:
            self._end(texts[1])
        elif self._section[0] == "LAYER":
            self._take_of_layer(self._section[1], texts)
        elif self._section[0] == "VIARULE":
            self._take_of_rule(texts)

    def _take_of_layer(self, layer, texts):
        """Takes a statement of a layer; the first of its kind counts."""
        if texts[:1] == ["TYPE"] and layer.kind is None:
            layer.kind = texts[1]
        elif texts[:1] == ["DIRECTION"] and layer.direction is None:
            layer.direction = texts[1]
        elif texts[:1] == ["SPACING"] and len(texts) == 2 and not layer.has_spacing:
            layer.spacing, layer.has_spacing = picometres(texts[1]) or 0, True
        elif texts[:2] == ["RESISTANCE", "RPERSQ"] and len(texts) == 3 and layer.kind == "ROUTING":
            layer.resistance = layer.resistance or texts[2]
        elif texts[:1] == ["RESISTANCE"] and len(texts) == 2 and layer.kind == "CUT":
            layer.resistance = layer.resistance or texts[1]

    def _take_of_rule(self, texts):
        """Takes a statement of a rule."""
        if texts[:1] == ["LAYER"]:
            self._parts.append(RulePart(texts[1]))
        elif self._parts:
            part = self._parts[-1]
            lengths = [picometres(word) for word in texts[1:] if word not in ("TO", "BY")]
            name = {"ENCLOSURE": "enclosure", "WIDTH": "widths", "RECT": "rect", "SPACING": "spacing"}.get(texts[0] if texts else "")
            if name and getattr(part, name) is None:
                setattr(part, name, lengths)
            elif texts[:1] == ["RESISTANCE"]:
                part.resistance = texts[1]

    def _end(self, name):
        """Ends a section."""
        kind, *held = self._section
        if kind == "LAYER" and held[0].name == name:
            self.layers.append(held[0])
            self.names[name] = held[0]
        elif kind == "VIARULE" and held[0] == name:
            self._keep_rule(*held)
        elif kind == "OTHER" and held[0] != name:
            return
        self._section = None

    def _keep_rule(self, name, line, is_generated):
        """Keeps a rule of two routing layers with one layer of cuts between."""
        metals = [part for part in self._parts if self.kind_of(part.name) == "ROUTING"]
        cuts = [part for part in self._parts if self.kind_of(part.name) == "CUT"]
        if not is_generated or (len(metals), len(cuts)) != (2, 1) or None in (metals[0].enclosure, metals[1].enclosure, cuts[0].rect, cuts[0].spacing):
            return
        lower, upper = sorted(metals, key=lambda part: self.place_of(part.name))
        self.rules.append(Rule(name, line, lower, upper, cuts[0], getattr(cuts[0], "resistance", None)))

    def kind_of(self, name):
        layer = self.names.get(name)
        return layer.kind if layer else None

    def place_of(self, name):
        """The place of a layer among all, from 0."""
        return next(place for place, layer in enumerate(self.layers) if layer.name == name)

    def next_above(self, name):
        """The next routing layer above, or None."""
        names = [layer.name for layer in self.routing]
        place = names.index(name) + 1
        return names[place] if place < len(names) else None

    def rules_between(self, lower, upper):
        return [rule for rule in self.rules if (rule.lower.name, rule.upper.name) == (lower, upper)]
