"""What a LEF technology says of resistances and of densities of direct current, in whole numbers: nano-ohms, picometres, and femtoamperes
to a micrometre or to a square micrometre. A density is None, or a list of points (picometres or square picometres, density)."""
import re
from fractions import Fraction
from math import floor
from typing import NamedTuple, Optional

from .circuit import whole_number
from .refusal import Refused, read_text

WORD = re.compile(r'#[^\n]*|"[^"]*"|[^\s]+')
TO_ITS_NAME = ("VIA", "NONDEFAULTRULE", "SITE", "MACRO", "LAYER", "VIARULE")
TO_ITS_WORD = ("UNITS", "PROPERTYDEFINITIONS", "SPACING")


class Layer(NamedTuple):
    """A routing or a cut layer: resistance of a square or of a cut, density, and whether wires lie along x."""
    name: str
    ohms: Optional[int]
    density: Optional[list]
    is_horizontal: bool


class Rule(NamedTuple):
    """A rule of generated vias: its routing layers, the lower one first, its cut layer, the cut's sides in picometres, and its own resistance of a cut."""
    name: str
    lower: str
    upper: str
    cut: str
    sides: tuple
    ohms: Optional[int]


def words_of_lef(path):
    """The words of a LEF text, without comments, and without the quotes of quoted words."""
    return [word.strip('"') if word != '";"' else word for word in WORD.findall(read_text(path)) if not word.startswith("#")]


def number(word, places):
    """A number without a scale, as so many places."""
    value = whole_number(word, places, False)
    if value is None:
        raise ValueError(f"{word} is no number")
    return value


def statement(words, at):
    """The words up to the next `;`, and the place behind it."""
    end = words.index(";", at) if ";" in words[at:at + 10000] else len(words)
    return words[at:end], end + 1


class Technology:
    """The layers and rules of a LEF technology."""

    def __init__(self, path):
        self.path, self.routing, self.cuts, self.rules = path, {}, {}, []
        words, at = words_of_lef(path), 0
        try:
            while at < len(words) and words[at:at + 2] != ["END", "LIBRARY"]:
                at = self._take(words, at)
        except (ValueError, IndexError) as fault:
            raise Refused(path, None, f"this is no technology that pdn reads: {fault}") from None
        if not self.routing:
            raise Refused(path, None, "no routing layer stands in this technology")

    def _take(self, words, at):
        """Takes a section or a statement, and tells the place behind it."""
        word = words[at]
        if word == "BEGINEXT":
            return end_of(words, at, ["ENDEXT"])
        if word in TO_ITS_WORD:
            return end_of(words, at, ["END", word])
        if word not in TO_ITS_NAME:
            return statement(words, at)[1]
        end = end_of(words, at + 2, ["END", *words[at + 1:at + 2]])
        if word == "LAYER":
            self._take_layer(words[at + 1], words[at + 2:end - 2])
        elif word == "VIARULE" and words[at + 2:at + 3] == ["GENERATE"]:
            self._take_rule(words[at + 1], words[at + 3:end - 2])
        return end

    def _take_layer(self, name, words):
        rows = statements_of(words)
        kind = next((row[1] for row in rows if row[0] == "TYPE" and len(row) == 2), None)
        direction = next((row[1] for row in rows if row[0] == "DIRECTION" and len(row) == 2), None)
        if kind == "ROUTING":
            self.routing.setdefault(name, Layer(name, resistance(rows, 3), density_of(rows, "WIDTH", 6), direction == "HORIZONTAL"))
        elif kind == "CUT":
            self.cuts.setdefault(name, Layer(name, resistance(rows, 2), density_of(rows, "CUTAREA", 12), False))

    def _take_rule(self, name, words):
        """A rule that lacks what a generated via needs is passed over."""
        parts, sections = {}, []
        for row in statements_of(words[1:] if words[:1] == ["DEFAULT"] else words):
            if row[0] == "LAYER":
                sections.append(row[1])
                part = parts.setdefault(row[1], {})
            elif parts:
                part.setdefault(row[0], row)
        metals = [layer for layer in self.routing if layer in parts]
        cut = next((layer for layer in parts if layer in self.cuts), None)
        if (len(sections), len(metals)) != (3, 2) or cut is None or any("ENCLOSURE" not in parts[metal] for metal in metals):
            return
        sides = sides_of_cut(parts[cut])
        if sides is not None:
            self.rules.append(Rule(name, *metals, cut, sides, resistance([parts[cut].get("RESISTANCE", ("",))], 2)))

    def ohms_of_cut(self, rule):
        """The resistance of one cut of a rule: its own before that of its layer."""
        return self.cuts[rule.cut].ohms if rule.ohms is None else rule.ohms


def sides_of_cut(part):
    """The sides of the cut of a rule; None where it has no area, or no pitch that holds it."""
    rectangle, pitch = part.get("RECT", ()), part.get("SPACING", ())
    if len(rectangle) != 5 or len(pitch) != 4:
        return None
    x1, y1, x2, y2 = (number(word, 6) for word in rectangle[1:])
    sides = abs(x2 - x1), abs(y2 - y1)
    held = all(0 < side <= number(word, 6) for side, word in zip(sides, (pitch[1], pitch[3])))
    return sides if held else None


def end_of(words, at, end):
    """The place behind the next words that end a section."""
    for place in range(at, len(words)):
        if words[place:place + len(end)] == end:
            return place + len(end)
    return len(words)


def statements_of(words):
    """The statements of a section, each without its `;`."""
    rows, at = [], 0
    while at < len(words):
        row, at = statement(words, at)
        if row:
            rows.append(row)
    return rows


def resistance(rows, count):
    """The first resistance that is stated by so many words, in nano-ohms."""
    found = next((row for row in rows if row[0] == "RESISTANCE" and len(row) == count and row[-1] != "("
                  and (count == 2 or row[1] == "RPERSQ")), None)
    return None if found is None else number(found[-1], 9)


def density_of(rows, points, places):
    """The first density of average direct current."""
    for row, following in zip(rows, [*rows[1:], []]):
        if row[:2] != ["DCCURRENTDENSITY", "AVERAGE"]:
            continue
        if len(row) == 3:
            return [(0, number(row[2], 12))]
        if row[2:3] == [points] and following[:1] == ["TABLEENTRIES"]:
            return [(number(point, places), number(entry, 12)) for point, entry in zip(row[3:], following[1:])]
    return None


def density_at(table, point):
    """The density at a width or at a cut area: linear between two points, rounded down, and beyond the ends that of the end."""
    if point <= table[0][0]:
        return table[0][1]
    for (one, first), (other, second) in zip(table, table[1:]):
        if point <= other:
            return floor(first + Fraction(second - first) * (point - one) / (other - one))
    return table[-1][1]
