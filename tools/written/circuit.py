"""A netlist in whole nano-ohms and yoctovolts, read from the form of its cards alone: groups of nodes that shorts join, the resistors
between them, and the voltages of their pads. Loads and capacitors are no part of what is taken here."""
import re
from typing import NamedTuple

from .refusal import Refused, read_text

GROUND = "0"
BLANKS = re.compile(r"[ \t\r]+")
NOTE = re.compile(r"\* layer: (\S+),(\S+) net: ([1-9][0-9]*)")
NUMBER = re.compile(r"([+-]?)([0-9]*)\.?([0-9]*)(?:[eE]([+-]?[0-9]+))?([A-Za-z]*)")
SCALES = (("meg", 6), ("t", 12), ("g", 9), ("k", 3), ("m", -3), ("u", -6), ("n", -9), ("p", -12), ("f", -15))
FOLDED = {upper: upper + 32 for upper in range(ord("A"), ord("Z") + 1)}
MOST_POWER = 100000


class Resistor(NamedTuple):
    """A resistor between two groups, by their places, in nano-ohms."""
    start: int
    end: int
    ohms: int


def whole_number(word, places, scaled=True):
    """The value of a number times ten to the places, rounded to the nearest whole number, halves away from zero; None where it is none."""
    found = NUMBER.fullmatch(word)
    if found is None or not found[2] + found[3]:
        return None
    letters = found[5].lower()
    if letters and (not scaled or letters.startswith("mil")):
        return None
    digits = int(found[2] + found[3])
    power = int(found[4] or 0) + next((scale for name, scale in SCALES if letters.startswith(name)), 0) + places - len(found[3])
    if digits == 0:
        return 0
    if abs(power) > MOST_POWER:
        return None
    value = digits * 10 ** power if power >= 0 else (2 * digits + 10 ** -power) // (2 * 10 ** -power)
    return -value if found[1] == "-" else value


def in_order(names):
    """Names in byte order."""
    return sorted(names, key=lambda name: name.encode("utf-8", "surrogateescape"))


def words_of(line):
    """The words of a line."""
    return [word for word in BLANKS.split(line) if word]


def has_form_of_card(words):
    """Whether a first line is a card and no title."""
    kind = words[0][0].lower()
    counted = (kind in "rivc" and len(words) == 4) or (kind in "iv" and len(words) == 5 and words[3].lower() == "dc")
    return counted and whole_number(words[-1], 0) is not None


def card_lines(text):
    """The words of each card and dot line with those of its `+` lines, and its line, up to `.end`."""
    rows = []
    for place, line in enumerate(text.split("\n"), 1):
        words = words_of(line)
        if not words or line.startswith("*") or (place == 1 and words[0][0] != "." and not has_form_of_card(words)):
            continue
        if line.startswith("+") and rows:
            rows[-1][1].extend(words_of(line[1:]))
        elif words[0].lower() == ".end":
            return rows
        else:
            rows.append((place, words))
    return None


class Circuit:
    """The groups of a netlist in byte order of their names, its resistors in the order of their cards, and its pads."""

    def __init__(self, path):
        self.path = path
        text = read_text(path)
        rows = card_lines(text)
        if rows is None:
            raise Refused(path, None, "the netlist is cut off: it has no line '.end'")
        self.notes = {int(found[3]): (found[2], found[1]) for found in map(NOTE.fullmatch, text.split("\n")) if found}
        self.held, self.names, self.shorts, self.sources = [], set(), [], []
        for line, words in rows:
            self._take(line, words)
        self._join()

    def _take(self, line, words):
        """Takes a card."""
        kind = words[0][0].lower()
        if kind in ".c":
            return
        value = whole_number(words[-1], 9 if kind == "r" else 24) if kind in "riv" and len(words) in (4, 5) else None
        if value is None:
            raise Refused(self.path, line, "this is no card of a resistor, a source, a load or a capacitor")
        ends = tuple(word.translate(FOLDED) for word in words[1:3])
        self.names.update(name for name in ends if name != GROUND)
        if kind == "r":
            self._take_resistor(ends, value)
        elif kind == "v":
            self._take_source(ends, value)

    def _take_resistor(self, ends, value):
        self.names.update(ends)
        if value == 0:
            self.shorts.append(ends)
        else:
            self.held.append((*ends, value))

    def _take_source(self, ends, value):
        """A source to ground is a pad, also of 0 volts; one of 0 volts between two other nodes is a short."""
        start, end = ends
        if GROUND not in ends:
            self.shorts.append(ends)
        elif start == end:
            self.names.add(GROUND)
        else:
            self.sources.append((start, value) if end == GROUND else (end, -value))

    def _join(self):
        """Joins what shorts connect."""
        beside = {}
        for one, other in self.shorts:
            beside.setdefault(one, []).append(other)
            beside.setdefault(other, []).append(one)
        self.group_of = {}
        for name in in_order(self.names):
            waiting = [name]
            while waiting:
                node = waiting.pop()
                if node not in self.group_of:
                    self.group_of[node] = name
                    waiting.extend(beside.get(node, ()))
        self.groups = in_order(set(self.group_of.values()))
        place = {name: at for at, name in enumerate(self.groups)}
        self.resistors = [Resistor(place[self.group_of[start]], place[self.group_of[end]], ohms) for start, end, ohms in self.held]
        self.pads = {place[self.group_of[name]]: volts for name, volts in self.sources}
        if GROUND in self.names:
            self.pads[place[self.group_of[GROUND]]] = 0
