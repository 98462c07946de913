"""Netlists of resistors, sources, loads and capacitors, as far as another tool's view of them needs it."""
import re
from decimal import Decimal
from typing import NamedTuple

from .refusal import Refused, read_text

_NUMBER = re.compile(r"([+-]?(?:[0-9]+\.?[0-9]*|\.[0-9]+)(?:[eE][+-]?[0-9]+)?)([A-Za-z]*)")
_SCALES = (("meg", 6), ("t", 12), ("g", 9), ("k", 3), ("m", -3), ("u", -6), ("n", -9), ("p", -12), ("f", -15))
_NOTE = re.compile(r"\* layer: (\S+),(\S+) net: ([1-9][0-9]*)")
_LOWER = {upper: upper + 32 for upper in range(ord("A"), ord("Z") + 1)}
GROUND = "0"


class Card(NamedTuple):
    """A card: its kind, its two nodes in lower case, its value, and its line."""
    kind: str
    start: str
    end: str
    value: Decimal
    line: int


def number(word):
    """The number that a word with SPICE's scale stands for, or None."""
    found = _NUMBER.fullmatch(word)
    if found is None:
        return None
    digits, letters = found.groups()
    scale = next((power for name, power in _SCALES if letters.lower().startswith(name)), 0)
    try:
        return Decimal(digits).scaleb(scale)
    except ArithmeticError:
        return None


def joined_lines(text):
    """The words of each line that is no comment, with those of the `+` lines behind it, and its number."""
    rows = []
    for place, line in enumerate(text.split("\n"), 1):
        words = line.split()
        if not words or line.startswith("*"):
            continue
        if line.startswith("+") and rows:
            rows[-1][1].extend(word for word in [words[0][1:], *words[1:]] if word)
        else:
            rows.append((place, words))
    return rows


def is_card(words):
    """Whether a line has the form of a card."""
    return words[0][0].lower() in "riv" and (len(words) == 4 or (len(words) == 5 and words[3].lower() == "dc"))


def is_capacitor(words):
    """Whether a line has the form of a capacitor's card."""
    return words[0][0].lower() == "c" and len(words) == 4 and number(words[3]) is not None


def read_cards(path):
    """The cards of a netlist that pdn accepts, but for its capacitors, which draw nothing at rest."""
    cards, ended = [], False
    for place, words in joined_lines(read_text(path)):
        if words[0].lower() == ".end":
            ended = True
            break
        value = number(words[-1]) if is_card(words) else None
        if value is not None:
            start, end = (word.translate(_LOWER) for word in words[1:3])
            cards.append(Card(words[0][0].lower(), start, end, value, place))
        elif place > 1 and not words[0].startswith(".") and not is_capacitor(words):
            raise Refused(path, place, "this is no card of a resistor, a source, a load or a capacitor")
    if not ended:
        raise Refused(path, None, "the netlist is cut off: it has no line '.end'")
    return cards


def read_layer_notes(path):
    """By the number of a layer of a net the names of both, from the comments at the head of a netlist of `pdn build`. A netlist without a card
    has no node, and none of these comments."""
    notes = {int(found[3]): (found[2], found[1]) for found in map(_NOTE.fullmatch, read_text(path).split("\n")) if found}
    if not notes and read_cards(path):
        raise Refused(path, 1, "no line '* layer: LAYER,NET net: NUMBER' says which layer and net has which number")
    return notes
