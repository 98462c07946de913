"""Exact numbers of corners: factors, and how a product is rounded to the places that pdn reads."""
import re
from fractions import Fraction
from math import ceil, floor

from ..circuit import SCALES
from ..units import trimmed

NUMBER = re.compile(r"([+-]?(?:[0-9]+\.?[0-9]*|\.[0-9]+))(?:[eE]([+-]?[0-9]+))?([A-Za-z]*)")
MOST_POWER = 1000
# digits behind the point that pdn reads
OHMS_PLACES, VOLTS_PLACES, AMPERES_PLACES = 9, 24, 15


def exact(word, scaled):
    """The number that a word stands for, or None. A scale is SPICE's, as in 1.5k."""
    found = NUMBER.fullmatch(word)
    if found is None:
        return None
    digits, power, letters = found[1], int(found[2] or 0), found[3].lower()
    if abs(power) > MOST_POWER or (letters and (not scaled or letters.startswith("mil"))):
        return None
    power += next((scale for name, scale in SCALES if letters.startswith(name)), 0)
    return Fraction(digits) * Fraction(10) ** power


def factor(word):
    """A factor from a word: a decimal above 0; None where it is none."""
    value = exact(word, False)
    return value if value is not None and value > 0 else None


def up(value, places):
    """A number rounded up to so many places, as a decimal."""
    return decimal(ceil(value * 10 ** places), places)


def down(value, places):
    """The same rounded down."""
    return decimal(floor(value * 10 ** places), places)


def as_it_is(value, places):
    """The same where it needs no rounding; None else."""
    whole = value * 10 ** places
    return decimal(whole.numerator, places) if whole.denominator == 1 else None


def decimal(whole, places):
    """A whole number of units of the last place as a decimal without zeros at its end."""
    return trimmed(whole, places)
