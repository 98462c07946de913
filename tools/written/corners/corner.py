"""A corner: its factors and voltages, from the words of a command line or from a row of a table."""
from fractions import Fraction
from typing import NamedTuple

from .factors import VOLTS_PLACES, as_it_is, exact, factor


class Corner(NamedTuple):
    """Factors on squares, on cuts, on supplies, on the two ends of currents and on drop limits; and voltages by their nets."""
    sheet: Fraction
    cut: Fraction
    supply: Fraction
    supply_of: dict
    current: tuple
    limit: Fraction
    limit_of: dict


class Unclear(Exception):
    """A word of a corner that is none."""


def one_factor(word):
    """A factor; the word may be empty for 1."""
    value = factor(word) if word else Fraction(1)
    if value is None:
        raise Unclear(f"{word} is no factor above 0")
    return value


def range_of(word):
    """The factors on the two ends of currents, of `1.2` or `0.8:1.2`."""
    ends = tuple(one_factor(part) if part else None for part in word.split(":")) if word else (Fraction(1),)
    if None in ends or len(ends) > 2 or ends[0] > ends[-1]:
        raise Unclear(f"{word} is no factor, nor two as in 0.8:1.2")
    return ends[0], ends[-1]


def voltages(word, may_be_negative):
    """A factor and voltages by nets, of `0.9` or `VDD=0.99 VSS=0`."""
    by, of = Fraction(1), {}
    for part in word.split():
        net, equals, volts = part.partition("=")
        if not equals:
            by = one_factor(part)
            continue
        value = exact(volts, True)
        if not net or value is None or (value < 0 and not may_be_negative) or as_it_is(value, VOLTS_PLACES) is None:
            raise Unclear(f"{part} is no net and its voltage")
        of[net] = as_it_is(value, VOLTS_PLACES)
    return by, of


def corner_of(sheet="", cut="", supply="", current="", droplimit=""):
    """The corner that five words describe."""
    supplied, supply_of = voltages(supply, True)
    limited, limit_of = voltages(droplimit, False)
    return Corner(one_factor(sheet), one_factor(cut), supplied, supply_of, range_of(current), limited, limit_of)
