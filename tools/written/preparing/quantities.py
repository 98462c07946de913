"""Exact numbers of texts: decimals as fractions, and fractions as decimals."""
import re
from fractions import Fraction

_NUMBER = re.compile(r"[+-]?(?:[0-9]+\.?[0-9]*|\.[0-9]+)(?:[eE][+-]?[0-9]{1,4})?")
_SCALES = {"": 1, "T": 10**12, "G": 10**9, "K": 10**3, "M": Fraction(1, 10**3), "U": Fraction(1, 10**6), "N": Fraction(1, 10**9),
           "P": Fraction(1, 10**12), "F": Fraction(1, 10**15)}


def number(word):
    """The number that a word is, or None."""
    return Fraction(word) if _NUMBER.fullmatch(word) else None


def scaled(word, unit=""):
    """A number with one of SPICE's scales and perhaps its unit behind it, as 1.5m or 1.5mA, or None."""
    found = _NUMBER.match(word)
    if found is None:
        return None
    letters = word[found.end():].upper()
    if unit and letters.endswith(unit):
        letters = letters[:-len(unit)]
    if letters.startswith("MEG"):
        return Fraction(found.group()) * 10**6 if letters == "MEG" else None
    return Fraction(found.group()) * _SCALES[letters] if letters in _SCALES else None


def decimal(value, places):
    """A fraction as a decimal with at most so many places, cut towards zero where it has more."""
    whole = abs(value) * 10**places
    digits = str(whole.numerator // whole.denominator).rjust(places + 1, "0")
    text = f"{digits[:-places]}.{digits[-places:]}".rstrip("0").rstrip(".")
    return f"-{text}" if value < 0 and text != "0" else text


def has_places(value, places):
    """Whether a number has no more than so many places behind its point."""
    return (value * 10**places).denominator == 1


def floor(value):
    return value.numerator // value.denominator


def ceiling(value):
    return -(-value.numerator // value.denominator)


def nearest(value):
    """The nearest whole number, halves up."""
    return floor(Fraction(value) + Fraction(1, 2))
