"""Lengths: whole picometres of LEF, scripts and bias files, and whole units of a design. None passes through floating point."""
from decimal import ROUND_HALF_UP, Decimal, InvalidOperation
from fractions import Fraction
from typing import Optional

MICROMETRE = 10 ** 6


def scaled(word, places) -> Optional[int]:
    """The number of a word times 10^places, rounded half away from zero; None where it is none."""
    try:
        value = Decimal(word)
        return int(value.scaleb(places).to_integral_value(ROUND_HALF_UP)) if value.is_finite() and abs(value.adjusted()) < 60 else None
    except (InvalidOperation, ValueError):
        return None


def picometres(word) -> Optional[int]:
    """A length in micrometres as whole picometres."""
    return scaled(word, 6)


def in_units(length, units) -> Optional[int]:
    """A length in picometres as whole units; None where it is no whole number of them."""
    value = length * units
    return value // MICROMETRE if value % MICROMETRE == 0 else None


def decimal(value) -> str:
    """A fraction as a decimal of at most 6 places, `~` before it where it has more."""
    value = Fraction(value)
    rounded = Fraction(round(value * MICROMETRE), MICROMETRE)
    digits = f"{abs(rounded.numerator * (MICROMETRE // rounded.denominator)):07d}"
    text = f"{digits[:-6]}.{digits[-6:]}".rstrip("0").rstrip(".")
    return ("" if rounded == value else "~") + ("-" if rounded < 0 else "") + text


def micrometres(units_of_length, units) -> str:
    """A length in units as micrometres."""
    return decimal(Fraction(units_of_length, units))


def of_picometres(length) -> str:
    """A length in picometres as micrometres."""
    return decimal(Fraction(length, MICROMETRE))


def pair(x, y, units) -> str:
    """A place in units as two micrometres, as a bias file has it."""
    return f"{micrometres(x, units)} {micrometres(y, units)}"


def point(x, y, units) -> str:
    """A place in units as one in micrometres."""
    return f"( {pair(x, y, units)} ) µm"


def corners(box, units) -> str:
    """A rectangle in units by two corners in micrometres."""
    return f"from ( {pair(*box[:2], units)} ) to {point(*box[2:], units)}"
