"""Whole numbers of small units, and how they are printed.

Voltages are whole nanovolts and currents whole nanoamperes, as the intervals of a report have them; limits are whole yoctovolts
and femtoamperes. Shares of a limit are whole millionths. No number of a file passes through floating point.
"""


def whole(word):
    """The whole number that a decimal with a fixed count of places is, without its point: -0.25 is -25."""
    return int(word.replace(".", ""))


def printed(value, places):
    """A whole number as a decimal with so many places."""
    digits = str(abs(value)).rjust(places + 1, "0")
    return f"{'-' if value < 0 else ''}{digits[:-places]}.{digits[-places:]}"


def trimmed(value, places):
    """The same without the zeros behind its last digit."""
    return printed(value, places).rstrip("0").rstrip(".")


def ceiling(above, below):
    """The quotient rounded up."""
    return -(-above // below)


def millivolts(nanovolts):
    return printed(nanovolts, 6)


def milliamperes(nanoamperes):
    return printed(nanoamperes, 6)


def percent(millionths):
    return printed(millionths, 4)


def micrometres(length, units):
    """A length in units of a design as a decimal of micrometres, rounded to six places where it has more."""
    return trimmed((2 * length * 10 ** 6 + units) // (2 * units), 6)
