"""The bands of a map: whole numbers from 0 to the worst one in steps that are easy to read, each with a colour from blue to red."""
from bisect import bisect_left

from .units import ceiling, trimmed

STOPS = ((0x2B, 0x5C, 0xB8), (0x3F, 0xA7, 0xC4), (0x8C, 0xC4, 0x7A), (0xF2, 0xC1, 0x2E), (0xEE, 0x6C, 0x1B), (0xA8, 0x0A, 0x2A))
BEYOND = "#d400b8"
BARE = "#c9ccd1"
MOST_BANDS = 16


def colour(place, count):
    """The colour of a band: its place between the stops."""
    above, below = place * (len(STOPS) - 1), max(count - 1, 1)
    stop, rest = divmod(above, below)
    following = STOPS[min(stop + 1, len(STOPS) - 1)]
    return "#" + "".join(f"{one + (other - one) * rest // below:02x}" for one, other in zip(STOPS[stop], following))


def step_for(top):
    """The least of 1, 2, 5, 10, 20 and so on of which few enough reach the top."""
    step, ten = 1, 1
    while True:
        for digit in (1, 2, 5):
            step = digit * ten
            if step * MOST_BANDS >= top:
                return step
        ten *= 10


class Scale:
    """The bands of whole numbers from 0 to at least `top`, printed with so many places."""

    def __init__(self, top, places):
        self.places = places
        self.step = step_for(max(top, 1))
        count = max(ceiling(top, self.step), 1)
        self.ends = [self.step * (place + 1) for place in range(count)]
        self.colours = [colour(place, count) for place in range(count)]

    def band(self, value):
        """The band of a value: from above the end before to its own end. The last has all that is above it too."""
        return min(bisect_left(self.ends, value), len(self.ends) - 1)

    def label(self, value):
        """A value as the legend has it, with the places of the step."""
        return trimmed(value, self.places)
