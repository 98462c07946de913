"""Rows and components of a placed design, as far as pictures and tables need them."""
from typing import NamedTuple, Optional

from .def_text import Head, statements
from .refusal import Refused

_PLACED = ("PLACED", "FIXED", "COVER")


class Row(NamedTuple):
    """A row and its rectangle."""
    name: str
    box: tuple


class Component(NamedTuple):
    """A component, its macro, its line, its place and orientation, and its rectangle. The last three are None where it is not placed, and the
    last where the library has no size of its macro."""
    name: str
    kind: str
    line: int
    place: Optional[tuple]
    orientation: Optional[str]
    box: Optional[tuple]


class Placed(Head):
    """The rows and components of a DEF, with the sizes that a library gives them. Rows of a site without one are left out."""

    def __init__(self, path, library):
        super().__init__(path)
        self.library, self.rows, self.components = library, [], []
        for statement in statements(path):
            try:
                self._take_statement(statement)
            except (IndexError, ValueError):
                what = f"component {statement.words[1]}" if statement.words[0] == "-" and len(statement.words) > 1 else statement.words[0]
                raise Refused(path, statement.lines[0], f"this {what} is not read") from None
        if self.units is None or self.die is None:
            raise Refused(path, None, f"no {'UNITS' if self.units is None else 'DIEAREA'} stands in this placed design")

    def _take_statement(self, statement):
        words = statement.words
        is_component, is_row = statement.section == "COMPONENTS" and words[0] == "-", not statement.section and words[0] == "ROW"
        if self.units is None and (is_component or is_row):
            raise Refused(self.path, statement.lines[0], "no UNITS stand before this line")
        if is_component:
            self._take_component(words, statement.lines[0])
        elif is_row:
            self._take_row(words)
        elif not statement.section:
            self.take(statement)

    def _take_row(self, words):
        """A row: ROW name site x y orientation DO count BY count STEP x y."""
        site, x, y = words[2], int(words[3]), int(words[4])
        size = self.library.size(site, self.units, words[5])
        if size is None:
            return
        width, height = size
        if "DO" in words:
            do = words.index("DO")
            counts = int(words[do + 1]), int(words[do + 3])
            steps = (int(words[do + 5]), int(words[do + 6])) if "STEP" in words else (width, height)
            width, height = width + (counts[0] - 1) * steps[0], height + (counts[1] - 1) * steps[1]
        self.rows.append(Row(words[1], (x, y, x + width, y + height)))

    def _take_component(self, words, line):
        """A component: - name macro .. + PLACED ( x y ) orientation."""
        name, kind = words[1], words[2]
        at = next((at for at, word in enumerate(words[3:], 3) if word in _PLACED and words[at - 1] == "+"), None)
        if at is None:
            self.components.append(Component(name, kind, line, None, None, None))
            return
        x, y, orientation = int(words[at + 2]), int(words[at + 3]), words[at + 5]
        size = self.library.size(kind, self.units, orientation)
        box = None if size is None else (x, y, x + size[0], y + size[1])
        self.components.append(Component(name, kind, line, (x, y), orientation, box))

    def frames(self):
        """The components that are placed and have a size."""
        return [component for component in self.components if component.box is not None]

    def is_of(self, other):
        """Refuses a DEF of another design, units or die, where that says them."""
        same = all(theirs is None or ours == theirs for ours, theirs in
                   ((self.design, other.design), (self.units, other.units), (self.die, other.die)))
        if not same:
            raise Refused(self.path, None, f"design, units or die are not those of {other.path}: it is another design")
