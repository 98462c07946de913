"""What a placed design says, as far as explanations need it. The text is one that pdn accepts."""
from typing import NamedTuple, Optional

from ..refusal import read_text
from .lexing import statements_in

SIDES = ("N", "S", "W", "E", "FN", "FS", "FW", "FE")


class Row(NamedTuple):
    """A row as its statement has it."""
    name: str
    site: str
    x: int
    y: int
    orient: str
    count: int
    step: Optional[int]
    line: int


class Component(NamedTuple):
    """A component, its macro, and its place where it has one."""
    name: str
    cell: str
    place: Optional[tuple]
    line: int


class Blockage(NamedTuple):
    """A rectangle that blocks a layer, and its spacing where it states one."""
    layer: str
    spacing: Optional[int]
    box: tuple


def boxes_in(texts):
    """The rectangles `( x y ) ( x y )` among words, corners in any order."""
    numbers = [int(word) for word in texts if word not in "()"]
    for at in range(0, len(numbers) - 3, 4):
        x1, y1, x2, y2 = numbers[at:at + 4]
        yield min(x1, x2), min(y1, y2), max(x1, x2), max(y1, y2)


def row_of(texts, line):
    """A row of its words."""
    count = int(texts[texts.index("DO") + 1]) if "DO" in texts else 1
    step = int(texts[texts.index("STEP") + 1]) if "STEP" in texts else None
    return Row(texts[1], texts[2], int(texts[3]), int(texts[4]), texts[5], count, step, line)


def component_of(texts, line):
    """A component of its words; its first place counts."""
    for at in range(3, len(texts) - 6):
        if texts[at] == "+" and texts[at + 1] in ("PLACED", "FIXED", "COVER"):
            return Component(texts[1], texts[2], (int(texts[at + 3]), int(texts[at + 4]), texts[at + 6]), line)
    return Component(texts[1], texts[2], None, line)


def blockages_of(texts):
    """The blockages of an entry."""
    if texts[1] != "LAYER" or any(word in texts for word in ("EXCEPTPGNET", "FILLS", "SLOTS")):
        return
    spacing = int(texts[texts.index("SPACING") + 1]) if "SPACING" in texts else None
    for at, word in enumerate(texts):
        if word == "RECT":
            for box in boxes_in(texts[at + 1:at + 9]):
                yield Blockage(texts[2], spacing, box)


class Design:
    """Units, die, rows, components, blockages and regions of a DEF text."""

    def __init__(self, path):
        self.path = path
        self.units, self.die, section = None, None, None
        self.rows, self.components, self.blockages, self.regions = [], [], [], {}
        for words in statements_in(read_text(path)):
            texts = [word.text for word in words]
            if texts[:1] == ["END"]:
                section = None
            elif section is not None and texts:
                self._take_entry(section, texts, words[0].line)
            elif texts[:1] == ["UNITS"]:
                self.units = int(texts[3])
            elif texts[:1] == ["DIEAREA"]:
                self.die = next(boxes_in(texts[1:]))
            elif texts[:1] == ["ROW"]:
                self.rows.append(row_of(texts, words[0].line))
            elif texts[:1] in (["COMPONENTS"], ["BLOCKAGES"], ["REGIONS"]):
                section = texts[0]
            elif len(texts) == 2 and texts[0] in PASSED:
                section = "passed over"
        self.by_name = {component.name: component for component in self.components}

    def _take_entry(self, section, texts, line):
        """Takes an entry of a section."""
        if texts[:1] != ["-"]:
            return
        if section == "COMPONENTS":
            self.components.append(component_of(texts, line))
        elif section == "BLOCKAGES":
            self.blockages.extend(blockages_of(texts))
        elif section == "REGIONS":
            self.regions[texts[1]] = (list(boxes_in(region_words(texts[2:]))), line)


def region_words(texts):
    """The words of an entry of REGIONS that are its rectangles."""
    end = next((at for at, word in enumerate(texts) if word == "+"), len(texts))
    return texts[:end]


PASSED = ("VIAS", "PROPERTYDEFINITIONS", "NONDEFAULTRULES", "STYLES", "PINS", "PINPROPERTIES", "FILLS", "SLOTS", "NETS", "SPECIALNETS", "SCANCHAINS", "GROUPS")
