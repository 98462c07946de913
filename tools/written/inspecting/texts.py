"""The five texts of a build, with where each thing of them stands."""
import re
from functools import cached_property
from typing import NamedTuple

from ..preparing.changes import Changes
from ..preparing.checks import check_commands
from ..preparing.design import read_design
from ..preparing.lef import read_libraries
from ..preparing.quantities import scaled
from ..preparing.rows import core_rows
from ..preparing.script import blocks_of, grid_of_block, put_on_grid, read_script
from ..preparing.straps import Core, Drawing
from ..preparing.words import Source
from ..refusal import Refused, read_text

ARITY = {"supply": (2,), "droplimit": (2,), "pad": (4,), "cell": (2, 3), "instance": (2, 3)}


class Finding(NamedTuple):
    """A thing that somebody should look at: where it stands, the word, and what it is and what to do."""
    path: str
    line: int
    word: str
    what: str

    def __str__(self):
        return f"{self.path}:{self.line}: {self.word}: {self.what}"


class BiasLine(NamedTuple):
    """A line of the bias file: its kind, its words, and where it stands."""
    kind: str
    words: list
    line: int

    def amounts(self):
        """The words that are amounts: volts or amperes."""
        return self.words[1:] if self.kind != "pad" else []


def read_bias(path):
    """The lines of the bias file."""
    found = []
    for place, text in enumerate(read_text(path).split("\n"), 1):
        words = re.sub(r"(^|\s)#.*", "", text).split()
        if not words:
            continue
        if len(words) - 1 not in ARITY.get(words[0], ()):
            raise Refused(path, place, f"{words[0]}: no line of a bias file; pdn build would refuse it")
        line = BiasLine(words[0], words[1:], place)
        for word in line.amounts():
            if amount(word) is None:
                raise Refused(path, place, f"{word}: a number is due; pdn build would refuse it")
        found.append(line)
    return found


def amount(word):
    """The number of a word with one of SPICE's scales, whatever letters stand behind it."""
    digits = re.match(r"[-+0-9.]+(?:[eE][-+]?[0-9]+)?", word)
    if digits is None:
        return None
    return scaled(digits.group() + scale_of(word[digits.end():])[0])


def scale_of(letters):
    """The scale at the beginning of the letters behind a number, and the letters behind it."""
    size = 3 if letters.upper().startswith("MEG") else 1 if letters[:1].upper() in ("T", "G", "K", "M", "U", "N", "P", "F") else 0
    return letters[:size], letters[size:]


class Texts:
    """The five texts: technology and cells, design, script and bias file."""

    def __init__(self, lef, design, pdn, bias):
        changes = Changes()
        self.library = read_libraries(lef, changes)
        self.design = read_design(design, changes)
        self.script = read_script([pdn], {}, (), changes)
        self.check_script(changes)
        self.rows = core_rows(self.design, self.library)
        self.bias_path, self.bias = bias, read_bias(bias)
        self.drawing = Drawing(self.script, self.design, self.library, self.rows)
        self.grid = next((grid for grid in (manufacturing_grid(path, changes) for path in lef) if grid), None)

    def check_script(self, changes):
        """What a drawing asks of the script: its options, its layers, lengths on the design's units, and rails with a width."""
        check_commands(self.script, self.library)
        for command in self.script.commands:
            put_on_grid(command, self.design.units, changes)
            if command.get("-followpins") and not command.get("-width"):
                command.refuse(command.name, "it has no -width; pdn build would refuse it")

    def macro_grids(self):
        return [grid for grid in self.script.of("define_pdn_grid") if grid.get("-macro")]

    def blocks(self):
        """The placed blocks, each with its component, its rectangle and its grid, if it has one."""
        for name, macro, orientation in blocks_of(self.design, self.library):
            component = self.design.components[name]
            yield component, self.box_of(component), grid_of_block(self.macro_grids(), (name, macro, orientation))

    def box_of(self, component):
        """The rectangle of a placed component in units."""
        width, height = (int(length * self.design.units) for length in self.library.macros[component.macro].size)
        x, y, orientation = component.place
        if orientation in ("E", "W", "FE", "FW"):
            width, height = height, width
        return x, y, x + width, y + height

    def line_of(self, component):
        return self.design.source.line(component.word)

    @cached_property
    def straps(self):
        """The straps, rings and rails of each command: those of a grid over macros for each block that has it."""
        return list(self.draw())

    def draw(self):
        """Draws each command of a stripe or a ring."""
        over = {}
        for _, box, grid in self.blocks():
            if grid is not None:
                over.setdefault(grid.get("-name"), []).append(box)
        names = [grid.get("-name") for grid in self.macro_grids()]
        for command in self.script.commands:
            if command.name not in ("add_pdn_ring", "add_pdn_stripe"):
                continue
            name = command.get("-grid")
            if name not in names:
                yield command, list(drawn(self.drawing, command))
            elif not command.get("-followpins"):
                yield command, [strap for box in over.get(name, ()) for strap in drawn(self.drawing_over(box), command)]

    def drawing_over(self, box):
        """A drawing with the box of a block in place of the core."""
        drawing = Drawing(self.script, self.design, self.library, self.rows)
        drawing.core = Core(box, self.design.die, drawing.core.row_height)
        return drawing


def drawn(drawing, command):
    """The straps of one command."""
    if command.name == "add_pdn_ring":
        return drawing.ring(command)
    return drawing.rails(command) if command.get("-followpins") else drawing.stripes(command)


def manufacturing_grid(path, changes):
    """The MANUFACTURINGGRID that a LEF file states, as its word."""
    words = Source(path, changes).words
    return next((words[at + 1] for at, word in enumerate(words[:-1]) if word.upper() == "MANUFACTURINGGRID"), None)
