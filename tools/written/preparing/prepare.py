"""The steps of tools/prepare: read all, fit the texts to each other, write all."""
import os

from ..refusal import Refused
from .bias import Bias
from .cells_text import cells_text
from .changes import Changes
from .design import read_design
from .design_text import design_text
from .foreign import read_wiring, straps_of, wires_text
from .given import amounts, pairs, read_layer_script
from .lef import read_libraries
from .model_cuts import model_rules
from .output import write_all
from .rows import core_rows
from .script import fit_script, read_script, script_text
from .straps import Drawing
from .technology_text import Given, technology_text, use_rules

# kits, by how the names of their files begin, whose densities of cuts are in mA for each cut
KITS_PER_CUT = ("sky130",)


def given_of(words, library, changes):
    """What the caller says of layers."""
    resistances = read_layer_script(words.layer_rc, library, changes) if words.layer_rc else {}
    resistances.update(amounts(words.via_resistance, "--via-resistance", True))
    resistances.update(amounts(words.sheet_resistance, "--sheet-resistance", True))
    given = Given(resistances, amounts(words.current_density, "--current-density", True), per_cut_layers(words, changes))
    given.check(library)
    return given


def per_cut_layers(words, changes):
    """The cut layers whose densities are in mA for each cut: those that the caller names, else all where a file is named after a kit that writes them so."""
    if words.per_cut_density:
        return set(words.per_cut_density) - {"none"}
    named = [path for path in words.lef if os.path.basename(path).lower().startswith(KITS_PER_CUT)]
    for path in named[:1]:
        changes.tell("guessed", path, None, "DCCURRENTDENSITY", "a file of this name has its densities of cuts in mA for each cut; --per-cut-density none takes "
                                                                "them in mA for each square micrometre, as the standard does")
    return {"all"} if named else set()


FILES = ("technology.lef", "cells.lef", "design.def", "grid.pdn", "bias", "wires.def", "wires.bias")


class Run:
    """One run: what was read, and the texts that are made of it."""

    def __init__(self, words):
        self.words, self.changes, self.texts = words, Changes(), dict.fromkeys(FILES)
        self.library = read_libraries(words.lef, self.changes)
        self.given = given_of(words, self.library, self.changes)
        self.design = read_design(words.design, self.changes)
        self.script = self.run_script() if words.pdn else None
        self.rows = core_rows(self.design, self.library)
        if self.script:
            fit_script(self.script, self.design, self.library, self.changes)

    def run_script(self):
        """The script, as tclsh ran it."""
        dropped = {"-" + option.lstrip("-") for option in self.words.leave_out}
        return read_script(self.words.pdn, pairs(self.words.set, "--set"), dropped, self.changes)

    def make(self):
        """Makes the texts."""
        rules = use_rules(self.library)
        models = model_rules(self.script, self.library, rules, self.design.units, self.words.model_cuts, self.changes) if self.script else ()
        self.texts["technology.lef"] = technology_text(self.library, rules, self.given, self.design.units, models)
        self.texts["cells.lef"] = cells_text(self.library)
        self.texts["design.def"] = design_text(self.design, self.library, self.rows)
        wiring = self.wiring(rules)
        nets = self.script.nets() if self.script else {net.name: net.use for net in wiring[0]}
        bias = Bias(self.words, self.design, self.library, nets, self.changes)
        if self.script:
            self.texts["grid.pdn"] = script_text(self.script)
            self.texts["bias"] = bias.text(list(Drawing(self.script, self.design, self.library, self.rows).straps()), "bias")
        if wiring:
            self.converted(lambda: self.make_wires(bias, *wiring))
        if self.texts["wires.def"] is None:
            self.pass_over_vias()
        self.texts["changes"] = self.changes.text()

    def pass_over_vias(self):
        """Tells of the vias of the design where no wiring is written that may use them."""
        for words in self.design.vias:
            self.design.source.tell_of("passed over", words[1], "VIAS", "a via of the design: vias of the grid are made by rules")

    def converted(self, step):
        """What a step makes of the wiring. What is not converted is told where there is a script, and refused where there is none."""
        before = self.changes.copy()
        try:
            return step()
        except Refused as why:
            if not self.script:
                raise
            self.changes.held = before
            self.changes.tell("left out", self.words.design, None, "SPECIALNETS", f"no wires.def is written: {why}")
            return None

    def wiring(self, rules):
        """The wiring of the design, where it has any."""
        wanted = self.words.nets or (list(self.script.nets()) if self.script else [])
        wiring = self.converted(lambda: read_wiring(self.design, self.library, rules, wanted))
        if not wiring and not self.script:
            raise Refused(self.words.design, None, "SPECIALNETS: no net of power and ground is wired; give a script by --pdn")
        return wiring

    def make_wires(self, bias, nets, vias):
        """The wiring for signoff, and a bias file whose pads are on it."""
        name = "wires.bias" if self.script else "bias"
        wires = wires_text(self.design, nets, vias)
        self.texts[name] = bias.text(straps_of(nets, self.design), name)
        self.texts["wires.def"] = wires
        if self.script:
            self.changes.tell("left out", self.words.design, None, "SPECIALNETS", "the wiring is not in design.def, and is kept in wires.def")


def prepare(words):
    """Makes the texts of the files that the words name, and the line that says how many changes there are."""
    run = Run(words)
    run.make()
    write_all(words.out, run.texts)
    return run.texts["changes"].splitlines()[-1]
