"""The bias file: supplies, limits of the drop, pads and currents."""
from ..refusal import Refused, read_text
from .currents import Currents, liberty_voltage, read_power, share_total
from .given import CALL, amounts
from .pads import Place, Supplies, on_straps, pad_text, pads_of_file, pads_of_pins
from .quantities import decimal, number


class Bias:
    """What the bias files of a design say, apart from where the pads stand."""

    def __init__(self, words, design, library, nets, changes):
        self.words, self.design, self.library, self.nets, self.changes = words, design, library, nets, changes
        self.supplies = Supplies({name: held[0] for name, held in amounts(words.supply, "--supply", False).items()})
        self.limits = {name: held[0] for name, held in amounts(words.drop_limit, "--drop-limit", True).items()}
        for name in [*self.supplies.volts, *self.limits]:
            if name not in nets:
                raise Refused(CALL, None, f"--supply or --drop-limit {name}: no net of the script or the wiring has this name")
        self.fill_supplies()
        self.pads = self.wanted_pads()
        self.check_supplies()
        self.currents = self.read_currents()

    def fill_supplies(self):
        """Voltages that the caller does not state: those of a Liberty file for power, and 0 for ground."""
        volts = self.supplies.volts
        if self.words.liberty:
            nominal = liberty_voltage(self.words.liberty, self.changes)
            for net, use in self.nets.items():
                if use == "POWER":
                    volts.setdefault(net, nominal)
        for net, use in self.nets.items():
            if use == "GROUND" and net not in volts:
                volts[net] = number("0")
                self.changes.tell("guessed", CALL, None, net, "the ground net is held at 0 volts")

    def wanted_pads(self):
        """The pads of the caller's file, else those of the design's pins."""
        if self.words.pads:
            for words in self.design.pins:
                self.design.source.tell_of("passed over", words[1], "PINS", "a pin of the design: pads are those of --pads")
            return pads_of_file(self.words.pads, self.nets, self.supplies, self.changes)
        pads = pads_of_pins(self.design, self.nets)
        if not pads:
            raise Refused(self.design.source.path, None, f"PINS: no placed pin of {' or '.join(self.nets)} tells a pad; give pads by --pads")
        self.changes.tell("guessed", self.design.source.path, None, "PINS", f"{len(pads)} pins of power and ground are taken as pads")
        return pads

    def check_supplies(self):
        """Each net needs a voltage."""
        for net in self.nets:
            if net not in self.supplies.volts:
                raise Refused(CALL, None, f"{net}: no voltage is known; give --supply {net}=VOLTS, or a Liberty file by --liberty")

    def volts_of_power(self):
        """The voltage between power and ground, where all domains have one alone."""
        volts = self.supplies.volts
        found = {volts[power] for power, use in self.nets.items() if use == "POWER"}
        grounds = {volts[ground] for ground, use in self.nets.items() if use == "GROUND"}
        if len(found) != 1 or len(grounds) != 1 or min(found) <= max(grounds):
            raise Refused(CALL, None, "--power: powers make currents only where all domains have one voltage above ground; give a table of currents")
        return next(iter(found)) - next(iter(grounds))

    def read_currents(self):
        """The currents of the components."""
        currents, words = Currents(self.design, self.changes), self.words
        for path in words.power:
            read_power(path, currents, self.volts_of_power() if not is_table(path) else None, words.as_printed)
        if words.total_power:
            watts = positive(words.total_power, "--total-power")
            share_total(watts / self.volts_of_power(), self.library, currents, (CALL, "--total-power"))
        if words.total_current:
            share_total(positive(words.total_current, "--total-current"), self.library, currents, (CALL, "--total-current"))
        self.tell_without(currents)
        return currents

    def tell_without(self, currents):
        """Tells how many components draw nothing."""
        without = [component for component in self.design.components.values() if component.name not in currents.held]
        for component in without:
            self.design.source.tell_of("missing", component.word, component.macro, "components of the macro that no current is given for, and that draw none")

    def text(self, straps, name):
        """The bias file of this name for a grid."""
        volts = self.supplies.volts
        lines = [f"supply {net} {decimal(volts[net], 24)}\n" for net in self.nets]
        lines += [f"droplimit {net} {decimal(limit, 24)}\n" for net, limit in self.limits.items()]
        layers = [layer.name for layer in self.library.routing()]
        pads = dict.fromkeys(on_straps(self.pads, Place(straps, layers, self.design.units, self.changes, name)))
        lines += [pad_text(pad, self.design.units) for pad in pads]
        return "".join([*lines, *self.currents.lines()])


def is_table(path):
    """Whether a file of currents is a table with commas."""
    return "," in read_text(path)


def positive(word, option):
    amount = number(word)
    if amount is None or amount <= 0:
        raise Refused(CALL, None, f"{option} {word}: a number above 0 is due")
    return amount
