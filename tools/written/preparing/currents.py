"""Currents of components: from a power report by instances, a table of instance and current, or a total that is shared by area."""
import re
from fractions import Fraction

from ..refusal import Refused, read_text
from .quantities import ceiling, decimal, floor, number, scaled

FEMTO = 10**15
UNITS = {"WATTS": 1, "W": 1, "MW": Fraction(1, 10**3), "UW": Fraction(1, 10**6), "NW": Fraction(1, 10**9), "PW": Fraction(1, 10**12)}
DRAW_NOTHING = ("SPACER", "WELLTAP", "ANTENNACELL", "FEEDTHRU")
HEADS = (["instance", "current"], ["instance", "low", "high"])


class Currents:
    """The current of each component, between two numbers of femtoamperes."""

    def __init__(self, design, changes):
        self.design, self.changes, self.held = design, changes, {}

    def add(self, path, line, word, low, high):
        """A component's current. Its name is taken without escapes, as the design's names are."""
        name = word if word in self.design.components else self.design.plain_name(word)
        if name not in self.design.components:
            raise Refused(path, line, f"{word}: no component of the design has this name")
        if name in self.held:
            raise Refused(path, line, f"{word}: the component has a current before")
        if name != word:
            self.changes.tell("changed", path, line, "instance", "a name is taken without escapes, with [] for bits and / for levels")
        self.held[name] = (low, high)

    def lines(self):
        """The lines of the bias file, in the order in which the currents came."""
        for name, (low, high) in self.held.items():
            yield f"instance {name} {ampere(low)}" + ("" if low == high else f" {ampere(high)}") + "\n"


def ampere(value):
    return decimal(Fraction(value, FEMTO), 15)


def read_power(path, currents, volts, as_printed):
    """A file of currents: a report, or a table with commas."""
    lines = read_text(path).splitlines()
    if any("," in line for line in lines):
        read_table(path, lines, currents)
    else:
        read_report(path, lines, currents, volts, as_printed)


def read_table(path, lines, currents):
    """A table of instance,current or instance,low,high, in amperes."""
    before = len(currents.held)
    for place, text in enumerate(lines, 1):
        fields = [field.strip() for field in text.split("#")[0].split(",")]
        if fields == [""] or [field.lower() for field in fields] in HEADS:
            continue
        values = [scaled(field, "A") for field in fields[1:]]
        if len(values) not in (1, 2) or None in values:
            raise Refused(path, place, f"{fields[0]}: instance,current or instance,low,high is due, in amperes, perhaps with a scale as 1.5m")
        if values[-1] < values[0]:
            raise Refused(path, place, f"{fields[-1]}: it is below the number before it")
        exact = [value * FEMTO for value in values]
        if any(value.denominator != 1 for value in exact):
            currents.changes.tell("changed", path, place, fields[0], "its current is rounded outward to a femtoampere")
        currents.add(path, place, fields[0], floor(exact[0]), ceiling(exact[-1]))
    currents.changes.tell("changed", path, None, "table", f"{len(currents.held) - before} currents are written in amperes")


def read_report(path, lines, currents, volts, as_printed):
    """A report of powers: internal, switching, leakage, total, instance. The current is the total over the voltage, rounded outward."""
    scale, rows = unit_of(path, lines, currents.changes), 0
    for place, text in enumerate(lines, 1):
        words = text.split(None, 4)
        if len(words) < 5 or number(words[3]) is None:
            check_heading(path, place, words)
            continue
        rows += 1
        low, high = bounds(words[3], as_printed)
        currents.add(path, place, words[4].strip(), floor(low * scale / volts * FEMTO), ceiling(high * scale / volts * FEMTO))
    if rows == 0:
        raise Refused(path, None, "report: it has no row of an instance; write it by report_power -instances")
    how = "as they are printed" if as_printed else "each known to half of its last digit"
    currents.changes.tell("changed", path, 1, "Total", f"{rows} powers, {how}, are divided by {decimal(volts, 6)} volts and rounded outward to a femtoampere")


def unit_of(path, lines, changes):
    """The unit of a report's powers: the one in its heading, else watts."""
    for place, text in enumerate(lines, 1):
        found = re.search(r"Power.*\((\w+)\)", text)
        if found and found.group(1).upper() not in UNITS:
            raise Refused(path, place, f"{found.group(1)}: no unit of power that is known here")
        if found:
            return UNITS[found.group(1).upper()]
    changes.tell("guessed", path, 1, "Power", "the report names no unit; its powers are taken in watts")
    return 1


def check_heading(path, place, words):
    """Lines without a power are headings, rules or empty."""
    known = ("Internal", "Power", "Switching", "Leakage", "Total", "(Watts)")
    if words and not set("".join(words)) <= {"-"} and not all(word in known or word.startswith("(") for piece in words for word in piece.split()):
        raise Refused(path, place, f"{words[0]}: no row of a report by instances; write it by report_power -instances")


def bounds(word, as_printed):
    """Between which numbers a printed number lies: half of its last digit to both sides. A 0 with an exponent is 0."""
    value = number(word)
    mantissa, _, exponent = word.lower().partition("e")
    if as_printed or (value == 0 and exponent):
        return value, value
    places = len(mantissa.partition(".")[2])
    half = Fraction(1, 2 * 10**places) * Fraction(10)**int(exponent or 0)
    return (max(value - half, Fraction(0)) if value >= 0 else value - half), value + half


def share_total(current, library, currents, told):
    """Shares a current among the placed components by their areas. Fillers, taps and antenna cells draw nothing."""
    path, word = told
    drawing = []
    for component in currents.design.components.values():
        macro = library.macros.get(component.macro)
        if macro is None:
            currents.design.source.refuse(component.word, f"no LEF has its macro {component.macro}; hand in the one that has it")
        if component.place and not set(macro.kind_words[1:]) & set(DRAW_NOTHING):
            drawing.append((component.name, macro.size[0] * macro.size[1]))
    total = sum(area for _, area in drawing)
    if not drawing:
        raise Refused(currents.design.source.path, None, "COMPONENTS: no placed component draws a current, so that none is shared")
    for name, area in drawing:
        exact = current * area / total * FEMTO
        currents.held.setdefault(name, (floor(exact), ceiling(exact)))
    currents.changes.tell("guessed", path, None, word, f"{decimal(current, 15)} amperes are shared by area among {len(drawing)} components, rounded outward "
                                                       "to a femtoampere")


def liberty_voltage(path, changes):
    """The nominal voltage of a Liberty file."""
    text = read_text(path)
    found = re.search(r"^[ \t]*nom_voltage\s*:\s*\"?([0-9.eE+-]+)\"?\s*;?", text, re.MULTILINE)
    if found is None or number(found.group(1)) is None:
        raise Refused(path, None, "nom_voltage: the library does not state it; give --supply NET=VOLTS")
    line = text.count("\n", 0, found.start(1)) + 1
    changes.tell("guessed", path, line, "nom_voltage", f"nets of power are held at {found.group(1)} volts")
    return number(found.group(1))
