"""Pads and currents: units that are none, nets without pads, and currents that are too few."""
import re
from fractions import Fraction

from ..preparing.currents import bounds, unit_of
from ..preparing.changes import Changes
from ..preparing.quantities import decimal, number
from ..refusal import Refused, read_text
from .texts import Finding, amount, scale_of

VOLTS = ("V", "VOLT", "VOLTS")
AMPERES = ("A", "AMP", "AMPS", "AMPERE", "AMPERES")


def wrong_units(texts):
    """Numbers whose letters name another unit than volts of supplies and limits, and amperes of currents."""
    for line in texts.bias:
        units, wanted = (VOLTS, "volts") if line.kind in ("supply", "droplimit") else (AMPERES, "amperes")
        for word in line.amounts():
            letters = re.match(r"[-+0-9.]+(?:[eE][-+]?[0-9]+)?", word)
            unit = scale_of(word[letters.end():])[1].upper()
            if unit and unit not in units:
                yield Finding(texts.bias_path, line.line, word, f"the letters {unit} are no unit of {wanted}, and are passed over; write the number in {wanted}")


def nets_without_pads(texts):
    """Nets on which no pad stands."""
    with_pads = {line.words[0] for line in texts.bias if line.kind == "pad"}
    for net in texts.script.nets():
        if net not in with_pads:
            line = next((line.line for line in texts.bias if line.kind == "supply" and line.words[0] == net), 1)
            yield Finding(texts.bias_path, line, net, "no pad is on this net; write a line: pad NET LAYER x y")


def most_drawn(texts):
    """The most that all components draw together, in amperes."""
    of_macro = {line.words[0]: amount(line.words[-1]) for line in texts.bias if line.kind == "cell"}
    of_component = {line.words[0]: amount(line.words[-1]) for line in texts.bias if line.kind == "instance"}
    return sum((of_component.get(name, of_macro.get(component.macro, Fraction(0))) for name, component in texts.design.components.items()), Fraction(0))


def too_few_currents(texts, least):
    """No load at all, or less than a power in watts, which a report states."""
    drawn = most_drawn(texts)
    volts = [amount(line.words[1]) for line in texts.bias if line.kind == "supply"]
    if drawn == 0:
        yield Finding(texts.bias_path, 1, "instance", "no component draws a current, so that nothing drops; write lines instance or cell")
    elif least is not None and volts and drawn * (max(volts) - min(volts)) < least[0]:
        yield Finding(texts.bias_path, 1, "instance", f"the components draw at most {decimal(drawn * (max(volts) - min(volts)), 12)} watts, and {least[1]} has at least "
                      f"{decimal(least[0], 12)}; state the currents that lack")


def least_of_report(path):
    """The least power that a report has in total, in watts: its line Total, else the sum of its rows; a printed number may be off by half of its last digit."""
    lines = read_text(path).splitlines()
    rows = [words for words in (line.split() for line in lines) if len(words) >= 5 and number(words[3]) is not None and number(words[2]) is not None]
    totals = [words[4] for words in (line.split() for line in lines) if words[:1] == ["Total"] and len(words) >= 5 and number(words[4]) is not None]
    words = totals[:1] or [row[3] for row in rows]
    if not words:
        raise Refused(path, None, "report: it has no line Total and no row of an instance; hand in what report_power prints")
    return sum((bounds(word, False)[0] for word in words), Fraction(0)) * unit_of(path, lines, Changes()), path
