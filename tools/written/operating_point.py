"""The operating point of a netlist as ngspice finds it, and the groups of nodes that shorts join."""
import os
import re
import struct
import tempfile
from fractions import Fraction

from .netlist import GROUND
from .other_tools import output_of, refuse_output
from .refusal import Refused, write_text


def is_short(card):
    """Whether a card joins its two nodes. A source of 0 volts to ground is a pad."""
    return card.value == 0 and (card.kind == "r" or (card.kind == "v" and GROUND not in (card.start, card.end)))


def nodes_of(cards):
    """The names of the nodes, ground left out, in byte order."""
    names = {name for card in cards for name in (card.start, card.end)} - {GROUND}
    return sorted(names, key=lambda name: name.encode("utf-8", "surrogateescape"))


def groups_of(cards):
    """For each node that some short joins to others the name of their group, the first of its names in byte order."""
    first = {}

    def root(name):
        while name in first:
            name = first[name]
        return name

    for card in filter(is_short, cards):
        low, high = sorted((root(card.start), root(card.end)), key=lambda name: name.encode("utf-8", "surrogateescape"))
        if low != high:
            first[high] = low
    return {name: root(name) for name in first}


def deck(cards, number):
    """The netlist for ngspice, in which a node has its number for a name, and a resistor of 0 ohms is a source of 0 volts."""
    lines = ["* netlist"]
    for place, card in enumerate(cards):
        ends = " ".join(GROUND if name == GROUND else f"n{number[name]}" for name in (card.start, card.end))
        if card.kind == "r" and card.value != 0:
            lines.append(f"r{place} {ends} {card.value:f}")
        else:
            lines.append(f"{'i' if card.kind == 'i' else 'v'}{place} {ends} dc {card.value:f}")
    return lines


def operating_point(cards, path):
    """The voltage of each node, as exact as ngspice has it."""
    names = nodes_of(cards)
    number = {name: place for place, name in enumerate(names)}
    with tempfile.TemporaryDirectory() as folder:
        source, found = os.path.join(folder, "deck.sp"), os.path.join(folder, "point.raw")
        control = [".options reltol=1e-9 abstol=1e-15 vntol=1e-12", ".control", "op", f"write {found}", "quit", ".endc", ".end", ""]
        write_text(source, "\n".join(deck(cards, number) + control))
        _, said = output_of(["ngspice", "-b", source], folder)
        if not os.path.exists(found):
            refuse_output("ngspice", said, path)
        volts = read_raw(found)
    missing = next((name for name in names if f"n{number[name]}" not in volts), None)
    if missing is not None:
        raise Refused(path, None, f"ngspice tells no voltage of {missing}")
    return {GROUND: Fraction(0), **{name: volts[f"n{number[name]}"] for name in names}}


def read_raw(path):
    """The values of a raw file of one point, by the names of the variables."""
    with open(path, "rb") as file:
        head, _, values = file.read().partition(b"Binary:\n")
    rows = re.findall(r"^\t[0-9]+\t(\S+)\t", head.decode("ascii", "replace"), re.M)
    names = [re.sub(r"^v\((.*)\)$", r"\1", row) for row in rows]
    return {name: Fraction(value) for name, value in zip(names, struct.unpack(f"<{len(names)}d", values[:8 * len(names)]))}
