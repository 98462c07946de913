"""A netlist handed to ngspice as it is, and what SPICE reads otherwise in it than pdn."""
import os
import re
import tempfile

from .circuit import has_form_of_card, words_of
from .operating_point import read_raw
from .other_tools import output_of
from .refusal import read_text, write_text

GROUND_NAME = "gnd"
PLAIN = re.compile(r"[a-z0-9_.]+")


def card_names(path):
    """The names of the cards with their lines, in lower case, up to `.end`."""
    for place, line in enumerate(read_text(path).split("\n"), 1):
        words = words_of(line)
        if words and words[0].lower() == ".end":
            return
        if words and not line.startswith(("*", "+", ".")) and place > 1:
            yield words[0].lower(), place


def first_line_lost(path):
    """Whether the first line is a card to pdn. To SPICE it is the title."""
    words = words_of(read_text(path).split("\n")[0])
    return bool(words) and has_form_of_card(words) and not words[0].startswith("*")


def read_otherwise(path, cards):
    """What SPICE reads otherwise, a line for each kind."""
    if first_line_lost(path):
        yield "line 1 is the title there, and its card is lost"
    grounded = next((card.line for card in cards if GROUND_NAME in (card.start, card.end)), None)
    if grounded is not None:
        yield f"the node {GROUND_NAME} of line {grounded} is ground there"
    joined = next((card.line for card in cards if card.kind == "r" and card.value == 0), None)
    if joined is not None:
        yield f"the resistor of 0 ohms in line {joined} has 1 milliohm there"
    odd = next(((name, card.line) for card in cards for name in (card.start, card.end) if not PLAIN.fullmatch(name)), None)
    if odd is not None:
        yield f"the node {odd[0]} of line {odd[1]} has other signs in its name than letters, digits, `_` and `.`, which may mean something there"
    seen = {}
    for name, line in card_names(path):
        if name in seen:
            yield f"the card {name} of line {line} has the name of that of line {seen[name]}, which is an error there"
            break
        seen[name] = line


def raw_point(path):
    """The voltages that ngspice finds from the file as it is, by the names of the nodes; or the last line of what it says."""
    with tempfile.TemporaryDirectory() as folder:
        script, found = os.path.join(folder, "run.sp"), os.path.join(folder, "point.raw")
        copy = os.path.join(folder, "netlist")
        write_text(copy, read_text(path))
        write_text(script, "\n".join(["* run", ".control", f"source {copy}", "op", f"write {found}", "quit", ".endc", ".end", ""]))
        _, said = output_of(["ngspice", "-b", script], folder)
        volts = {} if not os.path.exists(found) else read_raw(found)
    if not volts or "boltz" in volts:
        told = [line.strip() for line in said.splitlines() if "rror" in line]
        return None, told[0] if told else "it printed no error"
    return volts, ""
