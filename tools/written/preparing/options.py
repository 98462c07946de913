"""The commands of OpenROAD's PDN and their options: which are kept, which change no metal, and which draw what `pdn` does not draw."""
from typing import NamedTuple

from ..refusal import Refused

# how a value is read: a name, a list of names, a length, a width (which has a centre line), a list of either, a count, a side to start with
NAME, NAMES, LENGTH, WIDTH, LENGTHS, WIDTHS, COUNT, START, FLAG = range(9)


class Option(NamedTuple):
    """An option: how its value is read, and why it is left out or refused, if it is."""
    form: int
    left_out: str = ""
    refused: str = ""


def kept(form):
    return Option(form)


def left_out(form, why):
    return Option(form, left_out=why)


def refused(form, why):
    return Option(form, refused=why)


PLACED = "it places vias or straps where pdn does not; leave it out by --leave-out if the grid may be without it"
OTHER_NET = "pdn draws one power and one ground net of a domain"
COMMANDS = {
    "set_voltage_domain": {
        "-name": kept(NAME), "-power": kept(NAME), "-ground": kept(NAME), "-region": kept(NAME), "-secondary_power": refused(NAMES, OTHER_NET),
        "-switched_power": refused(NAME, OTHER_NET)},
    "define_pdn_grid": {
        "-name": kept(NAME), "-voltage_domains": kept(NAMES), "-pins": kept(NAMES), "-starts_with": kept(START), "-orient": kept(NAMES),
        "-instances": kept(NAMES), "-cells": kept(NAMES), "-halo": kept(LENGTHS), "-macro": kept(FLAG), "-grid_over_pg_pins": kept(FLAG),
        "-grid_over_boundary": kept(FLAG), "-default": kept(FLAG), "-obstructions": refused(NAMES, "pdn has no such obstructions; write them as BLOCKAGES"),
        "-power_switch_cell": refused(NAME, OTHER_NET), "-power_control": refused(NAME, OTHER_NET),
        "-power_control_network": refused(NAME, OTHER_NET), "-existing": refused(FLAG, "sign the grid off by pdn signoff"),
        "-bump": refused(FLAG, "pdn has no grids over bumps")},
    "add_pdn_stripe": {
        "-grid": kept(NAME), "-layer": kept(NAME), "-width": kept(WIDTH), "-pitch": kept(LENGTH), "-spacing": kept(LENGTH), "-offset": kept(LENGTH),
        "-number_of_straps": kept(COUNT), "-starts_with": kept(START), "-nets": kept(NAMES), "-followpins": kept(FLAG),
        "-extend_to_boundary": kept(FLAG), "-extend_to_core_ring": kept(FLAG), "-snap_to_grid": refused(FLAG, PLACED)},
    "add_pdn_ring": {
        "-grid": kept(NAME), "-layers": kept(NAMES), "-widths": kept(WIDTHS), "-spacings": kept(LENGTHS), "-core_offsets": kept(LENGTHS),
        "-starts_with": kept(START), "-nets": kept(NAMES), "-add_connect": kept(FLAG),
        "-allow_out_of_die": left_out(FLAG, "pdn draws rings outside the die too"),
        "-pad_offsets": refused(LENGTHS, "pdn knows no pads of the frame; write -core_offsets"),
        "-connect_to_pads": refused(FLAG, PLACED), "-connect_to_pad_layers": refused(NAMES, PLACED), "-extend_to_boundary": refused(FLAG, PLACED)},
    "add_pdn_connect": {
        "-grid": kept(NAME), "-layers": kept(NAMES), "-max_rows": kept(COUNT), "-max_columns": kept(COUNT), "-cut_pitch": refused(LENGTHS, PLACED),
        "-fixed_vias": refused(NAMES, PLACED), "-ongrid": refused(NAMES, PLACED), "-split_cuts": refused(NAMES, PLACED),
        "-dont_use_vias": refused(NAME, PLACED)},
    "pdngen": {
        "-skip_trim": left_out(FLAG, "pdn trims no straps"), "-dont_add_pins": left_out(FLAG, "pdn adds no pins"),
        "-report_only": left_out(FLAG, "the grid is drawn all the same"), "-failed_via_report": left_out(NAME, "pdn refuses where a via fails"),
        "-verbose": left_out(FLAG, "it changes no metal"), "-reset": refused(FLAG, "pdn reads the commands once"),
        "-ripup": refused(FLAG, "the special nets of the design are left out as they are")},
}


class Command:
    """A command with its options in full, and where it stands."""

    def __init__(self, call, options):
        self.path, self.line, self.name, self.options = call.path, call.line, call.name, options

    def get(self, option, default=None):
        return self.options.get(option, default)

    def refuse(self, word, why):
        raise Refused(self.path, self.line, f"{word}: {why}")


def whole_option(call, word):
    """The option that a word stands for: as OpenROAD takes it, the word itself or the one option that it begins, keys before flags."""
    known = COMMANDS[call.name]
    if word in known:
        return word
    keys = [option for option in known if option.startswith(word) and known[option].form != FLAG]
    flags = [option for option in known if option.startswith(word) and known[option].form == FLAG]
    found = keys or flags
    if len(found) == 1:
        return found[0]
    why = f"it may be {' or '.join(found)}; write it in full" if found else f"{call.name} has no such option"
    raise Refused(call.path, call.line, f"{word}: {why}")


def read_options(call, changes, dropped):
    """The options of a call, with what is left out told."""
    options, words = {}, list(call.words)
    while words:
        word = words.pop(0)
        if not word.startswith("-") or word == "-":
            raise Refused(call.path, call.line, f"{word}: it belongs to no option of {call.name}")
        name = whole_option(call, word)
        option = COMMANDS[call.name][name]
        if name != word:
            changes.tell("changed", call.path, call.line, word, f"completed to {name}")
        value = "" if option.form == FLAG else take_value(call, name, words)
        if name in options:
            raise Refused(call.path, call.line, f"{name}: it stands twice; leave one out")
        if name in dropped and (option.refused or option.left_out):
            changes.tell("left out", call.path, call.line, name, f"of {call.name}: as the caller asks")
        elif option.left_out:
            changes.tell("left out", call.path, call.line, name, f"of {call.name}: {option.left_out}")
        elif option.refused:
            raise Refused(call.path, call.line, f"{name}: {option.refused}")
        else:
            options[name] = read_value(call, name, option.form, value, changes)
    return options


def take_value(call, name, words):
    if not words:
        raise Refused(call.path, call.line, f"{name}: its value is missing")
    return words.pop(0)


def read_value(call, name, form, value, changes):
    """A value in its form: a list of words where the option has several."""
    held = value.replace("{", " ").replace("}", " ").split()
    if form in (NAMES, LENGTHS, WIDTHS):
        return held
    if form == FLAG:
        return True
    if len(held) != 1:
        raise Refused(call.path, call.line, f"{name}: one value is due, and {len(held)} are there")
    if form == START and held[0].upper() != held[0]:
        changes.tell("changed", call.path, call.line, held[0], f"taken as {held[0].upper()}")
    return held[0].upper() if form == START else held[0]
