"""What the caller gives: NAME=VALUE words, and scripts of set_layer_rc."""
from ..refusal import Refused
from .quantities import number
from .tcl import run_scripts

CALL = "the caller"


def pairs(words, option):
    """The words NAME=VALUE of an option."""
    found = {}
    for word in words:
        name, equals, value = word.partition("=")
        if not equals or not name or not value:
            raise Refused(CALL, None, f"{option} {word}: NAME=VALUE is due")
        if name in found:
            raise Refused(CALL, None, f"{option} {word}: {name} stands before")
        found[name] = value
    return found


def amounts(words, option, positive):
    """The words NAME=NUMBER of an option, each with what is told of it."""
    found = {}
    for name, value in pairs(words, option).items():
        amount = number(value)
        if amount is None or (positive and amount <= 0):
            raise Refused(CALL, None, f"{option} {name}={value}: {'a number above 0' if positive else 'a number'} is due")
        found[name] = (amount, CALL, None, option)
    return found


def read_layer_script(path, library, changes):
    """Resistances of a script of set_layer_rc: kiloohms for each micrometre of a wire of the layer's width, and for each cut."""
    found = {}
    for call in run_scripts([path], {}):
        if call.name != "set_layer_rc":
            changes.tell("passed over", call.path, call.line, call.name, "the command says nothing of a resistance of a layer")
            continue
        words = dict(zip(call.words[::2], call.words[1::2]))
        name = words.get("-layer", words.get("-via"))
        value = number(words.get("-resistance", "none"))
        if name is None or len(call.words) % 2:
            raise Refused(call.path, call.line, f"{call.name}: -layer or -via, and -resistance are due")
        if "-resistance" not in words or "-corner" in words:
            changes.tell("passed over", call.path, call.line, name, "no resistance, or one of a corner")
            continue
        if value is None:
            raise Refused(call.path, call.line, f"{words['-resistance']}: a number is due")
        found[name] = (in_ohms(call, library, name, value), call.path, call.line, f"set_layer_rc {name}")
    return found


def in_ohms(call, library, name, value):
    """Ohms for a square of a layer's wire, or for a cut."""
    layer = library.layers.get(name)
    if layer is None:
        raise Refused(call.path, call.line, f"{name}: no LEF has a layer of this name")
    if layer.kind == "CUT":
        return value * 1000
    if layer.width is None:
        raise Refused(call.path, call.line, f"{name}: the layer has no WIDTH, of which the resistance is stated; give --sheet-resistance {name}=OHMS")
    return value * layer.width * 1000
