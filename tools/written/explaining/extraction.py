"""Refusals of an extraction: the line of the bias file, and the metal or the cell that it is about."""
from fractions import Fraction

from .grids import distance, nearest_point
from .lengths import MICROMETRE, corners, decimal, micrometres, pair, picometres
from .lexing import lef_words
from .nearest import hint, listed

# which words of a line of the bias file are names, and of what
NAMES = {"supply": ((1, "net"),), "droplimit": ((1, "net"),), "pad": ((1, "net"), (2, "routing layer")), "cell": ((1, "macro"),), "instance": ((1, "component"),)}


def known_names(case, what):
    """The names of a kind that a bias file may use."""
    if what == "net":
        return case.nets
    if what == "routing layer":
        return [layer.name for layer in case.technology.routing]
    return list(case.sizes) if what == "macro" else list(case.design.by_name)


def unknown_line(case, line):
    """A line of the bias file with a name that is not there."""
    words = case.bias[int(line)]
    for place, what in NAMES[words[0].text]:
        known = known_names(case, what)
        if words[place].text not in known:
            case.show("--bias", words[place])
            case.say(f"{words[place].text} is no {what}; " + hint(words[place].text, known, f"the {what}s"))
            return
    case.show("--bias", words[1])


def no_supply(case, net):
    """A net with metal and without a line `supply`."""
    named = [words for words in case.bias.values() if words[0].text == "pad" and words[1].text == net]
    others = case.bias_lines("supply")
    shown = named or others
    if shown:
        case.show("--bias", shown[0][1])
    elif case.command == "build":
        domain = next(domain for domain in case.script.domains if net in (domain.value("-power"), domain.value("-ground")))
        case.show("--pdn", domain.value_word("-power" if domain.value("-power") == net else "-ground"))
    else:
        case.show("--wires", next(entry for entry in case.wires.wired() if entry.name == net).word)
    case.say(f"{case.path('--bias')} has no line `supply {net} volts`; it has supplies of {listed(words[1].text for words in others)}")


def exact_place(words, units):
    """The place of a pad in units, each a fraction."""
    return tuple(Fraction(picometres(word.text) * units, MICROMETRE) for word in words[3:5])


def pad_off(case, line):
    """A pad that lies on no metal of its net and layer."""
    words, units = case.bias[int(line)], case.design.units
    net, layer = words[1].text, words[2].text
    x, y = exact_place(words, units)
    if x.denominator != 1 or y.denominator != 1:
        case.show("--bias", words[3 if x.denominator != 1 else 4])
        case.say(f"the place is ( {decimal(x)} {decimal(y)} ) in units, at {units} units to a micrometre: it lies between two units")
    else:
        case.show("--bias", words[3])
    say_nearest(case, net, layer, x, y)


def say_nearest(case, net, layer, x, y):
    """The metal of a net that is nearest to a place: that on a layer, or any where it has none there."""
    held, units = [piece for piece in case.pieces if piece.net == net], case.design.units
    on_layer = [piece for piece in held if piece.layer == layer]
    if not on_layer:
        layers = listed(dict.fromkeys(piece.layer for piece in held))
        case.say(f"{net} has no metal on {layer}; it has some on {layers}" if held else f"{net} has no metal that is drawn here")
    if not held:
        return
    piece = min(on_layer or held, key=lambda piece: distance(piece.box(), x, y))
    if on_layer and not distance(piece.box(), x, y) and x.denominator == y.denominator == 1:
        case.say(f"{case.named(piece)} would have the place, and is cut there by what is not looked at here, as a block")
        return
    near = [round(value) for value in nearest_point(piece.box(), x, y)]
    case.say(f"the nearest is {case.named(piece)}; `pad {net} {piece.layer} {pair(*near, units)}` lies on it")


def line_of_current(case, component):
    """The line of the bias file that states a component's current: that of itself, or else that of its macro."""
    lines = case.bias_lines("instance", component.name) or case.bias_lines("cell", component.cell)
    return lines[0] if lines else None


def load_off(case, name):
    """A component that draws a current and has nothing to draw it from."""
    component = case.design.by_name[name]
    case.show_line("--def", component.line)
    line = line_of_current(case, component)
    if line:
        case.show("--bias", line[-1])
    if component.place is None:
        case.say(f"{name} is not placed: it has no `+ PLACED ( x y ) N`")
    elif component.cell not in case.sizes:
        case.say(f"no LEF text has the macro {component.cell}; " + hint(component.cell, list(case.sizes), "sites and macros there"))
    elif not say_pins(case, component):
        say_rails(case, component)


def macro_in(case, name):
    """The option of the LEF text that has a macro, and the words of its section; None where none has it."""
    for option in ("--lef", "--cells"):
        words = list(lef_words(case.text(option)))
        begin = next((at for at in range(1, len(words)) if (words[at - 1].text, words[at].text) == ("MACRO", name)), None)
        if begin is not None:
            end = next((at for at in range(begin + 1, len(words)) if (words[at - 1].text, words[at].text) == ("END", name)), len(words))
            return option, words[begin:end]
    return None


def say_pins(case, component):
    """Of a block under a grid over macros the layers of its pins, and the connects of these. Whether it is such a block."""
    found = macro_in(case, component.cell) if case.command == "build" and any(grid.has("-macro") for grid in case.script.grids) else None
    texts = [word.text for word in found[1]] if found else []
    if ("CLASS", "BLOCK") not in zip(texts, texts[1:]):
        return False
    case.say(f"{component.name} is a block, {component.cell}, and draws through those of its pins on which a stack ends:")
    case.show(found[0], found[1][0])
    layers = [layer.name for layer in case.technology.routing if ("LAYER", layer.name) in zip(texts, texts[1:])]
    joined = listed(f"{' to '.join(names)} (line {command.word.line})" for names, command in case.script.all_connects() if set(names) & set(layers))
    case.say(f"its pins and its OBS lie on {listed(layers)}; of these the script connects {joined}")
    return True


def say_rails(case, component):
    """The nets without a rail at a placed component, and their nearest rails."""
    x, y, side = component.place
    width, height = case.sizes[component.cell]
    if side in ("E", "W", "FE", "FW"):
        width, height = height, width
    at, units = x + width // 2, case.design.units
    case.say(f"{component.name} stands {corners((x, y, x + width, y + height), units)}, and draws at x = {micrometres(at, units)} µm")
    for net in nets_for(case, x, y):
        rails = [piece for piece in case.pieces if piece.net == net and piece.axis == "x" and is_rail(case, piece)]
        if any(piece.start <= at <= piece.end and y <= piece.centre <= y + height for piece in rails):
            continue
        if rails:
            piece = min(rails, key=lambda piece: distance((piece.start, piece.centre, piece.end, piece.centre), at, min(max(piece.centre, y), y + height)))
            case.say(f"no rail of {net} passes it; the nearest is {case.named(piece)}, whose centre line is at y = {micrometres(piece.centre, units)} µm")
        else:
            case.say(f"{net} has no rails: a stripe with -followpins draws them")


def nets_for(case, x, y):
    """The nets that a component at this place draws from."""
    if case.command != "build":
        return case.nets
    domain = case.drawing.owner_of_component(x, y)
    if domain is None:
        case.say("no voltage domain owns this place")
        return []
    return [domain.value("-power"), domain.value("-ground")]


def is_rail(case, piece):
    """Whether a piece is one of rails."""
    return case.command != "build" or piece.command.has("-followpins")
