"""Refusals of a network: the cards of a netlist, the lines of a bias file and the metal that they come from."""
import re

from ..netlist import GROUND, Card, is_capacitor, is_card, number
from ..operating_point import groups_of
from .lengths import pair, point
from .lexing import line_words
from .nearest import listed

_NODE = re.compile(r"n([1-9][0-9]*)_(-?[0-9]+)_(-?[0-9]+)")
GRIDS = ("build", "signoff")
STEPS = 5 * 10 ** 6
LOWER = str.maketrans({chr(code): chr(code + 32) for code in range(ord("A"), ord("Z") + 1)})


def rows_in(text):
    """The cards and dot lines of a netlist, each a list of its words, those of `+` lines with it."""
    lines, rows = {}, []
    for word in line_words(text):
        lines.setdefault(word.line, []).append(word)
    for words in lines.values():
        first = words[0]
        begins = first.start == 0 or text[first.start - 1] == "\n"
        if first.text.startswith("*") and begins or first.text == "*range":
            continue
        if first.text.startswith("+") and begins and rows:
            rows[-1].extend(words[1:] if first.text == "+" else [first._replace(text=first.text[1:])] + words[1:])
        else:
            rows.append(words)
    return rows


def rows_before(text, line):
    """The loads before a line."""
    return [words for words in rows_in(text) if words[0].line < line and words[0].text[:1] in "iI"]


def cards_in(text):
    """The cards of resistors, sources, loads and capacitors, each with the words that it is."""
    cards = []
    for words in rows_in(text):
        texts = [word.text for word in words]
        if texts[0] == ".end":
            break
        if is_card(texts) or is_capacitor(texts):
            value = number(texts[-1])
            if value is not None:
                cards.append((Card(texts[0][0].lower(), texts[1].translate(LOWER), texts[2].translate(LOWER), value, words[0].line), words))
    return cards


def groups_in(text):
    """The names of the groups of nodes of a netlist that shorts join, in byte order."""
    cards = [card for card, _ in cards_in(text) if card.kind != "c"]
    group, names = groups_of(cards), set()
    for card in cards:
        names |= {card.start, card.end} - {GROUND}
        if card.kind == "r" and GROUND in (card.start, card.end) or card.start == card.end == GROUND and card.kind == "v":
            names.add(GROUND)
    return sorted({group.get(name, name) for name in names}, key=lambda name: name.encode("utf-8", "surrogateescape"))


def cards_at(case, node, kinds="rvic"):
    """The cards at a node, or at a node of the group that it names."""
    cards = cards_in(case.text("--netlist"))
    group = groups_of([card for card, _ in cards if card.kind != "c"])
    return [(card, words) for card, words in cards if card.kind in kinds and node in (group.get(card.start, card.start), group.get(card.end, card.end))]


def show_cards(case, cards, most=3):
    """Shows cards by their first words."""
    for _, words in cards[:most]:
        case.show("--netlist", words[0])


class GridNode:
    """A node of a grid by its name: net, layer and place."""

    def __init__(self, case, name):
        found = _NODE.fullmatch(name)
        numbered, self.x, self.y = map(int, found.groups())
        layers = [layer.name for layer in case.technology.routing]
        self.net = case.nets[(numbered - 1) // len(layers)]
        self.layer = layers[(numbered - 1) % len(layers)]

    def place(self, case):
        return f"on {self.layer} of {self.net} at {point(self.x, self.y, case.design.units)}"


def unsupplied(case, node):
    """What a node without a supply is part of, and where pads of its net are."""
    if case.command not in GRIDS:
        cards = cards_at(case, node)
        case.say(f"the first of the {len(cards)} cards at {node}:" if cards else f"no card at {node} is seen here")
        show_cards(case, cards, 1)
        case.say("a source `V1 <node> 0 <volts>` at it, or a chain of resistors from it to a node with one, supplies it")
        return
    at = GridNode(case, node)
    pads = case.bias_lines("pad", at.net)
    for words in pads[:1]:
        case.show("--bias", words[1])
    if not pads:
        supply = case.bias_lines("supply", at.net)
        if supply:
            case.show("--bias", supply[0][1])
    case.say(f"the node {node} stands {at.place(case)}")
    layers = listed(dict.fromkeys(words[2].text for words in pads))
    case.say(f"{at.net} has {len(pads)} pads, on {layers}" if pads else f"the bias file has no line `pad {at.net} LAYER x y`")
    say_part(case, at)


def say_part(case, at):
    """The metal that a node is joined to, and what the connects join."""
    from .joined import part_of
    part = part_of(case, at)
    if not part:
        return
    layers = list(dict.fromkeys(piece.layer for piece in part))
    case.say(f"it is joined to {len(part)} pieces of metal, on {listed(layers)}, and no pad lies on them; the first is {case.named(part[0])}")
    if case.command == "build":
        say_connects(case, at.net, layers)
    case.say(f"a pad on this part is `pad {at.net} {part[0].layer} {pair(at.x, at.y, case.design.units)}`")


def say_connects(case, net, layers):
    """What the connects of a script join, and whether one joins the layers of a net's pads to others."""
    connects = case.script.all_connects()
    case.say("the script connects " + listed((f"{' to '.join(names)} (line {command.word.line})" for names, command in connects), 6))
    for layer in dict.fromkeys(words[2].text for words in case.bias_lines("pad", net)):
        if layer not in layers and not any(layer in names and set(names) & set(layers) for names, _ in connects):
            case.say(f"no add_pdn_connect joins {layer}, on which pads of {net} lie, to {' or '.join(layers)}")


def out_of_range(case, quantity, at, value):
    """Which card or line a quantity comes from."""
    say = {"Resistance": resistance, "Voltage": voltage, "Loads": loads}.get(quantity)
    if say:
        say(case, at, value)
    elif quantity == "Steps":
        steps = int(case.settings["--steps"])
        case.say(f"--steps {steps} over {value // steps} nodes are {value}: at most {STEPS // (value // steps)} steps are within the limit")
    else:
        case.say(f"there are {value}")
        show_pitches(case)


def show_pitches(case):
    """The stripe of the least pitch of a script."""
    if case.command == "build":
        stripes = [stripe for stripe in case.script.stripes if stripe.has("-pitch") and not stripe.has("-followpins")]
        if stripes:
            case.say("the stripe of the least pitch:")
            case.show("--pdn", min(stripes, key=lambda stripe: stripe.length("-pitch")).value_word("-pitch"))


def resistance(case, at, value):
    """A resistor beyond the limit."""
    case.say(f"it is {value} nano-ohms, which is {value // 10 ** 9}.{value % 10 ** 9:09d} ohms" if value >= 0 else f"it is {value} nano-ohms")
    if case.command in GRIDS:
        stated = [layer for layer in case.technology.layers if layer.resistance]
        worst = max(stated, key=lambda layer: float(layer.resistance), default=None)
        if worst:
            case.say(f"the greatest resistance of the technology is that of {worst.name}, {worst.resistance} ohms:")
            case.show_line("--lef", worst.line)
        return
    cards = [(card, words) for card, words in cards_in(case.text("--netlist")) if card.kind == "r" and card.value != 0]
    if at < len(cards):
        case.show("--netlist", cards[at][1][-1])
    elif case.command == "step":
        case.say("the place is behind the resistors, so it is a step over a capacitance: the least capacitors are")
        held = sorted((pair for pair in cards_in(case.text("--netlist")) if pair[0].kind == "c" and pair[0].value), key=lambda pair: abs(pair[0].value))
        show_cards(case, held, 2)


def voltage(case, at, value):
    """A supply beyond the limit."""
    held = [(card, words) for card, words in cards_in(case.text("--netlist")) if card.kind == "v" and abs(card.value) > 10]
    if held:
        case.show("--netlist", held[0][1][-1])
        return
    case.say("no source passes 10 V, so it is the bound at a node with a capacitor; the greatest source and the greatest load are")
    for kind in "vi":
        cards = [pair for pair in cards_in(case.text("--netlist")) if pair[0].kind == kind]
        show_cards(case, sorted(cards, key=lambda pair: -abs(pair[0].value)), 1)


def loads(case, at, value):
    """Currents whose sum is too great."""
    case.say(f"the currents come to {value // 10 ** 15} A, and may come to 1000 A; the greatest is")
    if case.command in GRIDS:
        rows = [(number(words[-1].text) or 0, words) for words in case.bias.values() if words[0].text in ("cell", "instance")]
        if rows:
            case.show("--bias", max(rows, key=lambda row: row[0])[1][-1])
        return
    held = [(card, words) for card, words in cards_in(case.text("--netlist")) if card.kind == "i"]
    show_cards(case, sorted(held, key=lambda pair: -abs(pair[0].value)), 1)


def conflict(case, node, first, second):
    """The sources that hold one node at two voltages."""
    case.say(f"{node} is held at {trimmed(first)} V and at {trimmed(second)} V")
    if case.command in GRIDS:
        at = GridNode(case, node)
        case.say(f"it stands {at.place(case)}")
        for words in case.bias_lines("pad", at.net)[:3]:
            case.show("--bias", words[0])
    else:
        show_cards(case, cards_at(case, node, "v"))


def trimmed(decimal):
    """A decimal without the zeros at its end."""
    return decimal.rstrip("0").rstrip(".") if "." in decimal else decimal


def not_certified(case, node, side, found):
    """The certificate's line of a node, and the cards at it."""
    names = groups_in(case.text("--netlist"))
    if node in names:
        word = case.show_place("--certificate", names.index(node) + 2, 2 if side.startswith("High") else 3)
        is_pad = any(card.kind == "v" and GROUND in (card.start, card.end) for card, _ in cards_at(case, node, "v"))
        if word is not None and side in ("High", "Low"):
            bound, least = {"High": ("at least", "at least 1"), "Low": ("at most", "at most -1")}[side]
            case.say(f"{node} is a pad: its {side.lower()} voltage is to be {bound} the pad's, and is {found} yV off" if is_pad else
                     f"the flows and the load at {node} come to {found} fA by the {side.lower()} list, and are to come to {least}")
    show_cards(case, cards_at(case, node))


def floating_capacitor(case, node):
    """The capacitor between two nodes without a pad."""
    cards = [(card, words) for card, words in cards_at(case, node, "c") if card.value != 0 and GROUND not in (card.start, card.end)]
    show_cards(case, cards)
