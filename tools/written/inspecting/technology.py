"""What the technology lacks for the layers on which metal is drawn."""
from .texts import Finding


def drawn_layers(texts):
    """The routing layers on which the script draws or through which its connects go, from the lowest on."""
    order = [layer.name for layer in texts.library.routing()]
    used = {layer for command in texts.script.commands for layer in [command.get("-layer"), *(command.get("-layers") or ())] if layer}
    for connect in texts.script.of("add_pdn_connect"):
        places = sorted(map(order.index, connect.get("-layers")))
        used.update(order[places[0]:places[-1] + 1])
    return [texts.library.layers[name] for name in order if name in used]


def cut_layers(texts):
    """The cut layers through which connects go, each with whether a rule states its resistance."""
    order = list(texts.library.layers)
    for name, layer in texts.library.layers.items():
        spans = [sorted(map(order.index, connect.get("-layers"))) for connect in texts.script.of("add_pdn_connect")]
        if layer.kind == "CUT" and any(low < order.index(name) < high for low, high in spans):
            yield layer


def stands(layer, word, what):
    return Finding(layer.source.path, layer.source.line(layer.word), word, what)


def without_spacing(texts):
    """Layers that have a table of spacings alone, from which nothing keeps metal away from blockages."""
    for layer in drawn_layers(texts):
        if layer.spacing is None and layer.table_spacing is not None:
            yield stands(layer, layer.name, "SPACINGTABLE without SPACING: metal keeps no distance from blockages; state SPACING too")


def without_limit(texts):
    """Layers whose wires or cuts have no limit of current."""
    routed = {layer.name for layer in drawn_layers(texts) if any(layer.name in [command.get("-layer"), *(command.get("-layers") or ())]
                                                                 for command in texts.script.commands if command.name != "add_pdn_connect")}
    for layer in [*(layer for layer in drawn_layers(texts) if layer.name in routed), *cut_layers(texts)]:
        if layer.density is None and layer.table is None:
            kind = "wires" if layer.kind == "ROUTING" else "cuts"
            yield stands(layer, layer.name, f"no DCCURRENTDENSITY AVERAGE: the currents of its {kind} are NOLIMIT; state it")


def without_resistance(texts):
    """Layers with metal or cuts of which nothing states a resistance."""
    with_metal = {strap.layer for _, straps in texts.straps for strap in straps}
    for layer in drawn_layers(texts):
        if layer.name in with_metal and layer.resistance is None:
            yield stands(layer, layer.name, "metal is drawn on a layer without RESISTANCE RPERSQ; state it")
    for layer in cut_layers(texts):
        parts = [part for rule in texts.library.rules.values() for part in rule.parts if part.layer == layer.name]
        if layer.resistance is None and not any(part.resistance for part in parts):
            yield stands(layer, layer.name, "cuts are drawn in a layer without RESISTANCE, and no rule states one; state it")
