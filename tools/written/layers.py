"""The layers of a LEF technology, in their order."""
from .def_text import words_of
from .refusal import Refused


def layers_in_order(path):
    """The routing and cut layers from the lowest on, each as its type and its name."""
    layers, name, before = [], None, ""
    for _, word in words_of(path):
        if before == "LAYER":
            name = word
        elif before == "TYPE" and name is not None and word in ("ROUTING", "CUT"):
            layers.append((word, name))
            name = None
        before = word
    if not any(kind == "ROUTING" for kind, _ in layers):
        raise Refused(path, None, "no routing layer stands in this technology")
    return layers


def read_layers(path):
    """The names of the routing and of the cut layers, each from the lowest on."""
    layers = layers_in_order(path)
    return [name for kind, name in layers if kind == "ROUTING"], [name for kind, name in layers if kind == "CUT"]


def cuts_between(path):
    """The routing layers from the lowest on, and for each two neighbours the cut layers between them. Those below the first and above the
    last routing layer are between none."""
    metals, between = [], []
    for kind, name in layers_in_order(path):
        if kind == "ROUTING":
            metals.append(name)
            between.append([])
        elif metals:
            between[-1].append(name)
    return metals, between[:-1]
