"""The lines that a report must have, by its netlist and the two lists of its certificate. What is not given is taken from the report itself:
of limits, where no technology and no bias file tell them."""
import re

from .current_limits import point_of
from .refusal import Refused

NANOVOLT, NANOAMPERE = 10 ** 15, 10 ** 6
DROP = re.compile(r"none|(?:0|[1-9][0-9]*)\.[0-9]{24}")
LIMIT = re.compile(r"none|(?:0|[1-9][0-9]*)\.[0-9]{15}")


def down(above, below):
    return above // below


def up(above, below):
    return -(-above // below)


def decimal(value, places):
    """A whole number of the last of so many places."""
    digits = str(abs(value)).rjust(places + 1, "0")
    return ("-" if value < 0 else "") + digits[:-places] + "." + digits[-places:]


def stated(word, form):
    """The whole number of a printed limit, or None where it says `none` or has not its form."""
    return int(word.replace(".", "")) if word is not None and word != "none" and form.fullmatch(word) else None


def word_of(line, at, count, form):
    """The word of a line that has so many, where it has its form; else None."""
    words = line.split(" ")
    return words[at] if len(words) == count and form.fullmatch(words[at]) else None


def verdict(spans, least, most):
    """Of intervals against the closed range of what is allowed."""
    if all(least <= low and high <= most for low, high in spans):
        return "SAFE"
    return "UNSAFE" if any(high < least or low > most for low, high in spans) else "OPEN"


def node_lines(circuit, high, low):
    """The lines of the nodes."""
    for place, name in enumerate(circuit.groups):
        yield f"node {name} {decimal(down(low[place], NANOVOLT), 9)} {decimal(up(high[place], NANOVOLT), 9)}"


def step_lines(circuit, lists):
    """The lines of a report of `step`."""
    yield "pdn steps 1"
    for step, (high, low) in enumerate(lists):
        yield f"step {step}"
        yield from node_lines(circuit, high, low)
    yield "end"


class Wanted:
    """The lines of a report of `solve`, `build` or `signoff`. What the report says (`said`) counts where a limit is not known otherwise, and
    in which nets stand that have no node."""

    def __init__(self, circuit, lists, said, limits=None, bias=None):
        self.circuit, (self.high, self.low), self.said = circuit, lists, said
        self.limits, self.bias = limits, bias
        self.many = self.untold = 0
        self.without_node = []
        self.nets = self._nets()

    def _nets(self):
        """The names of the nets, those without a node as the report has them, in byte order."""
        told = [line.split(" ")[1] for line in self.said if re.fullmatch("net [^ ]+ .*", line)]
        if not told and self.limits is None and self.bias is None:
            return []
        self.nodes_of = {}
        for place, name in enumerate(self.circuit.groups):
            point = point_of(name)
            if point is None or point.number not in self.circuit.notes:
                raise Refused(self.circuit.path, None, f"{name} is no node of 'pdn build', or no line '* layer:' tells its net, and a report with nets has no other")
            self.nodes_of.setdefault(self.circuit.notes[point.number][0], []).append(place)
        self.without_node = sorted({*told} - {*self.nodes_of})
        return sorted({*told, *self.nodes_of}, key=lambda name: name.encode("utf-8", "surrogateescape"))

    def _supply(self, net):
        """The voltage of a net's pads."""
        found = {self.circuit.pads[node] for node in self.nodes_of[net] if node in self.circuit.pads}
        if self.bias is not None and net in self.bias.supplies:
            found.add(self.bias.supplies[net])
        if len(found) != 1:
            raise Refused(self.circuit.path, None, f"the pads of {net} have {'no supply' if not found else 'several supplies, or another than the bias file'}")
        return found.pop()

    def _net_line(self, net, said):
        if self.bias is None:
            word = word_of(said, 2, 4, DROP) or "<limit>"
        else:
            word = decimal(self.bias.drops[net], 24) if net in self.bias.drops else "none"
        return f"net {net} {word} {self._net_verdict(net, stated(word, DROP))}"

    def _net_verdict(self, net, drop):
        if drop is None:
            return "NOLIMIT"
        if net not in self.nodes_of:
            return "SAFE"
        supply = self._supply(net)
        spans = [(down(self.low[node], NANOVOLT) * NANOVOLT, up(self.high[node], NANOVOLT) * NANOVOLT) for node in self.nodes_of[net]]
        return verdict(spans, supply - drop, supply + drop)

    def _limit_word(self, place, said):
        """The limit of a branch: what it has to be, or what the report says where several or all are possible."""
        if not self.nets:
            return "none"
        written = word_of(said, 6, 8, LIMIT)
        if self.limits is None:
            return written or "<limit>"
        possible = self.limits.of(place)
        if possible is None:
            self.untold += 1
            return written or "<limit>"
        words = sorted("none" if limit is None else decimal(limit, 15) for limit in possible)
        self.many += len(words) > 1
        return written if written in words else words[0]

    def _branch_line(self, place, said):
        start, end, ohms = self.circuit.resistors[place]
        low = down(down(self.low[start] - self.high[end], ohms), NANOAMPERE)
        high = up(up(self.high[start] - self.low[end], ohms), NANOAMPERE)
        word = self._limit_word(place, said)
        limit = stated(word, LIMIT)
        held = "NOLIMIT" if limit is None else verdict([(low * NANOAMPERE, high * NANOAMPERE)], -limit, limit)
        return f"branch R{place + 1} {self.circuit.groups[start]} {self.circuit.groups[end]} {decimal(low, 9)} {decimal(high, 9)} {word} {held}"

    def lines(self):
        """The lines, one after the other."""
        at = 1
        yield "pdn report 1"
        for net in self.nets:
            yield self._net_line(net, self._said(at))
            at += 1
        yield from node_lines(self.circuit, self.high, self.low)
        at += len(self.circuit.groups)
        for place in range(len(self.circuit.resistors)):
            yield self._branch_line(place, self._said(at + place))
        yield "end"

    def _said(self, at):
        return self.said[at] if at < len(self.said) else ""
