"""The certificates that pdn writes: two whole numbers of yoctovolts for each group of a netlist, and of `step` so for each step."""
import re

from .circuit import words_of
from .refusal import Refused, read_text

HEAD = ["pdn", "certificate", "1"]
WHOLE = re.compile(r"-?[0-9]+")


class Lines:
    """The lines of a certificate, taken one after the other."""

    def __init__(self, path):
        self.path, self.at = path, 0
        self.rows = [words_of(line) for line in read_text(path).split("\n")]
        while self.rows and not self.rows[-1]:
            self.rows.pop()

    def next(self, wanted):
        """The words of the next line; what is wanted there is told where there is none."""
        if self.at == len(self.rows):
            raise Refused(self.path, None, f"the certificate is cut off: {wanted} is wanted behind its last line")
        self.at += 1
        return self.rows[self.at - 1]

    def take(self, words):
        """Takes a line that has to have these words."""
        if self.next(f"'{' '.join(words)}'") != words:
            raise Refused(self.path, self.at, f"the line '{' '.join(words)}' is wanted here")

    def pair(self, name):
        """The two voltages of the group that has to stand here."""
        found = self.next(f"the line of {name}")
        if found[:1] != [name] or len(found) != 3 or not all(WHOLE.fullmatch(word) for word in found[1:]):
            raise Refused(self.path, self.at, f"the line of {name} with two whole numbers is wanted here")
        return int(found[1]), int(found[2])


def certificate_of(lines, groups):
    """The high and the low list of one certificate."""
    lines.take(HEAD)
    pairs = [lines.pair(name) for name in groups]
    lines.take(["end"])
    return [high for high, _ in pairs], [low for _, low in pairs]


def read_certificates(path, groups, by_steps):
    """The two lists for each step, or the one pair of lists of a certificate without steps."""
    lines, found = Lines(path), []
    while lines.at < len(lines.rows) or not found:
        if by_steps:
            lines.take(["step", str(len(found))])
        elif found:
            raise Refused(path, lines.at + 1, "nothing may stand behind the line 'end'")
        found.append(certificate_of(lines, groups))
    return found
