"""The sections of a DEF text that hold vias and special nets, by where they stand in it, so that all else stays as it is, byte for byte."""
import bisect
import re

from ..preparing.words import split
from ..refusal import Refused, read_text

SECTIONS = ("VIAS", "SPECIALNETS")


class Entry:
    """An entry of a section: its name, its words, and where it stands."""

    def __init__(self, words, end):
        self.name, self.words, self.begin, self.end = words[1].replace("\\", ""), words, words[0].at, end

    def connections(self):
        """What the net is connected to: the words between its name and its first part."""
        end = next((at for at, word in enumerate(self.words) if word == "+"), len(self.words))
        return " ".join(self.words[2:end])


class Placed:
    """A placed design: what it is of, and its sections of vias and special nets with their entries."""

    def __init__(self, path):
        self.path, self.text = path, read_text(path)
        self.breaks = [found.start() for found in re.finditer("\n", self.text)]
        self.spans, self.entries, self.starts, self.heads = {}, {name: [] for name in SECTIONS}, {}, {}
        section = None
        for words, end in self.statements(split(self.text)):
            section = self.take(section, words, end)
            if [word.upper() for word in words] == ["END", "DESIGN"]:
                break
        else:
            raise Refused(path, None, "the text ends without END DESIGN; hand in the whole file")
        self.check()

    def line(self, place):
        """The line of a place in the text."""
        return bisect.bisect_left(self.breaks, place) + 1

    def refuse(self, place, why):
        raise Refused(self.path, self.line(place), why)

    def statements(self, words):
        """The statements: the words up to a `;`, or END and its word, each with where it ends."""
        begin = at = 0
        while at < len(words):
            word = words[at]
            at += 1
            if begin == at - 1 and word.upper() == "BEGINEXT":
                at = next((place for place in range(at, len(words)) if words[place].upper() == "ENDEXT"), at) + 1
                begin = at
            elif word == ";" or (begin == at - 2 and words[begin].upper() == "END"):
                yield words[begin:at], word.at + len(word)
                begin = at

    def take(self, section, words, end):
        """Takes a statement within a section, or between sections where that is None, and says which section stands behind it."""
        first = words[0].upper()
        if first == "END":
            if section is not None:
                self.spans[section] = (self.spans[section][0], end)
            self.starts.setdefault(f"END {words[1].upper()}", words[0].at)
            return None
        if section is not None and first == "-":
            if len(words) < 3:
                self.refuse(words[0].at, f"{words[0]}: an entry of {section} has a name")
            self.entries[section].append(Entry(words[:-1], end))
        elif first in SECTIONS:
            if first in self.spans:
                self.refuse(words[0].at, f"{words[0]}: the section stands twice")
            self.spans[first] = (words[0].at, None)
            return first
        elif first != "-":
            self.starts.setdefault(first, words[0].at)
            self.heads.setdefault(first, words[1:-1])
        return section

    def check(self):
        """Each section has to have an end, and the design a place for sections."""
        for section, (begin, end) in self.spans.items():
            if end is None:
                self.refuse(begin, f"{section}: the section has no END {section}")
        for wanted in ("DESIGN", "UNITS", "DIEAREA", "COMPONENTS"):
            if wanted not in self.heads:
                raise Refused(self.path, None, f"the design has no {wanted}; hand in the placed design")

    def die(self):
        """The smallest rectangle that holds the points of the die."""
        words = [word for word in self.heads["DIEAREA"] if word not in "()"]
        try:
            numbers = [int(word) for word in words]
        except ValueError:
            self.refuse(self.starts["DIEAREA"], "DIEAREA: whole numbers are due")
        xs, ys = numbers[::2], numbers[1::2]
        if len(xs) != len(ys) or len(xs) < 2:
            self.refuse(self.starts["DIEAREA"], "DIEAREA: two points or more are due")
        return min(xs), min(ys), max(xs), max(ys)
