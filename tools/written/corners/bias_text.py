"""A bias file at a corner: its supplies, currents and drop limits times factors, or in volts."""
import re

from ..refusal import Refused
from .changes import Change
from .factors import AMPERES_PLACES, VOLTS_PLACES, as_it_is, down, exact, up
from .lef_text import Word

BARE = re.compile(r"[^ \t\r]+")


def lines_of(text):
    """The words of each line up to a comment, with their places."""
    start = 0
    for number, line in enumerate(text.split("\n"), 1):
        words = []
        for found in BARE.finditer(line):
            if found[0].startswith("#"):
                break
            words.append(Word(found[0], number, len(words) + 1, start + found.start(), start + found.end()))
        yield words
        start += len(line) + 1


class Bias:
    """The changes of one bias file at a corner."""

    def __init__(self, path, text, corner):
        self.path, self.text, self.corner, self.changes = path, text, corner, []
        self.supplies, self.limits = set(), set()
        for words in lines_of(text):
            if words:
                self._take(words)
        self._check_names()
        self._add_limits()

    def _take(self, words):
        kind, count = words[0].text, len(words)
        if kind == "supply" and count == 3:
            self._take_supply(words[1].text, words[2])
        elif kind == "droplimit" and count == 3:
            self._take_limit(words[1].text, words[2])
        elif kind in ("cell", "instance") and count in (3, 4):
            self._take_current(words[0].text, words[1].text, words[2:])
        elif kind != "pad" or count != 5:
            raise Refused(self.path, f"{words[0].line}:1", "this is no line of a bias file")

    def _number(self, word, may_be_negative=False):
        value = exact(word.text, True)
        if value is None or (value < 0 and not may_be_negative):
            raise Refused(self.path, f"{word.line}:{word.number}", f"{word.text} is no number that may stand here")
        return value

    def _replace(self, first, last, new, what):
        if self.text[first.start:last.end] != new:
            old = self.text[first.start:last.end]
            self.changes.append(Change(first.start, last.end, new, first.line, f"{what} {old} becomes {new}"))

    def _take_supply(self, net, word):
        """A supply is never rounded: what it would be rounded to is no corner that somebody asked for."""
        value = self._number(word, may_be_negative=True)
        self.supplies.add(net)
        if net in self.corner.supply_of:
            self._replace(word, word, self.corner.supply_of[net], f"supply {net}")
        elif self.corner.supply != 1:
            new = as_it_is(value * self.corner.supply, VOLTS_PLACES)
            if new is None:
                raise Refused(self.path, f"{word.line}:{word.number}", f"{word.text} times the factor has more than {VOLTS_PLACES} places")
            self._replace(word, word, new, f"supply {net}")

    def _take_limit(self, net, word):
        value = self._number(word)
        self.limits.add(net)
        if net in self.corner.limit_of:
            self._replace(word, word, self.corner.limit_of[net], f"droplimit {net}")
        elif self.corner.limit != 1:
            self._replace(word, word, down(value * self.corner.limit, VOLTS_PLACES), f"droplimit {net}")

    def _take_current(self, kind, name, words):
        low, high = self._number(words[0]), self._number(words[-1])
        if high < low:
            raise Refused(self.path, f"{words[-1].line}:{words[-1].number}", "the second number of a range is below the first")
        if self.corner.current == (1, 1):
            return
        least = down(low * self.corner.current[0], AMPERES_PLACES)
        most = up(high * self.corner.current[1], AMPERES_PLACES)
        self._replace(words[0], words[-1], least if least == most else f"{least} {most}", f"{kind} {name}")

    def _check_names(self):
        """A net that the corner names has a supply."""
        for net in [*self.corner.supply_of, *self.corner.limit_of]:
            if net not in self.supplies:
                raise Refused(self.path, None, f"the corner names the net {net}, which has no supply here")

    def _add_limits(self):
        """Limits of nets that had none stand behind the last line."""
        end, line = len(self.text), self.text.count("\n") + 1
        for net, limit in self.corner.limit_of.items():
            if net not in self.limits:
                before = "\n" if self.text and not self.text.endswith("\n") and not any(change.start == end for change in self.changes) else ""
                self.changes.append(Change(end, end, f"{before}droplimit {net} {limit}\n", line, f"droplimit {net} {limit} is added"))
