"""Words and statements of LEF and DEF texts, comments left out."""
import re
from typing import NamedTuple

from .refusal import Refused, read_text

_WORD = re.compile(r'"[^"]*"|\S+')
_UNITS = re.compile(r"UNITS DISTANCE MICRONS ([1-9][0-9]*)")
_DIE = re.compile(r"DIEAREA \( (-?[0-9]+) (-?[0-9]+) \) \( (-?[0-9]+) (-?[0-9]+) \)")
_COMMENT = re.compile(r"(^|\s)#.*")
_SECTIONS = ("VIAS", "NONDEFAULTRULES", "REGIONS", "COMPONENTS", "PINS", "PINPROPERTIES", "BLOCKAGES", "SLOTS", "FILLS", "STYLES", "SPECIALNETS", "NETS",
             "SCANCHAINS", "GROUPS", "PROPERTYDEFINITIONS", "BEGINEXT")


class Statement(NamedTuple):
    """The words before a `;`, the line of each, and the section around them, which is empty at the top."""
    section: str
    lines: list
    words: list


def words_of(path):
    """The words of a LEF or DEF text with their lines. Quoted text is one word, without its quotes, where it ends on its line."""
    for place, line in enumerate(read_text(path).split("\n"), 1):
        if "#" in line:
            line = _COMMENT.sub("", line)
        for word in _WORD.findall(line) if '"' in line else line.split():
            is_quoted = len(word) > 2 and word[0] == word[-1] == '"' and word != '";"'
            yield place, word[1:-1] if is_quoted else word


def statements(path):
    """The statements of a DEF text, each with its section, up to `END DESIGN`, which has to stand there. The count behind a section's name
    is a statement in it."""
    section, lines, held, line = "", [], [], 1
    for line, word in words_of(path):
        if word != ";":
            lines.append(line)
            held.append(word)
            if not section and held == ["END", "DESIGN"]:
                return
            if section and (held[-2:] == ["END", section] or (section == "BEGINEXT" and word == "ENDEXT")):
                section = ""
            elif len(held) == 1 and not section and word in _SECTIONS:
                section = word
            else:
                continue
        elif held:
            yield Statement(section, lines, held)
        lines, held = [], []
    raise Refused(path, lines[0] if lines else line, "the DEF is cut off: 'END DESIGN' does not stand behind this line")


class Head:
    """Design, units and die, as far as a DEF has them."""

    def __init__(self, path):
        self.path = path
        self.design, self.units, self.die = None, None, None

    def take(self, statement):
        """Takes a statement at the top, if it is one of these."""
        words = statement.words
        if words[0] == "DESIGN" and len(words) == 2:
            self.design = words[1]
        elif found := _UNITS.fullmatch(" ".join(words)):
            self.units = int(found[1])
        elif found := _DIE.fullmatch(" ".join(words)):
            self.die = tuple(map(int, found.groups()))

    def whole(self, statement, at):
        """The whole number that this word of a statement is."""
        try:
            return int(statement.words[at])
        except (ValueError, IndexError):
            line = statement.lines[min(at, len(statement.lines) - 1)]
            word = statement.words[at] if at < len(statement.words) else ";"
            raise Refused(self.path, line, f"a whole number is wanted in place of '{word}'") from None
