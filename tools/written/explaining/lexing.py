"""The words of a text with their places, split as pdn splits them, so that a place of its line is found again in the text.

Words are counted on the line on which they begin, from 1. The end of a line or of the text is the word after its last.
"""
import re
from bisect import bisect_right
from typing import NamedTuple

_GAP = r"[ \t\r]*"
LEF_DEF = re.compile(_GAP + r'(?:(?P<feed>\n)|(?P<comment>#[^\n]*)|"(?P<quoted>[^"]*)"|(?P<bare>[^ \t\r\n]+))')
LINES = re.compile(_GAP + r"(?:(?P<feed>\n)|(?P<bare>[^ \t\r\n]+))")
# a `;` ends a word and a command; a backslash before a line feed is a blank
_SCRIPT_GAP = re.compile(r"(?:[ \t\r]|\\\r?\n)+")
_SCRIPT_BARE = re.compile(r"(?:[^ \t\r\n;\\]|\\(?!\r?\n))+")
BARE, QUOTED, BREAK = "bare", "quoted", "break"


class Word(NamedTuple):
    """A word: its text without quotes or braces, its line and its number on it from 1, and where it begins and ends in the text."""
    text: str
    line: int
    number: int
    start: int
    end: int
    form: str = BARE


class Numbering:
    """Counts words on their lines."""

    def __init__(self, text):
        self.feeds = [found.start() for found in re.finditer("\n", text)]
        self.line, self.number = 1, 0

    def word(self, text, start, end, form=BARE):
        """The word between two places of the text."""
        line = bisect_right(self.feeds, start - 1) + 1
        self.number = self.number + 1 if line == self.line else 1
        self.line = line
        return Word(text, line, self.number, start, end, form)


def plain_words(text, pattern):
    """The words of a text of LEF, DEF or lines."""
    line, number = 1, 0
    for found in pattern.finditer(text):
        kind = found.lastgroup
        if kind == "feed":
            line, number = line + 1, 0
        elif kind == BARE:
            number += 1
            yield Word(found[kind], line, number, found.start(kind), found.end())
        elif kind == QUOTED:
            number += 1
            yield Word(found[kind], line, number, found.start(kind) - 1, found.end(), QUOTED)
            feeds = found[kind].count("\n")
            line, number = line + feeds, 0 if feeds else number


def lef_words(text):
    """The words of LEF and DEF."""
    return plain_words(text, LEF_DEF)


def line_words(text):
    """The words of netlists, certificates, bias files and wave files, as far as the place of a word is concerned."""
    return plain_words(text, LINES)


def end_of_line(text, start):
    """Where the line ends that the start stands on."""
    at = text.find("\n", start)
    return len(text) if at < 0 else at


def closing_brace(text, start):
    """Where the brace that begins at the start is closed, or the end of the text."""
    depth = 0
    for at in range(start, len(text)):
        depth += {"{": 1, "}": -1}.get(text[at], 0)
        if depth == 0:
            return at + 1
    return len(text)


def script_words(text):
    """The words of a script; a word of the form BREAK ends a command."""
    numbering, at, begins = Numbering(text), 0, True
    while at < len(text):
        gap = _SCRIPT_GAP.match(text, at)
        if gap:
            at = gap.end()
            continue
        letter = text[at]
        if letter == "#" and begins:
            at = end_of_line(text, at)
            continue
        begins = letter in "\n;"
        if begins:
            end, word = at + 1, (letter, BREAK)
        elif letter in '"{':
            end = closing_brace(text, at) if letter == "{" else (text.find('"', at + 1) + 1 or len(text))
            word = (text[at + 1:end - 1], QUOTED)
        else:
            end = _SCRIPT_BARE.match(text, at)
            end = end.end() if end else at + 1
            word = (text[at:end], BARE)
        yield numbering.word(word[0], at, end, word[1])
        at = end


def commands_in(text):
    """The commands of a script, each a list of its words."""
    held = []
    for word in script_words(text):
        if word.form != BREAK:
            held.append(word)
        elif held:
            yield held
            held = []
    if held:
        yield held


def statements_in(text):
    """The statements of a LEF or DEF text, each a list of words without its `;`. `END` and its name stand by themselves."""
    held = []
    for word in lef_words(text):
        if word.text == "END" and [held_word.text for held_word in held] == ["END"]:
            # the END of an OBS has no name
            yield held
            held = []
        if word.form == BARE and word.text == ";":
            yield held
            held = []
            continue
        held.append(word)
        if len(held) == 2 and held[0].text == "END" and held[0].form == BARE:
            yield held
            held = []
    if held:
        yield held
