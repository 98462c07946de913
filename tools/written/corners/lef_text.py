"""The resistances of a LEF technology times a factor: RESISTANCE RPERSQ of routing layers, RESISTANCE of cut layers and of generate rules."""
import re
from typing import NamedTuple

from ..refusal import Refused
from .changes import Change
from .factors import OHMS_PLACES, exact, up

WORD = re.compile(r'(?P<feed>\n)|#[^\n]*|(?P<word>"[^"]*"?|[^ \t\r\n]+)')
TO_ITS_NAME = ("VIA", "NONDEFAULTRULE", "SITE", "MACRO", "LAYER", "VIARULE")
TO_ITS_WORD = ("UNITS", "PROPERTYDEFINITIONS", "SPACING")


class Word(NamedTuple):
    """A word, its line, its number on it from 1, and its ends in the text."""
    text: str
    line: int
    number: int
    start: int
    end: int


def words_of(text):
    """The words of a LEF text, without comments."""
    words, line, number = [], 1, 0
    for found in WORD.finditer(text):
        if found["feed"]:
            line, number = line + 1, 0
        elif found["word"]:
            number += 1
            words.append(Word(found["word"], line, number, found.start(), found.end()))
            if "\n" in found["word"]:
                line, number = line + found["word"].count("\n"), 0
    return words


def end_of(words, at, ending):
    """The place of the next words that end a section."""
    for place in range(at, len(words)):
        if [word.text for word in words[place:place + len(ending)]] == ending:
            return place
    return len(words)


def sections_of(words):
    """The layers and generate rules: the kind and the words between name and END."""
    at = 0
    while at < len(words):
        text = words[at].text
        following = [word.text for word in words[at + 1:at + 3]]
        if text == "END" and following[:1] == ["LIBRARY"]:
            return
        if text == "BEGINEXT":
            at = end_of(words, at, ["ENDEXT"]) + 1
        elif text in TO_ITS_WORD:
            at = end_of(words, at, ["END", text]) + 2
        elif text in TO_ITS_NAME and following:
            end = end_of(words, at + 2, ["END", following[0]])
            if text == "LAYER" or (text == "VIARULE" and following[1:] == ["GENERATE"]):
                yield text, words[at + 2:end]
            at = end + 2
        else:
            at = end_of(words, at, [";"]) + 1


def statements_of(words):
    """The statements of a section, without their `;`."""
    row = []
    for word in words:
        if word.text == ";":
            yield row
            row = []
        else:
            row.append(word)


def type_of(rows):
    """The type of a layer: ROUTING, CUT or another."""
    return next((row[1].text for row in rows if len(row) == 2 and row[0].text == "TYPE"), None)


def value_word(kind, row):
    """The word of a resistance that pdn reads, and whether it is of a square."""
    if kind == "ROUTING":
        return (row[2], True) if len(row) == 3 and row[1].text == "RPERSQ" else (None, True)
    return (row[1], False) if len(row) == 2 else (None, False)


def changed(path, text, sheet, cut):
    """The changes of all resistances of a technology."""
    changes = []
    for section, words in sections_of(words_of(text)):
        rows = list(statements_of(words))
        kind = type_of(rows) if section == "LAYER" else "RULE"
        for row in rows:
            if kind in ("ROUTING", "CUT", "RULE") and row and row[0].text == "RESISTANCE":
                changes += change_of(path, kind, row, sheet, cut)
    return changes


def change_of(path, kind, row, sheet, cut):
    """The change of one statement; one in a form that pdn passes over is left and told."""
    word, is_sheet = value_word(kind, row)
    if word is None:
        return [Change(row[0].start, row[0].start, "", row[0].line, "this form of RESISTANCE is none that pdn reads, and is left as it is")]
    by = sheet if is_sheet else cut
    value = exact(word.text, False)
    if value is None or value < 0:
        raise Refused(path, f"{word.line}:{word.number}", f"{word.text} is no resistance")
    if by == 1:
        return []
    new = up(value * by, OHMS_PLACES)
    name = "RESISTANCE RPERSQ" if is_sheet else "RESISTANCE"
    return [Change(word.start, word.end, new, word.line, f"{name} {word.text} becomes {new}")]
