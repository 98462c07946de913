"""A place in a text, shown as the line that it is on, with a mark below the word."""
from .lexing import lef_words, line_words, script_words

WIDEST = 110
WORDS_OF = {"technology": lef_words, "cells": lef_words, "design": lef_words, "wiring": lef_words, "script": script_words}


def word_at(text, kind, line, number):
    """The word of a text that has this number on this line, and None where the line has no such word."""
    for word in WORDS_OF.get(kind, line_words)(text):
        if word.line > line:
            break
        if (word.line, word.number) == (line, number) and word.text != "\n":
            return word
    return None


def line_of(text, line):
    """A line of a text, without its end."""
    lines = text.split("\n", line)
    return lines[line - 1].rstrip("\r") if line <= len(lines) else ""


def shown(letter):
    """A letter as it may stand on a terminal."""
    return letter if letter.isprintable() or letter == "\t" else "?"


def column_in(text, word, line):
    """The column of a word, from 1; behind the line where there is no word."""
    if word is None:
        return len(line) + 1
    return word.start - (text.rfind("\n", 0, word.start) + 1) + 1


def excerpt(path, text, line, word, alone=None):
    """The place with its line under it, and a mark below the word; below the end of the line where there is no word. The text may be
    the line `alone`."""
    whole = line_of(text, line) if alone is None else alone.rstrip("\r")
    column = column_in(text, word, whole)
    length = 1 if word is None else max(min(word.end, word.start + len(whole) - column + 1) - word.start, 1)
    begin = 0 if len(whole) <= WIDEST else max(0, min(column - 1 - WIDEST // 3, len(whole) - WIDEST))
    part = "".join(map(shown, whole[begin:begin + WIDEST]))
    before = "".join("\t" if letter == "\t" else " " for letter in whole[begin:column - 1])
    number = str(line)
    dots = "..." if begin else ""
    return [f"{path}:{line}:{column}", f"  {number} | {dots}{part}", f"  {' ' * len(number)} | {' ' * len(dots)}{before}{'^' * min(length, WIDEST)}"]
