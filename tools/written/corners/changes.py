"""What a corner changes in a text: the word that goes, what comes in its place, and why, each told by file and line."""
from typing import NamedTuple


class Change(NamedTuple):
    """A piece of a text by its ends, what comes in its place, its line, and what is told of it."""
    start: int
    end: int
    new: str
    line: int
    told: str


def applied(text, changes):
    """The text with all changes made. They stand in the order of the text."""
    parts, at = [], 0
    for change in changes:
        parts += [text[at:change.start], change.new]
        at = change.end
    return "".join([*parts, text[at:]])


def told(path, changes):
    """A line for each change, of those that have something to tell."""
    return [f"{path}:{change.line}: {change.told}" for change in changes if change.told]
