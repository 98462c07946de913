"""The files that the words of a command name."""
import itertools
import os

from ..cells import Library
from ..refusal import Refused, read_text

OWN = ("--quiet", "--force", "--explain")
# a text that is longer than this is not read again
MOST_BYTES = 2 ** 24


def settings_of(words):
    """The value of each option among the words after a command's name; the first counts."""
    values, at = {}, 0
    words = [word for word in words if word not in OWN]
    while at < len(words):
        name, equals, value = words[at].partition("=")
        if not equals and at + 1 < len(words):
            value = words[at + 1]
            at += 1
        at += 1
        values.setdefault(name, value)
    return values


def sizes_of(settings, units):
    """The sizes of sites and macros in units: those of the technology's text go before those of the cells'."""
    library = Library(settings["--lef"], settings["--cells"])
    return {name: library.size(name, units, "N") for name in library.sizes}


def line_alone(path, line):
    """One line of a text of any length."""
    try:
        with open(path, encoding="utf-8", errors="surrogateescape", newline="\n") as file:
            return next(itertools.islice(file, line - 1, line), "").rstrip("\n")
    except OSError as fault:
        raise Refused(path, None, f"cannot be read: {fault.strerror}") from None


def is_long(path):
    """Whether a text is too long to be read again whole."""
    return os.path.isfile(path) and os.path.getsize(path) > MOST_BYTES


def text_of(path):
    """A text that can be read again; Refused where it is none, or too long for it."""
    try:
        if not os.path.isfile(path) or is_long(path):
            raise Refused(path, None, "is too long to be read again whole" if os.path.isfile(path) else "is no file that can be read again")
    except OSError as fault:
        raise Refused(path, None, f"cannot be read: {fault.strerror}") from None
    return read_text(path)
