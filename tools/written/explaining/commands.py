"""The commands of pdn with their options, read from the help texts, which state them once."""
import re
from pathlib import Path
from typing import NamedTuple, Optional

from ..refusal import Refused, read_text

TOP = Path(__file__).resolve().parents[3]
PRINTED = TOP / "crates" / "help_texts" / "stdout"
# a package has no crates, and its help texts in one file beside the others
SOURCE = PRINTED if PRINTED.exists() else TOP / "share" / "help" / "all.txt"
GENERAL = "pdn"
_SECTION = re.compile(r"== ([a-z]+)")
_OPTION = re.compile(r" +--([a-z-]+) <([A-Za-z_-]+)> +(.*)")


class Option(NamedTuple):
    """An option with a value: its name with dashes, what its value is called, and its line of help, which says of a file whether it is
    one `to read` or `to write`."""
    name: str
    value: str
    help: str

    @property
    def is_written(self):
        return bool(re.search(r"\bto write\b", self.help))

    @property
    def is_read(self):
        return bool(re.search(r"\bto read\b", self.help))


class Command(NamedTuple):
    """A command: its name, the line that says what it does, its synopsis, its options, and its help as it stands."""
    name: str
    about: str
    usage: str
    options: tuple
    text: str

    def option(self, name) -> Optional[Option]:
        return next((option for option in self.options if option.name == name), None)

    def files(self, is_written):
        """The options whose file is written, or those whose file is read."""
        return [option for option in self.options if (option.is_written if is_written else option.is_read)]


def sections_of(path):
    """The help texts by the names of their sections."""
    sections, name = {}, None
    for number, line in enumerate(read_text(path).splitlines(keepends=True), 1):
        found = _SECTION.fullmatch(line.rstrip("\n"))
        if found:
            name = found[1]
            sections[name] = []
        elif name is None:
            raise Refused(path, number, "the text is to begin with a line '== pdn'")
        else:
            sections[name].append(line)
    return {name: "".join(lines).rstrip("\n") + "\n" for name, lines in sections.items()}


def usage_of(text):
    """The synopsis of a help text, on one line."""
    found = re.search(r"^Usage: (.*(?:\n +.*)*)", text, re.M)
    return " ".join(found[1].split()) if found else ""


def command_of(name, text):
    """The command of a section."""
    options = tuple(Option("--" + found[1], found[2], found[3]) for found in map(_OPTION.fullmatch, text.split("\n")) if found)
    return Command(name, text.split("\n")[0], usage_of(text), options, text)


def commands_of(path=None):
    """The commands in the order of the help texts, by name. The general help is none of them."""
    sections = sections_of(SOURCE if path is None else path)
    return {name: command_of(name, text) for name, text in sections.items() if name != GENERAL}
