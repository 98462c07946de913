"""A run that was refused: its words, what it answered, and its texts, read again as far as they can be."""
from functools import cached_property

from .answers import TEXT_OF_OPTION
from .commands import commands_of
from .design import Design
from .drawing import Drawing
from .excerpt import excerpt, word_at
from .files import is_long, line_alone, settings_of, sizes_of, text_of
from .lengths import corners
from .lexing import line_words
from .script import Script
from .technology import Technology
from .wires import Wires


class Case:
    """The words of a run with its status and its line, and what is said of them so far."""

    def __init__(self, words, status, line):
        self.words, self.status, self.line = words, status, line
        self.command = words[0] if words else ""
        self.settings = settings_of(words[1:])
        self.said = []

    @cached_property
    def known(self):
        """The command as its help has it, or None."""
        return commands_of().get(self.command)

    @property
    def refusal(self):
        """The line without `pdn: `."""
        return self.line.removeprefix("pdn: ")

    def path(self, option):
        return self.settings[option]

    def text(self, option):
        """A text, read again."""
        return text_of(self.path(option))

    def options_of_file(self, name):
        """The options that name this file, those of texts first."""
        return [option for option in TEXT_OF_OPTION if self.settings.get(option) == name]

    @cached_property
    def technology(self):
        self.text("--lef")
        return Technology(self.path("--lef"))

    @cached_property
    def design(self):
        self.text("--def")
        return Design(self.path("--def"))

    @cached_property
    def script(self):
        self.text("--pdn")
        return Script(self.path("--pdn"))

    @cached_property
    def sizes(self):
        for option in ("--lef", "--cells"):
            self.text(option)
        return sizes_of(self.settings, self.design.units)

    @cached_property
    def drawing(self):
        return Drawing(self.technology, self.design, self.script, self.sizes)

    @cached_property
    def wires(self):
        self.text("--wires")
        return Wires(self.path("--wires"))

    @cached_property
    def pieces(self):
        """The pieces of metal: those that the script draws, or the segments of the wiring."""
        return self.drawing.pieces if self.command == "build" else self.wires.segments()

    @cached_property
    def nets(self):
        """The power and ground nets in byte order, as nodes are numbered by them."""
        if self.command == "build":
            names = {domain.value(option) for domain in self.script.domains for option in ("-power", "-ground")}
        else:
            names = {entry.name for entry in self.wires.wired()}
        return sorted(names, key=lambda name: name.encode("utf-8", "surrogateescape"))

    def source_of(self, piece):
        """Which line of which file a piece comes from."""
        if self.command == "build":
            return f"{self.path('--pdn')}:{piece.command.word.line}"
        return f"{self.path('--wires')}:{piece.command.line}"

    def named(self, piece):
        """A piece of metal in words, with its corners in micrometres, and where it comes from."""
        return f"the metal of {piece.net} on {piece.layer} {corners(piece.box(), self.design.units)} ({self.source_of(piece)})"

    def show_piece(self, piece):
        """Shows the line that a piece comes from."""
        if self.command == "build":
            self.show("--pdn", piece.command.word)
        else:
            self.show("--wires", piece.command)

    @cached_property
    def bias(self):
        """The lines of the bias file, each a list of its words, comments left out."""
        rows = {}
        for word in line_words(self.text("--bias")):
            rows.setdefault(word.line, []).append(word)
        cut = {}
        for line, words in rows.items():
            end = next((at for at, word in enumerate(words) if word.text.startswith("#")), len(words))
            if end:
                cut[line] = words[:end]
        return cut

    def bias_lines(self, *first):
        """The lines of the bias file that begin with these words."""
        return [words for words in self.bias.values() if tuple(word.text for word in words[:len(first)]) == first]

    def say(self, sentence):
        """Says a sentence."""
        self.said.append(sentence)

    def show(self, option, word):
        """Shows a word of a text in its line."""
        self.said += excerpt(self.path(option), self.text(option), word.line, word)

    def show_place(self, option, line, number):
        """Shows the word of this number on a line, and answers it; None where the line ends before it."""
        path, kind = self.path(option), TEXT_OF_OPTION[option]
        if is_long(path):
            # no quote is taken to be open where the line begins
            text = line_alone(path, line)
            self.said += excerpt(path, text, line, word_at(text, kind, 1, number), text)
            return None
        text = self.text(option)
        word = word_at(text, kind, line, number)
        self.said += excerpt(path, text, line, word)
        return word

    def show_line(self, option, line):
        """Shows a line by its first word."""
        return self.show_place(option, line, 1)
