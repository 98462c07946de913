"""The words of a LEF or DEF text, each with its line, and the statements that they make."""
import bisect
import re

from ..refusal import Refused, read_text
from .quantities import has_places

_WORD = re.compile(r'\n|"[^"]*"|#[^\n]*|;|[^\s;]+')


class Word(str):
    """A word with its place in the text."""
    __slots__ = ("at",)


def split(text):
    """The words of a text, comments left out. A `;` is a word by itself, also where it is glued to another."""
    found = []
    for match in _WORD.finditer(text):
        held = match.group()
        if held[0] in "\n#":
            continue
        word = Word(held)
        word.at = match.start()
        found.append(word)
    return found


def shown(word):
    """A word as it is told: on one line, and not longer than a reader needs."""
    text = " ".join(word.split())
    return text if len(text) <= 60 else f"{text[:57]}..."


class Source:
    """A text that is read word by word; what is told or refused of it has its file, line and word."""

    def __init__(self, path, changes):
        self.path, self.changes = path, changes
        text = read_text(path)
        self.words, self.at = split(text), 0
        self.breaks = [match.start() for match in re.finditer("\n", text)]
        self.tell_glued(text)

    def tell_glued(self, text):
        """Tells of each `;` that is glued to a word."""
        for word in self.words:
            if word == ";" and (text[word.at - 1:word.at].strip() or text[word.at + 1:word.at + 2].strip()):
                self.tell("changed", word, "it is glued to a word, and is taken as a word by itself")

    def line(self, word):
        """The line of a word of this text."""
        return bisect.bisect_left(self.breaks, word.at) + 1

    def tell(self, kind, word, what):
        self.changes.tell(kind, self.path, self.line(word), shown(word), what)

    def tell_of(self, kind, word, shown, what):
        """Tells of many things under one name, which are counted in one line."""
        self.changes.tell(kind, self.path, self.line(word), shown, what)

    def refuse(self, word, why):
        raise Refused(self.path, self.line(word), f"{shown(word)}: {why}")

    def more(self):
        """Whether a word is left."""
        return self.at < len(self.words)

    def peek(self):
        """The next word, which is empty behind the last."""
        return self.words[self.at] if self.more() else ""

    def take(self):
        """The next word."""
        if not self.more():
            self.refuse_end()
        self.at += 1
        return self.words[self.at - 1]

    def refuse_end(self):
        """Refuses a text that ends too early."""
        if not self.words:
            raise Refused(self.path, None, "holds no word")
        self.refuse(self.words[-1], "the text ends within a section or a statement; hand in the whole file")

    def keyword(self):
        """The next word as a keyword, which is upper case however it is written."""
        return self.as_keyword(self.take())

    def as_keyword(self, word):
        """A word as a keyword; one that is not in upper case is told."""
        upper = word.upper()
        if upper != word:
            self.tell("changed", word, f"a keyword that is not upper case, taken as {upper}")
        return upper

    def statement(self):
        """The words before the next `;`, which is taken too."""
        begin = self.at
        while self.take() != ";":
            pass
        return self.words[begin:self.at - 1]

    def lengths(self, first, values):
        """Lengths in micrometres, which have at most 6 places."""
        if not all(has_places(value, 6) for value in values):
            self.refuse(first, "a length with more than 6 places behind the point is shorter than pdn knows; write it with 6")
        return values

    def one(self, first, held):
        """The one word of a statement. Where more are there, a `;` may be missing, and what stands behind would be lost."""
        if len(held) != 1:
            self.refuse(first, f"one word is due behind it, and {len(held)} are there; mend the statement, or its ;")
        return held[0]

    def section(self, name):
        """The words that begin the statements of a section, each with its keyword, up to END and the section's name."""
        while True:
            first = self.take()
            word = self.as_keyword(first)
            if word != "END":
                yield first, word
            elif self.take() != name:
                self.refuse(first, f"END {name} is due")
            else:
                return

    def skip_to(self, *ending):
        """Passes over all words up to `END` and what follows it."""
        count = len(ending) - 1
        while True:
            word = self.take()
            if word.upper() == ending[0] and self.follows(ending[1:], count):
                self.at += count
                return

    def follows(self, wanted, count):
        """Whether the next words are these, keywords in either case."""
        held = tuple(self.words[self.at:self.at + count])
        return held == wanted or tuple(word.upper() for word in held) == wanted
