"""What the steps of the run change besides tools/prepare: OUT/changes_of_run, in the form of its `changes`, a line for each thing with file and line."""
import bisect
import re

from written.preparing.changes import KINDS, Changes
from written.preparing.words import split

NAME = "changes_of_run"


class Record:
    """The lines of the file. It is written anew after each step, so that it holds what was done wherever the run stops."""

    def __init__(self, out):
        self.changes, self.path = Changes(), out / NAME

    def tell(self, kind, path, line, word, what):
        self.changes.tell(kind, str(path), line, word, what)

    def take(self, lines, path, out):
        """What a tool told of a file from which it wrote another one."""
        for text in lines:
            kind = next((kind for kind in KINDS if text.startswith(f"{kind}: {path}")), None)
            if kind:
                line, word, what = re.fullmatch(r"(?::([0-9]+))?: (\S+): (.*)", text[len(f"{kind}: {path}"):]).groups()
                self.tell(kind, path, int(line) if line else None, word, f"{what}, in {out}")

    def write(self):
        self.path.write_text(self.changes.text(), encoding="utf-8")

    def last_line(self):
        return self.changes.text().splitlines()[-1]


def line_of(path, begin):
    """The line of a file that begins with these words, and how it goes on."""
    for number, line in enumerate(path.read_text(encoding="utf-8").splitlines(), 1):
        if line.startswith(begin):
            return number, line[len(begin):].strip()
    raise KeyError(f"{path} has no line of {begin}")


class Statement:
    """A statement of a DEF, or an entry of a section: its section, its name, its words and its line."""

    def __init__(self, section, words, line):
        self.section, self.words, self.line = section, [str(word) for word in words], line
        self.name = self.words[1 if section and len(words) > 1 else 0]

    def key(self):
        return (self.section, self.name) if self.section else ("", *self.words)

    def head(self):
        """The words before the first part."""
        return self.words[:self.words.index("+")] if "+" in self.words else self.words


def statements(path):
    """The statements of a DEF by section and name. The heads of sections, which count their entries, are left out."""
    text = path.read_text(encoding="utf-8")
    breaks, words = [found.start() for found in re.finditer("\n", text)], split(text)
    found, at, section, head = {}, 0, "", None
    while at < len(words):
        if words[at].upper() == "END":
            at, section = at + 2, ""
            continue
        begin = at
        while at < len(words) and words[at] != ";":
            at += 1
        if words[begin] == "-" and not section:
            section = found.pop(head).name
        held = Statement(section if words[begin] == "-" else "", words[begin:at], bisect.bisect_left(breaks, words[begin].at) + 1)
        head = held.key()
        found[head] = held
        at += 1
    return found


def tell_routing(record, before_path, after_path):
    """Tells how what a router wrote differs from what it was given: wires of nets, and whatever else is not as it was."""
    before, after = statements(before_path), statements(after_path)
    for key, held in after.items():
        earlier = before.get(key)
        if earlier is None:
            record.tell("changed", after_path, held.line, held.section or held.name, "an entry that the router adds")
        elif earlier.words != held.words and held.section == "NETS" and earlier.words == held.head():
            record.tell("changed", after_path, held.line, "NETS", "a net that the router wires")
        elif earlier.words != held.words:
            record.tell("changed", after_path, held.line, held.name, f"of {held.section or 'the design'}: the router writes it otherwise")
        elif held.section == "NETS" and held.words.count("(") > 1 and "+" not in held.words:
            record.tell("missing", after_path, held.line, held.name, "a net of two pins or more without a wire")
    for key, held in before.items():
        if key not in after:
            record.tell("left out", before_path, held.line, held.name, f"of {held.section or 'the design'}: the router does not write it")
