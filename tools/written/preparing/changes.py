"""What was done to the files: a line for each thing, and how many there are of each kind."""
from collections import Counter

KINDS = ("changed", "left out", "guessed", "passed over", "missing")


class Changes:
    """The lines of `changes`, in the order in which they were told. Things of one kind, file and text stand once, with their number."""

    def __init__(self):
        self.held = {}

    def tell(self, kind, path, line, word, what):
        """Tells of a thing at a line of a file; where it was told before, it is counted."""
        assert kind in KINDS
        key = (kind, path, word, what)
        if key in self.held:
            self.held[key][1] += 1
        else:
            self.held[key] = [line, 1]

    def copy(self):
        """What was told so far, to go back to."""
        return {key: list(held) for key, held in self.held.items()}

    def lines(self):
        """A line for each thing."""
        for (kind, path, word, what), (line, times) in self.held.items():
            place = path if line is None else f"{path}:{line}"
            yield f"{kind}: {place}: {word}: {what}" + ("" if times == 1 else f" ({times} times)")

    def text(self):
        """All lines, and the one that counts those of each kind."""
        counts = Counter(kind for kind, *_ in self.held)
        total = ", ".join(f"{counts[kind]} {kind}" for kind in KINDS)
        return "".join(f"{line}\n" for line in self.lines()) + f"total: {total}\n"
