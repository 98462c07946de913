"""The two tables: blocks.csv says how each block's texts are made, corners.csv what each corner is."""
import csv
import io
import os
import re
import shutil
from typing import NamedTuple

from ..refusal import Refused, read_text
from .corner import Unclear, corner_of

NAME = re.compile(r"[A-Za-z0-9][A-Za-z0-9_.+-]*")
# the last column may be left out
BLOCK_COLUMNS = ("name", "command", "texts", "needs")
CORNER_COLUMNS = ("name", "technology", "sheet", "cut", "supply", "current", "droplimit")
COMMANDS = ("build", "signoff")


class Block(NamedTuple):
    """A block: `build` or `signoff`, the words that say where its texts come from, and the files and programs without which it is skipped."""
    name: str
    command: str
    texts: str
    needs: str = ""

    def missing(self, base):
        """The first that it needs and that is not here: a word with a slash is a file or a folder, any other a program. None where nothing lacks."""
        for word in self.needs.split():
            if not (os.path.exists(os.path.join(base, word)) if "/" in word else shutil.which(word)):
                return word
        return None


class CornerRow(NamedTuple):
    """A corner as its row says it; an empty word changes nothing."""
    name: str
    technology: str
    sheet: str
    cut: str
    supply: str
    current: str
    droplimit: str


def rows_of(path, columns, may_lack=0):
    """The rows of a table with their lines. Empty lines and those that begin with # are passed over; so many of the last columns may be left out."""
    # each comment becomes an empty line, so that lines keep their numbers
    lines = [("" if line.startswith("#") else line) for line in read_text(path).split("\n")]
    reader = csv.reader(io.StringIO("\n".join(lines)), skipinitialspace=True)
    head = None
    try:
        for row in reader:
            cells = [cell.strip() for cell in row]
            if not any(cells):
                continue
            if head is None:
                head = cells
                if tuple(head) != columns and tuple(head) != columns[:len(columns) - may_lack]:
                    raise Refused(path, reader.line_num, f"the columns have to be {','.join(columns)}")
            elif len(cells) != len(head):
                raise Refused(path, reader.line_num, f"{len(cells)} words stand here, and {len(head)} columns")
            else:
                yield reader.line_num, cells
    except csv.Error as fault:
        raise Refused(path, reader.line_num, str(fault)) from None
    if head is None:
        raise Refused(path, None, f"the table is empty; its columns are {','.join(columns)}")


def named(path, columns, row_of, may_lack=0):
    """The rows of a table by their names, each once."""
    found = {}
    for line, cells in rows_of(path, columns, may_lack):
        if not NAME.fullmatch(cells[0]):
            raise Refused(path, line, f"{cells[0]!r} is no name: letters, digits and _ . + -, a letter or a digit first")
        if cells[0] in found:
            raise Refused(path, line, f"the name {cells[0]} stands twice")
        found[cells[0]] = row_of(line, cells)
    if not found:
        raise Refused(path, None, "the table has no row")
    return found


def read_blocks(path):
    """The blocks of a table, by their names."""
    def block(line, cells):
        if cells[1] not in COMMANDS:
            raise Refused(path, line, f"the command {cells[1]!r} is neither build nor signoff")
        if not cells[2]:
            raise Refused(path, line, "nothing says where the texts come from")
        return Block(*cells)
    return named(path, BLOCK_COLUMNS, block, 1)


def present(path, blocks):
    """The blocks that have what they need here, and a line for each of the others. A table whose blocks are all skipped is refused."""
    base = os.path.dirname(os.path.abspath(path))
    lacks = {name: block.missing(base) for name, block in blocks.items()}
    skipped = [f"skipped: {name}, which needs {lack}, and that is not here" for name, lack in lacks.items() if lack]
    if len(skipped) == len(blocks):
        raise Refused(path, None, skipped[0])
    return {name: block for name, block in blocks.items() if not lacks[name]}, skipped


def read_corners(path):
    """The corners of a table, by their names."""
    def corner(line, cells):
        try:
            corner_of(*cells[2:])
        except Unclear as why:
            raise Refused(path, line, str(why)) from None
        return CornerRow(*cells)
    return named(path, CORNER_COLUMNS, corner)
