"""The page docs/ANSWERS.md, made from the table of answers."""
from . import answers

HEAD = """# Every answer, and what to do

Each command prints one line on standard output and ends with a status. This page has every status and every refusal of every command; it is made by
`tools/make_help` from the table that `tools/explain` reads. Run at a terminal, or with `--explain`, `bin/pdn` says on standard error which line of which file
a refusal is about, with its values; `--quiet` leaves that out. A refusal's line begins with `pdn: `, which the tables below leave out.

The cause that is named is the first in the order of the work: the texts in the order technology, cells, design, script or wiring, bias, or netlist, certificate, waves; then
the drawing, the extraction and the network.
"""
STATUS_NOTE = """
8 is not used. A run that a signal ended has, in a shell, 128 and the number of the signal: 137 where it was killed, as where the system is out of memory. Its outputs may be incomplete, as with 10.
"""
PARTS = (
    ("Status 2: the words", "`pdn: Usage`. With `--explain` standard error says which word is at fault. Where `bin/pdn` ends with 2 and no line, an output is an input, a second output, standard output, a folder, a "
     "pipe or a device, and standard error says which; `--force` lets it through.", answers.WORDS),
    ("Status 3 and 4: files", "Where standard output could not be written, the status is 3 too, with no line or the beginning of one; the files that the command writes are then whole where it came so far.", answers.FILES),
    ("Status 4: a text is refused at a word", "`pdn: <file>:<line>:<word>: <Kind>`: open the file at that line and count the words; `explain` prints the line with a mark below the word.", answers.KINDS),
    ("Status 5: no grid is drawn or read", "In the order in which they are asked. A name is printed as it stands in its text.", answers.DRAWING),
    ("Status 5: no network is extracted", "A place in the bias file is its line.", answers.EXTRACTION),
    ("Status 6, 7, 9 and 10: the network", "A node `n<number>_<x>_<y>` of a grid stands at x and y, in units of the design.", answers.NETWORK),
)


def row(*cells):
    return "| " + " | ".join(cells) + " |\n"


def table(heads, rows):
    """A table of a page."""
    return row(*heads) + "|" + "---|" * len(heads) + "\n" + "".join(row(*cells) for cells in rows)


def answers_page():
    """The page's text."""
    page = HEAD + "\n## Statuses\n\n"
    page += table(("Status", "It says", "Files"), ((status.number, status.says, status.files) for status in answers.STATUSES))
    page += STATUS_NOTE
    page += "\n## Done: the line\n\n"
    page += table(("Line", "Status", "It means"), ((f"`{line}`", status, means) for line, status, means in answers.SUCCESSES))
    for title, about, part in PARTS:
        page += f"\n## {title}\n\n{about}\n\n"
        page += table(("Answer", "Of", "It means", "What to do"), ((f"`{answer.words}`", ", ".join(answer.places), answer.means, answer.todo) for answer in part))
    return page
