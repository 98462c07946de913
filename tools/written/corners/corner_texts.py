"""The technology and the bias file of a corner, and a line for each number that is another now."""
import os

from ..refusal import Refused, read_text, write_text
from . import bias_text, lef_text
from .changes import applied, told

NAMES = ("technology.lef", "bias", "changes")


def made(lef_path, bias_path, corner):
    """The two texts of a corner and what is told of them."""
    lef, bias = read_text(lef_path), read_text(bias_path)
    resistances = lef_text.changed(lef_path, lef, corner.sheet, corner.cut)
    if not lef_text.words_of(lef):
        raise Refused(lef_path, None, "this is no technology: it has no word")
    rest = bias_text.Bias(bias_path, bias, corner).changes
    return applied(lef, resistances), applied(bias, rest), told(lef_path, resistances) + told(bias_path, rest)


def write(lef_path, bias_path, corner, out):
    """Writes the three files to a folder; nothing that is read may be written over. How many changes there are."""
    lef, bias, lines = made(lef_path, bias_path, corner)
    for read in (lef_path, bias_path):
        for name in NAMES:
            if os.path.realpath(read) == os.path.realpath(os.path.join(out, name)):
                raise Refused(read, None, "this file would be written over; name another folder")
    try:
        os.makedirs(out, exist_ok=True)
    except OSError as fault:
        raise Refused(out, None, f"no folder can be made: {fault.strerror}") from None
    for name, text in zip(NAMES, (lef, bias, "".join(line + "\n" for line in lines))):
        write_text(os.path.join(out, name), text)
    return len(lines)
