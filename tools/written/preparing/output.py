"""Writes all files or none: each to a name of its own beside its place first, and then all are renamed."""
import os

from ..refusal import Refused, write_text


def write_all(folder, texts):
    """The files of a folder. Those of an earlier run that this one does not write are removed. On a fault nothing is left that was not there."""
    made = make_folder(folder)
    begun = []
    try:
        for name, text in texts.items():
            if text is not None:
                begun.append(name)
                write_text(beside(folder, name), text)
        for name, text in texts.items():
            place = os.path.join(folder, name)
            if text is not None:
                os.replace(beside(folder, name), place)
            elif os.path.exists(place):
                os.remove(place)
    except (OSError, Refused) as fault:
        remove(folder, begun, made)
        raise fault if isinstance(fault, Refused) else Refused(folder, None, f"cannot be written: {fault.strerror}") from None


def beside(folder, name):
    return os.path.join(folder, f".{name}.part")


def make_folder(folder):
    """Makes the folder where it is not there, and says whether it did."""
    if os.path.isdir(folder):
        return False
    try:
        os.mkdir(folder)
    except OSError as fault:
        raise Refused(folder, None, f"cannot be made: {fault.strerror}") from None
    return True


def remove(folder, begun, made):
    """Removes what was begun."""
    for name in begun:
        if os.path.isfile(beside(folder, name)):
            os.remove(beside(folder, name))
    if made and not os.listdir(folder):
        os.rmdir(folder)
