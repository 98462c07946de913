"""Files that could not be read or written, or that are too long."""
import os

from .nearest import nearest


def options_naming(case, name):
    """The options of the words that name a file, as words."""
    options = [option for option, value in case.settings.items() if value == name]
    return " and ".join(options) or "the file"


def siblings(name):
    """The names in the folder of a file."""
    folder = os.path.dirname(name) or "."
    return [os.path.join(os.path.dirname(name), entry) for entry in sorted(os.listdir(folder))] if os.path.isdir(folder) else []


def read_fault(case, name):
    """Why a file could not be read."""
    options = options_naming(case, name)
    if os.path.isdir(name):
        case.say(f"{options} {name} is a folder")
    elif os.path.exists(name):
        why = "could not be read" if os.access(name, os.R_OK) else "the system does not let it be read: see its rights"
        case.say(f"{options} {name} is there, and {why}")
    else:
        near = nearest(name, siblings(name))
        where = "" if os.path.isdir(os.path.dirname(name) or ".") else f": there is no folder {os.path.dirname(name)}"
        case.say(f"{options} {name}: there is no such file{where}" + (f"; did you mean {near}?" if near else f"; names are relative to {os.getcwd()}"))


def write_fault(case, name):
    """Why a file could not be written."""
    options, folder = options_naming(case, name), os.path.dirname(name) or "."
    if os.path.isdir(name):
        case.say(f"{options} {name} is a folder")
    elif not os.path.isdir(folder):
        case.say(f"{options} {name}: there is no folder {folder}; make it first")
    elif not os.access(name if os.path.exists(name) else folder, os.W_OK):
        case.say(f"{options} {name}: the system does not let it be written: see the rights of {name if os.path.exists(name) else folder}")
    else:
        case.say(f"{options} {name}: the system did not take all of it; see that {folder} has room")


def too_long(case, name):
    """How long a file is that is too long."""
    size = f" has {os.path.getsize(name)} bytes, and" if os.path.isfile(name) else ""
    case.say(f"{options_naming(case, name)} {name}{size} may have at most {2 ** 28}")
