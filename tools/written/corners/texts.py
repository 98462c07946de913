"""The texts of a block: a folder of them, a made-up design, or what a program of the block's makes."""
import os
import shlex
import shutil
import subprocess

from ..refusal import Refused

# as tools/prepare names them; the script is what build reads, the wires what signoff does
ALWAYS = ("technology.lef", "cells.lef", "design.def", "bias")
OWN = {"build": "grid.pdn", "signoff": "wires.def"}
KNOWN = (*ALWAYS, *OWN.values())
GENERATED = (("--lef", "technology.lef"), ("--cells", "cells.lef"), ("--def", "design.def"), ("--pdn", "grid.pdn"), ("--bias", "bias"))


def copied(words, base, out):
    """Copies a folder of texts; a word NAME=FILE puts another file in the place of one."""
    folder = os.path.join(base, words[0])
    instead = dict(word.partition("=")[::2] for word in words[1:])
    for name in instead:
        if name not in KNOWN:
            raise Refused(folder, None, f"{name} is no name of a text; they are {', '.join(KNOWN)}")
    for name in KNOWN:
        source = os.path.join(base, instead[name]) if name in instead else os.path.join(folder, name)
        if name in instead or os.path.isfile(source):
            try:
                shutil.copyfile(source, os.path.join(out, name))
            except OSError as fault:
                raise Refused(source, None, f"cannot be copied: {fault.strerror}") from None


def ran(words, base):
    """Runs what makes the texts; it has to end with 0."""
    try:
        done = subprocess.run(words, cwd=base, stdin=subprocess.DEVNULL, check=False)
    except OSError as fault:
        raise Refused(words[0], None, f"cannot be run: {fault.strerror}") from None
    if done.returncode:
        raise Refused(words[0], None, f"ended with {done.returncode}")


def make(texts, command, base, pdn, out):
    """Makes the texts of a block in a folder. Names of files are relative to the folder of the table."""
    kind, *words = shlex.split(texts)
    if kind == "folder" and words:
        copied(words, base, out)
    elif kind == "generate" and len(words) == 2:
        ran([pdn, "generate", "--number", words[0], "--side", words[1], *(word for option, name in GENERATED for word in (option, os.path.join(out, name)))], base)
    elif kind == "run" and words:
        ran([out if word == "OUT" else word for word in words], base)
    else:
        raise Refused(texts, None, "texts come from 'folder FOLDER ..', 'generate NUMBER SIDE' or 'run PROGRAM .. OUT ..'")
    for name in (*ALWAYS, OWN[command]):
        if not os.path.isfile(os.path.join(out, name)):
            raise Refused(texts, None, f"there is no {name} for {command}")
