"""Runs scripts by tclsh, in a safe interpreter, and reads the commands that print themselves."""
import os
import re
import resource
import shutil
import subprocess
from typing import NamedTuple

from ..refusal import Refused

PRELUDE = os.path.join(os.path.dirname(os.path.abspath(__file__)), "prelude.tcl")
# the most memory that a script may take, in bytes
MEMORY = 10**9


def limit_memory():
    """Keeps a script from taking more memory than a script needs."""
    resource.setrlimit(resource.RLIMIT_AS, (MEMORY, MEMORY))


class Call(NamedTuple):
    """A command that was called: whether it is one of PDN's, its file and line, its name and its words."""
    kind: str
    path: str
    line: int
    name: str
    words: list


def run_scripts(paths, variables, seconds=120):
    """The calls of the scripts, in their order."""
    for path in paths:
        if not os.access(path, os.R_OK):
            raise Refused(path, None, "cannot be read")
    if shutil.which("tclsh") is None:
        raise Refused(paths[0], None, "tclsh is missing, which runs the scripts; the package tcl has it")
    pairs = [word for pair in sorted(variables.items()) for word in pair]
    try:
        done = subprocess.run(["tclsh", PRELUDE, str(len(variables)), *pairs, *paths], capture_output=True, stdin=subprocess.DEVNULL, timeout=seconds,
                              check=False, preexec_fn=limit_memory)
    except subprocess.TimeoutExpired:
        raise Refused(paths[0], None, f"the script came to no end in {seconds} seconds") from None
    records = [[bytes.fromhex(word[1:]).decode("utf-8", "replace") for word in line.split(" ")] for line in done.stdout.decode("ascii").splitlines()]
    if not records or records[-1][0] not in ("end", "error"):
        raise Refused(paths[0], None, f"script: tclsh did not end: {' '.join(done.stderr.decode('utf-8', 'replace').split())[:200]}")
    return calls_of(records, paths)


def calls_of(records, paths):
    """The calls among the records. Files bear the names by which they were named."""
    names, calls = {}, []
    for kind, *words in records:
        if kind == "file":
            names.setdefault(words[0], words[1])
        elif kind == "error":
            raise refused_script(words, names, paths)
        elif kind != "end":
            path, line, name, *rest = words
            calls.append(Call(kind, names.get(path, path), int(line), name, rest))
    return calls


def refused_script(words, names, paths):
    """A fault that Tcl found, at the innermost line that it names."""
    why, where = words
    found = re.search(r'\(file "(.*?)" line ([0-9]+)\)', where)
    reason = " ".join(why.split())[:200]
    variable = re.search(r'can\'t read "(::)?env\((\w+)\)"', why)
    if variable:
        reason += f"; give --set {variable.group(2)}=VALUE"
    if found is None:
        return Refused(names.get(paths[0], paths[0]), None, f"script: {reason}")
    return Refused(found.group(1), int(found.group(2)), f"script: {reason}")
