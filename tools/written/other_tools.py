"""Runs of other tools, in a folder of their own."""
import os
import shutil
import subprocess

from .refusal import Refused, read_text, write_text


def is_missing(tool, what):
    """Says in one line that the tool is missing and what is skipped, if it is."""
    if shutil.which(tool) is not None:
        return False
    print(f"{tool} is missing, so {what} is skipped")
    return True


def add_strict(parser, tool):
    """The option by which a comparison that compared nothing does not pass."""
    parser.add_argument("--strict", action="store_true", help=f"end with 1 too where nothing could be compared, as where {tool} is missing")


def output_of(words, folder, seconds=600):
    """What a tool prints, run in a folder without a display."""
    environment = dict(os.environ, QT_QPA_PLATFORM="offscreen", HOME=folder)
    try:
        done = subprocess.run(words, capture_output=True, cwd=folder, env=environment, stdin=subprocess.DEVNULL, timeout=seconds, check=False)
    except subprocess.TimeoutExpired:
        raise Refused(words[0], None, f"came to no end in {seconds} seconds") from None
    text = (done.stdout + done.stderr).decode("utf-8", "replace")
    return done.returncode, text


def copied(path, folder, name):
    """A copy of a text in a folder, under a name by which other tools tell its format."""
    copy = os.path.join(folder, name)
    write_text(copy, read_text(path))
    return copy


def refuse_output(tool, text, path):
    """Refuses what a tool could not read, with the last line that it printed of an error."""
    lines = [line.strip() for line in text.splitlines() if line.strip()]
    told = next((line for line in reversed(lines) if "error" in line.lower()), lines[-1] if lines else "it printed nothing")
    raise Refused(path, None, f"{tool} reads no metal of it: {told[:200]}")
