"""Refusals of an input: one line, `tool: file:line: what`, and status 1."""
import gc
import os
import sys


class Refused(Exception):
    """An input that is not taken: its file, the line (None where no line is at fault), and what is wrong."""

    def __init__(self, path, line, what):
        super().__init__(f"{path}: {what}" if line is None else f"{path}:{line}: {what}")


def read_text(path):
    """The text of a file. Bytes that are no UTF-8 are kept as they are, since a name may have any."""
    try:
        with open(path, encoding="utf-8", errors="surrogateescape", newline="") as file:
            return file.read()
    except OSError as fault:
        raise Refused(path, None, f"cannot be read: {fault.strerror}") from None


def put(path, text):
    """Writes a text to a file."""
    with open(path, "w", encoding="utf-8", errors="surrogateescape", newline="") as file:
        file.write(text)


def write_text(path, text):
    """Writes a file whole: under another name first, so that no half of it stands where a disk is full."""
    held = f"{path}.part" if os.path.isfile(path) or not os.path.exists(path) else path
    try:
        put(held, text)
        if held != path:
            os.replace(held, path)
    except OSError as fault:
        if held != path and os.path.exists(held):
            os.remove(held)
        raise Refused(path, None, f"cannot be written: {fault.strerror}") from None


def say(message):
    """One line to standard error, with the tool's name."""
    print(f"{os.path.basename(sys.argv[0])}: {message}", file=sys.stderr)


def run(main, refused=1):
    """Ends the process with the status of main, and with that of a refusal and one line where an input is refused."""
    # what is read is held to the end, so there is nothing to collect, and to look for it takes a fifth of the time
    gc.disable()
    # a stream that is closed at the start is None, and is read by nobody
    sys.stdout, sys.stderr = (stream or open(os.devnull, "w", encoding="utf-8") for stream in (sys.stdout, sys.stderr))
    sys.stdout.reconfigure(errors="surrogateescape")
    sys.stderr.reconfigure(errors="surrogateescape")
    try:
        status = main()
        sys.stdout.flush()
    except Refused as why:
        say(why)
        status = refused
    except BrokenPipeError:
        # who reads has seen enough, as `head` does
        leave_standard_output()
        status = 0
    except OSError as fault:
        leave_standard_output()
        say(f"standard output cannot be written: {fault.strerror}")
        status = 1
    sys.exit(status)


def leave_standard_output():
    """What is still to be written there is dropped."""
    os.dup2(os.open(os.devnull, os.O_WRONLY), sys.stdout.fileno())
