"""What one run leaves beside its files: a record of who ran what where, with the checksums of the files, as JSON."""
import hashlib
import json
import os
import socket
import subprocess
import time

from ..refusal import Refused, read_text, write_text

# the answers of pdn that the same texts give again; any other status is a fault of the machine, and the run is to be tried again
ANSWERS = (0, 1, 2, 4, 5, 6, 7, 9)
FINISHED = (0, 1)


def machine():
    """The name of this machine; on a cluster that of the node."""
    return os.environ.get("SLURMD_NODENAME") or socket.gethostname()


def checksum(path):
    """The SHA-256 of a file."""
    digest = hashlib.sha256()
    try:
        with open(path, "rb") as file:
            for piece in iter(lambda: file.read(1 << 20), b""):
                digest.update(piece)
    except OSError as fault:
        raise Refused(path, None, f"cannot be read: {fault.strerror}") from None
    return digest.hexdigest()


def measured(words):
    """Runs a program and tells its status, its line, where it ran, its seconds, and the most memory that it held."""
    begun = time.monotonic()
    try:
        with subprocess.Popen(words, stdin=subprocess.DEVNULL, stdout=subprocess.PIPE) as process:
            said = process.stdout.read().decode("utf-8", "surrogateescape")
            _, status, usage = os.wait4(process.pid, 0)
            process.returncode = os.waitstatus_to_exitcode(status)
    except OSError as fault:
        raise Refused(words[0], None, f"cannot be run: {fault.strerror}") from None
    return {"words": words, "status": process.returncode, "line": said.rstrip("\n"), "machine": machine(), "wall_ms": int((time.monotonic() - begun) * 1000),
            "cpu_ms": int((usage.ru_utime + usage.ru_stime) * 1000), "peak_kb": usage.ru_maxrss}


def read_record(path):
    """A record."""
    try:
        return json.loads(read_text(path))
    except ValueError:
        raise Refused(path, None, "this is no record of a run") from None


def write_record(path, record):
    """Writes a record whole, and the folders above it."""
    os.makedirs(os.path.dirname(path) or ".", exist_ok=True)
    write_text(path, json.dumps(record, indent=1) + "\n")
