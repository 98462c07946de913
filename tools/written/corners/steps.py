"""The steps of one run: its texts, the run, its check and its figures. Each leaves its files in one move, when all of them are whole."""
import html
import os
import shutil
import subprocess
from pathlib import Path

from ..bounds import Drops
from ..chip_map import heading
from ..html_map import Page
from ..matching import Chip
from ..refusal import Refused, write_text
from ..report import Report
from ..routed import Routed
from . import corner_texts, texts
from .figures import figures_of
from .records import ANSWERS, FINISHED, checksum, machine, measured, read_record, write_record

TOOLS = Path(__file__).resolve().parent.parent.parent
WRITTEN = {"build": ("routed.def", "netlist", "certificate", "report"), "signoff": ("netlist", "certificate", "report")}
OPTIONS = {"routed.def": "--out-def", "netlist": "--netlist", "certificate": "--certificate", "report": "--report"}


def beginning(out):
    """An empty folder beside the one that will stand in the end."""
    part = out.rstrip("/") + ".part"
    shutil.rmtree(part, ignore_errors=True)
    os.makedirs(part)
    return part


def into_place(part, out):
    """Puts a whole folder in its place."""
    shutil.rmtree(out, ignore_errors=True)
    os.rename(part, out)


def prepare(block, base, pdn, out):
    """The texts of a block."""
    part = beginning(out)
    texts.make(block.texts, block.command, base, os.path.abspath(pdn), os.path.abspath(part))
    into_place(part, out)


def inputs_of(command, prepared, corner):
    """The options of a run and its files: technology and bias file of the corner, all else of the block."""
    own = texts.OWN[command]
    return [("--lef", f"{corner}/technology.lef"), ("--cells", f"{prepared}/cells.lef"), ("--def", f"{prepared}/design.def"),
            ("--pdn" if command == "build" else "--wires", f"{prepared}/{own}"), ("--bias", f"{corner}/bias")]


def explanation(run):
    """What tools/explain says of an answer, where it is there."""
    tool = TOOLS / "explain"
    if not tool.is_file():
        return []
    done = subprocess.run([str(tool), str(run["status"]), run["line"], *run["words"][1:]], capture_output=True, text=True, errors="replace", check=False)
    return done.stdout.splitlines() if done.returncode == 0 else []


def note_fault(name, what, run):
    """Leaves a note of a run that a fault of the machine ended, for the summary; it is to be tried again."""
    write_record(f"faults/{name}.json", {"what": what, **run})
    raise Refused(name, None, f"{what} on {run['machine']} ended with {run['status']}: {run['line'] or 'no line'}")


def forget_fault(name):
    """The note goes when the run came through."""
    Path(f"faults/{name}.json").unlink(missing_ok=True)


def make_corner(lef, prepared, corner, out):
    """The texts of a corner: the technology that is named, and the bias file of the block."""
    part = beginning(out)
    corner_texts.write(lef, f"{prepared}/bias", corner, part)
    into_place(part, out)


def build(name, command, prepared, corner, pdn, out):
    """Runs build or signoff, and leaves what it wrote with a record. An answer that is no grid is a record alone."""
    # what an earlier run came to is no figure of this one
    Path(f"figures/{name}.json").unlink(missing_ok=True)
    part = beginning(out)
    inputs = inputs_of(command, prepared, corner)
    outputs = [(OPTIONS[file], f"{part}/{file}") for file in WRITTEN[command]]
    run = measured([pdn, command, *(word for pair in (*inputs, *outputs) for word in pair)])
    if run["status"] not in ANSWERS:
        note_fault(name, command, run)
    record = {"name": name, "command": command, "program": checksum(pdn), "built": run, "inputs": {path: checksum(path) for _, path in inputs}, "outputs": {}}
    if run["status"] in FINISHED:
        record["outputs"] = {file: checksum(f"{part}/{file}") for file in WRITTEN[command]}
    else:
        record["explanation"] = explanation(run)
    write_record(f"{part}/record.json", record)
    into_place(part, out)


def linked(source, target):
    """One file under a second name, or a copy of it where that cannot be."""
    try:
        os.link(source, target)
    except OSError:
        shutil.copyfile(source, target)


def check(name, unchecked, pdn, out):
    """Checks the certificate, and lets the files of a run pass where check accepts them; those that it refuses go to refused/."""
    record = read_record(f"{unchecked}/record.json")
    part = beginning(out)
    if record["outputs"]:
        for file, wanted in record["outputs"].items():
            if checksum(f"{unchecked}/{file}") != wanted:
                raise Refused(f"{unchecked}/{file}", None, f"this is not the file that {record['built']['machine']} wrote")
        run = measured([pdn, "check", "--netlist", f"{unchecked}/netlist", "--certificate", f"{unchecked}/certificate"])
        if run["status"] not in ANSWERS:
            note_fault(name, "check", run)
        record["checked"] = {**run, "program": checksum(pdn)}
        place = part if run["status"] == 0 else beginning(f"refused/{name}")
        for file in record["outputs"]:
            linked(f"{unchecked}/{file}", f"{place}/{file}")
        if place != part:
            into_place(place, f"refused/{name}")
    write_record(f"{part}/record.json", record)
    into_place(part, out)
    forget_fault(name)


def is_accepted(record):
    """Whether the files of a run were checked and accepted."""
    return record.get("checked", {}).get("status") == 0


def read_again(record, run, prepared, corner):
    """What tools/check_report says of the report, by all files that it can be given."""
    drawn = [f"{run}/routed.def"] if record["command"] == "build" else [f"{prepared}/design.def", f"{prepared}/wires.def"]
    words = [str(TOOLS / "check_report"), f"{run}/netlist", f"{run}/certificate", f"{run}/report", "--lef", f"{corner}/technology.lef",
             "--bias", f"{corner}/bias", *(word for path in drawn for word in ("--def", path))]
    done = subprocess.run(words, capture_output=True, text=True, errors="replace", check=False)
    said = done.stdout.splitlines()[:1] if done.returncode == 0 else done.stderr.splitlines()[-1:]
    return {"status": done.returncode, "line": "".join(said), "machine": machine()}


def map_of(record, drops, run, prepared):
    """The map, as tools/drop_map --html draws it."""
    wiring = Routed(f"{run}/routed.def" if record["command"] == "build" else f"{prepared}/wires.def")
    chip = Chip(drops.report, wiring, drops, f"{run}/netlist")
    return Page(chip, wiring, heading(chip, wiring)).text()


def no_map(why):
    """A page in the place of a map."""
    return f"<!doctype html><meta charset=utf-8><title>No map</title><p>No map: {html.escape(why)}\n"


def show(run, prepared, corner, figures, out):
    """Reads the report again by tools/check_report, works out the figures of the summary, and draws the map, or a page that says why there is none."""
    record = read_record(f"{run}/record.json")
    page = no_map(f"{record['name']} has no certificate that was accepted.")
    if is_accepted(record):
        record["read_again"] = read_again(record, run, prepared, corner)
        report = Report(f"{run}/report")
        drops = Drops(report, f"{run}/netlist")
        record["nets"] = figures_of(report, drops)
        try:
            page = map_of(record, drops, run, prepared)
        except Refused as why:
            record["no_map"], page = str(why), no_map(str(why))
    os.makedirs(os.path.dirname(out) or ".", exist_ok=True)
    write_text(out, page)
    write_record(figures, record)
