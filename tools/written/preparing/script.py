"""The script in the words that `pdn` reads: the commands that tclsh came to, completed, on the design's units, without what is not there."""
from fractions import Fraction

from ..refusal import Refused
from .checks import check_commands
from .options import COMMANDS, COUNT, FLAG, LENGTH, LENGTHS, NAMES, WIDTH, WIDTHS, Command, read_options
from .quantities import decimal, floor, nearest, number
from .tcl import run_scripts

ORIENTATIONS = {"R0": "N", "R90": "W", "R180": "S", "R270": "E", "MY": "FN", "MX": "FS", "MXR90": "FW", "MX90": "FW", "MYR90": "FE", "MY90": "FE"}
IDLE = "the command draws no metal"


class Script:
    """The commands of a script, each with the grid that it belongs to."""

    def __init__(self, commands):
        self.commands = commands

    def of(self, name):
        return [command for command in self.commands if command.name == name]

    def grids(self):
        """The grids by name."""
        return {grid.get("-name"): grid for grid in self.of("define_pdn_grid")}

    def domain(self):
        """The power and the ground net of the first domain."""
        return self.of("set_voltage_domain")[0]

    def nets(self):
        """The nets of the script with their use."""
        found = {}
        for domain in self.of("set_voltage_domain"):
            found.setdefault(domain.get("-power"), "POWER")
            found.setdefault(domain.get("-ground"), "GROUND")
        return found


def read_script(paths, variables, dropped, changes):
    """The script as it was run."""
    commands = []
    calls = run_scripts(paths, variables)
    for path in dict.fromkeys(call.path for call in calls):
        changes.tell("changed", path, None, "script", f"run by tclsh, which came to {sum(call.path == path for call in calls)} commands")
    for call in calls:
        if call.kind == "unknown":
            raise Refused(call.path, call.line, f"{call.name}: no command that is known here; take it out, or define it, if the grid may be without it")
        if call.kind == "idle":
            changes.tell("passed over", call.path, call.line, call.name, IDLE)
            continue
        if commands and commands[-1].name == "pdngen":
            raise Refused(call.path, call.line, f"{call.name}: it stands behind pdngen; put it before")
        commands.append(Command(call, read_options(call, changes, dropped)))
    script = Script(commands)
    if not script.of("set_voltage_domain") or not script.of("define_pdn_grid"):
        raise Refused(paths[0], None, "script: no set_voltage_domain and define_pdn_grid is called; hand in the script that has them")
    name_grids(script, changes)
    return script


def name_grids(script, changes):
    """Gives each command the grid that it belongs to: the last one defined where it names none."""
    grid, domains = None, 0
    for command in script.commands:
        if command.name == "set_voltage_domain":
            domains += 1
        if command.name == "define_pdn_grid":
            grid = command.get("-name") or command.refuse("-name", "the grid has no name; give it one")
            if domains > 1 and not command.get("-voltage_domains"):
                command.refuse("define_pdn_grid", "there are several domains; name the one of this grid by -voltage_domains")
        elif command.name.startswith("add_pdn_"):
            if "-grid" not in command.options and grid is None:
                command.refuse(command.name, "it stands before any grid; define the grid first")
            if "-grid" not in command.options:
                changes.tell("changed", command.path, command.line, command.name, f"-grid {grid} is written out")
            command.options = {"-grid": grid, **command.options}
            if command.get("-grid") not in script.grids():
                command.refuse(command.get("-grid"), "no grid of this name is defined")


def fit_script(script, design, library, changes):
    """Fits the script to the design and the library."""
    drop_macro_grids(script, design, library, changes)
    check_commands(script, library)
    drop_upright_rails(script, library, changes)
    fill_rail_widths(script, design, library, changes)
    for command in script.commands:
        put_on_grid(command, design.units, changes)


def blocks_of(design, library):
    """The placed blocks: name, macro and orientation."""
    return [(component.name, component.macro, component.place[2]) for component in design.components.values()
            if component.place and component.macro in library.macros and library.macros[component.macro].is_block()]


def grid_of_block(grids, block):
    """The grid over macros that a block has: by its name, else by its macro, else the first that names neither."""
    name, macro, orientation = block
    fits = [grid for grid in grids if not grid.get("-orient") or orientation in [ORIENTATIONS.get(word, word) for word in grid.get("-orient")]]
    named = [grid for grid in fits if name in (grid.get("-instances") or ())]
    of_macro = [grid for grid in fits if macro in (grid.get("-cells") or ())]
    other = [grid for grid in fits if not grid.get("-instances") and not grid.get("-cells")]
    return next(iter([*named[:1], *of_macro[:1], *other[:1]]), None)


def drop_macro_grids(script, design, library, changes):
    """Leaves out the grids over macros that no block has, with all that is theirs."""
    grids = [grid for grid in script.of("define_pdn_grid") if grid.get("-macro")]
    wanted = [grid_of_block(grids, block) for block in blocks_of(design, library)]
    for grid in grids:
        if grid in wanted:
            continue
        name = grid.get("-name")
        gone = [command for command in script.commands if command is grid or command.get("-grid") == name]
        changes.tell("left out", grid.path, grid.line, name, f"a grid over macros that no block of the design has, with its {len(gone) - 1} commands")
        script.commands = [command for command in script.commands if command not in gone]


def drop_upright_rails(script, library, changes):
    """Leaves out rails on a vertical layer, and the connects of that layer, where rails on another layer stay."""
    rails = [command for command in script.of("add_pdn_stripe") if command.get("-followpins")]
    upright = [rail for rail in rails if library.layers[rail.get("-layer")].direction == "VERTICAL"]
    for rail in upright:
        layer, grid = rail.get("-layer"), rail.get("-grid")
        if len([other for other in rails if other.get("-grid") == grid and other not in upright]) == 0:
            rail.refuse(layer, "rails on a vertical layer, and no other rails in the grid; take a horizontal layer")
        others = [command for command in script.of("add_pdn_stripe") if command.get("-layer") == layer and command not in upright]
        gone = [] if others else [command for command in script.of("add_pdn_connect") if command.get("-grid") == grid and layer in command.get("-layers", ())]
        changes.tell("left out", rail.path, rail.line, layer, f"rails on a vertical layer, with {len(gone)} connects of the layer")
        script.commands = [command for command in script.commands if command is not rail and command not in gone]


def fill_rail_widths(script, design, library, changes):
    """Gives rails without -width the width of the power pins of the cells."""
    for rail in script.of("add_pdn_stripe"):
        if rail.get("-followpins") and "-width" not in rail.options:
            width, macro = rail_width(rail, design, library)
            rail.options["-width"] = decimal(width, 6)
            changes.tell("guessed", rail.path, rail.line, "-followpins", f"rails of {rail.get('-layer')} without -width are {decimal(width, 6)} wide, "
                                                                         f"as the pins of power and ground of {macro}")


def rail_width(rail, design, library):
    """The width that all pins of power and ground have which go from side to side of a placed cell on the rail's layer."""
    layer, found = rail.get("-layer"), {}
    for name in dict.fromkeys(component.macro for component in design.components.values()):
        macro = library.macros.get(name)
        if macro is None or macro.is_block():
            continue
        for _, _, low, high, _, _ in macro.rails((layer,)):
            found.setdefault(high - low, name)
    if not found:
        rail.refuse("-followpins", f"no pin of power or ground of a placed cell goes from side to side on {layer}; state -width")
    if len(found) > 1:
        told = ", ".join(f"{decimal(width, 6)} in {name}" for width, name in sorted(found.items()))
        rail.refuse("-followpins", f"the pins of power and ground on {layer} have several widths, {told}; state -width")
    return next(iter(found.items()))


def put_on_grid(command, units, changes):
    """Puts the lengths of a command on whole units; widths on even ones, and never to more metal."""
    for name, value in command.options.items():
        form = COMMANDS[command.name][name].form
        if form in (LENGTH, WIDTH):
            command.options[name] = on_grid(command, name, value, form == WIDTH, units, changes)
        elif form in (LENGTHS, WIDTHS):
            command.options[name] = [on_grid(command, name, word, form == WIDTHS, units, changes) for word in value]
        elif form == COUNT and not value.isdecimal():
            command.refuse(value, f"{name} is a count")


def on_grid(command, name, word, is_width, units, changes):
    """A length in micrometres as it is written, rounded where it is no whole number of units."""
    value = number(word)
    if value is None:
        command.refuse(word, f"{name} is a length in micrometres")
    rounded = Fraction(2 * floor(value * units / 2) if is_width else nearest(value * units), units)
    if is_width and rounded <= 0:
        command.refuse(word, f"{name} is less than two of the design's units; write the DEF with more units")
    if rounded == value:
        return word if (value * 10**6).denominator == 1 else decimal(value, 6)
    how = "down to an even number of units" if is_width else "to whole units"
    changes.tell("changed", command.path, command.line, word, f"{name} is rounded {how}, {decimal(rounded, 6)}")
    return decimal(rounded, 6)


def quoted(word):
    """A word of the script; braces keep Tcl's letters."""
    return f"{{{word}}}" if any(letter in word for letter in ' []$"\\;#') or not word else word


def command_text(command):
    words = [command.name]
    for name, value in command.options.items():
        words.append(name)
        if COMMANDS[command.name][name].form in (NAMES, LENGTHS, WIDTHS):
            words.append(f"{{{' '.join(value)}}}")
        elif COMMANDS[command.name][name].form != FLAG:
            words.append(quoted(value))
    return " ".join(words) + "\n"


def script_text(script):
    """OUT/grid.pdn."""
    return "".join(map(command_text, script.commands))
