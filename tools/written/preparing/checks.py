"""What each command needs, so that a script is refused at its own line and not at one that was written of it."""

REQUIRED = {"set_voltage_domain": ("-power", "-ground"), "define_pdn_grid": ("-name",), "add_pdn_stripe": ("-layer", "-width"),
            "add_pdn_ring": ("-layers", "-widths", "-spacings", "-core_offsets"), "add_pdn_connect": ("-layers",), "pdngen": ()}
# how many values a list may have
COUNTS = {"-widths": (1, 2), "-spacings": (1, 2), "-core_offsets": (1, 2, 4), "-halo": (1, 2, 4), "-layers": (2,), "-voltage_domains": (1,)}


def check_commands(script, library):
    """Refuses a command that lacks an option, or whose lists or layers are none that pdn takes."""
    for command in script.commands:
        check_options(command)
        layers = [*command.get("-layers", ()), *([command.get("-layer")] if command.get("-layer") else [])]
        for layer in layers:
            if layer not in library.layers or library.layers[layer].kind != "ROUTING":
                command.refuse(layer, "no routing layer of the LEF has this name")
        if "-layers" in command.options and library.layers[layers[0]].direction == library.layers[layers[1]].direction:
            command.refuse(" ".join(layers), "the two layers run in one direction; take a horizontal and a vertical one")


def check_options(command):
    """The options that a command needs, and how many values they have."""
    needed = list(REQUIRED[command.name])
    if command.name == "add_pdn_stripe":
        needed = ["-layer"] if command.get("-followpins") else [*needed, "-pitch"]
    for option in needed:
        if option not in command.options:
            command.refuse(command.name, f"it needs {option}")
    for option, counts in COUNTS.items():
        if option in command.options and len(command.get(option)) not in counts:
            command.refuse(option, f"{' or '.join(map(str, counts))} values are due, and {len(command.get(option))} are there")
    if command.get("-starts_with", "POWER") not in ("POWER", "GROUND"):
        command.refuse(command.get("-starts_with"), "POWER or GROUND is due")
