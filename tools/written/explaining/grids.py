"""Refusals of a drawing: the lines of the script, the design and the technology that they come from."""
from fractions import Fraction

from .drawing import overlaps, row_box
from .joined import crossing_at, crossing_with, touching
from .lengths import MICROMETRE, corners, in_units, micrometres, of_picometres, picometres, point
from .lexing import lef_words
from .nearest import hint, listed

LENGTHS = ("-width", "-pitch", "-spacing", "-offset", "-widths", "-spacings", "-core_offsets")
WIDTHS = ("-width", "-widths")
# with -followpins these are read and have no effect
NO_EFFECT = ("-pitch", "-spacing", "-offset")


def halo(case, grid):
    """The halo of a grid over macros."""
    command = case.script.grid(grid)
    case.show("--pdn", command.value_word("-halo") or command.word)
    case.say(f"the design has {case.design.units} units to a micrometre, so lengths are multiples of {of_picometres(Fraction(MICROMETRE, case.design.units))} µm")


def candidates(case):
    """The names of a script and a design that have to be known: the option and the word, what they name, and what is known."""
    layers = [layer.name for layer in case.technology.routing]
    for command in (*case.script.stripes, *case.script.rings, *case.script.connects):
        domain = case.script.domain_of(case.script.grid_of(command))
        for option in ("-layer", "-layers"):
            for name in command.values(option):
                yield name, "--pdn", command.value_word(option), "routing layer", layers
        for name in command.values("-nets"):
            yield name, "--pdn", command.value_word("-nets"), "net of the domain", [domain.value("-power"), domain.value("-ground")]
    for domain in case.script.domains:
        if domain.has("-region"):
            yield domain.value("-region"), "--pdn", domain.value_word("-region"), "region of the design", list(case.design.regions)


def unknown_name(case, name):
    """A name of the script or of the design that its text does not have."""
    for known_name, option, word, what, known in candidates(case):
        if known_name == name and name not in known:
            case.show(option, word)
            case.say(f"{name} is no {what}; " + hint(name, known, f"the {what}s"))
            return
    for row in case.design.rows:
        if row.site == name and name not in case.sizes:
            case.show_line("--def", row.line)
            case.say(f"the row {row.name} has the site {name}, {in_no_lef(case, name)}")
            return
    for component in case.design.components:
        if component.cell == name:
            case.show_line("--def", component.line)
            case.say(f"the component {component.name} is of the macro {name}, {in_no_lef(case, name)}")
            return


def in_no_lef(case, name):
    """That a site or a macro is in no LEF text, and which are."""
    return f"which neither {case.path('--lef')} nor {case.path('--cells')} has; " + hint(name, list(case.sizes), "sites and macros there")


def layer_direction(case, name):
    layer = case.technology.names.get(name)
    return f"{name} is {layer.direction.lower()}" if layer and layer.direction else f"{name} has no direction"


def show_layers(case, command):
    """A command with two layers, and how they run."""
    case.show("--pdn", command.value_word("-layers"))
    case.say("; ".join(layer_direction(case, name) for name in dict.fromkeys(command.values("-layers"))))
    across = [layer.name for layer in case.technology.routing if layer.is_vertical]
    along = [layer.name for layer in case.technology.routing if not layer.is_vertical]
    case.say(f"vertical: {listed(across)}; horizontal: {listed(along)}")


def ring_layers(case, ring):
    show_layers(case, case.script.rings[int(ring)])


def parallel_connect(case, connect):
    show_layers(case, case.script.connects[int(connect)])


def rail_layer(case, layer):
    """Rails on a vertical layer."""
    stripe = next(stripe for stripe in case.script.stripes if stripe.has("-followpins") and stripe.value("-layer") == layer)
    case.show("--pdn", stripe.value_word("-layer"))
    case.say(f"{layer} is vertical; horizontal: " + listed(layer.name for layer in case.technology.routing if not layer.is_vertical))


def no_rows(case):
    """A design without rows."""
    words = lef_words(case.text("--def"))
    case.show("--def", next(words))
    case.say("the design has no statement ROW, as `ROW r0 unit 0 0 N DO 20 BY 1 STEP 400 0 ;`")


def lengths_in(case, wanted, options):
    """The words of a script with this length in picometres among these options."""
    for command in (*case.script.stripes, *case.script.rings):
        for option in options:
            has_effect = not (command.has("-followpins") and option in NO_EFFECT)
            if has_effect and wanted in command.lengths(option):
                yield option, command.value_word(option)


def neighbours(length, units, step):
    """The two lengths next to one in picometres that are multiples of so many units and have at most 6 places, as words."""
    exact = Fraction(length * units, MICROMETRE * step)
    low = exact.numerator // exact.denominator
    ends = [Fraction(step * MICROMETRE * count, units) for count in (low, low + 1)]
    return " or ".join(of_picometres(end) for end in ends if end > 0)


def off_grid(case, length):
    """A length between two units."""
    length, units = int(length), case.design.units
    found = next(lengths_in(case, length, LENGTHS), None)
    if found:
        case.show("--pdn", found[1])
    else:
        show_site_size(case, length)
    case.say(f"{of_picometres(length)} µm are {micrometres(length * units, MICROMETRE)} units at {units} units to a micrometre; "
             f"next to it lie {neighbours(length, units, 2 if found and found[0] in WIDTHS else 1)} µm")


def show_site_size(case, length):
    """The word of a site's SIZE with this length."""
    for option in ("--lef", "--cells"):
        words = list(lef_words(case.text(option)))
        for before, word in zip(words, words[1:]):
            if before.text in ("SIZE", "BY") and picometres(word.text) == length:
                case.show(option, word)
                return


def odd_width(case, *fields):
    """A width without a centre line."""
    if len(fields) == 2:
        odd_segment(case, *fields)
        return
    length, units = int(fields[0]), case.design.units
    found = next(lengths_in(case, length, WIDTHS), None)
    if found:
        case.show("--pdn", found[1])
    case.say(f"{of_picometres(length)} µm are {in_units(length, units)} units, an odd number; next to it lie {neighbours(length, units, 2)} µm")


def odd_segment(case, net, width):
    """A segment of the wiring whose width is odd."""
    for entry in case.wires.wired():
        for path in entry.paths:
            if entry.name == net and path.width == int(width) and len(path.points) > 1:
                case.show("--wires", path.word)
                case.say(f"this path of {net} has the width {width} units, {micrometres(int(width), case.design.units)} µm")
                return


def show_region(case, domain):
    """Where a domain names its region, and where the design has it."""
    command = case.script.domain(domain)
    case.show("--pdn", command.value_word("-region") or command.word)
    region = command.value("-region")
    if region in case.design.regions:
        case.show_line("--def", case.design.regions[region][1])


def region_shape(case, domain):
    show_region(case, domain)


def regions_meet(case, first, second):
    show_region(case, first)
    show_region(case, second)


def row_across(case, name):
    """A row that lies partly in a region."""
    row = next(row for row in case.design.rows if row.name == name)
    case.show_line("--def", row.line)
    box, units = row_box(row, case.sizes), case.design.units
    case.say(f"the row goes {corners(box, units)}")
    for domain in case.script.domains:
        region = domain.value("-region")
        for other in case.design.regions[region][0] if region else ():
            if overlaps(box, other):
                case.say(f"the region {region} ({case.path('--def')}:{case.design.regions[region][1]}) {corners(other, units)}")


def empty_domain(case, domain):
    """A domain without a row."""
    grid = next((grid for grid in case.script.grids if case.script.name_of_domain(case.script.domain_of(grid)) == domain), None)
    if grid is not None:
        case.show("--pdn", grid.word)
    if case.script.domain(domain).has("-region"):
        show_region(case, domain)


def too_many(case, what):
    """Too many lines, pieces or stacks."""
    from .networks import show_pitches
    if what not in ("Segments", "Vias"):
        show_pitches(case)
    else:
        case.show("--wires", case.wires.wired()[0].word)


def no_sheet(case, layer):
    """A layer without a sheet resistance."""
    case.show_line("--lef", case.technology.names[layer].line)
    case.say(f"{layer} has no `RESISTANCE RPERSQ number ;`")
    piece = next((piece for piece in case.pieces if piece.layer == layer), None)
    if piece:
        case.say(f"metal lies on it: {case.named(piece)}")


def no_resistance(case, layer):
    """A via that begins on a layer and has no resistance."""
    for via in case.wires.vias:
        if via.layers[0] == layer:
            case.show("--wires", via.word)
            rule = next((rule for rule in case.technology.rules if rule.name == via.rule), None)
            if rule:
                case.show_line("--lef", rule.line)
            return


def crossing_words(case, layer, x, y):
    """The crossing at a place, and the two pieces that cross: said, and answered with its width and height."""
    layers = [routing.name for routing in case.technology.routing]
    at = layers.index(layer) if layer in layers else None
    held = [found for found in crossing_at(case.pieces, layers, x, y) if at is None or found[2] <= at < found[3]]
    if not held:
        return None
    upright, level, low, high = held[0]
    case.show_piece(upright)
    case.show_piece(level)
    case.say(f"at {point(x, y, case.design.units)} a stack from {layers[low]} to {layers[high]} joins {case.named(upright)} and {case.named(level)}: "
             f"the crossing is {micrometres(upright.width, case.design.units)} µm wide and {micrometres(level.width, case.design.units)} µm high")
    return upright, level


def say_rules(case, layer, upper):
    """The rules between two neighbouring layers."""
    rules = case.technology.rules_between(layer, upper)
    if not rules:
        known = listed(f"{rule.name} ({rule.lower.name}, {rule.upper.name})" for rule in case.technology.rules)
        case.say(f"{case.path('--lef')} has no rule VIARULE .. GENERATE of {layer} and {upper}; it has {known}")
        return
    for rule in rules:
        ranges = [f"{part.name} from {of_picometres(part.widths[0])} to {of_picometres(part.widths[1])} µm" for part in (rule.lower, rule.upper) if part.widths]
        case.say(f"the rule {rule.name} ({case.path('--lef')}:{rule.line}) is for " + (" and ".join(ranges) if ranges else "all widths"))


def stack(case, why, name, x, y):
    """A crossing at which no stack can stand."""
    x, y, layer = int(x), int(y), name
    if why == "OffGrid":
        rule = next(rule for rule in case.technology.rules if rule.name == name)
        case.show_line("--lef", rule.line)
        say_off_grid(case, rule)
        layer = rule.lower.name
    found = crossing_words(case, layer, x, y)
    if found is None:
        show_connects_over(case, layer)
        case.say(f"the crossing is at {point(x, y, case.design.units)}, and one of its pieces is metal of a block or over one")
    upper = case.technology.next_above(layer)
    if why == "NoRule":
        say_rules(case, layer, upper)
    elif why == "NoResistance":
        say_resistances(case, layer, upper)
    elif why == "NoCutFits" and found:
        say_cut(case, found, layer, upper)


def say_off_grid(case, rule):
    """Which lengths of a rule lie between two units."""
    lengths = {length for part in (rule.lower, rule.upper, rule.cut) for held in (part.enclosure, part.widths, part.spacing) if held for length in held}
    lengths |= {rule.cut.rect[2] - rule.cut.rect[0], rule.cut.rect[3] - rule.cut.rect[1]}
    units = case.design.units
    off = [f"{of_picometres(abs(length))} µm" for length in sorted(lengths) if in_units(length, units) is None]
    case.say(f"at {units} units to a micrometre these lengths are no whole units: {listed(off)}")


def say_resistances(case, layer, upper):
    """The rule and the cut layer that lack a resistance."""
    for rule in case.technology.rules_between(layer, upper):
        case.show_line("--lef", rule.line)
        case.show_line("--lef", case.technology.names[rule.cut.name].line)
        case.say(f"neither {rule.name} nor {rule.cut.name} has `RESISTANCE number ;`")


def enclosure(part, technology):
    """A layer's enclosure in x and y: the larger number along its direction."""
    low, high = sorted(part.enclosure)
    return (low, high) if technology.names[part.name].is_vertical else (high, low)


def say_cut(case, found, layer, upper):
    """How much room one cut of a layer's rule needs, and what is too narrow for it."""
    rules = case.technology.rules_between(layer, upper)
    if not rules:
        return
    rule, units = rules[0], case.design.units
    rect = rule.cut.rect
    ends = [enclosure(part, case.technology) for part in (rule.lower, rule.upper)]
    needs = [abs(rect[axis + 2] - rect[axis]) + 2 * max(end[axis] for end in ends) for axis in (0, 1)]
    case.say(f"one cut of {rule.name} ({case.path('--lef')}:{rule.line}) with its enclosures needs {of_picometres(needs[0])} by {of_picometres(needs[1])} µm")
    for piece, need, word in zip(found, needs, ("wide", "high")):
        if piece.width * MICROMETRE < need * units:
            narrow = f"{case.source_of(piece)}: make the metal on {piece.layer} at least {of_picometres(need)} µm {word}; it is {micrometres(piece.width, units)}"
            case.say(narrow)


def touch(case, layer, *fields):
    """Two pieces of metal, or a piece and a stack, that touch."""
    numbers, units = [int(word) for word in fields[:8]], case.design.units
    boxes = [tuple(numbers[:4]), tuple(numbers[4:])]
    shown = []
    for box in boxes:
        piece = next((piece for piece in touching(case.pieces, layer, box) if piece not in shown), None)
        if piece:
            shown.append(piece)
            case.show_piece(piece)
            case.say(f"{case.named(piece)}")
        else:
            show_crossing(case, layer, box)
    common = (max(boxes[0][0], boxes[1][0]), max(boxes[0][1], boxes[1][1]), min(boxes[0][2], boxes[1][2]), min(boxes[0][3], boxes[1][3]))
    case.say(f"they meet {corners(common, units)}")


def show_crossing(case, layer, box):
    """A rectangle on a layer that is no piece: the crossing of two pieces that a stack joins, or metal of a block."""
    found = crossing_with(case.pieces, box)
    place = corners(box, case.design.units)
    for piece in found or ():
        case.show_piece(piece)
    if found is None:
        show_others(case, layer, box)
    case.say(f"the stack of {found[0].net} {place} passes {layer}, from {found[1].layer} to {found[0].layer} or back" if found else
             f"on {layer} the rectangle {place}: metal of a block, or over one")


def show_others(case, layer, box):
    """What else may have a rectangle on a layer: the vias at its middle, or the stripes and connects of grids over macros."""
    if case.command == "signoff":
        for _, path in case.wires.vias_at((box[0] + box[2]) // 2, (box[1] + box[3]) // 2)[:2]:
            case.show("--wires", path.via)
        return
    show_connects_over(case, layer)


def show_connects_over(case, layer):
    """The stripes on a layer and the connects whose stacks pass it, of grids over macros."""
    layers = [routing.name for routing in case.technology.routing]
    stripes = [stripe for stripe in case.script.stripes if stripe.value("-layer") == layer]
    over = [command for command in stripes if case.script.grid_of(command).has("-macro")]
    for names, command in case.script.all_connects():
        low, high = sorted(map(layers.index, names))
        if low <= layers.index(layer) < high:
            over.append(command)
    for command in over[:2]:
        case.show("--pdn", command.word)


def net_count(case, power, ground):
    """The nets with wiring."""
    wired = case.wires.wired()
    for use in ("POWER", "GROUND"):
        case.say(f"USE {use}: " + listed(f"{net.name} (line {net.word.line})" for net in wired if net.use == use))
    for net in wired[:2] or case.wires.nets[:1]:
        case.show("--wires", net.word)
    if not wired:
        if not case.wires.nets:
            case.show_line("--wires", 1)
        case.say(f"no entry of SPECIALNETS in {case.path('--wires')} has both a path and `+ USE POWER` or `+ USE GROUND`")


def via_named(case, name):
    return next(via for via in case.wires.vias if via.name == name)


def via_layers(case, name):
    """A via whose layers are not those of its rule."""
    via = via_named(case, name)
    case.show("--wires", via.word)
    rule = next((rule for rule in case.technology.rules if rule.name == via.rule), None)
    case.say(f"the via is of {', '.join(via.layers)}" + (f", and its rule {rule.name} of {rule.lower.name}, {rule.cut.name}, {rule.upper.name}" if rule else ""))


def via_size(case, name):
    case.show("--wires", via_named(case, name).word)


def via_off(case, name, x, y):
    """A via on no centre line."""
    via, x, y = via_named(case, name), int(x), int(y)
    held = [(net, path) for net, path in case.wires.vias_at(x, y) if path.via.text == name]
    if not held:
        case.show("--wires", via.word)
        return
    net, path = held[0]
    case.show("--wires", path.via)
    case.say(f"at {point(x, y, case.design.units)} the via of {net.name} joins {via.layers[0]} and {via.layers[2]}")
    for layer in (via.layers[0], via.layers[2]):
        say_nearest_line(case, net.name, layer, x, y)


def say_nearest_line(case, net, layer, x, y):
    """The piece of a net on a layer that is nearest to a place, unless its centre line goes through it."""
    held = [piece for piece in case.pieces if (piece.net, piece.layer) == (net, layer)]
    if not held:
        case.say(f"{net} has no segment on {layer}")
        return
    piece = min(held, key=lambda piece: distance(centre_line(piece), x, y))
    if distance(centre_line(piece), x, y):
        near = nearest_point(centre_line(piece), x, y)
        case.say(f"the nearest on {layer} is {case.named(piece)}, whose centre line passes {point(*near, case.design.units)}")


def centre_line(piece):
    """The centre line of a piece as a flat rectangle."""
    return (piece.start, piece.centre, piece.end, piece.centre) if piece.axis == "x" else (piece.centre, piece.start, piece.centre, piece.end)


def nearest_point(box, x, y):
    """The place of a closed rectangle that is nearest to a point."""
    return min(max(x, box[0]), box[2]), min(max(y, box[1]), box[3])


def distance(box, x, y):
    """The square of the distance from a rectangle."""
    near = nearest_point(box, x, y)
    return (near[0] - x) ** 2 + (near[1] - y) ** 2


def unknown_wire_name(case, name):
    """A layer or a rule of wiring that the technology does not have."""
    for via in case.wires.vias:
        if name in (via.rule, *via.layers):
            case.show("--wires", via.word)
            known = [rule.name for rule in case.technology.rules] if name == via.rule else [layer.name for layer in case.technology.layers]
            case.say(f"the via {via.name} names {name}; " + hint(name, known, "the technology has"))
            return
    for net in case.wires.wired():
        for path in net.paths:
            if path.layer == name:
                case.show("--wires", path.word)
                case.say(f"{name} is no routing layer; " + hint(name, [layer.name for layer in case.technology.routing], "the routing layers"))
                return
