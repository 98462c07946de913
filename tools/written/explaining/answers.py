"""Every answer of every command: what it says, what it means, and what to do.

The table stands here once. `explain` prints its sentences, docs/ANSWERS.md is made from it, and the tests ask that each refusal that
the program has is in it.
"""
from typing import NamedTuple

ALL_GRIDS = ("build", "signoff")
LEF, CELLS, DEF, SCRIPT, BIAS = "technology", "cells", "design", "script", "bias"
WIRES, NETLIST, CERTIFICATE, WAVES = "wiring", "netlist", "certificate", "waves"
TEXTS = (LEF, CELLS, DEF, SCRIPT, WIRES, BIAS, NETLIST, CERTIFICATE, WAVES)
TEXT_OF_OPTION = {"--lef": LEF, "--cells": CELLS, "--def": DEF, "--pdn": SCRIPT, "--wires": WIRES, "--bias": BIAS, "--netlist": NETLIST,
                  "--certificate": CERTIFICATE, "--waves": WAVES}


class Answer(NamedTuple):
    """A refusal: the status, its words with `<..>` for what changes, the commands or texts that it comes from, what it means, and what
    to do."""
    status: int
    words: str
    places: tuple
    means: str
    todo: str

    @property
    def key(self):
        """The words before the first that changes, as `Stack NoRule`."""
        return self.words.split(" <")[0]


class Status(NamedTuple):
    """A status, what it says of the work, and what of the files."""
    number: str
    says: str
    files: str


STATUSES = (
    Status("0", "Done. Of `build` and `signoff`: no verdict is UNSAFE or OPEN",
           "all outputs are written, that is, handed to the system; where a file system tells of a lost write only when a file is closed, as NFS may, ask "
           "`check` and `tools/check_report` before you believe them"),
    Status("1", "`build` and `signoff`: done, and some verdict is UNSAFE or OPEN", "all outputs are written"),
    Status("2", "The words are those of no command; of `bin/pdn` also: an output is no file of its own", "nothing was made or changed"),
    Status("3", "A file, or standard output, could not be read or written",
           "after a read nothing was made; after a write the outputs before the named one are whole"),
    Status("4", "A text is refused at one of its words, or is too long", "nothing was made or changed"),
    Status("5", "`build` and `signoff`: no grid is drawn or found, or no network extracted from it", "nothing was made or changed"),
    Status("6", "The network is larger or has greater numbers than the program takes, or holds a node at two voltages", "nothing was made or changed"),
    Status("7", "A node has no supply", "nothing was made or changed"),
    Status("9", "`check`: the certificate does not hold", "`check` writes nothing"),
    Status("10", "Memory ran out", "outputs may hold the first of the right texts, and nothing else"),
    Status("70", "`bin/pdn`: there is no program to run, since it could not be built", "nothing was run"),
)

SUCCESSES = (
    ("built <p> pieces <s> stacks <n> nodes <r> resistors <q> pads <a> safe <u> unsafe <o> open <l> unlimited <k> sweeps", "0, 1",
     "`build`: the grid has p pieces of metal and s stacks of vias, its network n nodes, r resistors and q pads; of the verdicts of resistors and nets a are SAFE, "
     "u UNSAFE, o OPEN, and l have no limit; k says how much work certification was, and nothing is promised of it"),
    ("signed <p> pieces <s> stacks ..", "0, 1", "`signoff`: the same of the grid that was read"),
    ("solved <n> nodes <r> resistors <k> sweeps", "0", "`solve`: certificate and report are written, for n groups of nodes and r resistors"),
    ("stepped <n> nodes <m> steps", "0", "`step`: certificate and report are written, for n groups and m steps after step 0"),
    ("certified <n> nodes", "0", "`check`: the certificate holds on the netlist, whose nodes shorts join to n groups"),
    ("generated", "0", "`generate`: the five files hold the texts of the design"),
)

WORDS = (
    Answer(2, "Usage", ("all",),
           "the words are not those of a command: each option of a command stands once, with a value that is not empty, does not begin with `-` and "
           "has no line feed, a count is within its range, and the outputs have different names",
           "see `pdn help COMMAND`"),
)

FILES = (
    Answer(3, "ReadFault <file>", ("all",), "the file could not be read: it is not there, is a folder, or the system does not let it be read",
           "mend the name or the rights of the file"),
    Answer(3, "WriteFault <file>", ("build", "signoff", "solve", "step", "generate"),
           "the file could not be written: it was not made, or holds the first of its text; the outputs before it are whole, and those after it were "
           "not made",
           "see that its folder is there, may be written, and has room, and run the command again"),
    Answer(4, "TooLong <file>", ("all",), "the file has more than 2^28 bytes, the most that is read",
           "hand in a shorter text: comments and what the reader passes over may be left out"),
)

KINDS = (
    Answer(4, "Syntax", (LEF, CELLS, DEF, WIRES),
           "the word cannot stand here; mostly the statement before it lacks its `;` or its `END`, or a number is negative or out of its range",
           "mend the statement, or the one before it"),
    Answer(4, "Syntax", (SCRIPT,),
           "the word cannot stand here: the value of an option is negative, 0, out of its range, or has another number of words than the option takes",
           "mend the value"),
    Answer(4, "Syntax", (BIAS,),
           "the word cannot stand here: a line begins with `supply`, `pad`, `cell`, `instance` or `droplimit`, and has as many words as that line has",
           "mend the line"),
    Answer(4, "Syntax", (NETLIST,),
           "the word cannot stand here: a card lacks a word or has one too many, a `*range` line follows no load, or the text ends without `.end`",
           "mend the card; the line before may be the one that lacks a word"),
    Answer(4, "Syntax", (CERTIFICATE,),
           "the word cannot stand here: the text is the line `pdn certificate 1`, a line `<name> <high> <low>` for each group of nodes, and the line "
           "`end`",
           "take the certificate of this netlist as it was written"),
    Answer(4, "Syntax", (WAVES,),
           "the word cannot stand here: a line is `at <step> <node> <amperes>` or `at <step> <node> <low> <high>`, with a step from 1 to 1000",
           "mend the line"),
    Answer(4, "BadString", (LEF, CELLS, DEF, WIRES), "a quote begins here that is not closed by the end of the text", "close it"),
    Answer(4, "BadString", (SCRIPT,), "a quote or a brace begins here that is not closed by the end of the text", "close it"),
    Answer(4, "Number NotNumber", (DEF, WIRES, CERTIFICATE), "a whole number is to stand here", "write a whole number, in the units of the text"),
    Answer(4, "Number NotNumber", (LEF, CELLS, SCRIPT), "a number is to stand here", "write a decimal number, as `0.48`"),
    Answer(4, "Number NotNumber", (BIAS, NETLIST, WAVES), "a number is to stand here", "write a number, with a scale of SPICE or none: `333.3u`, `1m`, `1.1`"),
    Answer(4, "Number Vanishes", (LEF, CELLS, SCRIPT, BIAS, NETLIST, WAVES),
           "the number is not 0, and is too small for the places that are kept of it",
           "check the unit: lengths are in micrometres, resistances in ohms, currents in amperes"),
    Answer(4, "Number Range", TEXTS, "the number exceeds the limit of its place (docs/GUIDE.md, \"Units and limits\")", "check the unit"),
    Answer(4, "Twice", (LEF,), "a layer or a rule before has this name", "remove one of the two"),
    Answer(4, "Twice", (CELLS,), "a site or a macro before has this name", "remove one of the two"),
    Answer(4, "Twice", (DEF,), "DESIGN, UNITS or DIEAREA stands a second time, or a component or a region before has this name", "remove one of the two"),
    Answer(4, "Twice", (SCRIPT,), "the option stands before in this command, a domain or a grid before has this name, or the grid has a ring already",
           "remove one of the two"),
    Answer(4, "Twice", (BIAS,), "a line before has the same first word and this name; only pads may repeat", "remove one of the two"),
    Answer(4, "Twice", (WIRES,), "a via or a net before has this name", "leave one entry for each"),
    Answer(4, "Twice", (WAVES,), "a line before has this step and this node", "remove one of the two"),
    Answer(4, "UnknownLayer", (LEF,), "a rule names a layer that no section before it has", "put the layers before the rules, or mend the name"),
    Answer(4, "BadTable", (LEF,), "the points of a table of densities do not rise here, or it has more or fewer entries than points",
           "let the points rise, with one entry for each"),
    Answer(4, "Polygon", (DEF,), "the die or a blockage is a polygon", "make it of rectangles: DIEAREA has two points"),
    Answer(4, "RowForm", (DEF,), "a row is turned to the side, or has more than one site in y", "a row stands in N, S, FN or FS, with one site in y"),
    Answer(4, "AlreadyRouted", (DEF,), "the special nets of the design have wires: `build` draws the power grid anew",
           "take the DEF from before the power grid, or sign the wires off by `pdn signoff`, which never answers this"),
    Answer(4, "Missing Design", (DEF,), "the text ends without its statement DESIGN", "add `DESIGN name ;`"),
    Answer(4, "Missing Units", (DEF,), "the text ends without its units", "add `UNITS DISTANCE MICRONS number ;`"),
    Answer(4, "Missing DieArea", (DEF,), "the text ends without its die", "add `DIEAREA ( x y ) ( x y ) ;`"),
    Answer(4, "Substitution", (SCRIPT,),
           "a `$`, a `[` or a backslash stands here outside braces: the script is read, not run, and has no variables and no calls",
           "write the value out, or put braces around the word"),
    Answer(4, "AfterPdngen", (SCRIPT,), "a command follows `pdngen`, which is the last", "move `pdngen` to the end"),
    Answer(4, "UnknownCommand", (SCRIPT,),
           "the command is none that is read: `set_voltage_domain`, `define_pdn_grid`, `add_pdn_stripe`, `add_pdn_ring`, `add_pdn_connect` and "
           "`pdngen` are, and `add_global_connection` and `global_connect` are passed over",
           "mend its name, or leave it out"),
    Answer(4, "UnknownOption", (SCRIPT,), "the command has no such option, or has it on grids with `-macro` alone", "mend its name, or leave it out"),
    Answer(4, "OutOfProfile", (SCRIPT,), "the option is one of OpenROAD's, for what `pdn` does not draw",
           "leave it out where the grid may be without it, as `tools/prepare --leave-out` does; else let OpenROAD draw the grid, and sign it off by `pdn signoff`"),
    Answer(4, "UnknownGrid", (SCRIPT,), "no command before has defined this grid, or any grid", "define it by `define_pdn_grid` before, or mend the name"),
    Answer(4, "UnknownDomain", (SCRIPT,), "no command before has defined this domain, or any domain", "define it by `set_voltage_domain` before, or mend the name"),
    Answer(4, "MissingOption", (SCRIPT,), "the command ends without an option that it needs; only one domain may be without `-region`",
           "add the option; the `-width` of rails `tools/prepare` takes from the pins of the cells"),
    Answer(4, "NetUse", (SCRIPT,), "the net is named as power and as ground", "name two nets"),
    Answer(4, "Falling", (BIAS,), "the second number of a range is below the first", "exchange the two numbers"),
    Answer(4, "Falling", (WAVES,), "the step is below that of the line before, or the second number of a range is below the first",
           "put the lines in the order of their steps, or exchange the two numbers"),
    Answer(4, "Origin", (LEF, CELLS), "a grid over macros stands and the design has a block: the first ORIGIN of a macro is not `0 0`",
           "move the macro's rectangles to the corner of its box"),
    Answer(4, "UnknownVia", (WIRES,), "a path ends with a name that is no generated via before it; a fixed via, of the LEF or with RECT, is none",
           "put VIAS before SPECIALNETS, and make the via a generated one"),
    Answer(4, "WireForm", (WIRES,), "the wiring has RECT, POLYGON, SHIELD, VIRTUAL, STYLE, MASK or `+ VIA`, a slanted segment, or a point after a via",
           "write the metal as paths along x or y"),
    Answer(4, "ViaForm", (WIRES,), "a via is turned or repeated, or has ORIGIN, OFFSET or PATTERN", "write each via by itself, in N"),
    Answer(4, "OutOfProfileCard", (NETLIST,),
           "the card or dot line is none that is read: R, V, I and C cards are, and `.op`, `.option`, `.options`, `.print`, `.plot`, `.title`, "
           "`.width` and `.end`, all in lower case after the dot",
           "leave the card out, or write it by resistors, sources and loads; a subcircuit is written flat"),
    Answer(4, "FloatingSource", (NETLIST,), "a source of other than 0 volts stands between two nodes other than `0`",
           "a supply stands between its node and `0`; a source of 0 volts is a short"),
    Answer(4, "OutOfRange", (NETLIST,), "the low end of a `*range` line is above the value of its load, or the high end below it",
           "widen the range, or mend the value of the load before it"),
    Answer(4, "WrongNode", (CERTIFICATE,),
           "the line's name is not that of the node in its place: the lines stand in byte order of the names of groups, in lower case, one for each",
           "take the certificate of this very netlist"),
    Answer(4, "UnknownNode", (WAVES,),
           "no group of the netlist's nodes has this name: a group that shorts join bears its first name in byte order, in lower case",
           "name the node as the report names it"),
)

DRAWING = (
    Answer(5, "Halo <grid>", ("build",),
           "a grid over macros stands in the script and the design has a block, and the `-halo` of this grid is not one, two or four lengths, or one "
           "of them is no whole number of the design's units",
           "write one length, two (left and right, bottom and top) or four (left, bottom, right, top)"),
    Answer(5, "UnknownName <name>", ("build",),
           "a layer of the script is no routing layer, a net of `-nets` none of the domain, or a region, a site or a macro is not in its text",
           "mend the name, or hand in the LEF that has it"),
    Answer(5, "UnknownName <name>", ("signoff",),
           "a layer or a rule of a via, or the layer of a segment, is not in the technology, or is of the other type", "hand in the LEF that has it"),
    Answer(5, "RingLayers <ring>", ("build",), "the two layers of a ring run in one direction; rings count from 0 in the script",
           "take a horizontal and a vertical layer"),
    Answer(5, "RailLayer <layer>", ("build",), "rails stand on a vertical layer, and rows run along x", "take a horizontal one"),
    Answer(5, "ParallelConnect <connect>", ("build",),
           "a connect joins a layer to itself or to one of its direction; the commands `add_pdn_connect` count from 0",
           "connect a horizontal and a vertical layer"),
    Answer(5, "NoRows", ("build",), "the design has no row", "place the rows first: ROW statements say where cells and rails stand"),
    Answer(5, "OffGrid <length>", ("build",), "a length, in picometres, is no whole number of the design's units",
           "round it to the units: at 2000 a micrometre, to 0.0005 µm"),
    Answer(5, "OddWidth <length>", ("build",), "a width, in picometres, is odd in units, so it has no centre line", "make it even"),
    Answer(5, "OddWidth <net> <width>", ("signoff",), "a segment of this net has this width in units, which is odd or 0, so it has no centre line", "make it even"),
    Answer(5, "RegionShape <domain>", ("build",), "the domain's region has more than one rectangle", "make it one"),
    Answer(5, "RegionsMeet <first> <second>", ("build",), "the regions of two domains overlap or touch", "move them apart"),
    Answer(5, "RowAcross <row>", ("build",), "the row lies partly in a domain's region", "cut the row at the region, or move the region to whole rows"),
    Answer(5, "EmptyDomain <domain>", ("build",), "a grid is asked for a domain that has no row", "give the region rows, or leave out the grid"),
    Answer(5, "TooMany Lines", ("build",), "a command draws more than 10^6 lines", "check the pitch"),
    Answer(5, "TooMany Pieces", ("build",), "there are more than 4·10^6 pieces of metal", "check the pitch"),
    Answer(5, "TooMany Stacks", ("build",), "there are more than 10^6 stacks", "check the pitch"),
    Answer(5, "TooMany Segments", ("signoff",), "there are more than 10^6 segments", "sign off each supply domain or each block by itself (docs/SCALE.md has what that neglects); a piece of the die has no bound"),
    Answer(5, "TooMany Vias", ("signoff",), "there are more than 10^6 vias", "sign off each supply domain or each block by itself (docs/SCALE.md has what that neglects); a piece of the die has no bound"),
    Answer(5, "NoSheet <layer>", ALL_GRIDS, "metal lies on a layer without `RESISTANCE RPERSQ`",
           "state it in the technology, or hand it to `tools/prepare` by `--sheet-resistance` or `--layer-rc`"),
    Answer(5, "Stack NoRule <layer> <x> <y>", ("build",),
           "at the crossing at this place, in units, no rule joins the layer to the next one at these widths",
           "add the rule, or widen its `WIDTH` range"),
    Answer(5, "Stack OffGrid <rule> <x> <y>", ("build",), "a length of the rule is no whole number of the design's units",
           "round it, or take more units to a micrometre"),
    Answer(5, "Stack NoCutFits <layer> <x> <y>", ("build",), "the crossing is too small for a single cut of the layer's rule with its enclosures. The layer is the lower of the two that the cuts join, which "
           "may lie between those of the two straps; the place is in units, from the design's origin",
           "widen the strap, rail or ring at the place, or, of a kit that patches its inner layers, see `--model-cuts` of docs/PREPARE.md"),
    Answer(5, "Stack NoResistance <layer> <x> <y>", ("build",), "neither the rule nor the cut layer above this layer has a resistance",
           "state it in the technology, or hand it to `tools/prepare` by `--via-resistance` or `--layer-rc`"),
    Answer(5, "NoResistance <layer>", ("signoff",), "neither the rule of a via that begins on this layer nor its cut layer has a resistance",
           "state it in the technology, or hand it to `tools/prepare` by `--via-resistance` or `--layer-rc`"),
    Answer(5, "NetCount <power> <ground>", ("signoff",), "so many power nets and ground nets have wiring, and not one of each",
           "leave out the others, or state `+ USE POWER` and `+ USE GROUND`"),
    Answer(5, "ViaLayers <via>", ("signoff",),
           "the layers of a via that stands somewhere are not those of its rule, bottom up, or its upper routing layer is not the next one",
           "mend the via"),
    Answer(5, "ViaSize <via>", ("signoff",), "the columns or the rows of the via are longer than 2^32 units", "mend the via"),
    Answer(5, "ViaOff <via> <x> <y>", ("signoff",),
           "at this place, in units, a stack begins or ends with this via on no centre line of a piece of its net and layer",
           "put a segment through the place, or move the via to it"),
    Answer(5, "Touch <layer> <first> <second> true", ALL_GRIDS,
           "metal of one net touches along no common line: two pieces, a piece and a stack, or two stacks. A stack has metal on each layer between the two that it "
           "joins, so it may be a layer that the script never names. The first and the second are four numbers each, x1 y1 x2 y2 in units. The network would not have "
           "the joint",
           "`build`: change `-offset`, `-spacing`, `-width` or `-pitch` of one of them, or the `-halo` of a block's grid; of a connect of the core over a block see "
           "docs/PREPARE.md, \"Script\"; `signoff`: join them by one segment, or by vias"),
    Answer(5, "Touch <layer> <first> <second> false", ALL_GRIDS, "metal of two nets touches, which is a short: pieces or stacks, with the same eight numbers",
           "move one of the two, as above"),
)

EXTRACTION = (
    Answer(5, "UnknownName <line>", ALL_GRIDS, "this line of the bias file names a net, a layer, a macro or a component that is not there", "mend it"),
    Answer(5, "NoSupply <net>", ALL_GRIDS, "the net has metal and no `supply` line", "add the line to the bias file"),
    Answer(5, "PadOff <line>", ALL_GRIDS, "the pad of this line of the bias file lies on no metal of its net and layer, or between two units",
           "move it onto the metal"),
    Answer(5, "LoadOff <component>", ALL_GRIDS,
           "the component draws a current and is not placed, has no known macro or no domain, or no rail of a net passes it; where a grid over "
           "macros stands, a block draws one and has no domain, or no pin of one of its domain's nets that a stack joins to the grid",
           "place it on a row; connect the layer of the block's pins. Taking its current out makes `pdn` blind to it"),
)

NETWORK = (
    Answer(6, "Range Nodes <at> <number>", ("all",), "there are more than 2·10^6 nodes; of `step` each node with a capacitor counts twice",
           "a sparser grid, or split it as docs/SCALE.md says"),
    Answer(6, "Range Resistors <at> <number>", ("all",), "there are more than 4·10^6 resistors; of `step` each capacitor counts as one",
           "a sparser grid, or split it as docs/SCALE.md says"),
    Answer(6, "Range Resistance <at> <number>", ("build", "signoff", "solve", "check"),
           "a resistance, in nano-ohms, is not from 1 to 10^12, which is 1000 ohms; the place counts resistors from 0",
           "check RPERSQ, the resistances of cuts, or the card; a short is written as 0, and a true resistor above 1000 ohms as several in a row"),
    Answer(6, "Range Resistance <at> <number>", ("step",),
           "a resistance, or the step over a capacitance, T/C, in nano-ohms, is not from 1 to 10^12, which is 1000 ohms; the places of capacitors "
           "come behind those of the resistors, from 0",
           "longer steps, or leave out what is so small"),
    Answer(6, "Range Voltage <at> <number>", ("all",), "a supply exceeds 10 V, in yoctovolts; of `step` also a bound at a capacitor",
           "check the voltage and its scale"),
    Answer(6, "Range Loads <at> <number>", ("all",),
           "the currents come to more than 1000 A, in femtoamperes, where each counts at each of its nodes but `0`, so that the cells of a grid come to more than 500 A; of "
           "`step` in some step",
           "check the scales: `333.3u` is microamperes"),
    Answer(6, "Range Steps <at> <number>", ("step",), "steps times nodes exceed 5·10^6", "fewer steps"),
    Answer(6, "FloatingCapacitor <node>", ("step",),
           "a capacitor that is not 0 joins two groups of which none is a pad; the earlier group of the first such capacitor",
           "tie both nodes to ground by a capacitor each, or leave it out"),
    Answer(6, "PadConflict <node> <first> <second>", ("all",), "one node, or one group that shorts join, is held at two voltages: two supplies meet",
           "let one source hold the node, or put a resistor between the two"),
    Answer(7, "Unsupplied <node>", ("build", "signoff", "solve", "step"), "no chain of resistors and shorts joins the node to a pad",
           "give each part of each net a pad, or connect it; blockages, regions and blocks cut a net into parts"),
    Answer(9, "NotCertified <node> <side> <found>", ("check",),
           "the inequality of this node on this side does not hold; the number is what was found there. The sides are HighValue and LowValue (a "
           "voltage beyond ±10^37 yV), HighFlow and LowFlow (a flow beyond ±10^31 fA), High and Low (the inequality at the node; at a pad the number "
           "is the voltage less the pad's)",
           "take the certificate that was written for this very netlist; one that was changed, or is of another run, does not hold. Or the netlist has a node that no pad "
           "feeds: `pdn solve` says which"),
    Answer(10, "Want", ("all",), "memory ran out; nothing was found out of the input. Or vias of foreign wiring that stand twice at one place make more than 10^6 chains above their "
           "number: the same again then, whatever the memory", "run it where there is more memory, or on a smaller input"),
)

REFUSALS = WORDS + FILES + KINDS + DRAWING + EXTRACTION + NETWORK


def answer_of(words, place=None):
    """The refusal that these words of the program's line are, of this command or text; None where the table has none."""
    fitting = [answer for answer in REFUSALS if words == answer.key or words.startswith(answer.key + " ")]
    fitting = [answer for answer in fitting if fits(answer, words)] or fitting
    chosen = [answer for answer in fitting if place is None or place in answer.places or answer.places == ("all",)]
    return next(iter(chosen or fitting), None)


def fits(answer, words):
    """Whether the words have as many parts as the answer, where each part is one word, and its last fixed one."""
    wanted = answer.words.split()
    if wanted[-1].startswith("<"):
        return answer.key == "UnknownName" or len(wanted) == len(words.split())
    return words.split()[-1] == wanted[-1]
