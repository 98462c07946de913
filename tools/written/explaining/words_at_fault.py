"""A text that is refused at a word: the statement that the word stands in, and what fits there."""
from .answers import TEXT_OF_OPTION
from .lexing import LEF_DEF, commands_in, lef_words, line_words, plain_words
from .nearest import hint, listed
from .networks import groups_in, rows_before
from .script import OPTIONS, REQUIRED, ScriptCommand

BIAS_LINES = {"supply": "supply NET volts", "droplimit": "droplimit NET volts", "pad": "pad NET LAYER x y", "cell": "cell MACRO amperes [amperes]",
              "instance": "instance COMPONENT amperes [amperes]"}
CARDS = "`R1 a b ohms`, `V1 a 0 volts`, `I1 a 0 amperes`, `C1 a 0 farads`, and behind a load `*range low high`"
LISTS = {"-widths": "one or two lengths", "-spacings": "one or two lengths", "-core_offsets": "one, two or four lengths", "-layers": "two layers"}


def text_refused(case, option, line, number, kind):
    """Shows the word, and says what its kind and its text suggest."""
    word = case.show_place(option, line, number)
    text = TEXT_OF_OPTION[option]
    by_text = {"bias": of_bias, "script": of_script, "netlist": of_netlist, "certificate": of_certificate, "waves": of_waves}
    by_text.get(text, of_lef_or_def)(case, option, line, word, kind)


def twin_before(words, word):
    """The first word before this one that has its text, and the same word before it."""
    before, seen = None, None
    for other in words:
        if other.start >= word.start:
            break
        if other.text == word.text:
            seen = seen or {}
            seen.setdefault(before.text if before else None, other)
        before = other
    return (seen or {}).get(before.text if before else None)


def show_twin(case, option, words, word):
    """Shows where a word stood before that stands twice."""
    twin = None if word is None else twin_before(words, word)
    if twin is not None:
        case.say("it stands before, here:")
        case.show(option, twin)


def of_lef_or_def(case, option, line, word, kind):
    """LEF and DEF."""
    text = case.text(option)
    if kind == "Twice":
        show_twin(case, option, lef_words(text), word)
    elif kind == "Syntax":
        say_statement(case, option, text, line, word)
    elif kind == "UnknownLayer" and word is not None:
        words = list(lef_words(text))
        known = dict.fromkeys(after.text for before, after in zip(words, words[1:]) if before.text == "LAYER" and after.start < word.start)
        case.say(f"the layer {word.text} has no section before; " + hint(word.text, [name for name in known if name != word.text], "the layers before"))
    elif kind == "AlreadyRouted":
        case.say(f"sign it off as it stands: pdn signoff with --wires {case.path(option)} in place of --pdn and --out-def")
    elif kind in ("UnknownVia", "RowForm", "Polygon", "BadTable") and word is not None:
        case.say(f"the word is `{word.text}`")


def say_statement(case, option, text, line, word):
    """Where the statement begins that a word cannot go on, if that is on a line before."""
    first = open_statement([other for other in plain_words(text, LEF_DEF) if other.line <= line and (word is None or other.start < word.start)])
    if first is not None and first.line < line:
        case.say(f"the statement begins on line {first.line}, and has no `;` before this word:")
        case.show(option, first)
    elif word is None:
        case.say("the text, or its line, ends here")


def open_statement(words):
    """The first word of the statement that these words end in, or None where the last one ends a statement."""
    first, at = None, 0
    while at < len(words):
        if words[at].text == ";":
            first = None
        elif first is None and words[at].text == "END" and at + 1 < len(words) and words[at + 1].text != "END":
            at += 1
        elif first is None and words[at].text != "END":
            first = words[at]
        at += 1
    return first


def command_at(text, line, word):
    """The command of a script that a place is in."""
    found = None
    for words in commands_in(text):
        if (words[0].line > line) if word is None else (words[0].start > word.start):
            break
        found = words
    return found


def of_script(case, option, line, word, kind):
    """Scripts."""
    words = command_at(case.text(option), line, word)
    command = ScriptCommand(words) if words else None
    options = OPTIONS.get(command.name, ()) if command else ()
    if kind == "UnknownCommand" and word is not None:
        case.say(hint(word.text, list(OPTIONS), "the commands"))
    elif kind == "UnknownOption" and word is not None:
        case.say(f"{word.text} is no option of {command.name}; " + hint(word.text, list(options), "its options"))
    elif kind == "MissingOption":
        case.say(missing_options(command))
    elif kind in ("UnknownGrid", "UnknownDomain"):
        case.say(defined_before(case.text(option), line, kind, word))
    elif kind == "Twice":
        show_twin(case, option, [other for row in commands_in(case.text(option)) for other in row], word)
    elif kind == "NetUse" and word is not None:
        case.say(f"the net {word.text} is the power net of one domain and the ground net of this or another")
    elif kind == "Syntax" and command is not None:
        name = next((name for name, (_, value) in command.options.items() if value is not None and value == word), None)
        case.say(f"in {command.name}, which begins on line {words[0].line}" + (f", {name} takes {LISTS.get(name, 'one value in its range')}" if name else ""))
    elif kind == "Substitution" and word is not None:
        case.say(f"write the value in place of `{word.text}`")


def missing_options(command):
    """Which options a command lacks."""
    lacking = [name for name in REQUIRED.get(command.name, ()) if not command.has(name) and not (name == "-pitch" and command.has("-followpins"))]
    if not lacking and command.name == "set_voltage_domain":
        lacking = ["-region (a domain before has none)"]
    return f"{command.name} lacks {listed(lacking)}"


def defined_before(text, line, kind, word):
    """Which grids or domains stand before a line of a script."""
    name = "define_pdn_grid" if kind == "UnknownGrid" else "set_voltage_domain"
    known = [ScriptCommand(words).value("-name") or "Core" for words in commands_in(text) if words[0].text == name and words[0].line < line]
    if not known:
        return f"no command {name} stands before this line"
    return hint(word.text if word else "", known, "defined before")


def of_bias(case, option, line, word, kind):
    """Bias files."""
    words = [other for other in line_words(case.text(option)) if other.line == line]
    first = words[0].text if words else ""
    if kind == "Syntax" and first not in BIAS_LINES:
        case.say(f"{first} begins no line of a bias file; " + hint(first, list(BIAS_LINES), "a line begins with"))
    elif kind == "Syntax":
        case.say(f"the form of the line is `{BIAS_LINES[first]}`")
    elif kind == "Twice":
        twin = next((other for other in case.bias.values() if [w.text for w in other[:2]] == [w.text for w in words[:2]]), None)
        if twin and twin[0].line < line:
            case.say("it stands before, here:")
            case.show(option, twin[1])
    elif kind.startswith("Number") and word is not None:
        case.say(f"the form of the line is `{BIAS_LINES.get(first, first)}`")


def of_netlist(case, option, line, word, kind):
    """Netlists."""
    if kind == "Syntax":
        case.say("the text ends without the line `.end`" if is_at_end(case.text(option), line, word) else f"the cards are {CARDS}")
        if word is not None and word.number == 1 and line > 1:
            say_line_before(case, option, line)
    elif kind == "OutOfRange":
        rows = rows_before(case.text(option), line)
        if rows:
            case.say("the load before it:")
            case.show(option, rows[-1][0])
    elif word is not None:
        case.say(f"the word is `{word.text}`; the cards are {CARDS}")


def is_at_end(text, line, word):
    """Whether a place is the end of a text."""
    return word is None and line >= text.rstrip("\n").count("\n") + 1


def say_line_before(case, option, line):
    """Shows the line before, which may lack a word."""
    last = [word for word in line_words(case.text(option)) if word.line < line]
    if last:
        case.say(f"the card before it, on line {last[-1].line}, has {last[-1].number} words:")
        case.show(option, last[-1])


def of_certificate(case, option, line, word, kind):
    """Certificates: which node is wanted on a line."""
    if kind in ("WrongNode", "Syntax") and line > 1:
        names = groups_in(case.text("--netlist"))
        wanted = names[line - 2] if line - 2 < len(names) else None
        case.say(f"line {line} is to be that of the node {wanted}" if wanted else
                 f"the netlist has {len(names)} groups of nodes: the line `end` is wanted on line {len(names) + 2}")


def of_waves(case, option, line, word, kind):
    """Wave files."""
    if kind == "UnknownNode" and word is not None:
        case.say(hint(word.text, groups_in(case.text("--netlist")), "the groups of the netlist"))
    elif kind == "Twice" and word is not None:
        words = [other for other in line_words(case.text(option)) if other.line == line]
        twin = next((other for other in by_lines(case.text(option)) if [w.text for w in other[:3]] == [w.text for w in words[:3]]), None)
        if twin and twin[0].line < line:
            case.say("it stands before, here:")
            case.show(option, twin[0])
    else:
        case.say("the form of a line is `at STEP NODE amperes [amperes]`, the lines in the order of their steps, from 1")


def by_lines(text):
    """The words of each line that has some."""
    rows = {}
    for word in line_words(text):
        rows.setdefault(word.line, []).append(word)
    return list(rows.values())
