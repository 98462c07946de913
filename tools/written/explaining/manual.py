"""Help files, manual pages, completions and the synopsis, all made from the help texts of the commands."""
import re

from .commands import GENERAL, SOURCE, TOP, commands_of, sections_of

SMALL = "examples/small-design/"
INPUTS = f"--lef {SMALL}technology.lef --cells {SMALL}cells.lef --def {SMALL}design.def"
EXAMPLES = {
    "build": f"pdn build {INPUTS} --pdn {SMALL}grid.pdn --bias {SMALL}bias --out-def grid.def --netlist grid.net --certificate grid.cert --report grid.report",
    "signoff": f"pdn signoff {INPUTS} --wires examples/small-wiring/wires.def --bias {SMALL}bias --netlist grid.net --certificate grid.cert --report grid.report",
    "solve": "pdn solve --netlist examples/small-grid/net --certificate grid.cert --report grid.report",
    "step": "pdn step --netlist examples/step-response/net --waves examples/step-response/waves --time 1n --steps 2 --certificate grid.cert --report grid.report",
    "check": "pdn check --netlist grid.net --certificate grid.cert",
    "generate": "pdn generate --number 1 --side 24 --lef made.lef --cells cells.lef --def made.def --pdn made.pdn --bias made.bias",
}
LAUNCHER = (
    ("--quiet", "Say nothing on standard error about an answer"),
    ("--explain", "Explain an answer or sum it up also where standard error is no terminal"),
    ("--force", "Let an output be an input, a second output, standard output, a folder, a pipe or a device"),
)
GUIDE = "docs/GUIDE.md is the guide; docs/ANSWERS.md says what each answer means and what to do."
BEGIN, END = "<!-- synopsis: made by tools/make_help -->", "<!-- end of the synopsis -->"


def folded(words, indent, width=100):
    """Words over several lines, each but the last with a backslash at its end, an option kept with its value."""
    parts = re.split(r" (?=--)", words)
    lines, line = [], parts[0]
    for part in parts[1:]:
        if len(line) + len(part) + 3 > width - indent:
            lines.append(line + " \\")
            line = "  " + part
        else:
            line += " " + part
    return "\n".join(" " * indent + line for line in [*lines, line])


def launcher_lines():
    """The lines of help of the launcher's own words."""
    return "".join(f"      {name:<10} {text}\n" for name, text in LAUNCHER)


def help_file(name, text):
    """The help of a command, or the general one, with the launcher's words, an example, and where the guide is."""
    example = folded(EXAMPLES.get(name, EXAMPLES["build"]), 2)
    return f"{text}\nWords of the launcher, with any command:\n{launcher_lines()}\nExample:\n{example}\n\n{GUIDE}\n"


def files_table(commands):
    """Which options' files are read and which are written, for the launcher."""
    rows = []
    for command in commands.values():
        rows += [f"{command.name} {option.name} {'written' if option.is_written else 'read'}" for option in command.options if option.is_written or option.is_read]
    return "\n".join(rows) + "\n"


def escaped(text):
    """A text as a manual page has it."""
    return re.sub(r"^([.'])", r"\\&\1", text.replace("\\", "\\e").replace("-", "\\-"), flags=re.M)


def head(name, about):
    """The first lines of a manual page."""
    title = name.upper()
    return f'.TH {escaped(title)} 1\n.SH NAME\n{escaped(name)} \\- {escaped(about)}\n'


def option_lines(options):
    """The list of options of a manual page."""
    return "".join(f".TP\n.B {escaped(option)}\n{escaped(text)}\n" for option, text in options)


def program_page(sections, commands):
    """The manual page of pdn."""
    page = head("pdn", sections[GENERAL].split("\n")[0])
    page += ".SH SYNOPSIS\n" + "".join(f".B {escaped(command.usage)}\n.br\n" for command in commands.values())
    for command in commands.values():
        page += f".SH {command.name.upper()}\n{escaped(command.about)}.\n"
        page += option_lines((f"{option.name} <{option.value}>", option.help) for option in command.options)
    page += ".SH WORDS OF THE LAUNCHER\n" + option_lines(LAUNCHER)
    page += ".SH EXAMPLES\n" + "".join(f".nf\n{escaped(folded(EXAMPLES[name], 0))}\n.fi\n.PP\n" for name in commands if name in EXAMPLES)
    return page + f".SH SEE ALSO\n{escaped(GUIDE)}\n"


def tool_page(name, told):
    """The manual page of a tool, by what it tells with `--help`."""
    usage, _, rest = told.partition("\n\n")
    about, _, more = rest.partition("\n\n")
    first = " ".join(about.split())
    page = head(name, first.split(": ")[0].rstrip("."))
    page += f".SH SYNOPSIS\n.nf\n{escaped(usage.replace('usage: ', ''))}\n.fi\n.SH DESCRIPTION\n{escaped(first)}\n"
    return page + (f".PP\n.nf\n{escaped(more.rstrip())}\n.fi\n" if more.strip() else "")


def options_in(text):
    """The long options that a text names."""
    return set(re.findall(r"--[a-z][a-z-]*", text.replace("\\-", "-")))


def bash_completion(commands):
    """The completion of words for bash."""
    cases = "".join(f"    {command.name}) options='{' '.join(option.name for option in command.options)}' ;;\n" for command in commands.values())
    plain = "|".join(sorted({option.name for command in commands.values() for option in command.options if option.value != "FILE"}))
    return f"""# Completion of the words of pdn for bash: source this file, or put it where bash-completion looks.
_pdn() {{
  local word=${{COMP_WORDS[COMP_CWORD]}} before=${{COMP_WORDS[COMP_CWORD-1]}} options used
  COMPREPLY=()
  if [ "$COMP_CWORD" -eq 1 ]; then
    COMPREPLY=($(compgen -W '{' '.join(commands)} help --help --version' -- "$word"))
    return
  fi
  case $before in
    {plain}) return ;;
    help) COMPREPLY=($(compgen -W '{' '.join(commands)}' -- "$word")); return ;;
    {'|'.join(name for name, _ in LAUNCHER)}|--help) ;;
    --*) COMPREPLY=($(compgen -f -- "$word")); return ;;
  esac
  case ${{COMP_WORDS[1]}} in
{cases}    *) return ;;
  esac
  used=" ${{COMP_WORDS[*]:2:COMP_CWORD-2}} "
  for option in $options {' '.join(name for name, _ in LAUNCHER)} --help; do
    [[ $used = *" $option "* ]] || COMPREPLY+=($(compgen -W "$option" -- "$word"))
  done
}}
complete -o filenames -F _pdn pdn
"""


def zsh_quoted(text):
    """A text between single quotes within a list of options of zsh."""
    return re.sub(r"([\[\]:\\])", r"\\\1", text).replace("'", "'\\''")


def zsh_completion(commands):
    """The completion of words for zsh."""
    named = "\n".join(f"    '{zsh_quoted(command.name)}:{zsh_quoted(command.about)}'" for command in commands.values())
    cases = ""
    for command in commands.values():
        rows = [f"'{option.name}[{zsh_quoted(option.help)}]:{option.value.lower()}:{'_files' if option.value == 'FILE' else ' '}'" for option in command.options]
        rows += [f"'{name}[{zsh_quoted(text)}]'" for name, text in LAUNCHER]
        cases += f"    {command.name})\n      _arguments \\\n        " + " \\\n        ".join(rows) + " ;;\n"
    return f"""#compdef pdn
# Completion of the words of pdn for zsh: put this file into a folder of $fpath.
_pdn() {{
  local -a commands=(
{named}
    'help:Prints help'
  )
  if (( CURRENT == 2 )); then
    _describe command commands
    return
  fi
  local command=$words[2]
  shift words
  (( CURRENT-- ))
  case $command in
{cases}  esac
}}
_pdn "$@"
"""


def synopsis(commands):
    """The synopsis of all commands, as a page shows it."""
    lines = "\n".join(folded(command.usage, 0, 110) for command in commands.values())
    return f"{BEGIN}\n```\n{lines}\n```\n{END}"


def made_files():
    """Each file that is made from the help texts, with its text."""
    sections, commands = sections_of(SOURCE), commands_of()
    files = {f"share/help/{name}.txt": help_file(name, text) for name, text in sections.items()}
    files["share/help/files.txt"] = files_table(commands)
    files["share/help/all.txt"] = SOURCE.read_text(encoding="utf-8")
    files["share/man/pdn.1"] = program_page(sections, commands)
    files["share/completions/pdn.bash"] = bash_completion(commands)
    files["share/completions/_pdn"] = zsh_completion(commands)
    readme = (TOP / "README.md").read_text(encoding="utf-8")
    if BEGIN in readme:
        files["README.md"] = re.sub(f"{re.escape(BEGIN)}.*?{re.escape(END)}", lambda _: synopsis(commands), readme, flags=re.S)
    return files
