"""What is wrong with the words of a command."""
import re

from .commands import commands_of
from .files import OWN, settings_of
from .lengths import scaled
from .nearest import hint

LIMITS = {"--number": (0, 2 ** 64 - 1), "--side": (24, 300), "--steps": (1, 1000)}
ATTOSECONDS = 10 ** 18
_NUMBER = re.compile(r"([+-]?(?:[0-9]+\.?[0-9]*|\.[0-9]+)(?:[eE][+-]?[0-9]+)?)([A-Za-z]*)")
_SCALES = (("meg", 6), ("t", 12), ("g", 9), ("k", 3), ("m", -3), ("u", -6), ("n", -9), ("p", -12), ("f", -15))


def seconds(value):
    """The time of a word in attoseconds, or None."""
    found = _NUMBER.fullmatch(value)
    if found is None or found[2].lower().startswith("mil"):
        return None
    scale = next((power for name, power in _SCALES if found[2].lower().startswith(name)), 0)
    return scaled(found[1], 18 + scale)


def fault_of_value(option, value):
    """What is wrong with the value of an option, or None."""
    if value == "":
        return "has an empty value"
    if value.startswith("-"):
        meant = ": its value is missing" if value.startswith("--") else f"; write ./{value} for a file of this name"
        return f"has the value {value}, which begins with `-`{meant}"
    if "\n" in value:
        return "has a line feed in its value"
    if option == "--time":
        time = seconds(value)
        return None if time is not None and 0 < time <= ATTOSECONDS else f"is {value}, and is a time above 0 of at most 1 second, as 0.5n"
    if option in LIMITS:
        low, high = LIMITS[option]
        if not re.fullmatch("[0-9]+", value) or not low <= int(value) <= high:
            return f"is {value}, and is a whole number from {low} to {high}"
        if len(value) > 1 and value.startswith("0"):
            return f"is {value}, and a number has no 0 in front"
    return None


def words_and_values(words, command):
    """The options that the words set, one after the other, each with its value, and the faults of words that set none."""
    at, given, faults = 0, [], []
    while at < len(words):
        name, equals, value = words[at].partition("=")
        option = command.option(name)
        if option is None:
            faults.append(unknown_word(words[at], name, command))
            # a word behind an unknown option is most likely its value
            at += 2 if name.startswith("--") and not equals and at + 1 < len(words) and not words[at + 1].startswith("-") else 1
            continue
        if not equals and at + 1 == len(words):
            faults.append(f"{name} is the last word: its value is missing")
            value = None
        elif not equals:
            value = words[at + 1]
            # where the value is missing the next word is an option by itself
            at += 1 if command.option(value.partition("=")[0]) is None else 0
        given.append((name, value))
        at += 1
    return given, faults


def unknown_word(word, name, command):
    """What a word that is no option of the command most likely is."""
    names = [option.name for option in command.options]
    if not word.startswith("-"):
        return f"{word or 'an empty word'} stands in an option's place; the options are {', '.join(names)}"
    return f"{name} is no option of {command.name}; {hint(name, names, 'the options')}"


def faults_in(words):
    """What is wrong with the words of a command, the most telling first."""
    commands = commands_of()
    words = [word for word in words if word not in OWN]
    if not words:
        return ["no command is named"]
    if words[0] not in commands:
        return [f"{words[0] or 'an empty word'} is no command; {hint(words[0], list(commands), 'the commands')}"]
    command = commands[words[0]]
    given, faults = words_and_values(words[1:], command)
    names = [name for name, _ in given]
    for name in dict.fromkeys(names):
        if names.count(name) > 1:
            faults.append(f"{name} stands {names.count(name)} times, and is to stand once")
    for name, value in given:
        fault = fault_of_value(name, value) if value is not None else None
        if fault:
            faults.append(f"{name} {fault}")
    faults += [f"{option.name} <{option.value}> is missing: {option.help}" for option in command.options if option.name not in names]
    return faults + equal_outputs(command, words[1:])


def equal_outputs(command, words):
    """Outputs of one name."""
    values, held = settings_of(words), {}
    for option in command.files(is_written=True):
        if option.name in values:
            held.setdefault(values[option.name], []).append(option.name)
    return [f"{' and '.join(names)} are one file, {value}: outputs have different names" for value, names in held.items() if len(names) > 1]


def explain_usage(case):
    """Says which word is at fault, and the synopsis."""
    faults = faults_in(case.words)
    for fault in faults or ["the words have the form of the command as far as is seen here"]:
        case.say(fault)
    usages = [case.known.usage] if case.known else [f"pdn {name} .." for name in commands_of()]
    case.say("usage: " + "\n       ".join(usages))
    case.say(f"see `pdn help{' ' + case.command if case.known else ''}`")
