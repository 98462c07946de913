"""What another tool reads of a DEF: as it is, and in other words where it is known to read something otherwise."""
from .metal import report_on
from .refusal import Refused

MOST_TOLD = 10


def told(tool, path, causes):
    """A line for each cause, in their order in the text."""
    causes = sorted(dict.fromkeys(causes), key=lambda cause: cause[0] or 0)
    for line, what in causes[:MOST_TOLD]:
        print(f"{path}: {tool} reads otherwise: {what if line is None else f'line {line}: {what}'}")
    if len(causes) > MOST_TOLD:
        print(f"{path}: {tool} reads otherwise: {len(causes) - MOST_TOLD} more")


def report_of_readings(tool, path, readings, hurdles, otherwise):
    """Says whether the metal is the same, and the status that follows. A reading gives what the tool has and what is wanted: the first of the DEF as it is, where there
    are no hurdles to that. Where the tool refuses it, or has other metal and there is something that it reads otherwise, that is told, and the second reading, of
    the wiring in other words, has to be the same."""
    as_it_is, in_other_words = readings
    causes = hurdles
    if not hurdles:
        try:
            got, wanted = as_it_is()
        except Refused as why:
            causes = [*otherwise(), (None, str(why).removeprefix(f"{path}: "))]
        else:
            causes = list(otherwise()) if got != wanted else []
            if not causes:
                return report_on(tool, got, wanted, path)
    told(tool, path, causes)
    return report_on(tool, *in_other_words(), path, ", said in other words")
