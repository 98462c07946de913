"""Names that are like one that is not known."""
import difflib


def nearest(name, known):
    """The known name that is most like this one, or None. Names that differ in case alone, or in `_` for `-`, are the nearest."""
    plain = {}
    for other in known:
        plain.setdefault(other.lower().replace("_", "-"), other)
    wanted = name.lower().replace("_", "-")
    if wanted in plain:
        return plain[wanted]
    return plain.get(next(iter(difflib.get_close_matches(wanted, list(plain)[:20000], 1)), None))


def listed(names, most=12):
    """Names one after the other, not too many."""
    names = list(names)
    more = f" and {len(names) - most} more" if len(names) > most else ""
    return ", ".join(names[:most]) + more if names else "none"


def hint(name, known, what):
    """What is known in place of a name: the nearest, and all where they are few."""
    near = nearest(name, known)
    meant = f"did you mean {near}? " if near else ""
    return f"{meant}{what}: {listed(known)}"
