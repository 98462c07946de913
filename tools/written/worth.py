"""What the intervals of a report are worth, said where they are printed."""

NODES = ("A node's interval spans what the loads' ranges allow, and what the certificate leaves: each of its sums exceeds what its test asks",
         "by at most 64 fA for the node and 64 fA for each resistor at it.")
BRANCHES = ("A branch's interval comes from the intervals of its two nodes, each taken by itself: from (low of a - high of b) / R to (high of a - low of b) / R.",
            "It holds in every solution, and may be far wider than what all solutions together fill, where loads are ranges or R is small.")


def note(has_branches):
    """The lines of the note, for a report with branches or without."""
    return [*NODES, *(BRANCHES if has_branches else ())]
