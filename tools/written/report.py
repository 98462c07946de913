"""The report of `pdn build`, `signoff` and `solve`, and that of `step`, read in exactly the form in which they are written."""
import re
from collections import Counter
from typing import NamedTuple, Optional

from .refusal import Refused, read_text
from .units import whole

HEAD, STEPS_HEAD = "pdn report 1", "pdn steps 1"
VERDICTS = ("SAFE", "UNSAFE", "OPEN", "NOLIMIT")
_VERDICT = "|".join(VERDICTS)
_NINE = r"(-?[0-9]+\.[0-9]{9})"
_NAME = r"([^ \t\r]+)"
_NET = re.compile(rf"net {_NAME} (none|[0-9]+\.[0-9]{{24}}) ({_VERDICT})")
_NODE = re.compile(rf"node {_NAME} {_NINE} {_NINE}")
_BRANCH = re.compile(rf"branch R([1-9][0-9]*) {_NAME} {_NAME} {_NINE} {_NINE} (none|[0-9]+\.[0-9]{{15}}) ({_VERDICT})")
# the same for all lines of a text at once, in which a name ends with its line
_PARTS, _WORD = r"(-?[0-9]+)\.([0-9]{9})", r"([^ \t\r\n]+)"
_NODES = re.compile(rf"^node {_WORD} {_PARTS} {_PARTS}\n", re.MULTILINE)
_BRANCHES = re.compile(rf"^branch R([1-9][0-9]*) {_WORD} {_WORD} {_PARTS} {_PARTS} (none|[0-9]+\.[0-9]{{15}}) ({_VERDICT})\n", re.MULTILINE)


class Net(NamedTuple):
    """A net, the limit of its drop in yoctovolts, and the verdict."""
    name: str
    limit: Optional[int]
    verdict: str


class Node(NamedTuple):
    """A node, and between which voltages it stands, in nanovolts."""
    name: str
    low: int
    high: int


class Branch(NamedTuple):
    """A resistor, by the places of its two nodes: between which currents it carries, in nanoamperes, its limit in femtoamperes,
    and the verdict."""
    start: int
    end: int
    low: int
    high: int
    limit: Optional[int]
    verdict: str


class Report:
    """The nets, nodes and branches of a report, each in the order of its lines."""

    def __init__(self, path):
        self.path = path
        self.nets, self.nodes, self.branches = [], [], []
        self.place = {}
        text = read_text(path)
        if text.startswith(HEAD + "\n") and text.endswith("\nend\n") and self._take_all(text):
            return
        self.nets, self.nodes, self.branches, self.place = [], [], [], {}
        for number, line in enumerate(whole_lines(path)[1:-1], 2):
            self._take(number, line)

    def _take_all(self, text):
        """Takes all lines of nodes and all of branches at once, in less than half of the time; not where something is wrong with one, which is then told
        line by line."""
        last = len(text) - len("end\n")
        branch = text.find("\nbranch ") + 1 or last
        node = text.find("\nnode ", 0, branch) + 1 or branch
        nodes, rows = _NODES.findall(text, node, branch), _BRANCHES.findall(text, branch, last)
        if len(nodes) != text.count("\n", node, branch) or len(rows) != text.count("\n", branch, last):
            return False
        for number, line in enumerate(text[len(HEAD) + 1:node].split("\n")[:-1], 2):
            self._take(number, line)
        self.nodes = [Node(name, int(low + parts), int(high + high_parts)) for name, low, parts, high, high_parts in nodes]
        place = self.place = {node[0]: at for at, node in enumerate(self.nodes)}
        limits = {word: stated(word) for word in {row[7] for row in rows}}
        try:
            self.branches = [Branch(place[start], place[end], int(low + parts), int(high + high_parts), limits[limit], verdict)
                             for _, start, end, low, parts, high, high_parts, limit, verdict in rows]
        except KeyError:
            return False
        return (len(place) == len(self.nodes) and all([low <= high for _, low, high in self.nodes]) and all([row[2] <= row[3] for row in self.branches])
                and [row[0] for row in rows] == list(map(str, range(1, len(rows) + 1))))

    def _take(self, number, line):
        """Takes one line between the first and the last."""
        if line.startswith("branch ") and (found := _BRANCH.fullmatch(line)):
            self._take_branch(number, found)
        elif line.startswith("node ") and not self.branches and (found := _NODE.fullmatch(line)):
            self._take_node(number, found)
        elif line.startswith("net ") and not self.nodes and not self.branches and (found := _NET.fullmatch(line)):
            name, limit, verdict = found.groups()
            self.nets.append(Net(name, stated(limit), verdict))
        else:
            raise Refused(self.path, number, "this is no line of a report here")

    def _take_node(self, number, found):
        name, low, high = found.groups()
        node = Node(name, whole(low), whole(high))
        if name in self.place:
            raise Refused(self.path, number, f"the node {name} stands twice")
        if node.low > node.high:
            raise Refused(self.path, number, "the interval ends below its beginning")
        self.place[name] = len(self.nodes)
        self.nodes.append(node)

    def _take_branch(self, number, found):
        name, start, end, low, high, limit, verdict = found.groups()
        if int(name) != len(self.branches) + 1:
            raise Refused(self.path, number, f"the branch R{len(self.branches) + 1} is wanted here")
        for end_name in (start, end):
            if end_name not in self.place:
                raise Refused(self.path, number, f"no line has the node {end_name}")
        branch = Branch(self.place[start], self.place[end], whole(low), whole(high), stated(limit), verdict)
        if branch.low > branch.high:
            raise Refused(self.path, number, "the interval ends below its beginning")
        self.branches.append(branch)

    def line_of_node(self, node):
        """On which line a node stands."""
        return 2 + len(self.nets) + node

    def line_of_branch(self, branch):
        """On which line a branch stands, by its place from 0."""
        return 2 + len(self.nets) + len(self.nodes) + branch

    def verdicts(self, rows):
        """How many of the rows have each verdict, in words."""
        count = Counter(row.verdict for row in rows)
        return ", ".join(f"{count[verdict]} {verdict}" for verdict in VERDICTS)


def stated(limit):
    """A limit that may be stated."""
    return None if limit == "none" else whole(limit)


class Steps:
    """The report of `pdn step`: for each step from 0 the same nodes, in the order of their lines."""

    def __init__(self, path):
        self.path, self.steps = path, []
        for number, line in enumerate(whole_lines(path, STEPS_HEAD)[1:-1], 2):
            self._take(number, line)
        self._check_whole(number if self.steps else 1)

    def _take(self, number, line):
        """Takes one line between the first and the last."""
        if line == f"step {len(self.steps)}":
            self._check_whole(number)
            self.steps.append([])
        elif self.steps and (found := _NODE.fullmatch(line)):
            self._take_node(number, found)
        else:
            raise Refused(self.path, number, "this is no line of a report of steps here")

    def _take_node(self, number, found):
        name, low, high = found.groups()
        place = len(self.steps[-1])
        if len(self.steps) > 1 and (place >= len(self.steps[0]) or self.steps[0][place].name != name):
            raise Refused(self.path, number, f"the node {name} is not in its place of step 0")
        if whole(low) > whole(high):
            raise Refused(self.path, number, "the interval ends below its beginning")
        self.steps[-1].append(Node(name, whole(low), whole(high)))

    def _check_whole(self, number):
        """The last step has as many nodes as the first."""
        if self.steps and len(self.steps[-1]) != len(self.steps[0]):
            raise Refused(self.path, number, f"step {len(self.steps) - 1} has fewer nodes than step 0")


def read_report(path):
    """A report of any command: `Steps` of `step`, `Report` of the others."""
    return Steps(path) if read_text(path).startswith(STEPS_HEAD + "\n") else Report(path)


def whole_lines(path, head=HEAD):
    """The lines of a report that has its first and its last one."""
    lines = read_text(path).split("\n")
    if lines[0] != head:
        raise Refused(path, 1, f"this is no report of pdn, which begins with the line '{head}'")
    if lines[-1] != "":
        raise Refused(path, len(lines), "the report is cut off within this line")
    lines.pop()
    if lines[-1] != "end":
        raise Refused(path, len(lines), "the report is cut off behind this line: its last line is to be 'end'")
    return lines
