"""Netlists, certificates and waves that are as hard on `solve`, `check` and `step` as can be thought of, for bench/slow.

FAMILIES has for each name what it is, the greatest size that the limits of the formats or of the program leave, and what writes it: a
function of a folder and a size, which writes the file `net`, and `waves` where the command is `step`. A size is a number of nodes, or of
what the family's text names. The same size gives the same bytes.
"""
import random

MOST_NODES, MOST_RESISTORS, MOST_BYTES = 2_000_000, 4_000_000, 1 << 28
MOST_LOAD = 10 ** 18  # fA, of all nodes together
SOLVE = ["solve --netlist net --certificate out.cert --report out.rep", "check --netlist net --certificate out.cert"]


def step(count):
    return [f"step --netlist net --waves waves --time 1n --steps {count} --certificate out.cert --report out.rep"]


def netlist(folder, cards):
    with open(folder / "net", "w", encoding="latin-1", newline="\n") as out:
        out.write("* a hard network\n")
        out.writelines(cards)
        out.write(".end\n")


def waves(folder, lines):
    with open(folder / "waves", "w", encoding="ascii") as out:
        out.writelines(lines)


def supplied(cards, node="n0"):
    yield f"V {node} 0 1.1\n"
    yield from cards


def chain(folder, size):
    netlist(folder, supplied(f"R n{k - 1} n{k} 1\nI n{k} 0 1n\n" for k in range(1, size)))


def orders(folder, size):
    rnd = random.Random(1)
    netlist(folder, supplied(f"R n{rnd.randrange(k)} n{k} {rnd.choice(('1n', '1000'))}\nI n{k} 0 1n\n" for k in range(1, size)))


def ladder(folder, size):
    netlist(folder, supplied((f"R a{k} a{k + 1} 1\nR b{k} b{k + 1} 1\nR a{k} b{k} 10\nI b{k} 0 1n\n" for k in range(size // 2)), "a0"))


def wheel(folder, size):
    netlist(folder, supplied(f"R hub n{k} 1\nR n{k} n{(k + 1) % size} 1\nI n{k} 0 1n\n" for k in range(size)))


def expander(folder, size, degree=3):
    rnd = random.Random(2)
    cards = (f"R n{k} n{rnd.randrange(size)} {rnd.uniform(0.5, 2):.3f}\n" for k in range(size) for _ in range(degree))
    netlist(folder, supplied(join(cards, (f"R n{k} n{max(0, k - 1)} 1\nI n{k} 0 1n\n" for k in range(size)))))


def join(*parts):
    for part in parts:
        yield from part


def hub(folder, size):
    """Pairs of nodes in a random graph. The edge of each to the hub is strong among its own, and weak among the hub's, so that no pair takes the hub with it."""
    rnd = random.Random(3)

    def cards():
        for k in range(size):
            yield f"R n{k} n{k ^ 1} 0.1\nR hub n{k} 0.1\nI n{k} 0 1n\n"
            yield "".join(f"R n{k} n{rnd.randrange(size)} 1\n" for _ in range(4))
        yield "R hub zz 1m\n"
        yield "".join(f"R zz n{rnd.randrange(size)} 1\n" for _ in range(20))

    netlist(folder, supplied((card.replace("hub", "z") for card in cards())))


def nested(folder, size):
    """Rings of ten nodes of 1 nohm, rings of ten such rings a hundred times that, and so on up to 1000 ohm."""
    def cards():
        stride, ohms = 1, 1e-9
        while stride < size:
            for k in range(0, size, stride):
                ring = k // (10 * stride) * 10 * stride
                after = k + stride if k + stride < min(ring + 10 * stride, size) else ring
                yield f"R n{k} n{after} {ohms:.9f}\n"
            stride, ohms = stride * 10, min(ohms * 100, 1000)
        yield from (f"I n{k} 0 1n\n" for k in range(size))
    netlist(folder, supplied(cards()))


def grid(folder, size, draw):
    side = int(size ** 0.5)
    def cards():
        for y in range(side):
            for x in range(side):
                if x + 1 < side:
                    yield f"R n{x}_{y} n{x + 1}_{y} {draw():.9f}\n"
                if y + 1 < side:
                    yield f"R n{x}_{y} n{x}_{y + 1} {draw():.9f}\n"
                yield f"I n{x}_{y} 0 1u\n"
    netlist(folder, supplied(cards(), "n0_0"))


def grid12(folder, size):
    rnd = random.Random(4)
    grid(folder, size, lambda: 10 ** rnd.uniform(-9, 3))


def grid9(folder, size):
    rnd = random.Random(4)
    grid(folder, size, lambda: 10 ** rnd.uniform(-9, 0))


def islands(folder, size):
    netlist(folder, (f"V p{k} 0 1\nR p{k} n{k} 1\nI n{k} 0 1m\n" for k in range(size // 2)))


def pads(folder, size):
    netlist(folder, (f"V n{k} 0 1.{k % 10}\nR n{k} n{k + 1 if k + 1 < size else 0} 1\nI n{k} 0 1u\n" for k in range(size)))


def parallel(folder, size):
    rnd = random.Random(5)
    netlist(folder, join(["V a 0 1\nI b 0 1\n"], (f"R a b {10 ** rnd.uniform(-9, 3):.9f}\n" for _ in range(size))))


def signs(folder, size):
    most = MOST_LOAD // size
    netlist(folder, supplied(f"R n{k - 1} n{k} 1000\nI n{k} 0 {-most if k % 2 else most}f\n" for k in range(1, size)))


def heavy(folder, size):
    netlist(folder, supplied(f"R n{k - 1} n{k} 1000\nI n{k} 0 {MOST_LOAD // size}f\n" for k in range(1, size)))


def shorts(folder, size):
    netlist(folder, supplied(f"R n{k} n{k - 1} {0 if k % 100 else 1}\nI n{k} 0 1n\n" for k in range(size - 1, 0, -1)))


def named_chain(folder, size, name):
    netlist(folder, supplied((f"R {name(k - 1)} {name(k)} 1\nI {name(k)} 0 1n\n" for k in range(1, size)), name(0)))


def long_names(folder, size):
    head = "n" * 100
    named_chain(folder, size, lambda k: f"{head}{k}")


def hash_names(folder, size):
    """Names of which the table of names has one hash: the bytes 9 to 16 are such that the fixed hash of the standard library is multiplied by 0."""
    tail = (0x243F6A8885A308D3 + 16).to_bytes(8, "big").decode("latin-1")
    named_chain(folder, size, lambda k: f"{k:08}{tail}")


def dot_words(folder, size):
    netlist(folder, join(["V n0 0 1\nR n0 n1 1\nI n1 0 1m\n", ".option"], (" a" for _ in range(size)), ["\n"]))


def plus_lines(folder, size):
    netlist(folder, join(["V n0 0 1\nI n1 0 1m\nR n0 n1 1\n"], ("+\n" for _ in range(size))))


def caps(folder, size):
    netlist(folder, supplied(f"R n{k - 1} n{k} 1\nC n{k - 1} n{k} 1p\nI n{k} 0 1n\n" for k in range(1, size)))
    waves(folder, [f"at 1 n{size - 1} 1u\n"])


def parallel_caps(folder, size):
    netlist(folder, join(["V n0 0 1\nR n0 n1 1\nI n1 0 1m\n"], ("C n1 0 1p\n" for _ in range(size))))
    waves(folder, ["at 1 n1 1u\n"])


def all_change(folder, size):
    netlist(folder, supplied(f"R n{k - 1} n{k} 1m\nC n{k} 0 1p\nI n{k} 0 1p\n" for k in range(1, size)))
    waves(folder, (f"at {t} n{k} {t + k % 7}p\n" for t in (1, 2, 3) for k in range(1, size)))


def thousand_steps(folder, size):
    netlist(folder, supplied(f"R n{k - 1} n{k} 1\nC n{k} 0 1p\nI n{k} 0 1n\n" for k in range(1, size)))
    waves(folder, (f"at {t} n{t % (size - 1) + 1} 2u\n" for t in range(1, 1001)))


class Family:
    def __init__(self, about, most, write, commands=None):
        self.about, self.most, self.write, self.commands = about, most, write, commands or (lambda size: SOLVE)


FAMILIES = {
    "chain": Family("one pad at the end of a line of so many nodes", MOST_NODES, chain),
    "orders": Family("a random tree of 1 nohm and 1000 ohm", MOST_NODES, orders),
    "ladder": Family("a ladder of two lines, rungs of 10 ohm", MOST_NODES - 2, ladder),
    "wheel": Family("one node with a resistor to each other, and a ring of these", MOST_NODES - 1, wheel),
    "expander": Family("four resistors from each node, three to nodes taken at random", MOST_RESISTORS // 4, expander),
    "hub": Family("pairs in a random graph, and a node with an edge to each that is strong among theirs and weak among its own", MOST_RESISTORS // 6 - 10, hub),
    "nested": Family("rings of rings of rings, each 100 times the ohms of the inner ones", 1_790_000, nested),
    "grid9": Family("a grid, resistors over 9 orders, even in the logarithm", 1_990_000, grid9),
    "grid12": Family("a grid, resistors over 12 orders", 1_990_000, grid12),
    "islands": Family("components of two nodes", MOST_NODES, islands),
    "pads": Family("each node a pad", MOST_NODES, pads),
    "parallel": Family("so many resistors over 12 orders between two nodes", MOST_RESISTORS, parallel),
    "signs": Family("1000 A in all, the most that there may be, drawn and fed in turn along a line of 1000 ohm", MOST_NODES, signs),
    "heavy": Family("1000 A in all drawn along a line of 1000 ohm", MOST_NODES, heavy),
    "shorts": Family("a line of shorts, each hundredth 1 ohm, from the far end", MOST_NODES, shorts),
    "long_names": Family("names with one head of 100 bytes", MOST_BYTES // 340, long_names),
    "hash_names": Family("names with one hash", MOST_NODES, hash_names),
    "dot_words": Family("a dot line with so many words", MOST_BYTES // 2 - 1000, dot_words),
    "plus_lines": Family("a card with so many empty lines that go on with it", MOST_BYTES // 2 - 1000, plus_lines),
    "caps": Family("a capacitor beside each resistor of a line, 3 steps", MOST_NODES // 2, caps, lambda size: step(3)),
    "parallel_caps": Family("so many capacitors from one node to ground, 3 steps, which count with the resistors", MOST_RESISTORS - 1, parallel_caps, lambda size: step(3)),
    "all_change": Family("a wave that changes all loads at each of 3 steps", MOST_NODES // 2, all_change, lambda size: step(3)),
    "thousand_steps": Family("a line of so many nodes with capacitors over 1000 steps, the most that there are", 5_000, thousand_steps, lambda size: step(1000)),
}
