"""Seeded netlists on which solvers have a hard time.

  gen_hard.py KIND SIDE SEED OUT

equal: SIDE resistors of 1 mohm in a line, a load of 1 mA at each node.
chain6: SIDE·SIDE nodes in a line, resistors over 12 orders, a load of 1 uA at each.
grid6, grid9, grid12: SIDE by SIDE nodes, resistors over so many orders from 1 nohm on, even in the logarithm.
clusters9: SIDE by SIDE nodes in clusters of 10 by 10; 1 mohm inside, 9 orders more between.
patches: the same with 1 nohm inside and 1000 ohm between: shorted patches of metal.
patch: a grid of 1 ohm in whose middle third, in both directions, all resistors have 1 nohm: one shorted patch.
parallel: a line of SIDE nodes, 10 parallel resistors over 10 orders from each to the next, loops at a node.
islands: 199 grids of up to SIDE by 5 nodes, each with a pad and loads of both signs, resistors over 9 orders.
signs: a grid of 1 to 1.1 ohm with one pad, and loads of both signs.
wheel, star: one node with SIDE·SIDE neighbours, of which one is the pad; in the wheel these are a line as well.
volts: a grid of 1 to 1000 nohm between pads of 10 V and of -10 V.
cube: SIDE by SIDE by SIDE nodes with one pad.
complete: a resistor over 12 orders between each two of SIDE nodes.
random: SIDE·SIDE nodes, 4 resistors from each to nodes taken at random.
ranges: a grid whose loads lie anywhere from 0 to what they are.
"""
import random
import sys


def grid(w, side, ohms, rnd, ranges=False):
    name = "n{}_{}".format
    k = 0
    for y in range(side):
        for x in range(side):
            for x2, y2 in ((x + 1, y), (x, y + 1)):
                if x2 < side and y2 < side:
                    k += 1
                    w("R%d %s %s %.9f\n" % (k, name(x, y), name(x2, y2), ohms(x, y, x2, y2)))
    w("V1 %s 0 1.1\n" % name(0, 0))
    w("V2 %s 0 1.1\n" % name(side - 1, side - 1))
    k = 0
    for y in range(side):
        for x in range(side):
            if rnd.random() < 0.6:
                k += 1
                amps = int(rnd.uniform(5e7, 5e9))
                w("I%d %s 0 %df\n" % (k, name(x, y), amps))
                if ranges:
                    w("*range 0 %df\n" % amps)


def loads(w, names, rnd, least, most):
    for k, name in enumerate(names):
        w("I%d %s 0 %df\n" % (k, name, int(rnd.uniform(least, most))))


def islands(w, side, rnd):
    k = 0
    for s in range(1, 200):
        name = ("i%d_" % s + "{}_{}").format
        wide, high = s % side + 1, s % 5 + 1
        for y in range(high):
            for x in range(wide):
                for x2, y2 in ((x + 1, y), (x, y + 1)):
                    if x2 < wide and y2 < high:
                        k += 1
                        w("R%d %s %s %.9f\n" % (k, name(x, y), name(x2, y2), 1e-3 + 10 ** rnd.uniform(-9, 0)))
        w("R%d %s %s 1\n" % (k, name(0, 0), name(0, 0)))
        w("V%d %s 0 %s\n" % (s, name(0, 0), "1.1" if s % 2 else "-3.3"))
        loads(w, [name(x, y) for y in range(high) for x in range(wide)], rnd, -1e10, 1e10)


def plain(w, side, ohms, pads, rnd, least, most):
    name = "n{}_{}".format
    k = 0
    for y in range(side):
        for x in range(side):
            for x2, y2 in ((x + 1, y), (x, y + 1)):
                if x2 < side and y2 < side:
                    k += 1
                    w("R%d %s %s %.9f\n" % (k, name(x, y), name(x2, y2), ohms()))
    for k, (x, y, volts) in enumerate(pads):
        w("V%d %s 0 %g\n" % (k, name(x, y), volts))
    loads(w, [name(x, y) for y in range(side) for x in range(side)], rnd, least, most)


def cube(w, side, rnd):
    name = "n{}_{}_{}".format
    all_places = [(x, y, z) for z in range(side) for y in range(side) for x in range(side)]
    for x, y, z in all_places:
        for other in ((x + 1, y, z), (x, y + 1, z), (x, y, z + 1)):
            if max(other) < side:
                w("R %s %s %.9f\n" % (name(x, y, z), name(*other), rnd.uniform(1, 2)))
    w("V1 %s 0 1.1\n" % name(0, 0, 0))
    loads(w, [name(*place) for place in all_places], rnd, 0, 1e9)


def patch(side):
    def is_inside(*places):
        return all(side <= 3 * p < 2 * side for p in places)
    return lambda x, y, x2, y2: 1e-9 if is_inside(x, y, x2, y2) else 1.0


def over(orders, rnd):
    return lambda *_: 10 ** rnd.uniform(-9, orders - 9)


def clusters(inside, between):
    return lambda x, y, x2, y2: inside if x // 10 == x2 // 10 and y // 10 == y2 // 10 else between


def write(w, kind, side, rnd):
    w("* %s %d\n" % (kind, side))
    if kind.startswith("grid"):
        grid(w, side, over(int(kind[4:]), rnd), rnd)
    elif kind == "clusters9":
        grid(w, side, clusters(1e-6, 1e3), rnd)
    elif kind == "patches":
        grid(w, side, clusters(1e-9, 1e3), rnd)
    elif kind == "patch":
        grid(w, side, patch(side), rnd)
    elif kind == "islands":
        islands(w, side, rnd)
    elif kind == "signs":
        plain(w, side, lambda: rnd.uniform(1, 1.1), [(side // 2, side // 2, 1.1)], rnd, -1e12, 1e12)
    elif kind == "volts":
        middle = side // 2
        plain(w, side, lambda: 1e-9 * 10 ** rnd.uniform(0, 3), [(0, 0, 10), (side - 1, side - 1, -10), (0, middle, 0.1)],
              rnd, 0, 1e12)
    elif kind == "cube":
        cube(w, side, rnd)
    elif kind == "complete":
        for k in range(side):
            for other in range(k):
                w("R n%d n%d %.9f\n" % (k, other, 10 ** rnd.uniform(-9, 3)))
        w("V1 n0 0 1.1\n")
        loads(w, ["n%d" % k for k in range(side)], rnd, 0, 1e9)
    elif kind == "equal":
        for k in range(side):
            w("R%d n%d n%d 0.001\nI%d n%d 0 1m\n" % (k, k, k + 1, k, k + 1))
        w("V1 n0 0 0\n")
    elif kind == "ranges":
        grid(w, side, lambda *_: rnd.uniform(0.8, 1.2), rnd, ranges=True)
    elif kind == "chain6":
        for k in range(side * side - 1):
            w("R%d n%d n%d %.9f\n" % (k, k, k + 1, 10 ** rnd.uniform(-9, 3)))
            w("I%d n%d 0 1u\n" % (k, k + 1))
        w("V1 n0 0 1.1\n")
    elif kind == "parallel":
        for k in range(side):
            for _ in range(10):
                w("R n%d n%d %.9f\n" % (k, k + 1, 10 ** rnd.uniform(-7, 3)))
            w("R n%d n%d 1\nI n%d 0 1u\n" % (k, k, k + 1))
        w("V1 n0 0 1.1\n")
    elif kind in ("wheel", "star"):
        for k in range(side * side):
            w("R%d hub n%d 1\nI%d n%d 0 1n\n" % (k, k, k, k))
            if k > 0 and kind == "wheel":
                w("R n%d n%d 0.1\n" % (k - 1, k))
        w("V1 n0 0 1.1\n")
    elif kind == "random":
        for k in range(side * side):
            for _ in range(4):
                w("R n%d n%d %.9f\n" % (k, rnd.randrange(side * side), rnd.uniform(0.5, 2)))
            w("R n%d n%d 1\nI n%d 0 1u\n" % (k, max(0, k - 1), k))
        w("V1 n0 0 1.1\n")
    else:
        sys.exit("gen_hard: no such kind: " + kind)
    w(".op\n.end\n")


if __name__ == "__main__":
    with open(sys.argv[4], "w") as out:
        write(out.write, sys.argv[1], int(sys.argv[2]), random.Random(int(sys.argv[3])))
