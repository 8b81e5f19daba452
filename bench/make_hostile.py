#!/usr/bin/env python3
"""Writes an input of about N parts that is chosen against a program: against its search for conflicts, its sweeps, its nesting, its tables.
Usage: make_hostile.py KIND N [>FILE]      (without words it lists the kinds)

The kinds are the functions below that are marked `@kind`, each with what it is. Coordinates are in units of 1e-7 degree. Ways carry the
locations of their nodes, and a kind whose ways make one area ends with the relation of them all."""
import math
import random
import sys

from opl_numbers import decimal

KINDS = {}
LONG = 100_000_000  # ten degrees
FAR_AWAY = -2 * LONG
LONGEST_WAY = 20_000  # references


def kind(function):
    KINDS[function.__name__] = function
    return function


class Map:
    """Writes ways, and gives each location one node."""

    def __init__(self):
        self.nodes, self.ways = {}, 0

    def reference(self, point):
        node = self.nodes.setdefault(point, len(self.nodes) + 1)
        return f"n{node}x{decimal(point[0])}y{decimal(point[1])}"

    def way(self, points, tags=""):
        self.ways += 1
        print(f"w{self.ways}{' T' if tags else ''}{tags} N" + ",".join(map(self.reference, points)))

    def ring(self, points, tags=""):
        self.way(points + points[:1], tags)

    def long_ring(self, points):
        """A ring in ways of at most so many references."""
        points = points + points[:1]
        for start in range(0, len(points) - 1, LONGEST_WAY):
            self.way(points[start : start + LONGEST_WAY + 1])

    def relation(self):
        """Of all ways."""
        print("r1 Ttype=multipolygon,landuse=forest M" + ",".join(f"w{way}@" for way in range(1, self.ways + 1)))


def of_segments(segments):
    """A relation whose ways are single segments."""
    world = Map()
    for ends in segments:
        world.way(list(ends))
    world.relation()


def of_ring(points):
    world = Map()
    world.long_ring(points)
    world.relation()


def of_rings(rings):
    world = Map()
    for points in rings:
        world.ring(points)
    world.relation()


def coast(rings):
    world = Map()
    for points in rings:
        world.ring(points, "natural=coastline")


def crossing():
    """Two segments that cross, below and apart from all else."""
    return [((-1000, FAR_AWAY), (-900, FAR_AWAY + 100)), ((-900, FAR_AWAY), (-1000, FAR_AWAY + 100))]


def square(x, y, side):
    return [(x, y), (x + side, y), (x + side, y + side), (x, y + side)]


def polar(angle, reach):
    """The point at an angle and so far from the origin."""
    return round(reach * math.cos(angle)), round(reach * math.sin(angle))


def around(count, reach):
    """So many points on the edge of a square about the origin, in turn."""
    for place in range(count):
        side, along = divmod(8 * reach * place // count, 2 * reach)
        yield [(reach, along - reach), (reach - along, reach), (-reach, reach - along), (along - reach, -reach)][side]


def triangles_at_a_node(count):
    ends = list(around(2 * count, LONG))
    return [[(0, 0), ends[2 * i], ends[2 * i + 1]] for i in range(count)]


# Bundles of parallel segments, which no line along one of them parts well


def tee(count):
    across = count * 47 // 100
    yield from (((i, -i), (LONG + i, LONG - i)) for i in range(count - across))
    yield from (((LONG * 6 // 10 + i, LONG * 16 // 10 + i), (LONG * 16 // 10 + i, LONG * 6 // 10 + i)) for i in range(across))


def fan(count):
    """Blades from a slanted line to a far one. A tiny segment beside them is the middle one by lower ends, where two lie below all."""
    reach = 8 * LONG
    yield from (((2 * (count - i), 2 * i), (reach - i * reach // count, i * reach // count)) for i in range(count))
    middle = 2 * ((count - 1) // 2) - 1
    yield (-5, middle), (-6, middle + 1)


def pinwheel(count):
    """Three bundles about a triangle; each begins at the side of one and ends beyond the next one's beginning."""
    for i in range(count // 3):
        yield (0, -i), (2 * LONG, -i)
        yield (LONG + 1 + i, 1), (1 + i, 1 + 2 * LONG)
        yield (LONG // 2 - 1 - i, LONG), (-LONG // 2 - 1 - i, -LONG)


def diagonals(count):
    return (((2 * i, -2 * i), (10 * LONG + 2 * i, 8 * LONG - 2 * i)) for i in range(count))


@kind
def tee_clear(n):
    """two bundles of parallel segments in a T; none cross"""
    of_segments(tee(n))


@kind
def tee_crossed(n):
    """the same, and one crossing far away"""
    of_segments([*tee(n), *crossing()])


@kind
def fan_clear(n):
    """a fan of segments and one tiny segment in the middle of their order; none cross"""
    of_segments(fan(n))


@kind
def fan_crossed(n):
    """the same, and one crossing far away"""
    of_segments([*fan(n), *crossing()])


@kind
def pinwheel_clear(n):
    """three bundles of parallel segments in a pinwheel; none cross"""
    of_segments(pinwheel(n))


@kind
def pinwheel_crossed(n):
    """the same, and one crossing far away"""
    of_segments([*pinwheel(n), *crossing()])


@kind
def diagonals_clear(n):
    """long diagonals side by side; none cross"""
    of_segments(diagonals(n))


@kind
def diagonals_crossed(n):
    """the same, and one crossing far away"""
    of_segments([*diagonals(n), *crossing()])


# Many conflicts


@kind
def grid(n):
    """n / 2 horizontal segments and n / 2 vertical ones, which all cross"""
    half = n // 2
    of_segments([*(((-1, 2 * i), (2 * half, 2 * i)) for i in range(half)), *(((2 * i, -1), (2 * i, 2 * half)) for i in range(half))])


@kind
def one_across(n):
    """long segments side by side, and one that crosses all of them"""
    of_segments([*(((0, 2 * i), (10 * LONG, 2 * i + 1)) for i in range(n - 1)), ((5 * LONG, -1), (5 * LONG, 2 * n))])


@kind
def short_segments(n):
    """short random segments in a field, each of which crosses a few"""
    random.seed(n)
    side, segments = int(n**0.5 * 100), set()
    while len(segments) < n:
        x, y = random.randrange(side), random.randrange(side)
        end = x + random.randrange(-100, 101), y + random.randrange(-100, 101)
        if end != (x, y):
            segments.add(tuple(sorted([(x, y), end])))
    of_segments(sorted(segments))


# Rings of one area


def teeth(n):
    """A comb whose teeth are of random depth."""
    random.seed(n)
    comb = [(4 * i + k, random.randrange(*((1, LONG), (2 * LONG, 3 * LONG))[k])) for i in range(n // 4) for k in (0, 1)]
    return [(-1, 5 * LONG), *comb, (n + 1, 5 * LONG)]


@kind
def comb(n):
    """a comb of n / 4 teeth of random depth"""
    of_ring(teeth(n))


@kind
def nested(n):
    """n / 4 squares, each in the next"""
    of_rings(square(-i, -i, 2 * i) for i in range(1, n // 4 + 1))


@kind
def petals(n):
    """n / 3 triangles that touch at one node"""
    of_rings(triangles_at_a_node(n // 3))


@kind
def flower(n):
    """one ring that comes to one node n / 3 times"""
    of_ring([point for triangle in triangles_at_a_node(n // 3) for point in triangle])


@kind
def horizontal(n):
    """a ring with n points on one horizontal line"""
    of_ring([(2 * i, 0) for i in range(n)] + [(n, LONG)])


@kind
def vertical(n):
    """a ring with n points on one vertical line"""
    of_ring([(0, 2 * i) for i in range(n)] + [(LONG, n)])


@kind
def spiral(n):
    """a ring that winds n / 8 times round and back"""
    there, back = [], []
    for r in range(0, n // 2, 4):
        there += [(-r, -r), (r + 4, -r), (r + 4, r + 4), (-r - 4, r + 4)]
        back += [(-r + 1, -r + 1), (r + 3, -r + 1), (r + 3, r + 3), (-r - 3, r + 3)]
    of_ring(there + back[::-1])


@kind
def islands(n):
    """one lake with n / 4 islands in a grid"""
    side = int((n // 4) ** 0.5) + 1
    of_rings([square(-1, -1, 4 * side + 2), *(square(4 * (i % side), 4 * (i // side), 2) for i in range(n // 4))])


@kind
def row_of_holes(n):
    """n / 8 squares in one row, each with a hole"""
    of_rings(ring for i in range(n // 8) for ring in (square(10 * i, 0, 8), square(10 * i + 2, 2, 2)))


# Objects


@kind
def repeated_members(n):
    """a relation that names one way n times"""
    Map().ring([(0, 0), (LONG, 0), (LONG, LONG)])
    print("r1 Ttype=multipolygon,landuse=forest M" + ",".join(["w1@outer"] * n))


@kind
def missing_ways(n):
    """a relation that names n ways that aren't there"""
    print("r1 Ttype=multipolygon,landuse=forest M" + ",".join(f"w{way}@" for way in range(1, n + 1)))


@kind
def missing_nodes(n):
    """a closed way of n nodes that aren't there"""
    print("w1 Tbuilding=yes N" + ",".join(f"n{node}" for node in [*range(1, n + 1), 1]))


@kind
def tags(n):
    """a closed way with n different keys"""
    Map().ring([(0, 0), (LONG, 0), (LONG, LONG)], ",".join(f"{key:x}=" for key in range(n)))


@kind
def plain_ids(n):
    """n ways with ids from 1 on"""
    print("\n".join(f"w{way}" for way in range(1, n + 1)))


@kind
def ids_of_one_group(n):
    """n ways with ids that a table by golden multiples, blocks of 64 and groups of four puts into one of its groups"""
    golden, apart, turn = 0x9E3779B97F4A7C15, 0x6A09E667F3BCC909, 1 << 64
    backwards = pow(golden, -1, turn)
    random.seed(n)
    found = set()
    while len(found) < n:
        place = random.getrandbits(42)  # its upper bits tell the group, and are 0
        block = (place - apart) * backwards % turn
        step = place >> 20 & 15
        if block < 1 << 56:
            found.update(64 * block + within for within in range(64) if (step + within // 4) % 16 == 0)
    print("\n".join(f"w{way}" for way in sorted(found)[:n]))


# Coasts


@kind
def open_chains(n):
    """n unclosed coastlines of two nodes within 0.4 degree"""
    random.seed(n)
    world = Map()
    for _ in range(n):
        x, y = random.randrange(4_000_000), random.randrange(4_000_000)
        world.way([(x, y), (x + 1, y)], "natural=coastline")


@kind
def ribbon(n):
    """one coast: n / 2 segments of a third of a degree side by side, forth and back"""
    length, count = 3_400_000, n // 2
    west = -length // 2
    ring = []
    for i in range(count):
        ends = [(west, 4 * i), (west + length, 4 * i + 1)]
        ring += ends if i % 2 == 0 else [(ends[1][0], 4 * i), (west, 4 * i + 1)]
    coast([ring + [(west - 10, 4 * count + 10), (west - 10, -10)]])


@kind
def touching_islands(n):
    """n / 3 islands that touch at one node"""
    coast(triangles_at_a_node(n // 3))


@kind
def dominoes(n):
    """one coast that crosses itself once; a shortcut there crosses the next step but one, and so on, n / 4 times"""
    count = n // 4
    turn = 1.2 / count
    zigzag = []
    for i in range(count):
        angle, reach = 0.1 + turn * i, LONG * (6 - 3 * i / count)
        zigzag += [polar(angle, reach), polar(angle - turn / 3, reach - LONG / count)]
    coast([[(0, 0), *zigzag, *(polar(1.45 + 1.2 * math.pi * i / n * 2, LONG / 2) for i in range(n // 2 + 1))]])


# Areas and points to be located in them


def points(n, low, high):
    """n random points in a box."""
    random.seed(n)
    for _ in range(n):
        print(decimal(random.randint(low[0], high[0])), decimal(random.randint(low[1], high[1])))


@kind
def flat_and_far(n):
    """an area of n edges within 2,000 units of height, and an islet far away"""
    random.seed(n)
    world = Map()
    world.long_ring([(2 * i, random.randrange(1000)) for i in range(n)] + [(2 * n, 2000), (-10, 2000)])
    world.ring([(0, 9 * LONG - 1000), (10, 9 * LONG - 1000), (0, 9 * LONG - 100)])
    world.relation()


@kind
def points_of_flat_and_far(n):
    """n points for it"""
    points(n, (0, 0), (2 * n, 2000))


@kind
def squares(n):
    """n squares in one row"""
    world = Map()
    for i in range(n):
        world.ring(square(10 * i, 0, 8), "building=yes")


@kind
def points_of_squares(n):
    """n points for them"""
    points(n, (0, 0), (10 * n, 8))


@kind
def slits(n):
    """n rectangles in one row, from random heights to others"""
    random.seed(n)
    world = Map()
    for i in range(n):
        low, high = sorted(random.sample(range(LONG // 100), 2))
        world.ring([(10 * i, low), (10 * i + 8, low), (10 * i + 8, high), (10 * i, high)], "building=yes")


@kind
def points_of_slits(n):
    """n points for them"""
    points(n, (0, 0), (10 * n, LONG // 100))


@kind
def points_of_comb(n):
    """n points for the comb"""
    points(n, (0, 1), (n, 3 * LONG))


def main():
    if len(sys.argv) != 3 or sys.argv[1] not in KINDS:
        sys.exit(__doc__ + "\n\n" + "\n".join(f"{name:24}{function.__doc__}" for name, function in KINDS.items()))
    KINDS[sys.argv[1]](int(sys.argv[2]))


if __name__ == "__main__":
    main()
