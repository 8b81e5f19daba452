#!/usr/bin/env python3
"""Writes one multipolygon relation of about N points as OPL, at the size of real ones (a node every ten metres).
Usage: make_relation.py lake|crossed|comb|star N [>FILE]

lake     a jagged lake, half of its points on the shore, which many ways share, and the others on islands of fifty points
crossed  the same with three places where the shore crosses itself
comb     N / 4 teeth side by side, all from one height to one other
star     N / 2 triangles that meet in one node, from which N edges lead"""
import math
import random
import sys

STEP = 1_000  # a node every so many units of 1e-7 degree
LONGEST = 2_000  # points of a way
ISLAND = 50


def degrees(units):
    """A coordinate of so many units."""
    sign, units = "-" if units < 0 else "", abs(units)
    return f"{sign}{units // 10_000_000}.{units % 10_000_000:07d}"


def on_circle(centre, angle, radius):
    return centre[0] + round(radius * math.cos(angle)), centre[1] + round(radius * math.sin(angle))


def around(centre, radii):
    """A jagged ring: from its centre each point is seen in another direction, in turn."""
    turn = 2 * math.pi / len(radii)
    return [on_circle(centre, turn * i, radius) for i, radius in enumerate(radii)]


def shore(points, crossings):
    radius, rough = STEP * points / (2 * math.pi), 0
    radii = []
    for _ in range(points):
        rough += random.randint(-STEP // 2, STEP // 2)
        radii.append(radius + rough)
    ring = around((0, 0), radii)
    for k in range(crossings):
        at = points * (2 * k + 1) // (2 * crossings)
        turn = 2 * math.pi / points
        far = max(radii[at - 1 : at + 3]) + 4 * STEP
        ring[at], ring[at + 1] = on_circle((0, 0), turn * (at + 1), far), on_circle((0, 0), turn * at, far)
    return ring


def islands(points, within):
    """So many points on islands in a grid within a circle."""
    count = points // ISLAND
    side = math.ceil(math.sqrt(count))
    cell = 1.4 * within / side
    for k in range(count):
        centre = (cell * (k % side + 0.5) - 0.7 * within, cell * (k // side + 0.5) - 0.7 * within)
        middle = (round(centre[0]), round(centre[1]))
        yield around(middle, [random.uniform(0.2, 0.45) * cell for _ in range(ISLAND)])


def lake(points, crossings):
    yield shore(points // 2, crossings)
    yield from islands(points // 2, 0.8 * STEP * (points // 2) / (2 * math.pi))


def comb(points):
    teeth, height = points // 4, 50_000_000
    ring = [(-STEP, -STEP)]
    for left in range(0, STEP * teeth, STEP):
        quarters = [left + STEP // 4 * k for k in range(4)]
        ring += zip(quarters, (0, height, height, 0))
    yield ring + [(STEP * teeth, -STEP)]


def star(points):
    radius = 800_000_000
    ends = [on_circle((0, 0), 2 * math.pi * i / points, radius) for i in range(points)]
    for i in range(0, points - 1, 2):
        yield [(0, 0), ends[i], ends[i + 1]]


def write(rings):
    numbers, ways = {}, []
    for place, ring in enumerate(rings):
        ids = []
        for x, y in ring:
            if (x, y) not in numbers:
                numbers[x, y] = len(numbers) + 1
                print(f"n{numbers[x, y]} x{degrees(x)} y{degrees(y)}")
            ids.append(numbers[x, y])
        ids.append(ids[0])
        for start in range(0, len(ids) - 1, LONGEST):
            ways.append((ids[start : start + LONGEST + 1], "inner" if place else "outer"))
    for number, (ids, _) in enumerate(ways, 1):
        print(f"w{number} N" + ",".join(f"n{i}" for i in ids))
    members = (f"w{number}@{role}" for number, (_, role) in enumerate(ways, 1))
    print("r1 Ttype=multipolygon,natural=water M" + ",".join(members))


if __name__ == "__main__":
    random.seed(1)
    kind, size = sys.argv[1], int(sys.argv[2])
    makers = {"lake": lambda n: lake(n, 0), "crossed": lambda n: lake(n, 3), "comb": comb, "star": star}
    write(makers[kind](size))
