#!/usr/bin/env python3
"""Writes a coast as OPL.  Usage: make_coast.py KIND N [>FILE]

chains    N unclosed chains of three nodes all over the world; each other one ends within 0.005 degree of the start of the next, so that
          with `-c 0.01` half as many gaps are closed
cluster   N unclosed chains within one degree, so that with `-c 0.01` each end has many starts near it
islands   N islands of 40 nodes on a grid, in ways of 20
shore     one coast of N nodes round a continent, jagged, in ways of 500
"""
import math
import random
import sys

from opl_numbers import decimal

WAY = 500


class Writer:
    """Nodes first, then ways, as osmium sorts them."""

    def __init__(self):
        self.nodes, self.ways = 0, []

    def node(self, x, y):
        self.nodes += 1
        print(f"n{self.nodes} x{decimal(x)} y{decimal(y)}")
        return self.nodes

    def way(self, nodes):
        self.ways.append(nodes)

    def close(self):
        for place, nodes in enumerate(self.ways, 1):
            print(f"w{place} Tnatural=coastline N" + ",".join(f"n{node}" for node in nodes))


def chains(writer, n, width):
    """Chains side by side from west to east, row by row; each other one nearly meets the next."""
    columns = math.isqrt(2 * n) + 1
    step = 10_000_000 * width // columns
    for place in range(n):
        row, column = divmod(place, columns)
        x, y = column * step, row * step
        begin = writer.node(x, y)
        bend = writer.node(x + step // 2, y + random.randrange(step // 3))
        gap = 20_000 if place % 2 == 0 else step // 2
        writer.way([begin, bend, writer.node(x + step - min(gap, step // 2), y + random.randrange(-9_000, 9_000))])


def islands(writer, n):
    columns = math.isqrt(2 * n) + 1
    step = 3_000_000_000 // columns
    for place in range(n):
        row, column = divmod(place, columns)
        x, y = column * step - 1_500_000_000, row * step - 750_000_000
        ring = []
        for turn in range(40):
            angle = 2 * math.pi * turn / 40
            reach = step * random.uniform(0.2, 0.4)
            ring.append(writer.node(x + int(reach * math.cos(angle)), y + int(reach * math.sin(angle))))
        writer.way(ring[:21])
        writer.way(ring[20:] + ring[:1])


def shore(writer, n):
    ring = []
    for turn in range(n):
        angle = 2 * math.pi * turn / n
        reach = 600_000_000 * (1 + 0.2 * math.sin(7 * angle) + 0.1 * math.sin(61 * angle) + random.uniform(0, 0.4 / n))
        ring.append(writer.node(int(reach * math.cos(angle)), int(reach * math.sin(angle))))
    ring.append(ring[0])
    for start in range(0, n, WAY):
        writer.way(ring[start : start + WAY + 1])


def main():
    kind, n = sys.argv[1], int(sys.argv[2])
    random.seed(1)
    writer = Writer()
    if kind == "chains":
        chains(writer, n, 120)
    elif kind == "cluster":
        chains(writer, n, 1)
    elif kind == "islands":
        islands(writer, n)
    else:
        shore(writer, n)
    writer.close()


main()
