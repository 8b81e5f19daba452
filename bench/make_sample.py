#!/usr/bin/env python3
"""Writes a grid of N x N squares with holes as OPL: for each cell two closed ways and a relation of both, one relation of all
ways, and a coastline round the whole.  Usage: make_sample.py N [>FILE]"""
import sys

from opl_numbers import decimal

CELL = 10_000
SIDE = 8_000
HOLE = (2_000, 6_000)


def corners(x, y, low, high):
    return [(x + low, y + low), (x + high, y + low), (x + high, y + high), (x + low, y + high)]


def coast(n):
    edge = CELL * n
    yield -CELL, -CELL
    yield edge + CELL, -CELL
    for step in range(2 * n + 5):
        yield edge + CELL - CELL // 2 * step, edge + CELL + (step % 2) * CELL // 2


def sample(n):
    cells = [(i, j) for j in range(n) for i in range(n)]
    node = 0
    for i, j in cells:
        x, y = CELL * i, CELL * j
        for px, py in corners(x, y, 0, SIDE) + corners(x, y, *HOLE):
            node += 1
            yield f"n{node} x{decimal(px)} y{decimal(py)}"
    shore = []
    for px, py in coast(n):
        node += 1
        shore.append(node)
        yield f"n{node} x{decimal(px)} y{decimal(py)}"
    for k in range(n * n):
        for part in (0, 4):
            ids = [8 * k + part + c for c in (1, 2, 3, 4, 1)]
            yield f"w{2 * k + 1 + part // 4} N" + ",".join(f"n{i}" for i in ids)
    yield f"w{2 * n * n + 1} Tnatural=coastline N" + ",".join(f"n{i}" for i in shore + shore[:1])
    for k in range(n * n):
        yield f"r{k + 1} Ttype=multipolygon,landuse=grass Mw{2 * k + 1}@outer,w{2 * k + 2}@inner"
    yield f"r{n * n + 1} Ttype=multipolygon,landuse=forest M" + ",".join(f"w{w}@" for w in range(1, 2 * n * n + 1))


if __name__ == "__main__":
    for line in sample(int(sys.argv[1])):
        print(line)
