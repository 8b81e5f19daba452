#!/usr/bin/env python3
"""Writes N multipolygon relations of random rings as OPL: squares, triangles and diamonds that touch, overlap, share sides and
enclose each other, each cut into up to three ways.  Usage: make_random.py N [SEED] [>FILE]"""
import random
import sys

META = "v1 dV c1 t2020-01-01T00:00:00Z i1 ux"


def ring():
    x, y = random.randint(0, 8), random.randint(0, 8)
    shape = random.random()
    if shape < 0.6:
        w, h = random.randint(1, 8), random.randint(1, 8)
        return [(x, y), (x + w, y), (x + w, y + h), (x, y + h)]
    if shape < 0.8:
        return [(x, y), (x + random.randint(1, 6), y + random.randint(0, 3)), (x + random.randint(0, 4), y + random.randint(1, 6))]
    return [(x + 3, y), (x + 6, y + 3), (x + 3, y + 6), (x, y + 3)]


def cut(refs):
    """A closed way, or the ways that it is cut into, in either direction."""
    count = min(random.randint(0, 2), len(refs) - 2)
    places = sorted(random.sample(range(1, len(refs) - 1), count)) + [len(refs) - 1]
    begin = 0
    for place in places:
        way = refs[begin:place + 1]
        yield way if random.random() < 0.5 else way[::-1]
        begin = place


def decimal(units):
    return f"{units / 1000:.3f}"


def main():
    count = int(sys.argv[1])
    random.seed(int(sys.argv[2]) if len(sys.argv) > 2 else 1)
    nodes, ways, relations = [], [], []
    for number in range(count):
        left, low = number % 40 * 100, number // 40 * 100
        at, members = {}, []
        for points in [ring() for _ in range(random.randint(1, 4))]:
            for point in points:
                if point not in at:
                    nodes.append((left + point[0], low + point[1]))
                    at[point] = len(nodes)
            for way in cut([at[point] for point in points + points[:1]]):
                ways.append(way)
                members.append(len(ways))
        random.shuffle(members)
        relations.append(members)
    for number, (x, y) in enumerate(nodes, 1):
        print(f"n{number} {META} T x{decimal(x)} y{decimal(y)}")
    for number, refs in enumerate(ways, 1):
        print(f"w{number} {META} T N" + ",".join(f"n{ref}" for ref in refs))
    for number, members in enumerate(relations, 1):
        print(f"r{number} {META} Ttype=multipolygon,number={number} M" + ",".join(f"w{way}@" for way in members))


main()
