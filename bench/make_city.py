#!/usr/bin/env python3
"""Writes a synthetic city of N buildings as OPL, with tags and metadata as osmium writes them: closed ways of 5 to 13 nodes, some with a
courtyard (a relation).  The same N gives the same bytes.  Usage: make_city.py N [>FILE]"""
import math
import random
import sys

META = "v2 dV c12345 t2024-05-06T07:08:09Z i42 umapper"
STREETS = ["Hauptstra%df%e", "Rue%20%de%20%la%20%Gare", "High%20%Street", "Via%20%Roma"]


def decimal(units):
    return f"{units / 10_000_000:.7f}".rstrip("0").rstrip(".")


def outline(x, y, count, radius):
    for k in range(count):
        angle = 2 * math.pi * k / count
        yield x + int(radius * math.cos(angle)), y + int(radius * math.sin(angle))


def city(buildings):
    choose = random.Random(7)
    side = max(1, math.isqrt(buildings))
    nodes, ways, relations = [], [], []
    for number in range(buildings):
        x = 100_000_000 + 5_000 * (number % side)
        y = 480_000_000 + 5_000 * (number // side)
        rings = [list(outline(x, y, choose.randint(4, 12), 2_000))]
        if choose.random() < 0.1:
            rings.append(list(outline(x, y, 4, 800)))
        members = []
        for ring in rings:
            first = len(nodes) + 1
            nodes.extend(ring)
            ids = [*range(first, len(nodes) + 1), first]
            members.append((len(ways) + 1, ids))
            ways.append(ids)
        street = choose.choice(STREETS)
        tags = f"building=yes,addr:street={street},addr:housenumber={choose.randint(1, 199)}"
        if len(rings) == 1:
            ways[-1] = (ways[-1], tags)
        else:
            ways[-2], ways[-1] = (ways[-2], ""), (ways[-1], "")
            relations.append((members, tags))
    for number, (x, y) in enumerate(nodes, 1):
        yield f"n{number} {META} T x{decimal(x)} y{decimal(y)}"
    for number, (ids, tags) in enumerate(ways, 1):
        yield f"w{number} {META} T{tags} N" + ",".join(f"n{i}" for i in ids)
    for number, (members, tags) in enumerate(relations, 1):
        roles = ("outer", "inner")
        listed = ",".join(f"w{way}@{role}" for (way, _), role in zip(members, roles))
        yield f"r{number} {META} Ttype=multipolygon,{tags} M{listed}"


if __name__ == "__main__":
    for line in city(int(sys.argv[1])):
        print(line)
