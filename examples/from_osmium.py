#!/usr/bin/env python3
"""Brings areas as osmium writes them into the form of osmpoly, so that they can be certified:

    osmium export --geometry-types=polygon -f text -u type_id map.opl | examples/from_osmium.py > areas.txt
    osmpoly certify -u type_id map.opl areas.txt

It changes no ring, no point and no tag, only the form:
- A ring begins at its least node (the lowest, of these the leftmost), and its area lies on the left.
- Inner rings and polygons are in order of their first nodes.
- Areas are in the order of a sorted map: those of ways before those of relations, negative ids before positive ones.
- Letters beyond ASCII are escaped, and escapes have no leading zeros: `%e4%` for both `ä` and `%00e4%`.
"""
import re
import sys


def units(text):
    """A coordinate in units of 1e-7 degree."""
    sign = -1 if text.startswith("-") else 1
    whole, _, decimals = text.lstrip("-").partition(".")
    return sign * (int(whole) * 10_000_000 + int(decimals.ljust(7, "0")))


def key(point):
    """By this points are in order: from below, and at one height from the left."""
    x, y = point.split(" ")
    return units(y), units(x)


def doubled_area(points):
    """Twice the area that points go round, which is positive counterclockwise."""
    places = [key(point) for point in points]
    return sum(x * v - u * y for (y, x), (v, u) in zip(places, places[1:] + places[:1]))


def ring(text, outer):
    """A ring from its least node on, with what it bounds on its left."""
    points = text.split(",")[:-1]
    if (doubled_area(points) > 0) != outer:
        points.reverse()
    least = points.index(min(points, key=key))
    return points[least:] + points[:least]


def first(points):
    return key(points[0]), key(points[1])


def written(points):
    return "(" + ",".join(points + points[:1]) + ")"


def polygon(text):
    outer, *inners = re.findall(r"\(([^()]*)\)", text)
    return [ring(outer, True)] + sorted((ring(inner, False) for inner in inners), key=first)


def area(shape):
    polygons = sorted(map(polygon, re.findall(r"\((?:\([^()]*\),?)+\)", shape)), key=lambda rings: first(rings[0]))
    return "MULTIPOLYGON(" + ",".join("(" + ",".join(map(written, rings)) + ")" for rings in polygons) + ")"


def spelled(tags):
    """The tags with escapes as osmpoly has them: every letter beyond ASCII escaped, and no zeros before its number."""
    unpadded = re.sub("%([0-9a-f]+)%", lambda escape: f"%{int(escape[1], 16):x}%", tags)
    return "".join(letter if " " <= letter <= "~" else f"%{ord(letter):x}%" for letter in unpadded)


def place_in_map(name):
    """By this areas are in order: those of ways first, negative ids before positive ones, and then by magnitude, as osmium sorts."""
    number = int(name[1:])
    return number % 2, number > 0, abs(number)


def main():
    lines = []
    for line in sys.stdin:
        name, shape, *tags = re.match(r"(a-?\d+) MULTIPOLYGON\(([(),0-9. -]*)\)( .*)?$", line).groups()
        lines.append((place_in_map(name), " ".join([name, area(shape)]) + spelled(tags[0] or "")))
    for _, line in sorted(lines):
        print(line)


main()
