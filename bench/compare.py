#!/usr/bin/env python3
"""Compares the areas that osmpoly and osmium make of one OPL file, ring by ring: where a ring begins and which way it runs is nothing
to it, nor the order of polygons.  Usage: compare.py FILE  (after `./prove`; it needs osmium)"""
import collections
import pathlib
import re
import subprocess
import sys
import tempfile

HERE = pathlib.Path(__file__).resolve().parent


def ring(text):
    """A ring begun at its least point, in the direction in which the next one is lesser. No ring comes to a point twice."""
    points = text.split(",")[:-1]
    least = points.index(min(points))
    turned = points[least:] + points[:least]
    return min(tuple(turned), tuple(turned[:1] + turned[:0:-1]))


def areas(path):
    """Each area as a set of polygons, and how often it stands in the file."""
    found = collections.Counter()
    for line in open(path, encoding="utf-8", errors="replace"):
        if not line.startswith("MULTIPOLYGON("):
            continue
        shape = re.match(r"[(),0-9. -]*", line[len("MULTIPOLYGON"):]).group(0)
        polygons = re.findall(r"\((\([^()]*\)(?:,\([^()]*\))*)\)", shape)
        rings = [[ring(text) for text in re.findall(r"\(([^()]*)\)", polygon)] for polygon in polygons]
        found[frozenset((outer, frozenset(inners)) for outer, *inners in rings)] += 1
    return found


def main():
    with tempfile.TemporaryDirectory() as work:
        ours, theirs = f"{work}/ours.txt", f"{work}/theirs.txt"
        subprocess.run([HERE.parent / "osmpoly", "export", "-f", "text", "-o", ours, sys.argv[1]], check=True)
        subprocess.run(["osmium", "export", "--geometry-types=polygon", "-f", "text", "-o", theirs, sys.argv[1]], check=True)
        a, b = areas(ours), areas(theirs)
    only_ours, only_theirs = (a - b).total(), (b - a).total()
    print(f"{a.total()} areas, osmium {b.total()}; {only_ours} of ours alone, {only_theirs} of osmium's alone")
    sys.exit(1 if only_ours or only_theirs else 0)


main()
