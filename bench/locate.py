#!/usr/bin/python3
"""Locates N random points in the areas of an OPL file by `osmpoly locate` and by shapely's STRtree, and compares the answers: which areas
hold a point or have it on them, in the same order.  A tenth of the points are nodes of areas.  Usage: locate.py FILE N  (after
`./prove`; it needs Debian's python3-shapely, so it runs by Debian's python3)"""
import pathlib
import random
import re
import subprocess
import sys
import tempfile
import time

from shapely import wkt
from shapely.geometry import Point
from shapely.prepared import prep
from shapely.strtree import STRtree

OSMPOLY = pathlib.Path(__file__).resolve().parent.parent / "crates/osmpoly/out/osmpoly"


def areas(path):
    """The areas by their names, as shapely has them, in order."""
    names, shapes = [], []
    for line in open(path):
        name, shape = re.match(r"(a-?\d+) (MULTIPOLYGON\([(),0-9. -]*\))", line).groups()
        names.append(name)
        shapes.append(wkt.loads(shape))
    return names, shapes


def points_in(shapes, count):
    """Random points in the envelope of all areas, a tenth of them nodes, as `X Y`."""
    random.seed(7)
    bounds = [shape.bounds for shape in shapes]
    west, south = min(b[0] for b in bounds), min(b[1] for b in bounds)
    east, north = max(b[2] for b in bounds), max(b[3] for b in bounds)
    nodes = [node for shape in shapes for polygon in shape.geoms for node in polygon.exterior.coords]
    for _ in range(count):
        if random.random() < 0.1:
            x, y = random.choice(nodes)
        else:
            x, y = random.uniform(west, east), random.uniform(south, north)
        yield f"{x:.7f} {y:.7f}"


def by_shapely(names, shapes, lines):
    """The names of the areas that cover each point, and the seconds that it took, the reading of the areas apart."""
    begun = time.process_time()
    places = {id(shape): place for place, shape in enumerate(shapes)}
    prepared = [prep(shape) for shape in shapes]
    tree = STRtree(shapes)
    found = []
    for line in lines:
        point = Point(*map(float, line.split()))
        near = sorted(places[id(shape)] for shape in tree.query(point))
        found.append([names[place] for place in near if prepared[place].covers(point)])
    return found, time.process_time() - begun


def main():
    file, count = sys.argv[1], int(sys.argv[2])
    with tempfile.TemporaryDirectory() as work:
        text, points, out = f"{work}/areas.txt", f"{work}/points.txt", f"{work}/found.txt"
        subprocess.run([OSMPOLY, "export", "-f", "text", "-u", "type_id", "-o", text, file], check=True)
        names, shapes = areas(text)
        lines = list(points_in(shapes, count))
        open(points, "w").write("".join(line + "\n" for line in lines))
        used = subprocess.run(["/usr/bin/time", "-f", "%U %S %M", OSMPOLY, "locate", "-o", out, file, points], check=True, capture_output=True)
        user, system, memory = map(float, used.stderr.split())
        ours = [re.findall(r"a-?\d+", line) for line in open(out)]
        theirs, seconds = by_shapely(names, shapes, lines)
    differing = sum(a != b for a, b in zip(ours, theirs)) + abs(len(ours) - len(theirs))
    print(f"{count} points, {len(names)} areas: {user + system:.2f} s and {memory / 1024:.0f} MB, shapely {seconds:.2f} s; {differing} answers differ")
    sys.exit(1 if differing else 0)


main()
