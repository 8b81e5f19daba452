#!/usr/bin/python3
"""Counts what a spatial database's own check (GEOS, by shapely) calls invalid: areas of random relations and of a file, and pieces of tiny islands.

Usage: validity.py [--program FILE] [--relations N] [--islands N] [--coast COAST.opl] [FILE.opl ..]

Areas must all be valid.  A piece of coast is rounded to 1e-7 degree as it is written, and a piece of a few units may be invalid for that; where osmcoastline
is installed, its own pieces of the same islands, rounded likewise, stand beside.  Status 1 where an area is invalid.  (After `./prove`; it needs Debian's
python3-shapely, so it runs by Debian's python3)"""
import argparse
import math
import pathlib
import random
import re
import shutil
import sqlite3
import struct
import subprocess
import sys
import tempfile

from shapely import wkt
from shapely.geometry import Polygon

BENCH = pathlib.Path(__file__).resolve().parent
OSMPOLY = BENCH.parent / "crates/osmpoly/out/osmpoly"
FEW = 8  # the most points of an island's piece, so that most islands are cut
MANY = 100  # those of a piece of a real coast


def invalid(shapes):
    """How many shapes there are, and how many GEOS calls invalid."""
    return len(shapes), sum(not shape.is_valid for shape in shapes)


def areas_of(program, path):
    """The areas of an OPL file; each must be a MultiPolygon."""
    lines = subprocess.run([program, "export", "-n", "-f", "text", path], check=True, capture_output=True, text=True).stdout.splitlines()
    return [wkt.loads(re.match(r"MULTIPOLYGON\([(),0-9. -]*\)", line)[0]) for line in lines]


def islands(count):
    """OPL of islands of a few units of 1e-7 degree, each one closed coastline way that doesn't meet itself, land on its left."""
    random.seed(5)
    nodes, ways = [], []
    for place in range(count):
        left, low = place % 200 * 1000, place // 200 * 1000
        corners = set()
        for _ in range(random.randint(10, 24)):
            angle, length = random.uniform(0, 2 * math.pi), random.uniform(3, 12)
            corners.add((left + round(length * math.cos(angle)), low + round(length * math.sin(angle))))
        ring = sorted(corners, key=lambda p: (math.atan2(p[1] - low, p[0] - left), math.hypot(p[0] - left, p[1] - low)))
        if len(ring) > 2 and Polygon(ring).is_valid:
            first = len(nodes) + 1
            nodes += ring
            ways.append([*range(first, first + len(ring)), first])
    for number, (x, y) in enumerate(nodes, 1):
        yield f"n{number} v1 dV c1 t2020-01-01T00:00:00Z i1 ux T x{x * 1e-7:.7f} y{y * 1e-7:.7f}\n"
    for number, way in enumerate(ways, 1):
        yield f"w{number} v1 dV c1 t2020-01-01T00:00:00Z i1 ux Tnatural=coastline N{','.join(f'n{node}' for node in way)}\n"


def pieces_of(program, path, most):
    """The pieces of land and water, of so many points at most, that `coastline` writes."""
    run = subprocess.run([program, "coastline", "-p", "both", "-m", str(most), "-b", "0", path], capture_output=True, text=True)
    if run.returncode > 2:
        sys.exit(f"validity: {run.stderr}")
    return [wkt.loads(line.split(" ", 1)[1]) for line in run.stdout.splitlines()]


def rounded(blob):
    """A polygon of a Spatialite blob, its points rounded to units of 1e-7 degree; None where its outer ring vanishes so."""
    place = 43
    (count,) = struct.unpack_from("<i", blob, place)
    place += 4
    rings = []
    for _ in range(count):
        (points,) = struct.unpack_from("<i", blob, place)
        flat = struct.unpack_from(f"<{2 * points}d", blob, place + 4)
        place += 4 + 16 * points
        ring = [(math.floor(x * 1e7 + 0.5), math.floor(y * 1e7 + 0.5)) for x, y in zip(flat[::2], flat[1::2])]
        rings.append([point for point, following in zip(ring, ring[1:]) if point != following])
    rings = [ring for number, ring in enumerate(rings) if number == 0 or len(ring) > 2]
    return Polygon(rings[0], rings[1:]) if len(rings[0]) > 2 else None


def pieces_of_osmcoastline(path, most, work):
    """The pieces of land and water that osmcoastline stores, rounded."""
    subprocess.run(["osmium", "cat", "-O", "-o", f"{work}/coast.osm.pbf", path], check=True)
    subprocess.run(["osmcoastline", "-f", "-o", f"{work}/coast.db", "-p", "both", "-m", str(most), "-b", "0", f"{work}/coast.osm.pbf"], capture_output=True)
    rows = sqlite3.connect(f"{work}/coast.db").execute("SELECT geometry FROM land_polygons UNION ALL SELECT geometry FROM water_polygons")
    return [shape for (blob,) in rows for shape in [rounded(blob)] if shape is not None]


def main():
    words = argparse.ArgumentParser(description=__doc__, formatter_class=argparse.RawDescriptionHelpFormatter)
    words.add_argument("--program", default=OSMPOLY)
    words.add_argument("--relations", type=int, default=10000)
    words.add_argument("--islands", type=int, default=2000)
    words.add_argument("--coast")
    words.add_argument("files", nargs="*")
    asked = words.parse_args()
    amiss = 0
    with tempfile.TemporaryDirectory() as work:
        relations = f"{work}/random.opl"
        with open(relations, "w") as out:
            subprocess.run([sys.executable, BENCH / "make_random.py", str(asked.relations)], check=True, stdout=out)
        for name, path in [(f"{asked.relations} random relations", relations), *((path, path) for path in asked.files)]:
            count, bad = invalid(areas_of(asked.program, path))
            amiss += bad
            print(f"{name}: {count} areas, {bad} invalid")
        islands_path = f"{work}/islands.opl"
        open(islands_path, "w").writelines(islands(asked.islands))
        for name, path, most in [(f"{asked.islands} tiny islands", islands_path, FEW)] + ([(asked.coast, asked.coast, MANY)] if asked.coast else []):
            print("%s: %d pieces, %d invalid" % (name, *invalid(pieces_of(asked.program, path, most))))
            if shutil.which("osmcoastline") and shutil.which("osmium"):
                print("%s by osmcoastline, rounded: %d pieces, %d invalid" % (name, *invalid(pieces_of_osmcoastline(path, most, work))))
    sys.exit(1 if amiss else 0)


if __name__ == "__main__":
    main()
