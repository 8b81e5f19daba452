#!/usr/bin/env python3
"""The shoreline of GSHHG as OPL: make_gshhg.py [c | l | i | h | f] [--seas] >coast.opl

The resolution is crude, low, intermediate, high or full; low if none is given. Debian's gmt-gshhg-low has the first three, gmt-gshhg-high
the next, gmt-gshhg-full the last. The script reads what `gmt coast -M` prints: shores of seas, lakes, islands in lakes and ponds on these,
land on their left, cut along bins. With `--seas` it takes the shores of seas alone, which are what OpenStreetMap tags as coastline.
Each piece becomes a way tagged natural=coastline; equal places are one node. At 180 degrees neighbouring ends are joined, as
OpenStreetMap does.
One lake is left out: it crosses the coast of Florida, and both commands would leave out all of America with it.
"""
import subprocess
import sys
import tempfile
from collections import Counter

# where the lake in Florida begins
CROSSING_LAKE = (-808_914_321, 290_133_516)


def pieces(resolution, lines):
    """Lists of places in units of 1e-7 degree, as gmt prints them; `lines` says which, in its words."""
    printed = subprocess.run(
        ["gmt", "coast", "-Rd", f"-D{resolution}", f"-W{lines}", "-M"],
        check=True, capture_output=True, text=True, cwd=tempfile.gettempdir(),  # it leaves a file there
    ).stdout
    for text in printed.split(">")[1:]:
        rows = [row.split() for row in text.splitlines()[1:] if row.strip()]
        places = [(round(float(x) * 1e7), round(float(y) * 1e7)) for x, y in rows]
        places = [p for i, p in enumerate(places) if i == 0 or places[i - 1] != p]
        if len(places) > 1 and places[0] != CROSSING_LAKE:
            yield places


def along_180(ways):
    """Ways from loose ends to loose starts next to each other on either side of 180 degrees, but for Antarctica's."""
    balance = Counter(way[-1] for way in ways)
    balance.subtract(way[0] for way in ways)
    for x in (-1_800_000_000, 1_800_000_000):
        loose = sorted((y, n) for (at, y), n in balance.items() if at == x and n and y > -600_000_000)
        for (low, ends), (high, _) in zip(loose[::2], loose[1::2]):
            yield [(x, low), (x, high)] if ends > 0 else [(x, high), (x, low)]


def main():
    resolution, lines = "l", "1"  # all lines, in a pen of width 1
    for word in sys.argv[1:]:
        if word == "--seas":
            lines = "1/1"  # those of level 1
        else:
            resolution = word
    ways = list(pieces(resolution, lines))
    ways += list(along_180(ways))
    nodes = {}
    for way in ways:
        for place in way:
            nodes.setdefault(place, len(nodes) + 1)
    out = []
    for (x, y), node in nodes.items():
        out.append(f"n{node} v1 x{x / 1e7:.7f} y{y / 1e7:.7f}\n")
    for number, way in enumerate(ways, 1):
        out.append(f"w{number} v1 Tnatural=coastline N" + ",".join(f"n{nodes[p]}" for p in way) + "\n")
    sys.stdout.write("".join(out))


main()
