#!/usr/bin/env python3
"""Turns the report of `osmpoly export -e` or of `osmpoly coastline` (standard input) into a GeoJSON feature collection, to be looked at in
QGIS, or drawn by draw.py:

    osmpoly export -e -o areas.geojson map.opl 2>&1 | examples/problems.py >problems.geojson

Points are odd nodes, crossings, vanished rings and the ends of gaps, of cuts and of unclosed chains; lines are overlaps, gaps, cuts, and
segments that stand more than once; what has no place of its own has the geometry null. The properties of a feature are `object` (`way/7`, as in
https://www.openstreetmap.org/way/7, or null), `kind` and `severity` (words of the table below) and `text` (the line).
A line that isn't in the table, as the last one of a run that failed, goes to standard error, and the status is 1."""
import json
import re
import sys

# severity, kind, form of the line: docs/FORMATS.md, Report lines
LINES = [
    ("problem", "missing", "OBJECT: missing way ID"),
    ("problem", "missing", "OBJECT: missing node ID"),
    ("problem", "nothing_survives", "OBJECT: nothing survives"),
    ("problem", "crossing", "OBJECT: crossing POINT of SEGMENT and SEGMENT"),
    ("problem", "overlap", "OBJECT: overlap LINE of SEGMENT and SEGMENT"),
    ("problem", "odd", "OBJECT: odd node POINT"),
    ("note", "named_twice", "OBJECT: note way ID named twice"),
    ("note", "repeated", "OBJECT: note segment LINE stands COUNT times"),
    ("note", "role", "OBJECT: note way ID has role inner in an outer ring"),
    ("note", "role", "OBJECT: note way ID has role outer in an inner ring"),
    ("error", "missing", "error OBJECT: missing node ID"),
    ("warning", "short", "warning OBJECT: short"),
    ("warning", "antarctica", "warning antarctica closed on OBJECT"),
    ("warning", "gap", "warning gap closed from POINT to POINT"),
    ("error", "unclosed", "error chain of OBJECT is not closed, from POINT to POINT"),
    ("warning", "cut", "warning ring of OBJECT was cut from POINT to POINT"),
    ("error", "left_out", "error ring of OBJECT is left out"),
    ("error", "crossing", "error crossing POINT of SEGMENT and SEGMENT"),
    ("error", "overlap", "error overlap LINE of SEGMENT and SEGMENT"),
    ("warning", "repeated", "warning segment LINE stands COUNT times"),
    ("warning", "wrong_way", "warning ring of OBJECT runs the wrong way"),
    ("warning", "large", "warning piece of COUNT points"),
    ("warning", "vanished", "warning ring at POINT vanished"),
]
PLACE = r"-?\d+(?:\.\d+)? -?\d+(?:\.\d+)?"
WORDS = {
    "OBJECT": r"(?P<object>(?:way|relation) -?\d+)",
    "ID": r"-?\d+",
    "COUNT": r"\d+",
    "POINT": f"({PLACE})",
    "LINE": f"({PLACE},{PLACE})",
    "SEGMENT": f"{PLACE},{PLACE}",
}


def pattern(form):
    return re.compile(re.sub("[A-Z]+", lambda word: WORDS[word.group()], form))


PATTERNS = [(severity, kind, pattern(form)) for severity, kind, form in LINES]


def geometry(place):
    """A point, or a line where there is a comma."""
    points = [[json.loads(number) for number in point.split(" ")] for point in place.split(",")]
    return {"type": "Point", "coordinates": points[0]} if len(points) == 1 else {"type": "LineString", "coordinates": points}


def features(line):
    """The features of a line, one for each of its places; none where the line isn't known."""
    for severity, kind, known in PATTERNS:
        found = known.fullmatch(line)
        if not found:
            continue
        named = found.groupdict().get("object")
        places = [place for place in found.groups() if place != named]
        if kind in ("gap", "cut"):
            places.insert(0, ",".join(places))
        properties = {"object": named and named.replace(" ", "/"), "kind": kind, "severity": severity, "text": line}
        return [{"type": "Feature", "geometry": geometry(place) if place else None, "properties": properties} for place in places or [None]]
    return []


def main():
    found, unknown = [], 0
    for line in sys.stdin.read().splitlines():
        of_line = features(line)
        found += of_line
        if not of_line:
            print(line, file=sys.stderr)
            unknown = 1
    print('{"type":"FeatureCollection","features":[')
    print(",\n".join(json.dumps(feature) for feature in found))
    print("]}")
    sys.exit(unknown)


if __name__ == "__main__":
    main()
