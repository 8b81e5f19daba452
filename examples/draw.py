#!/usr/bin/env python3
"""Draws a map as SVG.  Usage: draw.py [FILE ..] >FILE.svg

Each FILE, standard input where there is none or for `-`, is one of these, the first at the bottom:
- GeoJSON: areas as `osmpoly export` writes them, small ones above large ones, and problems as problems.py does (red; warnings orange, notes violet)
- pieces of land and water, the output of `osmpoly coastline`; the picture's edges are those of all else
- points, the output of `osmpoly locate`: green in an area, yellow on a boundary, a grey ring outside
- OPL: its ways as thin lines
A line that isn't drawn, as one of a report, is passed over. The more circles a picture has, the smaller they are."""
import collections
import json
import re
import sys
from xml.sax.saxutils import escape

SIDE = 640  # of the longer side, in pixels
SHARE = 14  # of that side's length to a margin
FEW = 200  # corners of areas that are marked; where there are more, areas have fine lines and no marks
COLOURS = ["#9ecae1", "#a1d99b", "#fdd0a2", "#dadaeb"]
SEVERITIES = {"problem": "#d7301f", "error": "#d7301f", "warning": "#fd8d3c", "note": "#756bb1"}
LAND = 'fill="#f2e6c7" stroke="#8c7b50" stroke-width="1" fill-rule="evenodd"'
WATER = 'fill="#c6dbef" stroke="#6baed6" stroke-width="1" fill-rule="evenodd"'
WAY = 'fill="none" stroke="#888888" stroke-width="1.5"'
# of located points
POINTS = {
    "in": 'fill="#238b45" stroke="#005a32"',
    "on": 'fill="#ffe119" stroke="#005a32"',
    "none": 'fill="none" stroke="#777777"',
}
RADIUS = 8  # of a circle, in pixels, where a picture has few of them
CROWD = 40  # so many circles are few
SMALLEST = 1.5

# `rings` are closed; with `nodes` their corners are marked
Polygon = collections.namedtuple("Polygon", "rings style nodes")
Line = collections.namedtuple("Line", "points style title")
Point = collections.namedtuple("Point", "place style title")


def extent(ring):
    """The area of a ring's envelope, to six digits, so that equal rings stay in their order."""
    xs, ys = [point[0] for point in ring], [point[1] for point in ring]
    return float(f"{(max(xs) - min(xs)) * (max(ys) - min(ys)):.6g}")


def as_they_stand(features):
    """The polygons, lines and points of features, in their order."""
    shapes = [feature["geometry"] or {"type": None} for feature in features]
    few = sum(len(ring) for shape in shapes if shape["type"] == "MultiPolygon" for rings in shape["coordinates"] for ring in rings) <= FEW
    for number, (feature, shape) in enumerate(zip(features, shapes)):
        colour = SEVERITIES.get(feature["properties"].get("severity"))
        title = feature["properties"].get("text")
        if shape["type"] == "MultiPolygon":
            style = f'fill="{COLOURS[number % len(COLOURS)]}" stroke="#333333" stroke-width="{2 if few else 0.5}" fill-rule="evenodd"'
            yield from (Polygon(rings, style, few) for rings in shape["coordinates"])
        elif shape["type"] == "LineString":
            yield Line(shape["coordinates"], f'fill="none" stroke="{colour}" stroke-width="5"', title)
        elif shape["type"] == "Point":
            yield Point(shape["coordinates"], f'fill="{colour}" fill-opacity="0.4" stroke="{colour}"', title)


def of_features(features):
    """The same with polygons first, from the largest to the smallest, so that none hides another."""
    shapes = list(as_they_stand(features))
    yield from sorted((shape for shape in shapes if isinstance(shape, Polygon)), key=lambda polygon: -extent(polygon.rings[0]))
    yield from (shape for shape in shapes if not isinstance(shape, Polygon))


def of_piece(kind, text):
    rings = [[tuple(map(float, point.split(" "))) for point in ring.split(",")] for ring in re.findall(r"\(([^()]+)\)", text)]
    return Polygon(rings, LAND if kind == "land" else WATER, False)


def of_located(line, x, y, answer):
    where = "on" if " on " in answer else answer.split()[0]
    return Point((float(x), float(y)), POINTS[where], line)


def of_ways(lines):
    """The ways of OPL, by their references' own locations or those of their nodes."""
    objects = [line.split() for line in lines if re.match(r"[nw]-?\d", line)]
    values = [(fields[0], {field[0]: field[1:] for field in fields[1:]}) for fields in objects]
    places = {node: (value["x"], value["y"]) for node, value in values if value.get("x") and value.get("y")}
    for way, value in values:
        references = re.findall(r"(n-?\d+)(?:x([^,y]*)y([^,]*))?", value.get("N", ""))
        points = [(x, y) if x and y else places.get(node) for node, x, y in references]
        yield Line([(float(point[0]), float(point[1])) for point in points if point], WAY, f"way {way[1:]}")


def shapes_of(text):
    if text.startswith("{"):
        yield from of_features(json.loads(text)["features"])
        return
    lines = text.splitlines()
    for line in lines:
        if piece := re.match(r"(land|water) POLYGON(\(.*\))$", line):
            yield of_piece(*piece.groups())
        elif point := re.match(r"(-?[\d.]+) (-?[\d.]+):( none| in .*| on .*)$", line):
            yield of_located(line, *point.groups())
    yield from of_ways(lines)


def points_of(shape):
    if isinstance(shape, Polygon):
        return [point for ring in shape.rings for point in ring]
    return shape.points if isinstance(shape, Line) else [shape.place]


class Sheet:
    """Where a place stands in the picture, in pixels from its upper left corner."""

    def __init__(self, shapes):
        framing = [shape for shape in shapes if shape.style != WATER] or shapes
        points = [point for shape in framing for point in points_of(shape)] or [(0, 0)]
        xs, ys = [point[0] for point in points], [point[1] for point in points]
        side = max(max(xs) - min(xs), max(ys) - min(ys)) or 1
        margin = side / SHARE
        self.scale = SIDE / (side + 2 * margin)
        self.west, self.north = min(xs) - margin, max(ys) + margin
        self.width, self.height = self.at((max(xs) + margin, min(ys) - margin))
        circles = sum(isinstance(shape, Point) for shape in shapes)
        self.radius = max(SMALLEST, RADIUS * min(1, (CROWD / max(circles, 1)) ** 0.5))

    def at(self, point):
        return (point[0] - self.west) * self.scale, (self.north - point[1]) * self.scale

    def path(self, points):
        return "M" + " L".join("{:.1f},{:.1f}".format(*self.at(point)) for point in points)

    def circle(self, place):
        return 'cx="{:.1f}" cy="{:.1f}"'.format(*self.at(place))

    def elements(self, shape):
        if isinstance(shape, Polygon):
            yield f'<path d="{" ".join(self.path(ring[:-1]) + "Z" for ring in shape.rings)}" {shape.style}/>'
            for place in [place for ring in shape.rings for place in ring[:-1] if shape.nodes]:
                yield f'<circle {self.circle(place)} r="4" fill="#333333"/>'
        elif isinstance(shape, Line) and shape.points:
            yield f'<path d="{self.path(shape.points)}" {shape.style}><title>{escape(shape.title)}</title></path>'
        elif isinstance(shape, Point):
            size = f'r="{self.radius:.1f}" stroke-width="{self.radius / 3:.1f}"'
            yield f'<circle {self.circle(shape.place)} {size} {shape.style}><title>{escape(shape.title)}</title></circle>'

    def drawing(self, shapes):
        size = f"{self.width:.0f} {self.height:.0f}"
        yield f'<svg xmlns="http://www.w3.org/2000/svg" viewBox="0 0 {size}" width="{self.width:.0f}" height="{self.height:.0f}">'
        yield f'<rect width="{self.width:.0f}" height="{self.height:.0f}" fill="#ffffff"/>'
        for shape in shapes:
            yield from self.elements(shape)
        yield "</svg>"


def main():
    files = sys.argv[1:] or ["-"]
    texts = [sys.stdin.read() if file == "-" else open(file, encoding="utf-8").read() for file in files]
    shapes = [shape for text in texts for shape in shapes_of(text)]
    print("\n".join(Sheet(shapes).drawing(shapes)))


if __name__ == "__main__":
    main()
