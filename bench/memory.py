#!/usr/bin/env python3
"""Measures what `export` holds: bytes of memory for a node, a way, a reference, a tag and so on, each by runs over inputs that have more and
more of that alone; and then of cities (make_city.py), with and without locations on ways.
Usage: memory.py  (after ./prove; osmium, time)"""
import os
import pathlib
import subprocess
import tempfile

import make_city

PROGRAM = pathlib.Path(__file__).resolve().parent.parent / "crates/osmpoly/out/osmpoly"
SIZES = [200_000, 260_000, 330_000, 400_000]


def peak(path):
    """The most memory that a run over a file holds, in bytes."""
    words = ["/usr/bin/time", "-f", "%M", PROGRAM, "export", "-f", "text", "-o", "/dev/null", "-O", path]
    return int(subprocess.run(words, stderr=subprocess.PIPE, text=True, check=True).stderr) * 1024


def references(first, count, located=""):
    return ",".join(f"n{first + k}{located}" for k in range(count))


PLACE = "x9.1234567y47.1234567"
KINDS = {
    "node": lambda n: f"n{n} x9.1 y47.{n:07}",
    "node, in no order": lambda n: f"n{n * 7919 % 1_000_003} x9.1 y47.{n:07}",
    "node with 1 tag": lambda n: f"n{n} Thighway=crossing x9.1 y47.{n:07}",
    "node with 5 tags": lambda n: f"n{n} Taddr:street=Landstrasse,addr:city=Vaduz,addr:country=LI,highway=crossing,name=Rathaus x9.1 y47.{n:07}",
    "way of 2 references": lambda n: f"w{n} N{references(n, 2)}",
    "way of 12 references": lambda n: f"w{n} N{references(n, 12)}",
    "way of 2 references with locations": lambda n: f"w{n} N{references(n, 2, PLACE)}",
    "way of 12 references with locations": lambda n: f"w{n} N{references(n, 12, PLACE)}",
    "way of 2 references, 1 tag": lambda n: f"w{n} Thighway=service N{references(n, 2)}",
    "relation of 2 members": lambda n: f"r{n} Ttype=route Mw{n}@,w{n + 1}@",
    "relation of 12 members": lambda n: f"r{n} Ttype=route M" + ",".join(f"w{n + k}@" for k in range(12)),
}


def write(path, lines):
    with open(path, "w") as file:
        file.writelines(f"{line}\n" for line in lines)


def main():
    with tempfile.TemporaryDirectory() as work:
        path, located = f"{work}/input.opl", f"{work}/located.opl"
        write(path, [])
        empty = peak(path)
        print(f"| Object | Bytes each, least | most |\n|---|---|---|\n| (a run over nothing: {empty:,} in all) | | |")
        for name, line in KINDS.items():
            each = []
            for size in SIZES:
                write(path, map(line, range(1, size + 1)))
                each.append((peak(path) - empty) / size)
            print(f"| {name} | {min(each):.0f} | {max(each):.0f} |")
        print("\n| City | OPL bytes | MB | a byte of OPL | with locations: OPL bytes | MB | a byte of OPL |\n|---|---|---|---|---|---|---|")
        for buildings in (25_000, 50_000, 100_000, 200_000):
            write(path, make_city.city(buildings))
            subprocess.run(["osmium", "add-locations-to-ways", "-O", "-o", located, path], check=True)
            cells = [f"{buildings:,} buildings"]
            for file in (path, located):
                size, held = os.path.getsize(file), peak(file)
                cells += [f"{size:,}", f"{held / 1e6:.0f}", f"{held / size:.2f}"]
            print("| " + " | ".join(cells) + " |")


main()
