#!/usr/bin/env python3
"""Compares what `examples/in_parts` writes, by 1 and by 4 jobs, with what one run writes over the same file: areas by id, problems and notes
by their lines, and the bytes of both.  Usage: parts.py FILE [BLOCK]  (FILE as osmium reads it; after ./prove; osmium and GNU parallel)"""
import pathlib
import subprocess
import sys
import tempfile
import time

ROOT = pathlib.Path(__file__).resolve().parent.parent
WORDS = ["-f", "text", "-u", "type_id", "-e"]


def run(*words, given=None):
    """The output and the report of a run, and the seconds that it took."""
    begun = time.monotonic()
    ended = subprocess.run(words, input=given, capture_output=True, check=True)
    return ended.stdout, ended.stderr, time.monotonic() - begun


def by_id(output):
    """The areas of an output by their ids, each of which stands once."""
    areas = {}
    for line in output.splitlines():
        name, area = line.split(b" ", 1)
        assert name not in areas, f"{name} stands twice"
        areas[name] = area
    return areas


def main():
    file, block = sys.argv[1], (sys.argv[2:] or ["200k"])[0]
    wrong = 0
    with tempfile.TemporaryDirectory() as work:
        located = f"{work}/located.osm.pbf"
        subprocess.run(["osmium", "add-locations-to-ways", "-o", located, file], check=True)
        text = run("osmium", "cat", "-f", "opl,locations_on_ways=true", "-o", "-", located)[0]
        program = run(ROOT / ".ci/proved_program")[0].decode().strip()
        output, report, seconds = run(program, "export", *WORDS, "-", given=text)
        areas, lines = by_id(output), sorted(report.splitlines())
        print(f"one run: {len(areas)} areas, {len(lines)} lines of problems and notes, {seconds:.2f} s")
        for jobs in (1, 4):
            parts, told, seconds = run(ROOT / "examples/in_parts", "-j", str(jobs), "-b", block, located, *WORDS)
            of_parts = by_id(parts)
            missing, more = len(areas.keys() - of_parts.keys()), len(of_parts.keys() - areas.keys())
            other = sum(of_parts[name] != area for name, area in areas.items() if name in of_parts)
            is_same = "the same bytes" if (parts, told) == (output, report) else "other bytes"
            print(f"{jobs} jobs: {len(of_parts)} areas, {missing} missing, {more} more, {other} different; {is_same}; {seconds:.2f} s")
            wrong += missing + more + other + (sorted(told.splitlines()) != lines)
    sys.exit(1 if wrong else 0)


main()
