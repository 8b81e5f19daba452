#!/usr/bin/env python3
"""Certifies what `osmpoly export -f text` writes over an OPL file: as it is, and with one digit changed at each of twenty places, where the
line of the change has to be named; and compares the time of `certify` with that of `export`, the middle one of five runs each.
Usage: certify.py FILE  (after `./prove`)"""
import pathlib
import random
import resource
import subprocess
import sys
import tempfile

OSMPOLY = pathlib.Path(__file__).resolve().parent.parent / "crates/osmpoly/out/osmpoly"


def run(*words):
    """A run's status and report, and the processor seconds that it took."""
    before = resource.getrusage(resource.RUSAGE_CHILDREN)
    ended = subprocess.run([OSMPOLY, *words], capture_output=True, text=True)
    after = resource.getrusage(resource.RUSAGE_CHILDREN)
    return ended.returncode, ended.stderr, after.ru_utime + after.ru_stime - before.ru_utime - before.ru_stime


def seconds(*words):
    return sorted(run(*words)[2] for _ in range(5))[2]


def with_another_digit(text):
    """The text with one digit changed at random, and the number of its line."""
    place = random.choice([place for place in random.sample(range(len(text)), 1000) if text[place].isdigit()])
    digit = random.choice([digit for digit in "0123456789" if digit != text[place]])
    return text[:place] + digit + text[place + 1:], text.count("\n", 0, place) + 1


def main():
    file = sys.argv[1]
    random.seed(1)
    failed = 0
    with tempfile.TemporaryDirectory() as work:
        right, wrong = pathlib.Path(work, "right.txt"), pathlib.Path(work, "wrong.txt")
        exporting = seconds("export", "-f", "text", "-u", "type_id", "-O", "-o", right, file)
        failed += run("certify", "-u", "type_id", file, right)[:2] != (0, "")
        certifying = seconds("certify", "-u", "type_id", file, right)
        text = right.read_text()
        for _ in range(20):
            changed, line = with_another_digit(text)
            wrong.write_text(changed)
            failed += run("certify", "-u", "type_id", file, wrong)[:2] != (1, f"osmpoly: line {line} is not right\n")
    print(f"{text.count(chr(10))} lines: export {exporting:.3f} s, certify {certifying:.3f} s, ratio {certifying / exporting:.2f}; {failed} of 21 verdicts wrong")
    sys.exit(1 if failed else 0)


main()
