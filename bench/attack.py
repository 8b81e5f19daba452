#!/usr/bin/env python3
"""Attacks the built program from outside: mutated inputs through every command, mutated lines, inputs cut after each byte, and outputs that fail. A run that
crashes, hangs, ends with a status that the manual doesn't name, or whose last line isn't one of the manual's is told, and kept as a file.
Usage: attack.py PROGRAM [INPUTS [LINES]]  (10,000 inputs and no lines where no numbers are given; the numbers seed the mutations)"""
import os
import pathlib
import random
import re
import subprocess
import sys
import tempfile

HERE = pathlib.Path(__file__).resolve().parent
LAST = re.compile(
    rb"osmpoly: (stopped at (way|relation) -?\d+|no command|unknown command|words refused|value out of range: .+|too much input|too many pieces"
    rb"|(open|read|write) fault|out of memory|line \d+( is not right|: bad point|: too long|: .+ at byte \d+|: (node|way|relation) -?\d+ again))\n$")
STATUSES = {"export": {0, 1, 5}, "coastline": {0, 1, 2, 3, 5}, "coast-filter": {0, 1, 5}, "certify": {0, 1, 5}, "locate": {0, 1, 5}}
ODD_LINES = [
    b"n17 v2 dV c11 t2020-01-01T00:00:00Z i7 uAnna%20%B Tplace=village,name=H%fc%tte x10.05 y50.05", b"w-3 Nn1x0.5y2,n2x-1y0,n4", b"r9 Ttype=boundary Mn1@label,w2@inner,r9@",
    b"n901 x180 y-90", b"n902 x1.00000005 y-.5", b"w903 dD", b"c3", b"# a comment", b""]
BAD_LINE = re.compile(rb"osmpoly: line (\d+): .+\n$")
EXTREMES = [b"9223372036854775807", b"-9223372036854775809", b"4611686018427387904", b"180.00000005", b"-0", b"1e5", b"", b"00000000000000000000001"]
POINTS = b"0.5 0.5\n1 1\n# no\n180 90\n"


def mutated(line):
    """A line with one thing changed; mostly a digit, so that many are still read."""
    kind = random.randrange(12)
    place = random.randrange(len(line) + 1)
    if kind < 5:
        return re.sub(rb"\d", lambda digit: b"%d" % random.randrange(10) if random.random() < 0.2 else digit[0], line)
    if kind == 5:
        return line[:place] + bytes([random.randrange(256)]) + line[place:]
    if kind == 6:
        return line[:place] + line[place + 1:]
    if kind == 7:
        return line[:place]
    if kind == 8:
        return re.sub(rb"-?\d+(\.\d+)?", lambda number: random.choice(EXTREMES) if random.random() < 0.2 else number[0], line)
    if kind == 9:
        return line[:place] + random.choice([b"%", b",", b"=", b"@", b"x", b"y", b"\t", b"\r", b"\xff", b"%e4%", b"%110000%"]) + line[place:]
    if kind == 10:
        words = line.split(b" ")
        random.shuffle(words)
        return b" ".join(words)
    return line + line


def made(script, *words):
    return subprocess.run([HERE / script, *map(str, words)], capture_output=True, check=True).stdout.splitlines()


def seeds():
    """Inputs that are read and of which something comes: the examples, and what the scripts beside this one make."""
    yield from (file.read_bytes().splitlines() for file in sorted((HERE.parent / "examples").glob("*.opl")))
    yield from (made("make_random.py", 3, number) for number in range(40))
    yield from (made("make_coast.py", kind, number) for kind in ("chains", "cluster", "islands", "shore") for number in (3, 10))
    yield made("make_city.py", 10)
    yield made("make_sample.py", 2)


def input_of(lines):
    """An input with up to four things changed, so that many are still read to their end."""
    lines = lines + random.sample(ODD_LINES, random.randrange(3))
    for _ in range(random.randrange(5)):
        place = random.randrange(len(lines))
        lines[place] = mutated(lines[place])
    return b"\n".join(lines) + b"\n"


class Attack:
    def __init__(self, program, work):
        self.program, self.work, self.runs, self.found, self.ends = program, work, 0, 0, {}

    def run(self, words, data, statuses, stdout=subprocess.PIPE, **options):
        """One run over standard input; told where it ends as no run may."""
        try:
            ended = subprocess.run([self.program, *words], input=data, stdout=stdout, stderr=subprocess.PIPE, timeout=60, **options)
            status, report = ended.returncode, ended.stderr
        except subprocess.TimeoutExpired:
            status, report = "hangs", b""
        self.runs += 1
        self.ends[status] = self.ends.get(status, 0) + 1
        told = report.startswith(b"osmpoly:") or b"\nosmpoly:" in report
        if status not in statuses or (told and not LAST.search(report)):
            self.found += 1
            kept = pathlib.Path(f"attack{self.found}.opl")
            kept.write_bytes(data)
            print(f"{' '.join(map(str, words))}: status {status}, {report[-80:]!r}, over {kept}")
        return report

    def every_command(self, data):
        points, text = self.work / "points.txt", self.work / "text.txt"
        points.write_bytes(random.choice([POINTS, mutated(POINTS)]))
        text.write_bytes(random.choice([b"", mutated(b"MULTIPOLYGON(((0 0,1 0,1 1,0 1,0 0))) building=yes\n")]))
        self.run(["export", "-e", "-n", "-f", random.choice(["text", "geojson", "geojsonseq"]), "-"], data, STATUSES["export"])
        self.run(["coastline", "-c", "0.5", "-p", "both", "-m", "4", "-b", "0", "-"], data, STATUSES["coastline"])
        self.run(["coast-filter", "-"], data, STATUSES["coast-filter"])
        self.run(["certify", "-n", "-", text], data, STATUSES["certify"])
        self.run(["locate", "-n", "-", points], data, STATUSES["locate"])

    def cut_at_each_byte(self):
        for file in sorted((HERE.parent / "examples").glob("*.opl")):
            data = file.read_bytes()
            for end in range(len(data)):
                command = "coastline" if file.stem == "coast" else "export"
                self.run([command, "-"], data[:end], STATUSES[command])

    def outputs_that_fail(self):
        data = (HERE.parent / "examples/lake.opl").read_bytes()
        points = self.work / "points.txt"
        points.write_bytes(POINTS)
        for words in (["export", "-"], ["coastline", "-"], ["coast-filter", "-"], ["locate", "-", points], ["sample", "1"]):
            with open("/dev/full", "wb") as full:
                self.run(words, data, {0, 1, 2, 3}, stdout=full)
            self.run(words, data, {0, 1, 2, 3}, stdout=None, preexec_fn=lambda: os.close(1))
            self.run(words, data, {0, 1, 2, 3}, preexec_fn=lambda: os.close(2))
        for command in ("export", "coastline", "coast-filter"):
            self.run([command, self.work], b"", {1, 3})

    def mutated_lines(self, whole, count):
        """So many mutated lines, each read: after a bad one the run begins anew behind it."""
        while count > 0:
            lines = random.choice(whole)
            left = [mutated(line).replace(b"\n", b" ") for line in random.sample(lines, min(len(lines), count))]
            count -= len(left)
            while left:
                bad = BAD_LINE.search(self.run(["export", "-n", "-"], b"\n".join(left) + b"\n", {0, 1}))
                left = left[int(bad[1]):] if bad else []

    def longest_lines(self):
        most = 16_777_216
        for length in (most, most + 1):
            line = b"n1 x0 y0 T" + b"a=b,".ljust(length - 13, b"c") + b"d=e"
            self.run(["export", "-"], line[:length] + b"\n", {0, 1})


def main():
    inputs = int(sys.argv[2]) if len(sys.argv) > 2 else 10_000
    lines = int(sys.argv[3]) if len(sys.argv) > 3 else 0
    random.seed(inputs + lines)
    with tempfile.TemporaryDirectory() as work:
        attack = Attack(pathlib.Path(sys.argv[1]).resolve(), pathlib.Path(work))
        attack.outputs_that_fail()
        attack.longest_lines()
        attack.cut_at_each_byte()
        whole = list(seeds())
        for _ in range(inputs):
            attack.every_command(input_of(random.choice(whole)))
        attack.mutated_lines([*whole, ODD_LINES], lines)
    ends = ", ".join(f"{status}: {count}" for status, count in sorted(attack.ends.items(), key=str))
    print(f"{attack.runs} runs over {inputs} mutated inputs and {lines} mutated lines; statuses {ends}; {attack.found} ended as no run may")
    sys.exit(1 if attack.found else 0)


main()
