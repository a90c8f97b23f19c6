#!/usr/bin/env python3
"""What the program does at each of its limits: status, first line, time and peak memory.

Makes the files in a temporary folder, some 900 MB. Ends with status 1 where a status or a line is
not the wanted one, or where a run took 1 GB or more, but the one over an array. The peak of a small
run is the script's own, as the first row has it. Give the program's path, or it is proved and
built.
"""
import math
import os
import resource
import subprocess
import sys
import tempfile
import time

from ldp_program import FAMILY, JOB, JOB_HEAD, ONE_CELL, THREE_SCALES, ZONE, program

MOST_BYTES = 128_000_000
GIGABYTE = 1_000_000_000
MOST_SECONDS = 600
MOST_MEMORY = 8 * GIGABYTE


def fill(path, text, size, blank=b" "):
    """A file of so many bytes: a text and blanks behind it."""
    with open(path, "wb") as file:
        file.write(text)
        left = size - len(text)
        while left > 0:
            left -= file.write(blank * min(left, 1_000_000))


def write(path, pieces):
    with open(path, "w", encoding="ascii") as file:
        for piece in pieces:
            file.write(piece)


def grid(columns, rows, cellsize, west, south, every=1):
    """Heights of which one in `every` is there."""
    yield f"ncols {columns}\nnrows {rows}\nxllcenter {west}\nyllcenter {south}\n"
    yield f"cellsize {cellsize}\n"
    for row in range(rows):
        places = range(row * columns, (row + 1) * columns)
        heights = (1500 + place % 1501 if place % every == 0 else -9999 for place in places)
        yield " ".join(map(str, heights)) + "\n"


def lone():
    """4,000,000 places, of which the one at 40 N, 105 W alone has a height."""
    yield "ncols 2000\nnrows 2000\nxllcenter -105.5\nyllcenter 39.5\ncellsize 0.0005\n"
    for row in range(2000):
        places = ("0" if (row, column) == (999, 1000) else "-9999" for column in range(2000))
        yield " ".join(places) + "\n"


def star(points):
    """A ring of so many points about the cells, in and out by turns."""
    corners = []
    for i in range(points - 1):
        turn = 2 * math.pi * i / (points - 1)
        far = 0.55 if i % 2 else 0.35
        corners.append(f"{-105 + far * math.cos(turn):.9f} {40 + far * math.sin(turn):.9f}")
    return ["POLYGON ((", ", ".join([*corners, corners[0]]), "))\n"]


def span(start, step, count):
    return f'{{ from = "{start}", step = "{step}", count = {count} }}\n'


def each_kind():
    """One design of each kind."""
    yield FAMILY + 'lon = "-105"\nk0 = "1.0002"\n'
    yield '[[family]]\nkind = "lambert"\nlat = "40"\nlon = "-105"\nk0 = "1.0002"\n'
    yield '[[family]]\nkind = "hotine"\nlat = "40"\nlon = "-105"\nazimuth = "45"\nk0 = "1.0002"\n'
    yield '[[family]]\nkind = "lambert2"\nlat = "39"\nlat2 = "41"\nlon = "-105"\norigin = "40"\n'


def most_designs():
    """10^12 oblique designs."""
    yield '[[family]]\nkind = "hotine"\nlat = ' + span("39", "0.002", 1000)
    yield "lon = " + span("-106", "0.002", 1000) + "azimuth = " + span("-80", "0.16", 1000)
    yield "k0 = " + span("0.9995", "0.000001", 1000)


def crossed(families):
    """Families of 10^10 designs, of which very many are nearly as good as the best: each needs
    495,113 nodes."""
    for _ in range(families):
        yield FAMILY + "lon = " + span("-105", "0.00001", 100_000)
        yield "k0 = " + span("0.9999", "0.000000002", 100_000)


def million():
    """1,000,000 designs, the first of them the best."""
    yield FAMILY + "lon = " + span("-105", "0.001", 1000)
    yield "k0 = " + span("1.00001", "0.000001", 1000)


def splits(name, low, high):
    """The splits of an axis down to single values, with a place for what follows each value."""
    if low == high:
        yield None
        return
    cut = (low + high) // 2
    yield f"s {name} {cut}\n"
    yield from splits(name, low, cut)
    yield from splits(name, cut + 1, high)


def all_singles():
    """A certificate that goes down to each of 1,000,000 designs."""
    head = "ldp job 1\ndesign 1 0 0 0 0\nworst 10000000000\nkind tm\nlat 0\nlon -105\nazimuth 0\n"
    yield head + "k0 1.00001\nppm 10.000000000\nat 0 0\ncells 1 missing 0\nnodes 1999999\ntree 1\n"
    scales = "".join("c 0\n" if line is None else line for line in splits("k0", 0, 999))
    for line in splits("lon", 0, 999):
        yield scales if line is None else line
    yield "end\n"


def deep(leaves):
    """A certificate whose splits all stand in the low part of the one before."""
    yield JOB_HEAD + f"nodes {2 * leaves - 1}\ntree 1\n"
    yield "s k0 0\n" * (leaves - 1)
    yield "c 0\n" * leaves
    yield "end\n"


def far_design():
    """A certificate of a design whose table is asked for."""
    return JOB.replace("nodes 5\ntree 1\ns k0 1\ns k0 0\nc 0\nc 0\nc 0\n", "nodes 0\n")


def make_files(folder):
    def at(name):
        return os.path.join(folder, name)

    write(at("zone"), [ZONE])
    write(at("heights"), [ONE_CELL])
    write(at("grids"), [THREE_SCALES])
    write(at("job"), [JOB])
    for name, text in (("zone", ZONE), ("heights", ONE_CELL), ("job", JOB)):
        fill(at("long_" + name), text.encode(), MOST_BYTES)
    fill(at("long_grids"), THREE_SCALES.encode(), MOST_BYTES, b"#")
    fill(at("longer"), ONE_CELL.encode(), MOST_BYTES + 1)
    with open(at("values"), "wb") as file:
        file.write(b"a = [" + b"0," * (MOST_BYTES // 2 - 3) + b"]")
    write(at("places"), grid(2000, 2000, "0.0005", -105.5, 39.5, 21))
    write(at("lone"), lone())
    write(at("cells"), grid(500, 400, "0.001", -105.25, 39.8))
    write(at("more_cells"), grid(200_001, 1, "0.000001", -105.25, 39.8))
    write(at("star"), star(10_000))
    write(at("more_points"), star(10_001))
    write(at("sixteen"), [FAMILY + f'lon = "-{90 + n}"\nk0 = "1"\n' for n in range(16)])
    write(at("seventeen"), [FAMILY + f'lon = "-{90 + n}"\nk0 = "1"\n' for n in range(17)])
    write(at("scales"), [FAMILY + 'lon = "-105"\nk0 = ' + span("1.0002", "0.000001", 201)])
    write(at("kinds"), each_kind())
    write(at("many"), most_designs())
    write(at("sixteen_many"), [piece for _ in range(16) for piece in most_designs()])
    write(at("crossed"), crossed(2))
    write(at("more_crossed"), crossed(3))
    write(at("million"), million())
    write(at("singles"), all_singles())
    write(at("deep"), deep(1_000_000))
    write(at("deeper"), deep(1_000_001))
    write(at("table_job"), [far_design()])


THREE = ["zone", "heights", "grids"]
MILLION = ["--budget", "1000000"]
TRAILING = "refused job Trailing 20"

# What it is over, the words, and the wanted status with the beginning of the first line.
RUNS = [
    ("one cell", ["eval", "heights", "-105", "1.00001"], 0, "cells 1 missing 0"),
    ("heights of 128,000,000 bytes", ["eval", "long_heights", "-105", "1"], 0, "cells 1 missing 0"),
    ("a byte more", ["eval", "longer", "-105", "1"], 10, "too long heights"),
    ("endless heights", ["eval", "/dev/zero", "-105", "1"], 10, "too long heights"),
    ("an endless zone", ["design", "/dev/zero", "heights", "grids"], 10, "too long zone"),
    ("endless design grids", ["design", "zone", "heights", "/dev/zero"], 10, "too long grids"),
    ("an endless certificate", ["check", *THREE, "/dev/zero"], 10, "too long job"),
    ("a zone of 128,000,000 bytes", ["design", "long_zone", "heights", "grids"], 0, "ldp job 2"),
    ("design grids of 128,000,000 bytes",
     ["design", "zone", "heights", "long_grids"], 0, "ldp job 2"),
    ("a certificate of 128,000,000 bytes", ["check", *THREE, "long_job"], 4, TRAILING),
    ("four files of 128,000,000 bytes",
     ["check", "long_zone", "long_heights", "long_grids", "long_job"], 4, TRAILING),
    ("4,000,000 places", ["eval", "places", "-105", "1.0003"], 0, "cells 190477 missing 3809523"),
    ("10,000 points, 4,000,000 places", ["design", "star", "places", "scales"], 0, "ldp job 2"),
    ("10,001 points",
     ["design", "more_points", "heights", "grids"], 4, "refused zone TooManyPoints"),
    ("200,000 cells", ["eval", "cells", "-105", "1.0003"], 0, "cells 200000 missing 0"),
    ("200,000 cells, 201 designs", ["design", "zone", "cells", "scales"], 0, "ldp job 2"),
    ("200,000 cells, a design of each kind", ["design", "zone", "cells", "kinds"], 0, "ldp job 2"),
    ("200,000 cells",
     ["table", "zone", "cells", "grids", "table_job"], 0, "0 0 40.199 -105.25 1500"),
    ("200,000 cells, `--json`",
     ["table", "zone", "cells", "grids", "table_job", "--json"], 0, '{"bands":[0,0,0,0,0,200000]'),
    ("200,001 cells",
     ["eval", "more_cells", "-105", "1"], 4, "refused cells TooManyCells 200001"),
    ("16 families", ["design", "zone", "heights", "sixteen"], 0, "ldp job 2"),
    ("17 families", ["design", "zone", "heights", "seventeen"], 4, "refused grids TooManyFamilies"),
    ("10^12 designs", ["design", "zone", "heights", "many"], 7, "budget 200000 spent"),
    ("16 families of 10^12 designs, budget 1,000,000",
     ["design", "zone", "heights", "sixteen_many", *MILLION], 7, "budget 1000000 spent"),
    ("2 families of 10^10 designs, 990,226 nodes",
     ["design", "zone", "heights", "crossed", *MILLION], 0, "ldp job 2"),
    ("4,000,000 places, 990,226 nodes",
     ["design", "zone", "lone", "crossed", *MILLION], 0, "ldp job 2"),
    ("3 families of 10^10 designs, budget 1,000,000",
     ["design", "zone", "heights", "more_crossed", *MILLION], 7, "budget 1000000 spent"),
    ("1,999,999 nodes, each design a leaf",
     ["check", "zone", "heights", "million", "singles"], 0, "accepted"),
    ("1,999,999 nodes, a million deep", ["check", *THREE, "deep"], 1, "rejected BadSplit 15"),
    ("2,000,001 nodes", ["check", *THREE, "deeper"], 4, "refused job TooManyNodes 2000014"),
    ("design grids of an array of 64,000,000 numbers",
     ["design", "zone", "heights", "values"], 4, "refused grids UnknownKey 0 top"),
]
# The TOML reader keeps each value of a text, whatever its key.
ABOVE = "values"


def confine():
    """Ends a run that takes far more than it may, so that the machine stands."""
    resource.setrlimit(resource.RLIMIT_CPU, (MOST_SECONDS, MOST_SECONDS))
    resource.setrlimit(resource.RLIMIT_AS, (MOST_MEMORY, MOST_MEMORY))


def measure(path, words, folder):
    """The status, the first line, seconds on the wall and of the processor, peak memory in bytes.
    """
    with tempfile.TemporaryFile() as out, tempfile.TemporaryFile() as err:
        start = time.monotonic()
        child = subprocess.Popen(
            [path, *words], cwd=folder, stdout=out, stderr=err, preexec_fn=confine
        )
        _, ended, used = os.wait4(child.pid, 0)
        wall = time.monotonic() - start
        child.returncode = os.waitstatus_to_exitcode(ended)
        size = out.seek(0, os.SEEK_END)
        place = out if size else err
        place.seek(0)
        line = place.readline(200).decode().rstrip("\n")
        return child.returncode, line, wall, used.ru_utime + used.ru_stime, used.ru_maxrss * 1024


def main():
    path = program()
    wrong = False
    with tempfile.TemporaryDirectory() as folder:
        make_files(folder)
        print("| Over | command | status | first line | wall s | processor s | peak MB |")
        print("|---|---|---|---|---|---|---|")
        for what, words, wanted, begins in RUNS:
            status, line, wall, used, peak = measure(path, words, folder)
            right = status == wanted and line.startswith(begins)
            right = right and (peak < GIGABYTE or ABOVE in words)
            wrong = wrong or not right
            cost = f"{wall:.2f} | {used:.2f} | {peak / 1e6:.0f}"
            mark = "" if right else f" WRONG: {line}"
            print(f"| {what} | {words[0]} | {status} | `{begins}` | {cost} |{mark}", flush=True)
    sys.exit(1 if wrong else 0)


if __name__ == "__main__":
    main()
